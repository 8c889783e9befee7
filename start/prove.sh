# How ./xdrun proves the program and builds it. Whoever reads this file has set `root`, the folder of the repository,
# and `program`, and has the function `give_up`.
#
# `rt ci` proves crates that do not need each other side by side, as many as processors and memory allow. A kit that
# keeps what passed keeps each crate once it is proved, so that a call that was cut off goes on there, and the gate need
# not prove it again. It runs here on a copy of the program's own crates, without wrong bodies and crates of tests.

prove() {
    copy=$(mktemp -d) ||
        give_up "no temporary folder could be made; see that the folder in TMPDIR, or /tmp, can be written"
    : >"$copy/log"
    trap 'rm -rf "$copy"; exit 130' INT
    trap 'rm -rf "$copy"; exit 129' HUP
    if ! list_crates || ! copy_crates || ! prove_copy || ! keep_program; then
        say_failures >&2
        rm -rf "$copy"
        give_up "the program could not be built; what rt said stands above"
    fi
    rm -rf "$copy"
    trap - INT HUP
}

# The lines of crates.txt of the program and of all that it stands on.
lines_of_program() {
    awk '
        { sub(/#.*/, ""); name = $1; sub(/:$/, "", name); lines[name] = $0; sub(/^[^:]*:/, ""); uses[name] = $0 }
        function take(name, names, count, i) {
            if (!(name in lines)) return
            print lines[name]
            delete lines[name]
            count = split(uses[name], names, " ")
            for (i = 1; i <= count; i++) take(names[i])
        }
        END { take("xdrun") }
    ' "$root/crates.txt"
}

list_crates() {
    lines_of_program >"$copy/crates.txt" && sed 's/[ :].*//' "$copy/crates.txt" >"$copy/names" || return 1
    left=$(wc -l <"$copy/names")
    echo "xdrun: proving and building the program, $left crates side by side" >&2
}

copy_crates() {
    # rt wants the top of a repository here.
    mkdir "$copy/.git" "$copy/crates" && cp "$root/HANDLES" "$copy" || return 1
    while read -r crate; do
        mkdir "$copy/crates/$crate" || return 1
        for part in "$root/crates/$crate"/*; do
            case "${part##*/}" in
                out | must-fail | wrong-bodies) ;;
                *) cp -R "$part" "$copy/crates/$crate" || return 1 ;;
            esac
        done
    done <"$copy/names"
}

# Says of each crate how many are left.
prove_copy() {
    (cd "$copy" && rt ci 2>&1) | while IFS= read -r line; do
        printf '%s\n' "$line" >>"$copy/log"
        case "$line" in
            'rt: '*' proved' | 'rt: '*' is kept: '*)
                left=$((left - 1))
                line=${line#rt: }
                echo "xdrun: ${line%% *} is proved, $left left" >&2
                ;;
        esac
    done
    tail -n 1 "$copy/log" | grep -q ' passed, 0 failed'
}

# What rt said of each crate that was not proved, and after the last one.
say_failures() {
    awk '
        /^== / { said = "" }
        { said = said $0 "\n" }
        / NOT PROVED/ { printf "%s", said }
        / NOT PROVED/ || /^rt: .* proved$/ { said = "" }
        END { printf "%s", said }
    ' "$copy/log"
}

# The program is as old as the copy, so that what was changed since then counts as newer.
keep_program() {
    mkdir -p "${program%/*}" && mv "$copy/crates/xdrun/out/xdrun" "$program" && touch -r "$copy/names" "$program"
}

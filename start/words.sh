# What ./xdrun and ./preview share: the words that they answer themselves, and how they hand the other words to the
# program. Whoever reads this file has set `root`, the folder of the repository, and `program`, and has read reading.sh.

# Answers --help and --version, before the program is asked or built. The first word says how the program is built.
answer_own_words() {
    how=$1
    shift
    case "$#${1-}" in
        1--help | 1-h) cat "$root/start/help.txt" || exit 3 ;;
        1--version) echo "xdrun, commit $(commit), in $root, $how" || exit 3 ;;
        *) return ;;
    esac
    exit 0
}

# An installed folder has the commit in a file.
commit() {
    cat "$root/start/commit" 2>/dev/null || git -C "$root" describe --always --dirty 2>/dev/null || echo unknown
}

# The program takes the place of the script, so that signals reach it. Where it is likely to refuse the words, or to end
# soon as something is missing, the script stays, to say then which word it is, or what is missing.
run_program() {
    read_words "$@"
    if [ -n "$fault$bad_spec" ] && can_be_written; then
        explain_refusal "$@"
    fi
    if [ -n "$children" ] && is_standard_input "$suite"; then
        say "each worker reads the suite for itself: name a file, not $suite"
        exit 4
    fi
    [ "$workers" -eq 0 ] || note_open_files
    [ -z "$address" ] || note_listener
    [ -z "$notes" ] || explain_end "$@"
    exec "$program" "$@"
}

say() {
    printf 'xdrun: %s\n' "$1" >&2
}

can_be_written() {
    { : >&1; } 2>/dev/null
}

# The program alone decides whether words are refused, and its line says so.
explain_refusal() {
    { line=$("$program" "$@" 2>&1 >&3 3>&-); status=$?; } 3>&1
    [ -z "$line" ] || printf '%s\n' "$line" >&2
    case "$status$line" in
        "4xdrun: bad words") say "$fault; see $0 --help" ;;
        "4xdrun: bad spec") say "$bad_spec; see $0 --help" ;;
    esac
    exit "$status"
}

# What was missing before the program began stands last, where a terminal shows it.
explain_end() {
    "$program" "$@"
    status=$?
    case "$kind$status" in
        run1 | socketserver3) printf %s "$notes" >&2 ;;
    esac
    exit "$status"
}

# A worker that is a child of the program has its link as standard input.
is_standard_input() {
    case "$1" in
        /dev/stdin | /dev/fd/0 | /proc/self/fd/0) ;;
        *) return 1 ;;
    esac
}

# The program has two open files for each worker, and six beside them.
note_open_files() {
    most=$(ulimit -n)
    needs=$((6 + 2 * workers))
    if [ "$most" != unlimited ] && [ "$most" -lt $needs ]; then
        note "$workers workers take at least $needs open files, and ulimit -n is $most"
    fi
}

note_listener() {
    port=${address##*:}
    case "$address" in
        \[*) note "it cannot listen at $address: write an IPv6 address without brackets" ;;
        *) ! is_taken "${address%:*}" || note "it cannot listen: port $port is in use" ;;
    esac
}

# Whether somebody listens at `port` of this host, by the tables of Linux. A host that is a name may be any address.
is_taken() {
    case "$1" in
        0.0.0.0 | *[!0-9.]*) at='[0-9A-F]+' ;;
        *) at=$(IFS=. && set -- $1 0 0 0 && printf '%02X%02X%02X%02X' "$4" "$3" "$2" "$1") ;;
    esac
    grep -Eqs "^ *[0-9]+: (0+|$at):$(printf %04X "${port#"${port%%[!0]*}"}") 0+:0000 0A " /proc/net/tcp /proc/net/tcp6
}

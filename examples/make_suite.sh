#!/bin/sh
# Makes a suite file of a list of tests.
#
#     sh make_suite.sh [-o FILE] [-w SECONDS] [-g GROUP] COMMAND [WORD]... < IDS
#
# It reads ids, one a line, and prints a test for each, whose command is COMMAND with its words. In
# COMMAND, in a word and in GROUP, {} stands for the id, {1} for what is before its first '::', {2}
# for what is after it; where the id has no '::', all three are the same. Empty lines are left out.
#
# With -g each test has that group; a line that has a tab has its own after it. With -o the suite is
# written to FILE, whole or not at all: where xdrun would refuse it, as without an id or with two
# that are the same, FILE stays as it was, this script says why, and its status is 1. With -w the
# command stands once, in a script beside FILE that has one.sh around it, with that limit of time;
# for suite.toml that is suite.sh, and a test's command is `sh suite.sh ID`.
set -u

give_up() {
    echo "make_suite.sh: $1" >&2
    exit 1
}

output=
limit=
group=
while getopts o:w:g: option; do
    case $option in
    o) output=$OPTARG ;;
    w) limit=$OPTARG ;;
    g) group=$OPTARG ;;
    *) give_up "its options are -o FILE, -w SECONDS and -g GROUP" ;;
    esac
done
shift $((OPTIND - 1))
case $limit in *[!0-9]*) give_up "-w takes a number of seconds, as in -w 60" ;; esac
[ $# -gt 0 ] || give_up "no command is named; write that of one test, with {} for its id"

# The script with the command, whose words are quoted for the shell, with the id in its places.
print_script() {
    printf '%s\n' '#!/bin/sh' "# Runs one test of $output: sh $script ID. Made by make_suite.sh." \
        "LIMIT=\${LIMIT:-$limit}" 'set -- "$1" \'
    LC_ALL=C awk '
BEGIN {
    for (i = 1; i < ARGC; i++) {
        word = ARGV[i]
        gsub(/\047/, "\047\\\047\047", word)
        gsub(/\{\}/, "\047\"$1\"\047", word)
        gsub(/\{1\}/, "\047\"${1%%::*}\"\047", word)
        gsub(/\{2\}/, "\047\"${1#*::}\"\047", word)
        word = "\047" word "\047"
        sub(/^\047\047"/, "\"", word)
        sub(/"\047\047$/, "\"", word)
        print "    " word (i < ARGC - 1 ? " \\" : "")
    }
}' "$@"
    sed 1d "$(dirname "$0")/one.sh"
}

print_suite() {
    LC_ALL=C awk '
BEGIN {
    for (i = 1; i < 32; i++) escape[sprintf("%c", i)] = sprintf("\\u%04X", i)
    escape["\t"] = "\\t"
    escape["\n"] = "\\n"
    escape["\177"] = "\\u007F"
    escape["\\"] = "\\\\"
    escape["\""] = "\\\""
    group_of_all = ARGV[1]
    for (i = 2; i < ARGC; i++) words[i - 1] = ARGV[i]
    count = ARGC - 2
    ARGC = 1
}

# The text as a string of TOML.
function quoted(text,    at, done) {
    done = ""
    while ((at = match(text, /[\001-\037\177"\\]/)) > 0) {
        done = done substr(text, 1, at - 1) escape[substr(text, at, 1)]
        text = substr(text, at + 1)
    }
    return "\"" done text "\""
}

# The word with the id and its parts in their places.
function filled(word,    done, place) {
    done = ""
    while (match(word, /\{[12]?\}/)) {
        place = substr(word, RSTART, RLENGTH)
        done = done substr(word, 1, RSTART - 1)
        done = done (place == "{}" ? id : place == "{1}" ? before : after)
        word = substr(word, RSTART + RLENGTH)
    }
    return done word
}

function refuse(why) {
    print "make_suite.sh: " why > "/dev/stderr"
    is_refused = 1
    exit 1
}

# No two tests have the same id, neither alone nor with their groups.
function keep(table, name) {
    if (name in table)
        refuse("lines " table[name] " and " NR " have the same id, " name "; put what tells them" \
            " apart before it, as in folder::" name ", and write {1} and {2} for the two parts in" \
            " the command")
    table[name] = NR
}

{ sub(/\r$/, "") }

/^[ \t]*$/ { next }

{
    id = $0
    group = ""
    if ((at = index(id, "\t")) > 0) {
        group = substr(id, at + 1)
        id = substr(id, 1, at - 1)
    }
    at = index(id, "::")
    before = at > 0 ? substr(id, 1, at - 1) : id
    after = at > 0 ? substr(id, at + 2) : id
    has_group = $0 ~ /\t/ || group_of_all != ""
    if ($0 !~ /\t/) group = filled(group_of_all)
    if (id == "" || has_group && group == "") refuse("line " NR " has an empty id or group")
    if (id group ~ /[\001-\037\177]/)
        refuse("line " NR " has a control character in its id or group; leave it out, and let the" \
            " command find the test by what is left")
    keep(line_of, id)
    keep(line_of_whole, has_group ? id "@" group : id)

    text = (told++ ? "\n" : "") "[[test]]\nid = " quoted(id) "\n"
    if (has_group) text = text "group = " quoted(group) "\n"
    text = text "run = ["
    for (i = 1; i <= count; i++) text = text (i > 1 ? ", " : "") quoted(filled(words[i]))
    text = text "]\n"
    if (told > 50000)
        refuse("it has over 50,000 tests; make several suites, as of parts by split -l")
    if ((size += length(text)) > 4194304)
        refuse("line " NR " is where the suite grows over 4,194,304 bytes; give -w, so that the" \
            " command stands once, or make several suites, as of parts by split -l")
    printf "%s", text
}

END {
    if (is_refused) exit 1
    if (told == 0) refuse("no id of a test was read; look at what the list of tests has")
}
' "$group" "$@"
}

if [ -z "$output" ]; then
    [ -z "$limit" ] || give_up "-w needs -o FILE, beside which the script is to stand"
    print_suite "$@"
    exit
fi

give_up_new() {
    rm -f "$output.new" "$script.new"
    ${1:+echo "make_suite.sh: $1"} >&2
    give_up "$output is as it was"
}

script=
if [ -n "$limit" ]; then
    script=${output%.toml}.sh
    [ ! -e "$script" ] || grep -q 'Made by make_suite.sh' "$script" ||
        give_up "$script is a file of yours; move it, or write another FILE"
    print_script "$@" >"$script.new" || give_up_new
    set -- sh "$script" {}
fi
print_suite "$@" >"$output.new" || give_up_new
iconv -f UTF-8 -t UTF-8 "$output.new" >/dev/null 2>&1 ||
    give_up_new "an id or a word is not UTF-8; LC_ALL=C.UTF-8 grep -axv '.*' shows its line"
[ -z "$script" ] || mv -f "$script.new" "$script" || give_up_new
mv -f "$output.new" "$output" || give_up_new

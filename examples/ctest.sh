#!/bin/sh
# A suite of the tests that CMake knows: sh ctest.sh [WORD of ctest]..., which choose tests, as in
# -L slow. Tests that share a lock or a fixture, or depend on each other, get one group, which
# --dist loadgroup keeps together; those that run beside no other are in serial.toml, for -n 0.
# Each has its number, as ctest reads a name as a pattern: it fails where that is another's by now.
# The tests that set a fixture up and clean it up run with each other, and with each that needs it.
set -e
cmake -S . -B build >&2
cmake --build build >&2
tests=$(ctest --test-dir build -N "$@" && ctest --test-dir build --show-only=json-v1 "$@")
tests=$(printf '%s\n' "$tests" | awk '
    function top(name) { while (name in above) name = above[name]; return name }
    function share(test, name) {
        if (!(test in shared)) shared[test] = name
        else if (top(name) != top(shared[test])) above[top(name)] = top(shared[test])
    }
    # Prints the test after those that it depends on.
    function tell(test,    needed, i, with) {
        if (told[test]++ || is_disabled[test]) return
        for (i = split(after[test], needed, "\n"); i > 0; i--)
            if (needed[i] in test_of) tell(test_of[needed[i]])
        if (is_alone[test]) print "alone " id[test]
        else if (test in shared) print "beside " id[test] "\t" top(shared[test])
        else print "beside " id[test]
        if (test in fixtures) {
            for (i = split(fixtures[test], needed, "\n"); i > 1; i--) with = with parts[needed[i]]
            print "with " (id[test] + 0) " " with
        }
    }

    # The list of the tests by their numbers.
    /^ *Test +#[0-9]+: / {
        sub(/^ *Test +#/, ""); sub(/ \(Disabled\)$/, ""); sub(/: /, "::")
        id[++listed] = $0
        next
    }
    # The same tests in JSON, which has a bracket, a brace or a text in a line; names are compared
    # as they are written there.
    { gsub(/^[ \t]+|,$/, "") }
    /^("[A-Za-z]+" : )?[[{]$/ { depth++ }
    /^[]}]$/ { depth-- }
    depth == 3 && sub(/^"name" : "/, "") {
        sub(/"$/, "")
        names[++test] = $0
        test_of[$0] = test
    }
    depth == 5 && sub(/^"name" : /, "") { property = $0 }
    depth == 5 && /^"value" : true$/ && property ~ /RUN_SERIAL/ { is_alone[test] = 1 }
    depth == 5 && /^"value" : true$/ && property ~ /DISABLED/ { is_disabled[test] = 1 }
    depth == 6 && /^"/ && property ~ /DEPENDS|RESOURCE_LOCK|FIXTURES_/ {
        gsub(/^"|"$/, "")
        share(test, $0)
        if (property ~ /DEPENDS/) { is_awaited[$0] = 1; after[test] = after[test] "\n" $0 }
        if (property ~ /SETUP|CLEANUP/) {
            fixtures[test] = fixtures[test] "\n" $0
            parts[$0] = parts[$0] "," (id[test] + 0)
        }
    }
    END {
        if (test != listed) exit 1
        for (test = 1; test <= listed; test++)
            if (names[test] in is_awaited) share(test, names[test])
        for (test = 1; test <= listed; test++) tell(test)
    }')
with=$(printf '%s\n' "$tests" | sed -n 's/^with //p')
make_suite() {
    sh "$(dirname "$0")/make_suite.sh" -o "$1" -w 60 sh -c '
with=$(printf "%s\n" "$3" | sed -n "s/^$1 //p")
ctest --test-dir build --timeout "$OWN_LIMIT" --output-on-failure -I "$1,$1,1$with"
status=$?
case $(grep -F " #$1: $2 ." "$TEST_OUTPUT") in
*"***Skipped "*) exit 77 ;;
*" Passed "*) exit 0 ;;
esac
test $status = 0 || exit $status
echo "ctest did not say that it passed"
exit 1' sh {1} {2} "$with"
}
printf '%s\n' "$tests" | sed -n 's/^beside //p' | make_suite suite.toml
alone=$(printf '%s\n' "$tests" | sed -n 's/^alone //p')
if [ -n "$alone" ]; then
    printf '%s\n' "$alone" | make_suite serial.toml
    echo "ctest.sh: run serial.toml, too, by itself and with -n 0" >&2
elif grep -qs 'Made by make_suite.sh' serial.sh; then
    rm -f serial.toml serial.sh
fi

#!/bin/sh
# A suite of the tests, examples and fuzz tests of packages, or of all packages here: sh go.sh
# [-FLAG[=VALUE] of go test]... [PACKAGE]... Go ends with 0 also where it ran none: a test passes
# where Go says that it passed, and is a skip where Go says so.
packages=
for word; do
    shift
    case $word in
    -*) set -- "$@" "$word" ;;
    *) packages="$packages $word" ;;
    esac
done
tests=$(go test "$@" -list . ${packages:-./...}) || {
    printf '%s\n' "$tests" >&2
    exit 1
}
printf '%s\n' "$tests" | awk '
    match($0, /(Test|Example|Fuzz)[^ ]*$/) { names[++count] = substr($0, RSTART) }
    $1 == "ok" { for (i = 1; i <= count; i++) print $2 "::" names[i]; count = 0 }
' | sh "$(dirname "$0")/make_suite.sh" -o suite.toml -w 60 sh -c '
package=$1 name=$2
shift 2
go test -timeout "${OWN_LIMIT}s" "$@" -count=1 -v -run "^$name\$" "$package" || exit
grep -qF -e "--- PASS: $name (" "$TEST_OUTPUT" && exit 0
grep -qF -e "--- SKIP: $name (" "$TEST_OUTPUT" && exit 77
echo "go test did not say that it passed"
exit 1' sh {1} {2} "$@"

#!/bin/sh
# A suite of the tests of each crate of the workspace here; those in a crate's documentation are one
# test, --doc: sh cargo.sh [WORD of cargo test]..., as in --release. cargo ends with 0 also where it
# ran none: a test passes where each test program came to its end and one says that it passed, and
# is a skip where it was ignored.
set -e
packages=$(cargo tree --workspace --depth 0 --prefix none --format '{p}')
tests=
for package in $(printf '%s\n' "$packages" | sed 's/ .*//'); do
    listed=$(cargo test -q "$@" -p "$package" -- --list --format terse)
    names=$(printf '%s\n' "$listed" | sed -nE \
        -e "s/^.* - .*\(line [0-9]+\).*: test$/$package::--doc/p" -e t \
        -e "s/^(.*): (test|benchmark)$/$package::\1/p")
    tests=$(printf '%s\n' "$tests" "$names")
done
printf '%s\n' "$tests" | sort -u |
    sh "$(dirname "$0")/make_suite.sh" -o suite.toml -w 60 sh -c '
package=$1 name=$2
shift 2
test "$name" = --doc && set -- "$@" --doc || set -- "$@" --tests -- --exact "$name"
cargo test -q -p "$package" "$@" || exit
awk "/^running [0-9]+ tests?\$/ { begun++ }
    /^test result: ok/ { ended++; passed += \$4; ignored += \$8 }
    END { exit begun != ended ? 1 : passed ? 0 : ignored ? 77 : 1 }" "$TEST_OUTPUT"
status=$?
test $status != 1 || echo "cargo test did not say that it passed"
exit $status' sh {1} {2} "$@"

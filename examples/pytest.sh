#!/bin/sh
# A suite of the tests that pytest collects: sh pytest.sh [WORD of pytest]..., as in -m slow. With
# --files before these, a test of the suite is a file. A test passes where pytest says that it came
# to its end; where pytest-xdist is there, no test starts workers.
here=$(dirname "$0")
limit=60 kept='/::/'
if [ "${1-}" = --files ]; then
    limit=600 kept='sub(/::.*/, "") && !seen[$0]++'
    shift
fi
tests=$(python3 -m pytest "$@" --collect-only --verbosity=-1 --no-summary) || {
    python3 -m pytest "$@" --collect-only -q >&2
    exit 1
}
case $(python3 -m pytest --help) in *--numprocesses*) set -- "$@" -n0 ;; esac
printf '%s\n' "$tests" | awk "$kept" |
    sh "$here/make_suite.sh" -o suite.toml -w "$limit" sh -c '
python3 -c "$@"
status=$?
case $status in
0 | 77) grep -qx "pytest came to its end" "$TEST_OUTPUT" || {
    echo "pytest did not come to its end"
    status=1
} ;;
esac
exit $status' sh "$(cat "$here/pytest_one.py")" {} -q "$@"

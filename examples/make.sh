#!/bin/sh
# A suite of the targets whose names begin with test-: sh make.sh [WORD of make]... GNU make says
# itself which there are.
set -e
rules=$(LC_ALL=C make "$@" -p --eval='no-target: ;' no-target)
printf '%s\n' "$rules" | sed '1,/^# Files$/d' |
    awk '/^test-[^:]*:/ && before !~ /^#/ { sub(/:.*/, ""); print } { before = $0 }' |
    sort -u | sh "$(dirname "$0")/make_suite.sh" -o suite.toml -w 60 make "$@" -s {}

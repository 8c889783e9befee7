#!/bin/sh
# A suite of scripts, those in the folder tests where no words name them: sh shell.sh [SCRIPT]...
# Each runs by what its first line says after #!, else by sh.
[ $# -gt 0 ] || set -- tests/*.sh
ls -d -- "$@" >/dev/null && printf '%s\n' "$@" |
    sh "$(dirname "$0")/make_suite.sh" -o suite.toml -w 60 sh -c '
set -f
read -r first <"$1"
case $first in
"#!"*) exec ${first#??} "$1" ;;
*) exec sh "$1" ;;
esac' sh {}

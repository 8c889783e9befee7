#!/bin/sh
# Shows on a terminal how far a run is, and ends with its status: sh watch.sh ./xdrun SUITE -n 4.
# Where standard output is no terminal, it is the run itself.
[ -t 1 ] || exec "$@"
# mawk reads a pipe in large pieces unless it is told otherwise.
live=
case $(awk -W version 2>&1 </dev/null) in mawk*) live='-W interactive' ;; esac
{
    "$@"
    echo "run $$ ended with $?"
} | awk $live -v end="run $$ ended with " -f "$(dirname "$0")/watch.awk"

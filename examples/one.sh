#!/bin/sh
# Runs one test of a suite: sh one.sh ID COMMAND [WORD]...
#
# LIMIT=60  the seconds after which it is killed, with all that is in its process group
# RERUNS=0  how often it is run again where it fails
# LOGS=     a folder, which gets a file with the whole output of each test, and for each run a line
#           in times.tsv as it ends: seconds, status, file, id
#
# The command finds in OWN_LIMIT a limit for the tool to set itself, so that it says where a test
# hangs, and in TEST_OUTPUT the file of its output so far.
exec 2>&1
LIMIT=${LIMIT:-60} TEST_OUTPUT=
export OWN_LIMIT="${OWN_LIMIT:-$((LIMIT * 5 / 6))}" TEST_OUTPUT
id=$1
shift

# Ctrl-C reaches this shell and not the test, which has a process group of its own.
stop() {
    trap '' INT HUP TERM
    kill -s INT "$!"
    sleep 2
    kill -s KILL -- "-$!"
    exit 130
} 2>/dev/null
trap stop INT HUP TERM

if [ -n "${LOGS-}" ]; then
    name=$(printf %s "$id" | tr -c A-Za-z0-9.=- _ | cut -c 1-100)
    [ -d "$LOGS" ] || mkdir -p "$LOGS" || exit
    TEST_OUTPUT=$LOGS/$name.$(printf %s "$id" | cksum | cut -d ' ' -f 1).log
else
    trap 'rm -f "$TEST_OUTPUT"' EXIT
    TEST_OUTPUT=$(mktemp) || exit
fi

tries=$((${RERUNS:-0} + 1))
while [ $tries -gt 0 ]; do
    tries=$((tries - 1))
    begun=$(date +%s%N)
    env --default-signal=INT,QUIT timeout -s KILL "$LIMIT" "$@" >"$TEST_OUTPUT" 2>&1 &
    wait "$!" 2>/dev/null
    status=$?
    took=$((($(date +%s%N) - begun) / 1000000))
    [ -z "${LOGS-}" ] || printf '%d.%03d\t%d\t%s\t%s\n' $((took / 1000)) $((took % 1000)) \
        "$status" "$TEST_OUTPUT" "$id" >>"$LOGS/times.tsv"
    case $status in 0 | 77) exit "$status" ;; esac
done

if [ "$status" -eq 137 ] && [ $((took / 1000)) -ge "$LIMIT" ]; then
    echo "over its limit of $LIMIT s"
fi
# The report keeps 8,192 bytes.
size=$(($(wc -c <"$TEST_OUTPUT")))
if [ $size -le 8000 ]; then
    cat "$TEST_OUTPUT"
else
    head -c 2000 "$TEST_OUTPUT"
    printf '\n.. %d bytes are left out here; with LOGS a file has all ..\n' $((size - 7900))
    tail -c 5900 "$TEST_OUTPUT"
fi
exit "$status"

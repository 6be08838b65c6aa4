#!/bin/sh
# Refuses each thread of a run with --threads in turn, and then each growth. Without the thread the program must tell so, print nothing,
# and end; without the growth it must tell want of memory or of a thread, print nothing, and end, or not need that growth.
# Usage: refuse-threads.sh PROGRAM SCRIPT
set -eu
program=$1 script=$2
work=$(mktemp -d)
trap 'rm -rf "$work"' EXIT
cc -shared -fPIC -O1 -o "$work/refuse.so" "$(dirname "$0")/refuse.c" -ldl

# run VARIABLE N: runs the program with what the variable counts refused at number N, and sets status.
run() {
    status=0
    timeout 20 env COUNT="$work/growths" COUNT_THREADS="$work/threads" "$1=$2" LD_PRELOAD="$work/refuse.so" "$program" --threads "$script" \
        > "$work/out" 2> "$work/err" || status=$?
}

# is_told FAULT: the run ended with this fault, and wrote nothing.
is_told() {
    [ "$status" -eq 1 ] && [ ! -s "$work/out" ] && [ "$(cat "$work/err")" = "lockreplay: no $1" ]
}

# fail WHAT: tells how the run ended.
fail() {
    echo "$script: $1: status $status, $(wc -c < "$work/out") bytes written, $(cat "$work/err")" >&2
    exit 1
}

run REFUSE 0
[ "$status" -eq 0 ] || fail "nothing refused"
threads=$(cat "$work/threads")
growths=$(cat "$work/growths")
[ "$threads" -gt 0 ] || fail "no thread was started"
for n in $(seq "$threads"); do
    run REFUSE_THREAD "$n"
    is_told thread || fail "thread $n refused"
done
for n in $(seq "$growths"); do
    run REFUSE "$n"
    is_told memory || is_told thread || { [ "$status" -eq 0 ] && [ -s "$work/out" ]; } || fail "growth $n refused"
done
echo "lockreplay --threads $script: $threads threads and $growths growths refused in turn"

#!/bin/sh
# Refuses each growth of a run in turn. The program must then tell want of memory and print nothing, or end as it
# does with no growth refused (a vector that is refused the room it would like asks for the room it needs). With --threads it may
# also tell that it has no thread, since a thread takes memory.
# Usage: refuse-growths.sh PROGRAM [WORD..], the words of the command line, as a script's name; standard input is the sample
set -eu
program=$1
shift
script=crates/lockreplay/stdin
work=$(mktemp -d)
trap 'rm -rf "$work"' EXIT
cc -shared -fPIC -O1 -o "$work/refuse.so" "$(dirname "$0")/refuse.c" -ldl

# run N [WORD..]: runs the program with growth number N refused, and sets status.
run() {
    refused=$1
    shift
    status=0
    COUNT=$work/count REFUSE=$refused LD_PRELOAD=$work/refuse.so timeout 20 "$program" "$@" < "$script" > "$work/out" 2> "$work/err" || status=$?
}

# is_told [WORD..]: the run told of a refused growth by one of the texts that these words of a command line allow.
is_told() {
    case "$(cat "$work/err")" in
    "lockreplay: no memory") true ;;
    "lockreplay: no thread") [ "${1-}" = --threads ] ;;
    *) false ;;
    esac
}

run 0 "$@"
due=$status
mv "$work/out" "$work/due.out"
mv "$work/err" "$work/due.err"
growths=$(cat "$work/count")
told=0
for n in $(seq "$growths"); do
    run "$n" "$@"
    if [ "$status" -eq 1 ] && [ ! -s "$work/out" ] && is_told "$@"; then
        told=$((told + 1))
    elif [ "$status" -ne "$due" ] || ! cmp -s "$work/out" "$work/due.out" || ! cmp -s "$work/err" "$work/due.err"; then
        echo "growth $n refused: status $status, $(wc -c < "$work/out") bytes written, $(cat "$work/err")" >&2
        exit 1
    fi
done
[ "$told" -gt 0 ] || { echo "no refused growth was told" >&2; exit 1; }
echo "lockreplay $*: $growths growths refused in turn: $told told with nothing written, the others not needed"

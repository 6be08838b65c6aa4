#!/bin/sh
# Runs each script in threads again and again. Each run must end with status 0 and nothing on standard error, and what it prints must
# be what the program prints without threads of the same requests in the order of that journal (those that weren't taken stand last).
# Usage: run-threads.sh PROGRAM TIMES SCRIPT..
set -eu
program=$1 times=$2
shift 2
work=$(mktemp -d)
trap 'rm -rf "$work"' EXIT

# serial SCRIPT OUTPUT: the script in the order of the journal that the output begins with.
serial() {
    awk '
        script && (NF == 0 || /^#/) { next }
        script && !/^[0-9]/ { print; next }
        script { line[$1, ++sent[$1]] = $0; next }
        /^[0-9]+#/ { split($1, event, "#"); print line[event[1], event[2]]; taken[event[1]] = event[2] }
        END { for (p in sent) for (n = taken[p] + 1; n <= sent[p]; n++) print line[p, n] }' script=1 "$1" script=0 "$2"
}

# judge SCRIPT OUTPUT: the output is that of its own order.
judge() {
    serial "$1" "$2" > "$work/serial"
    "$program" "$work/serial" > "$work/due" && cmp "$2" "$work/due"
}

for script; do
    mkdir "$work/seen"
    for _ in $(seq "$times"); do
        if ! timeout 60 "$program" --threads "$script" > "$work/out" 2> "$work/err" || [ -s "$work/err" ]; then
            echo "$script in threads: it failed, or took a minute: $(cat "$work/err")" >&2
            exit 1
        fi
        mv "$work/out" "$work/seen/$(cksum < "$work/out")"
    done
    for seen in "$work"/seen/*; do
        judge "$script" "$seen" || { echo "$script in threads: not what its order leads to" >&2; exit 1; }
    done
    echo "lockreplay --threads $script: $times runs, $(ls "$work/seen" | wc -l) orders, each with what it leads to"
    rm -r "$work/seen"
done

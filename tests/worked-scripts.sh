#!/bin/sh
# Runs the program on worked scripts and journals, whose outputs and faults follow from docs/RULES.md: what it writes, to standard output
# and to standard error, and its exit status must be those that are written here.
# worked-scripts/NAME: a script; NAME.out is its output, or NAME.err its fault, with status 2.
# checked-journals/NAME: a journal for --check; NAME.out is what is told of an illegal one, NAME.err the fault of a faulty one.
# explained-cycles/NAME: a script; NAME.part stands in what is explained of it, from the line of an entry on.
# cuts/script: a script; FIRST-LAST.out or FIRST-LAST.err is what comes of it where it is cut behind any of these bytes.
# Usage: worked-scripts.sh PROGRAM
set -eu
program=$1
here=$(dirname "$0")
work=$(mktemp -d)
trap 'rm -rf "$work"' EXIT
: > "$work/empty"
passed=0
failed=0

# judge STATUS OUTPUT ERRORS RUN: the run ended with this status, and wrote what the two files have.
judge() {
    if [ "$ended" -eq "$1" ] && cmp -s "$2" "$work/output" && cmp -s "$3" "$work/errors"; then
        passed=$((passed + 1))
    else
        failed=$((failed + 1))
        echo "$4: status $ended where $1 is due, or other output than $2 and $3:" >&2
        diff "$2" "$work/output" >&2 || true
        diff "$3" "$work/errors" >&2 || true
    fi
}

# check STATUS OUTPUT ERRORS NAME INPUT [WORD..]: runs the program with these words on INPUT, and judges the run.
check() {
    status=$1 output=$2 errors=$3 name=$4 input=$5
    shift 5
    ended=0
    "$program" "$@" < "$input" > "$work/output" 2> "$work/errors" || ended=$?
    judge "$status" "$output" "$errors" "lockreplay $* < $name"
}

# check_row ILLEGAL ROW NAME INPUT [WORD..]: what comes of INPUT is ROW.out, with status ILLEGAL, or ROW.err, or nothing where there is neither.
check_row() {
    illegal=$1 row=$2
    shift 2
    if [ -e "$row.err" ]; then
        check 2 "$work/empty" "$row.err" "$@"
    elif [ -e "$row.out" ]; then
        check "$illegal" "$row.out" "$work/empty" "$@"
    else
        check 0 "$work/empty" "$work/empty" "$@"
    fi
}

# fault LINE CAUSE: the file of a fault line.
fault() {
    echo "lockreplay: line $1: $2" > "$work/fault"
}

# The names in a folder, without those of what comes of them.
inputs() {
    find "$1" -type f ! -name '*.out' ! -name '*.err' | sort
}

# Whether processes but the first request something: then the output is open to their order.
has_several_processes() {
    grep -qE '^ *([2-9]|[1-9][0-9]+) ' "$1"
}

# Each script, also without the line feed at its end, which changes nothing. An output is legal, behind the header lines of its script.
# In threads one process prints the same, and of a faulty script nothing else is told.
for script in $(inputs "$here/worked-scripts"); do
    if [ ! -e "$script.out" ] && [ ! -e "$script.err" ]; then
        echo "$script: neither an output nor a fault" >&2
        failed=$((failed + 1))
    fi
    check_row 0 "$script" "$script" "$script"
    if [ -n "$(tail -c 1 "$script")" ]; then cp "$script" "$work/cut"; else head -c -1 "$script" > "$work/cut"; fi
    check_row 0 "$script" "$script without its last line feed" "$work/cut"
    if [ -e "$script.out" ]; then
        { sed -n '/^policy/p; /^limits/p' "$script"; cat "$script.out"; } > "$work/journal"
        check 0 "$work/empty" "$work/empty" "the output of $script" "$work/journal" --check
    fi
    if [ -e "$script.err" ] || ! has_several_processes "$script"; then
        check_row 0 "$script" "$script" "$script" --threads
    fi
done

# A script cut after each of its bytes is run or refused, and never a part of it alone.
behind=0
for cut in $(find "$here/cuts" -name '*-*' | sed 's,.*/,,; s,\.[a-z]*$,,' | sort -n); do
    [ "$behind" -eq "${cut%-*}" ] || { echo "cuts/$cut: the cuts don't follow one another" >&2; exit 1; }
    while [ "$behind" -le "${cut#*-}" ]; do
        head -c "$behind" "$here/cuts/script" > "$work/cut"
        check_row 0 "$here/cuts/$cut" "the script cut behind $behind bytes" "$work/cut"
        behind=$((behind + 1))
    done
done
[ "$behind" -eq $(($(wc -c < "$here/cuts/script") + 1)) ] || { echo "cuts: some are missing" >&2; exit 1; }

for journal in $(inputs "$here/checked-journals"); do
    check_row 3 "$journal" "$journal" "$journal" --check
done

# A line of a journal has 8,192 bytes at most, with a line feed behind it or none.
long_comment() {
    echo '1#1 open 0 rw | 1#1 fd 0'
    head -c "$1" /dev/zero | tr '\0' '#'
}
fault 2 '6 TooLong'
for len in 8192 8193 24576; do
    if [ "$len" -eq 8192 ]; then status=0 errors=$work/empty; else status=2 errors=$work/fault; fi
    long_comment "$len" > "$work/journal"
    check "$status" "$work/empty" "$errors" "a comment of $len bytes" "$work/journal" --check
    echo >> "$work/journal"
    check "$status" "$work/empty" "$errors" "a comment of $len bytes and a line feed" "$work/journal" --check
done

# blank BYTE COUNT: so many bytes.
blank() {
    head -c "$2" /dev/zero | tr '\0' "$1"
}

# The longest script has 1 MiB, and the longest journal 64 MiB. A longer one is refused whatever its lines are, and if it has no end.
echo 'proc 1 sent 0 taken 0 answered 0 live' > "$work/unused"
blank '\n' 1048576 > "$work/feeds"
check 0 "$work/unused" "$work/empty" '1 MiB of line feeds' "$work/feeds"
fault 0 '6 TooLong'
echo >> "$work/feeds"
check 2 "$work/empty" "$work/fault" '1 MiB of line feeds and one more' "$work/feeds"
for words in '' --check; do
    ended=0
    { tr '\0' '\n' < /dev/zero || true; } 2> "$work/pipe" | "$program" $words > "$work/output" 2> "$work/errors" || ended=$?
    judge 2 "$work/empty" "$work/fault" "lockreplay $words < line feeds without end"
done
blank ' ' 67108864 > "$work/spaces"
fault 1 '6 TooLong'
check 2 "$work/empty" "$work/fault" '64 MiB of spaces' "$work/spaces" --check
printf ' ' >> "$work/spaces"
fault 0 '6 TooLong'
check 2 "$work/empty" "$work/fault" '64 MiB of spaces and one more' "$work/spaces" --check

# Each cycle is told step by step.
for part in "$here"/explained-cycles/*.part; do
    script=${part%.part}
    ended=0
    "$program" --explain "$script" > "$work/explained" 2> "$work/errors" || ended=$?
    first=$(head -n 1 "$part")
    grep -n -x -F -e "$first" "$work/explained" | head -n 1 | cut -d: -f1 > "$work/place"
    tail -n "+$(cat "$work/place")" "$work/explained" | head -n "$(wc -l < "$part")" > "$work/output"
    judge 0 "$part" "$work/empty" "lockreplay --explain $script"
done

echo "worked scripts: $passed passed, $failed failed"
[ "$failed" -eq 0 ] && [ "$passed" -gt 0 ]

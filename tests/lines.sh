#!/bin/sh
# Runs the program on lines of scripts and of journals, good and faulty: what is told of each, and the exit status, must be what is written here.
# lines/scripts: what is told of a script, `ok` where it is accepted, and behind a tab the script, as printf's %b writes it.
# lines/journals: a file here and how many of its lines stand in front, what is told, `legal` where nothing is, and the lines that follow.
# Each is tried with a line feed at its end and without, which changes nothing.
# Usage: lines.sh PROGRAM
set -eu
program=$1
here=$(dirname "$0")/lines
work=$(mktemp -d)
trap 'rm -rf "$work"' EXIT
tab=$(printf '\t')
passed=0
failed=0

# try TOLD STATUS WORDS: the program, with these words, tells this of the input, and ends with this status.
try() {
    ended=0
    "$program" $3 < "$work/input" > "$work/output" 2> "$work/errors" || ended=$?
    case $2 in 0) : > "$work/told" ;; 2) echo "lockreplay: $1" > "$work/told" ;; 3) echo "$1" > "$work/told" ;; esac
    case $2 in 2) told=$work/errors silent=$work/output ;; *) told=$work/output silent=$work/errors ;; esac
    # (the output of a script that is accepted is looked at elsewhere)
    if [ -z "$3" ] && [ "$2" -eq 0 ]; then cp "$work/errors" "$work/output"; fi
    if [ "$ended" -eq "$2" ] && cmp -s "$work/told" "$told" && ! [ -s "$silent" ]; then
        passed=$((passed + 1))
    else
        failed=$((failed + 1))
        echo "status $ended where $2 is due, or something else than '$1', of:" >&2
        cat "$work/input" "$work/output" "$work/errors" >&2
    fi
}

# try_both TOLD STATUS WORDS TEXT: with a line feed at the end and without.
try_both() {
    : > "$work/input"
    [ -z "$before" ] || head -n "${before#* }" "$here/${before% *}" > "$work/input"
    printf '%b' "$4" >> "$work/input"
    try "$1" "$2" "$3"
    [ -z "$4" ] || { echo >> "$work/input"; try "$1" "$2" "$3"; }
}

before=
while IFS=$tab read -r told script; do
    case $told in
        '#'*) ;;
        ok) try_both '' 0 '' "$script" ;;
        *) try_both "$told" 2 '' "$script" ;;
    esac
done < "$here/scripts"

while IFS=$tab read -r before told lines; do
    case $before in '#'*) continue ;; esac
    case $told in
        legal) try_both '' 0 --check "$lines" ;;
        'line '*': '[1-8]' '[A-Z]*) try_both "$told" 2 --check "$lines" ;;
        *) try_both "$told" 3 --check "$lines" ;;
    esac
done < "$here/journals"

echo "$passed passed, $failed failed"
[ "$failed" -eq 0 ] && [ "$passed" -gt 0 ]

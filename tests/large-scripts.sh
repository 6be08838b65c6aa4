#!/bin/sh
# Replays scripts larger than any cap that a body may hide: each contract lets want of memory come at any moment, so no proof refuses a
# body that is full too early. What a script's lines are answered follows from the rules by counting, and is made beside it.
# Usage: large-scripts.sh PROGRAM
set -eu
program=$1
work=$(mktemp -d)
trap 'rm -rf "$work"' EXIT
passed=0
failed=0

# check NAME AWK [WORD..]: the awk program prints the script's lines behind `<` and those of its output behind `>`, and the replay, with these
# words, prints these, which are a legal journal behind the script's header lines.
check() {
    name=$1
    awk "$2" > "$work/lines"
    shift 2
    sed -n 's/^<//p' "$work/lines" > "$work/script"
    sed -n 's/^>//p' "$work/lines" > "$work/expected"
    sed '/^limits/!d' "$work/script" | cat - "$work/expected" > "$work/journal"
    if "$program" "$@" "$work/script" > "$work/output" 2> "$work/errors" && cmp "$work/expected" "$work/output" && [ -s "$work/output" ] \
        && "$program" --check "$work/journal" > "$work/verdict" 2> "$work/errors" && ! [ -s "$work/verdict" ]; then
        passed=$((passed + 1))
    else
        failed=$((failed + 1))
        echo "$name: another output, or none" >&2
        cat "$work/errors" >&2
    fi
}

# What every script uses: a request with its answer, and the line of a process whose requests were all answered.
asks='function asks(p, text, answer) { count[p]++; print "<" p " " text; print ">" p "#" count[p] " " text " | " p "#" count[p] " " answer }
function tells(p) { print ">proc " p " sent " count[p] " taken " count[p] " answered " count[p] " live" }'

# A journal, and a script far past the first 64 KiB that a reader may be given at a time: its last requests show.
check '90,001 events of one process' "$asks"' BEGIN {
    asks(1, "open 0 rw", "fd 0")
    for (i = 0; i < 90000; i++) asks(1, "seek 0 0", "ok")
    tells(1) }'

check '40,000 sets and unlocks of two processes' "$asks"' BEGIN {
    asks(1, "open 0 rw", "fd 0")
    asks(1, "fork 2", "ok")
    for (i = 0; i < 10000; i++) {
        asks(1, "setlk 0 w set 0 1", "ok"); asks(2, "setlk 0 w set 1 1", "ok")
        asks(1, "setlk 0 u set 0 1", "ok"); asks(2, "setlk 0 u set 1 1", "ok")
    }
    tells(1); tells(2) }'

check '30,000 separate locks of one owner' "$asks"' BEGIN {
    asks(1, "open 0 rw", "fd 0")
    for (i = 0; i < 30000; i++) asks(1, "setlk 0 w set " 2 * i " 1", "ok")
    for (i = 0; i < 30000; i++) print ">lock 0 process 1 w " 2 * i " " 2 * i
    tells(1) }'

check '2,048 open file descriptions with a lock on one file' "$asks"' BEGIN {
    print "<limits wide"
    asks(1, "open 1 r", "fd 0")
    for (p = 2; p <= 9; p++) asks(1, "fork " p, "ok")
    for (p = 2; p <= 9; p++) {
        asks(p, "close 0", "ok")
        for (fd = 0; fd < 256; fd++) asks(p, "open 0 rw", "fd " fd)
    }
    for (p = 2; p <= 9; p++) for (fd = 0; fd < 256; fd++) asks(p, "osetlk " fd " r set 0 " fd + 1, "ok")
    for (p = 2; p <= 9; p++) for (fd = 0; fd < 256; fd++) asks(p, "flock " fd " sh", "ok")
    for (d = 1; d <= 2048; d++) print ">lock 0 description " d + 1 " r 0 " (d - 1) % 256
    for (d = 1; d <= 2048; d++) print ">flock 0 description " d + 1 " sh"
    for (p = 1; p <= 9; p++) tells(p) }'

# Each close releases one lock, beside 8,000 of another process: a list of all locks for each line would take seconds.
check '20,000 lines, explained' "$asks"' BEGIN {
    asks(1, "open 0 rw", "fd 0")
    asks(1, "fork 2", "ok")
    for (i = 0; i < 8000; i++) asks(1, "setlk 0 w set " 2 * i " 1", "ok")
    for (i = 0; i < 4000; i++) {
        asks(2, "open 1 rw", "fd 1"); asks(2, "flock 1 ex", "ok"); asks(2, "close 1", "ok")
        print "># 2#" count[2] " released flock 1 description " i + 2 " ex"
    }
    for (i = 0; i < 8000; i++) print ">lock 0 process 1 w " 2 * i " " 2 * i
    tells(1); tells(2) }' --explain

# All processes from 2 to `last` wait for the first, and one request of the process `by` grants them all: its answer to itself, if it is
# answered, stands before the grants.
waiters=' BEGIN {
    asks(1, "open 0 rw", "fd 0")
    asks(1, "setlk 0 w set 0 1", "ok")
    for (p = 2; p <= last || p <= by; p++) asks(1, "fork " p, "ok")
    for (p = 2; p <= last; p++) asks(p, "setlkw 0 r set 0 1", "waits")
    count[by]++
    print "<" by " " line
    granted = ">" by "#" count[by] " " line
    if (line != "exit") granted = granted " | " by "#" count[by] " ok"
    for (p = 2; p <= last; p++) granted = granted " | " p "#1 ok"
    print granted
    for (p = 2; p <= last; p++) print ">lock 0 process " p " r 0 0"
    if (line ~ /^setlk/) tells(1)
    else print ">proc 1 sent " count[1] " taken " count[1] " answered " count[1] - (line == "exit") " ended"
    for (p = 2; p <= last || p <= by; p++) tells(p) }'
unlock='by = 1; line = "setlk 0 u set 0 1"'
wide='print "<limits wide"'
check '15 waits, granted by one unlock' "$asks BEGIN { last = 16; $unlock }$waiters"
check '63 waits, granted by one unlock' "$asks BEGIN { $wide; last = 64; $unlock }$waiters"
check '63 waits, granted by an exit' "$asks BEGIN { $wide; last = 64; by = 1; line = \"exit\" }$waiters"
check '62 waits, granted by a kill' "$asks BEGIN { $wide; last = 63; by = 64; line = \"kill 1\" }$waiters"

check 'a comment of 60 words' "$asks"' BEGIN {
    line = "#"
    for (i = 1; i < 60; i++) line = line " w"
    print "<" line
    asks(1, "open 0 rw", "fd 0")
    tells(1) }'

# What each of 4,000 events changed: a line or two for each, whatever the state has grown to.
check '4,000 events and what each changed' "$asks"' BEGIN {
    asks(1, "open 0 rw", "fd 0")
    print ">" "# + proc 1 live"
    print ">" "# + fd 1 0 description 1 file 0 rw offset 0"
    for (i = 0; i < 2000; i++) {
        asks(1, "setlk 0 w set " 2 * i " 1", "ok")
        print ">" "# + lock 0 process 1 w " 2 * i " " 2 * i
    }
    for (i = 0; i < 2000; i++) {
        asks(1, "setlk 0 r set " 2 * i " 1", "ok")
        print ">" "# - lock 0 process 1 w " 2 * i " " 2 * i
        print ">" "# + lock 0 process 1 r " 2 * i " " 2 * i
    }
    for (i = 0; i < 2000; i++) print ">lock 0 process 1 r " 2 * i " " 2 * i
    tells(1) }' --state changes

echo "large scripts: $passed passed, $failed failed"
[ "$failed" -eq 0 ]

#!/bin/sh
# Runs the program with --diagnose: behind the line of a fault, which stays as it is, standard error has what is written here; elsewhere nothing
# is told. (The texts for one line or another stand in crates/diagnosis_tests.) Then each faulty line of `lines/` is tried.
# Usage: diagnose.sh PROGRAM
set -eu
work=$(mktemp -d)
trap 'rm -rf "$work"' EXIT
cp "$1" "$work/lockreplay"
cp -r "$(dirname "$0")/command-line" "$(dirname "$0")/lines" "$work"
cp "$(dirname "$0")/../samples/deadlock-of-three.out" "$work/command-line"
cd "$work/command-line"
passed=0
failed=0

# judge STATUS OUTPUT RUN: the run ended so, with this file as its output, and standard error is `due`.
judge() {
    if [ "$ended" -eq "$1" ] && cmp -s "$2" "$work/output" && cmp -s "$work/due" "$work/errors"; then
        passed=$((passed + 1))
    else
        failed=$((failed + 1))
        echo "$3: status $ended where $1 is due, or something else:" >&2
        diff "$2" "$work/output" >&2 || true
        diff "$work/due" "$work/errors" >&2 || true
    fi
}

# check STATUS OUTPUT INPUT [WORD..]: runs the program with these words on INPUT; standard error must be standard input.
check() {
    status=$1 output=$2 input=$3
    shift 3
    cat > "$work/due"
    ended=0
    "$work/lockreplay" "$@" < "$input" > "$work/output" 2> "$work/errors" || ended=$?
    judge "$status" "$output" "lockreplay $* < $input"
}

printf '1 open 0 rw\n17 setlk 0 w set 0 0\n' > process
printf '1 open 0 rw\r\n' > returns
printf '1#1 open 0 rw | 1#1 fd 0\n1#2 fork 17 | 1#2 ok\n17#1 exit\n' > headless
printf '> 1 set 0 1 w 0 9\n< 1 EINTR\n' > answer
sed s/EDEADLK/ok/ deadlock-of-three.out > deadlock.journal
echo 'line 9: 3#2 setlkw 0 w set 0 1 | 3#2 EDEADLK expected' > deadlock.told
awk 'BEGIN { for (n = 0; n < 1048577; n++) printf "\n" }' > too-long

# A script: the name, the line and the column, what was read and what may stand there; the line, and a caret.
check 2 empty empty --diagnose process << 'END'
lockreplay: line 2: 5 Process
process:2:1: read "17"; expected a process 1 to 16; write "limits wide" in front for 64
    17 setlk 0 w set 0 0
    ^
END
check 2 empty returns --diagnose << 'END'
lockreplay: line 1: 1 Byte
<stdin>:1:12: read a carriage return; a line ends with a line feed alone, and not with CR LF
    1 open 0 rw\r
               ^
END
for flags in --threads --explain '--state 1' --timeline --json '--fail-on busy' --explore '--explore --limit 1'; do
    check 2 empty empty --diagnose $flags process << 'END'
lockreplay: line 2: 5 Process
process:2:1: read "17"; expected a process 1 to 16; write "limits wide" in front for 64
    17 setlk 0 w set 0 0
    ^
END
done
check 2 empty too-long --diagnose << 'END'
lockreplay: line 0: 6 TooLong
<stdin>: it is too long; it may have 1048576 bytes
END

# An expectation in another form.
printf '1 open 0 rw\n# expect 1#x ok\n' > expectation
check 2 empty empty --expect --diagnose expectation << 'END'
lockreplay: line 2: 2 Word
expectation:2:10: read "1#x"; expected P#N TEXT, of a process 1 to 16; or LINE or no LINE, a lock, flock, wait or proc line of the report
    # expect 1#x ok
             ^
END

# A journal of more requests than a script may have: what is due is told, and not why.
awk 'BEGIN {
    print "1#1 open 0 rw | 1#1 fd 0"
    for (n = 2; n < 60000; n++) printf "1#%d setlk 0 w set 0 10 | 1#%d ok\n", n, n
    print "1#60000 fork 2 | 1#60000 ok\n2#1 setlk 0 w set 5 1 | 2#1 ok" }' > long.journal
echo 'line 60001: 2#1 setlk 0 w set 5 1 | 2#1 EAGAIN expected' > long.told
check 3 long.told long.journal --check --diagnose << 'END'
<stdin>:60001:29: read "ok"; expected "EAGAIN"
    2#1 setlk 0 w set 5 1 | 2#1 ok
                                ^
# not explained: the requests up to here are more than a script may have
END

# A journal that has a fault, one that isn't legal and why, and one that only lacks a header line.
check 2 empty empty --check --diagnose untagged << 'END'
lockreplay: line 4: 8 Tag
untagged:4:1: read "1"; expected a process and the number of its request, as 1#1
    1 fork 2 | 1#2 ok
    ^
END
check 3 deadlock.told empty --diagnose --check deadlock.journal << 'END'
deadlock.journal:9:30: read "ok"; expected "EDEADLK"
    3#2 setlkw 0 w set 0 1 | 3#2 ok
                                 ^
# 3#2 would wait for 1 (lock 0 process 1 w 0 0), which waits for 2 (1#5, lock 0 process 2 w 1 1), which waits for 3 (2#2, lock 0 process 3 w 2 2)
END
check 2 empty headless --diagnose --check << 'END'
lockreplay: line 2: 5 Process
<stdin>:2:10: read "17"; expected a process 1 to 16; write "limits wide" in front for 64
    1#2 fork 17 | 1#2 ok
             ^
put "limits wide" before it
END

# A history.
check 2 empty empty --history --diagnose answer << 'END'
lockreplay: line 2: 2 Word
answer:2:5: read "EINTR"; expected an answer of this request: ok, busy or error
    < 1 EINTR
        ^
END

# A file that can't be opened or read, and an output that can't be written.
check 1 empty empty --diagnose missing << 'END'
lockreplay: read failed
missing: No such file or directory
END
check 1 empty empty --diagnose --explore conversion/missing << 'END'
lockreplay: read failed
conversion/missing: Not a directory
END
check 1 empty empty --diagnose --history . << 'END'
lockreplay: read failed
.: Is a directory
END
check 1 empty . --diagnose << 'END'
lockreplay: read failed
<stdin>: Is a directory
END
if [ -c /dev/full ]; then
    for flags in --explain --json --timeline; do
        printf 'lockreplay: write failed\n<stdout>: No space left on device\n' > "$work/due"
        : > "$work/output"
        ended=0
        "$work/lockreplay" --diagnose $flags conversion > /dev/full 2> "$work/errors" || ended=$?
        judge 1 empty "lockreplay --diagnose $flags conversion > /dev/full"
    done
fi

# Without a fault nothing is told, nor without the flag, and the command line's own faults are as they are.
check 0 conversion.out empty --diagnose conversion < /dev/null
check 0 empty conversion.out --diagnose --check < /dev/null
check 2 empty empty process << 'END'
lockreplay: line 2: 5 Process
END
check 2 empty empty --diagnose conversion missing < two-files.err

# Behind the fault of each faulty line of the tables stand its place, the line and a caret below it.
tab=$(printf '\t')
behind() {
    ended=0
    "$work/lockreplay" $1 < "$work/input" > /dev/null 2> "$work/due" || ended=$?
    [ "$ended" -eq 2 ] || return 0
    "$work/lockreplay" --diagnose $1 < "$work/input" > /dev/null 2> "$work/errors" || true
    line=$(sed 's/^lockreplay: line \([0-9]*\): .*/\1/' "$work/due")
    head -n 1 "$work/errors" > "$work/output"
    shown=$(sed -n 3p "$work/errors" | cut -c5-)
    caret=$(sed -n 4p "$work/errors" | cut -c5-)
    told=$(sed -n 2p "$work/errors")
    if cmp -s "$work/due" "$work/output" && [ "${told#<stdin>:$line:[1-9]}" != "$told" ] && [ -z "$(printf %s "$caret" | tr -d ' ^')" ] &&
        [ "${#caret}" -le $((${#shown} + 1)) ] && [ "${caret%^}" != "$caret" ]; then
        passed=$((passed + 1))
    else
        failed=$((failed + 1))
        cat "$work/input" "$work/errors" >&2
    fi
}
while IFS=$tab read -r told text; do
    case $told in 'line '*) ;; *) continue ;; esac
    printf '%b\n' "$text" > "$work/input"
    behind ''
done < ../lines/scripts

echo "diagnose.sh: $passed passed, $failed failed"
[ "$failed" -eq 0 ] && [ "$passed" -gt 60 ]

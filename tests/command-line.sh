#!/bin/sh
# Runs the program on command lines, good and bad: its standard output, standard error and exit status must be those that are
# written here. The files lie in the folder command-line, in a copy of which the program runs.
# Usage: command-line.sh PROGRAM
set -eu
work=$(mktemp -d)
trap 'rm -rf "$work"' EXIT
cp "$1" "$work/lockreplay"
cp -r "$(dirname "$0")/command-line" "$work/here"
sed -n 's/^## /lockreplay /p' "$(dirname "$0")/../CHANGELOG.md" | head -n 1 > "$work/here/version.err"
cd "$work/here"
cp conversion ./-conversion
cp deadlock ./-
for name in -- --help --threads; do cp conversion "./$name"; done
passed=0
failed=0

# A script of more than 64 KiB, what a reader may be given at a time, and its output.
awk 'BEGIN {
    print "1 open 0 rw" > "long"
    print "1#1 open 0 rw | 1#1 fd 0" > "long.out"
    for (n = 2; n <= 7000; n++) {
        print "1 seek 0 0" > "long"
        print "1#" n " seek 0 0 | 1#" n " ok" > "long.out"
    }
    print "proc 1 sent 7000 taken 7000 answered 7000 live" > "long.out" }'

# judge RUN: the run ended with the status that is due, and wrote what the two files have.
judge() {
    if [ "$ended" -eq "$status" ] && cmp -s "$output" "$work/output" && cmp -s "$errors" "$work/errors"; then
        passed=$((passed + 1))
    else
        failed=$((failed + 1))
        echo "$1: status $ended where $status is due, or other output than $output and $errors:" >&2
        diff "$output" "$work/output" >&2 || true
        diff "$errors" "$work/errors" >&2 || true
    fi
}

# check STATUS OUTPUT ERRORS INPUT [WORD..]: runs the program with these words on INPUT, and judges the run.
check() {
    status=$1 output=$2 errors=$3 input=$4
    shift 4
    ended=0
    "$work/lockreplay" "$@" < "$input" > "$work/output" 2> "$work/errors" || ended=$?
    judge "lockreplay $* < $input"
}

# The script is the file, or standard input without one.
check 0 conversion.out empty empty conversion
check 0 conversion.out empty conversion
check 0 deadlock.out empty empty deadlock
check 0 deadlock.out empty deadlock
check 0 empty.out empty conversion empty
check 0 conversion.out empty empty ./conversion
check 0 conversion.out empty conversion --
check 0 conversion.out empty empty -- -conversion
check 0 long.out empty empty long
check 0 long.out empty long
check 0 conversion.out empty conversion -
check 0 conversion.out empty conversion -- -
check 0 deadlock.out empty conversion ./-
for name in -- --help --threads; do check 0 conversion.out empty deadlock -- "$name"; done
check 2 empty faulty.err empty faulty
check 2 empty faulty.err faulty

# A file that can't be opened or read: none of that name, one below a file, a folder, no name, a name that isn't UTF-8.
check 1 empty read-failed.err conversion missing
check 1 empty read-failed.err empty conversion/missing
check 1 empty read-failed.err empty .
check 1 empty read-failed.err empty ''
check 1 empty read-failed.err empty "$(printf '\377')"

# The command line is judged first: help and two files are told also where a file is missing.
check 2 empty help.err empty --help
check 2 empty help.err conversion -h
check 2 empty help.err empty missing --help
check 2 empty version.err conversion --version
check 2 empty version.err empty -V
check 2 empty version.err empty missing --version
check 2 empty two-files.err empty conversion missing
check 2 empty two-files.err empty missing missing
check 2 empty two-files.err empty -- conversion missing
check 2 empty unknown-flag.err empty --thread
check 2 empty unknown-flag.err conversion --thread conversion
check 2 empty threads-twice.err empty --threads --threads
check 2 empty valued-flag.err empty --threads=true
check 2 empty short-flag.err empty -t
check 2 empty short-flag.err empty -t conversion
check 2 empty help.err empty conversion -h
check 2 empty version.err empty -V conversion

# A check of an output: it is legal as a whole, and as far as its entries go; the first line is told that no run has there; and the
# first that is faulty. The header lines of its script stand before it.
check 0 empty empty conversion.out --check
check 0 empty empty empty --check deadlock.out
check 0 empty empty empty deadlock.out --check
check 0 empty empty empty --check empty
check 3 illegal.out empty empty --check illegal
check 3 illegal.out empty illegal --check -
check 3 illegal.out empty empty illegal --check
check 3 cut.out empty empty --check cut
check 0 empty empty queued.journal --check
check 3 queued.out empty empty --check queued.headless
check 2 empty untagged.err empty --check untagged
check 1 empty read-failed.err empty --check missing
check 2 empty both-flags.err conversion --check --threads
check 2 empty both-flags.err empty --threads missing --check
check 2 empty check-twice.err empty --check --check

# What explains a run: what was in the way of a request, by a lock or by an earlier wait; which locks went with a close, a dup2, an exit and
# a kill, and which a flock lost; which wait a kill ended; and what was never taken. It is legal as it stands, and without these lines it is the output.
check 0 explained.out empty empty --explain explained
check 0 explained.out empty explained --explain
check 0 explained.out empty explained - --explain
check 0 queued.explained empty empty --explain queued
check 0 untaken.explained empty empty --explain untaken
check 0 conversion.out empty empty --explain conversion
check 0 empty.out empty conversion empty --explain
check 0 empty empty explained.out --check
grep -v '^#' explained.out > explained.plain
check 0 explained.plain empty empty explained
check 0 handed-over.explained empty empty --threads --explain handed-over
check 0 handed-over.explained empty handed-over --explain --threads
check 2 empty faulty.err faulty --explain
check 2 empty faulty.err empty --explain --threads faulty
check 1 empty read-failed.err empty --explain missing
check 2 empty explain-check.err conversion --check --explain
check 2 empty explain-check.err empty --explain missing --check
check 2 empty both-flags.err empty --explain missing --check --threads
check 2 empty explain-twice.err empty --explain --explain

# The state behind an entry, or behind each: what is held, who waits, each process that was born, each descriptor and each file that isn't
# empty; or what each changed. Behind an entry that the run doesn't have nothing is told. It is explained too, and legal as it stands.
check 0 state.sixth empty empty --state 6 state
check 0 state.sixth empty state --state=6
check 0 state.sixth empty empty --explain state --state 6
check 0 state.all empty empty --state all state
check 0 sizes.fifth empty empty --state 5 sizes
# Sections: with whom a process is in one, who is in which, and what goes with a process that bails.
check 0 sections.out empty empty --explain sections
check 0 sections.sixth empty sections --state 6
check 0 sections.changes empty empty --state changes sections
check 3 sections.out empty empty --explain --fail-on together sections
check 0 sections.out empty empty --explain --fail-on dropped,busy,killed sections
check 0 empty empty sections.changes --check
# A picture of the run, by time.
check 0 state.drawn empty empty --timeline state
check 0 state.drawn empty state --timeline
check 0 empty empty empty --timeline empty
check 0 changes-of-one.drawn empty empty --threads --timeline changes-of-one
check 2 empty faulty.err empty --timeline faulty
check 2 empty timeline.err empty --timeline --explain state
check 2 empty timeline.err empty --timeline --json state
check 2 empty timeline.err empty --check --timeline state
check 2 empty timeline.err empty --timeline --state all state
check 2 empty timeline.err empty --fail-on busy --timeline state

# What a script expects: nothing is printed where all of it is met, or there is none; else a line for each expectation that isn't, and no run.
# To a replay these lines are comments. An expectation in another form is a fault, unless a faulty line stands before it.
check 0 empty empty empty --expect expected
check 0 empty empty expected --expect
check 0 empty empty empty --expect conversion
check 0 empty empty conversion --expect empty
check 3 unmet.out empty empty unmet --expect
check 3 unmet.out empty unmet --expect -
check 0 unmet.run empty empty unmet
check 2 empty other-form.err empty --expect other-form
check 2 empty faulty.err empty --expect faulty
check 2 empty faulty.err empty --expect faulty-before
check 1 empty read-failed.err empty --expect missing
check 2 empty two-files.err empty --expect unmet missing
for flag in --threads --explain --check --timeline --state=1 --fail-on=busy; do check 2 empty expect.err empty --expect "$flag" missing; done
check 2 empty expect-explore.err empty --explore --expect missing
check 2 empty expect-history.err empty --expect --history missing
check 0 changes.out empty empty --state changes changes
check 0 changes.out empty changes --explain --state=changes
check 0 changes.one empty empty --threads --state changes changes-of-one
check 0 empty empty changes.out --check
check 0 explained.out empty empty --state 99 explained
check 0 empty empty state.all --check
check 0 empty.out empty conversion --state all empty
check 0 handed-over.state empty conversion --threads --state 4 handed-over
check 0 handed-over.state empty handed-over --state=4 --threads
check 0 handed-over.state empty conversion --threads --explain --state 4 handed-over
check 0 handed-over.state empty conversion handed-over --state 4 --explain --threads
check 2 empty no-entry.err conversion --state 0
check 2 empty no-entry.err conversion --state 06
check 2 empty no-entry.err conversion --state every
check 2 empty no-entry.err empty --threads --state '' missing
check 2 empty state-check.err conversion --check --state 6
check 2 empty both-flags.err conversion --check --state all --threads
check 2 empty explain-check.err conversion --check --state all --explain
check 2 empty state-twice.err empty --state 1 --state all
check 2 empty state-empty.err empty state --state

# What a run shows that is to fail: the output is the same, and the status is 3. By its last event, by one before, and by its end.
check 3 deadlock.out empty empty --fail-on deadlock deadlock
check 3 deadlock.out empty deadlock --fail-on=busy,deadlock -
check 0 deadlock.out empty empty deadlock --fail-on stuck,together,dropped,lost,busy,interrupted,killed,unborn,badfd
for finding in dropped lost busy killed unborn; do check 3 explained.out empty explained --explain --fail-on "$finding"; done
check 0 explained.out empty empty --explain --fail-on deadlock,stuck,interrupted,badfd explained
check 3 crossed.out empty empty --fail-on badfd,stuck crossed
check 0 crossed.out empty empty --fail-on deadlock crossed
check 3 unopened.out empty empty --fail-on badfd unopened
check 0 unopened.out empty empty --fail-on deadlock,stuck,together,dropped,lost,busy,interrupted,killed,unborn unopened
check 0 handed-over.state empty handed-over --fail-on dropped,badfd --state 4
check 0 empty.out empty empty --fail-on unborn,badfd
check 2 empty faulty.err empty --fail-on busy faulty
check 1 empty read-failed.err empty --fail-on busy missing
check 2 empty no-list.err conversion --fail-on ''
check 2 empty no-list.err conversion --fail-on badfd,
check 2 empty no-list.err empty --explain --fail-on EBADF missing
check 2 empty no-list.err crossed --explore --fail-on badfd
check 2 empty fail-on-threads.err empty --threads --fail-on busy missing
check 2 empty fail-on-check.err empty --fail-on busy --check missing
check 2 empty fail-on-twice.err empty --fail-on busy --fail-on lost
check 2 empty fail-on-empty.err empty conversion --fail-on

# Every order: two processes that take two bytes in opposite order, where either may be stuck behind the other that never lets go, or be told
# EDEADLK. A run alone is legal as it stands; nothing is printed where no order shows the finding. The limit leaves out the fourth situation.
check 3 crossed.explored empty empty --explore crossed
check 3 crossed.explored empty crossed --explore
check 3 crossed.explored empty crossed - --explore --limit=14
check 4 crossed.limited empty empty --limit 3 --explore crossed
check 3 crossed.deadlock empty empty --explore --run deadlock crossed
check 3 crossed.stuck empty empty --explore --run stuck crossed
check 3 empty empty empty --explore --run busy crossed
check 4 empty empty empty --explore --limit 3 --run stuck crossed
check 0 crossed.explored empty empty --explore --fail-on busy,lost crossed
check 3 crossed.explored empty empty --explore --fail-on busy,stuck crossed
check 0 crossed.stuck empty empty --explore --run stuck --fail-on unborn crossed
check 0 empty empty crossed.deadlock --check
check 0 empty empty crossed.stuck --check
check 3 crossed.deadlock.drawn empty empty --explore --run deadlock --timeline crossed
check 3 crossed.stuck.drawn empty crossed --timeline --run=stuck --explore
check 3 empty empty empty --explore --timeline --run busy crossed
check 2 empty faulty.err empty --explore --timeline --run busy faulty
check 2 empty timeline.err empty --explore --timeline missing
check 2 empty timeline.err empty --explore --run stuck --timeline --json missing
check 3 once.busy empty empty --explore --run busy once
check 0 once.busy empty once --run=busy --explore --fail-on=lost,deadlock
check 0 empty empty once.busy --check
check 2 empty faulty.err empty --explore faulty
check 1 empty read-failed.err empty --explore missing
check 2 empty no-limit.err crossed --explore --limit 0
check 2 empty no-limit.err crossed --explore --limit 010
check 2 empty no-finding.err empty --explore --run starved missing
check 2 empty no-finding.err crossed --explore --run ''
check 2 empty no-list.err crossed --explore --fail-on ''
check 2 empty no-list.err crossed --explore --fail-on stuck,
check 2 empty no-list.err crossed --explore --fail-on stuck,Busy
check 2 empty explore-explain.err empty --explore --explain missing
check 2 empty unknown-flag.err empty --thread -- --explore

# A history: legal, with an answer that came too soon, with waits that nobody woke, with a part of a run that a get told, with a bad line; and
# under a limit of two possibilities, where three are open: before the unlock, behind it, and behind the wait that it let through.
check 0 empty empty empty --history history
check 0 empty empty history --history
check 0 empty empty history --history -
check 0 empty empty empty history --runs --open --limit 5 --history
check 0 empty empty conversion --history empty
check 3 history-late.out empty empty --history history-late
check 3 history-late.out empty history-late --limit=100 --history --open
check 0 empty empty empty --history history-waits
check 3 history-waits.out empty empty --history --open history-waits
check 0 empty empty empty --history history-runs
check 3 history-runs.out empty empty --runs --history history-runs
check 2 empty history-faulty.err empty --history history-faulty
check 4 empty history-limit.err empty --history --limit 2 history
check 0 empty empty empty --history --limit 3 history
check 0 history-order.out empty empty --history --order history
check 0 history-order.out empty history --order --open --limit 3 --history
check 0 history-states.out empty empty --history --order --state all history
check 0 history-states.out empty history --state=all --history --order -
check 0 history-state.out empty empty --history --order --state 2 history
check 0 history-order.out empty empty --history --order --state 5 history
check 2 empty history-unordered.err empty --history --state all history
check 2 empty history-line.err empty --history --order --state 0 history
check 2 empty history-line.err empty --history --order --state changes history
check 3 history-late.out empty empty --history --order history-late
check 3 history-late.out empty empty --history --order --state all history-late
check 2 empty history-faulty.err empty --history --order history-faulty
check 4 empty history-limit.err empty --history --order --limit 2 history
check 1 empty read-failed.err empty --history missing
check 2 empty no-limit.err history --history --limit 0
check 2 empty no-limit.err history --history --limit 01
check 2 empty no-limit.err history --history --limit ''
check 2 empty no-limit.err history --limit many --history missing
check 2 empty history-check.err history --check --history
check 2 empty unknown-flag.err empty --thread -- --history
cp history ./--history
check 0 empty empty conversion --history -- --history
check 2 empty version.err empty --history --version

# In threads a script of one process prints the same.
check 0 conversion.out empty empty --threads conversion
check 0 conversion.out empty empty conversion --threads
check 0 conversion.out empty conversion --threads
check 0 conversion.out empty deadlock --threads -- --threads
check 0 empty.out empty conversion --threads empty
check 0 long.out empty long --threads
check 2 empty faulty.err empty --threads faulty
check 1 empty read-failed.err empty --threads missing

# In threads two processes that ask for one byte are answered in one order or the other.
check 0 same-byte.first empty empty same-byte
status=0 output=same-byte.first errors=empty ended=0
"$work/lockreplay" --threads same-byte > "$work/output" 2> "$work/errors" || ended=$?
if cmp -s same-byte.second "$work/output"; then output=same-byte.second; fi
judge "lockreplay --threads same-byte"

# The help's first screen and its lines fit a terminal of 24 by 80.
if awk 'length($0) > 80 { exit 1 } NR == 25 && $0 != "" { exit 1 }' help.err; then
    passed=$((passed + 1))
else
    failed=$((failed + 1))
    echo "help.err: a line is longer than 80 columns, or the first screen doesn't end at line 24" >&2
fi

# Standard output takes nothing.
status=1 output=empty errors=write-failed.err ended=0
: > "$work/output"
"$work/lockreplay" conversion > /dev/full 2> "$work/errors" || ended=$?
judge "lockreplay conversion > /dev/full"
status=1 output=empty errors=write-failed.err ended=0
"$work/lockreplay" --explain explained > /dev/full 2> "$work/errors" || ended=$?
judge "lockreplay --explain explained > /dev/full"

echo "$passed passed, $failed failed"
[ "$failed" -eq 0 ]

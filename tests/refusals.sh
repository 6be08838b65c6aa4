#!/bin/sh
# The shortest of what `make memory` and `make threads` refuse, for the gate: each growth of runs on the sample, as standard input and as a
# file, of the help, in threads and with states, and each thread and growth of a script in threads. Without a C compiler it is skipped.
# Usage: refusals.sh PROGRAM
set -eu
if ! command -v cc > /dev/null; then
    echo "refused growths and threads: SKIPPED, since there is no C compiler (cc)"
    exit 0
fi
tests=$(dirname "$0")
sh "$tests/refuse-growths.sh" "$1"
sh "$tests/refuse-growths.sh" "$1" crates/lockreplay/stdin
sh "$tests/refuse-growths.sh" "$1" --help
sh "$tests/refuse-growths.sh" "$1" --state all tests/command-line/state
sh "$tests/refuse-growths.sh" "$1" --threads tests/command-line/handed-over
sh "$tests/refuse-threads.sh" "$1" tests/threads/side-by-side

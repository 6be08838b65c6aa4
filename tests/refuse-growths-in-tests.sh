#!/bin/sh
# Refuses each growth of each test of a crate in turn, one in a run. A test takes a refusal as it comes: it looks that everything is as
# before, makes the call again and asserts that this succeeds, or it ends at once with the error Memory. So no assertion may fail, also
# where nothing is refused, which each test is tried with first; and each test has a growth.
# A test whose name ends in _often makes many times what another one makes once, and is left out.
# Usage: refuse-growths-in-tests.sh TESTS [PATTERN [ERRORS]], the built tests of a crate, which of them, and the errors that one may
# end with: Memory, where a test starts no thread
set -eu
tests=$1
pattern=${2:-.}
errors=${3:-Memory}
work=$(mktemp -d)
trap 'rm -rf "$work"' EXIT
cc -shared -fPIC -O1 -o "$work/refuse.so" "$(dirname "$0")/refuse.c" -ldl

# Runs test $1 with its growth number $2 refused, and sets status.
run() {
    status=0
    rm -f "$work/count"
    COUNT=$work/count REFUSE=$2 LD_PRELOAD=$work/refuse.so "$tests" "$1" > "$work/out" 2>&1 || status=$?
}

# fail WHAT: tells what the run wrote.
fail() {
    echo "$test with $1:" >&2
    cat "$work/out" >&2
    exit 1
}

refused=0
passed=0
for test in $("$tests" --list | sed -n 's/: test$//p' | grep -E "$pattern" | grep -v '_often$'); do
    run "$test" 0
    [ "$status" -eq 0 ] || fail "no growth refused"
    growths=$(cat "$work/count")
    [ "$growths" -gt 0 ] || fail "no growth"
    for n in $(seq "$growths"); do
        run "$test" "$n"
        refused=$((refused + 1))
        if [ "$status" -eq 0 ]; then
            passed=$((passed + 1))
        elif ! grep -qE "^error: ($errors)" "$work/out"; then
            fail "growth $n refused"
        fi
    done
done
[ "$refused" -gt 0 ] || { echo "$tests: no test of this name" >&2; exit 1; }
echo "$(basename "$tests"): $refused growths refused in turn; $passed runs went on to their end, the rest ended with the error $errors"

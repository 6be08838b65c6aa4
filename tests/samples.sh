#!/bin/sh
# Replays each sample: the run of samples/NAME.lock must be samples/NAME.out, if that is there, whose lines were derived by hand from
# docs/RULES.md; else what the script expects, derived so too, must be met, and each expectation turned must not. Explained the run must be the
# same without the lines that begin with `#`. And checks the explained run, behind the script's header lines: it must be legal. Where samples/NAME.explored is there, it must be what every order of the script comes to; what it finds was derived
# by hand too, and its counts by tests/explored.
# Of each samples/NAME.history what its first line runs must print samples/NAME.told, which was derived by hand too, and lines of `#`, which
# of an order stand there as well. The status is 3 where something else than an order is told.
# Usage: samples.sh PROGRAM
set -eu
program=$1
samples=$(dirname "$0")/../samples
work=$(mktemp -d)
trap 'rm -rf "$work"' EXIT
passed=0
failed=0
for script in "$samples"/*.lock; do
    if [ -e "${script%.lock}.out" ] || ! grep -q '^# expect ' "$script"; then continue; fi
    ended=0
    sed '/^# expect no /s/ no / /; t; /^# expect [a-z]/s/expect/expect no/; t; /^# expect /s/ [^ ]*$/ turned/' "$script" > "$work/turned"
    "$program" --expect "$work/turned" > "$work/unmet" 2>> "$work/errors" || ended=$?
    if "$program" --expect "$script" > "$work/output" 2> "$work/errors" && [ ! -s "$work/output" ] && [ ! -s "$work/errors" ] \
        && [ "$ended" -eq 3 ] && [ "$(wc -l < "$work/unmet")" -eq "$(grep -c '^# expect ' "$script")" ] \
        && "$program" "$script" > "$work/plain" && "$program" --explain "$script" > "$work/explained" \
        && grep -v '^#' "$work/explained" | cmp -s "$work/plain" - && "$program" --check "$work/explained" > "$work/told" && [ ! -s "$work/told" ]
    then
        passed=$((passed + 1))
    else
        failed=$((failed + 1))
        echo "$script: an expectation that isn't met, or one that is met turned, or the run isn't legal:" >&2
        cat "$work/output" "$work/errors" "$work/unmet" >&2
    fi
done
for script in "$samples"/*.lock; do
    if [ ! -e "${script%.lock}.out" ] && { [ -e "${script%.lock}.explored" ] || grep -q '^# expect ' "$script"; }; then continue; fi
    if "$program" "$script" > "$work/output" 2> "$work/errors" && [ ! -s "$work/errors" ] && cmp -s "${script%.lock}.out" "$work/output" \
        && "$program" --explain "$script" > "$work/explained" 2>&1 && grep -v '^#' "$work/explained" | cmp -s "${script%.lock}.out" - \
        && { sed -n '/^policy /p; /^limits /p' "$script"; cat "$work/explained"; } > "$work/journal" \
        && "$program" --check "$work/journal" > "$work/told" 2>&1 && [ ! -s "$work/told" ]
    then
        passed=$((passed + 1))
    else
        failed=$((failed + 1))
        echo "$script: another run than the one beside it, or it isn't legal:" >&2
        cat "$work/errors" >&2
        diff "${script%.lock}.out" "$work/output" >&2 || true
        cat "$work/told" >&2 || true
    fi
done
for explored in "$samples"/*.explored; do
    status=0
    ! grep -Eq '^(deadlock|stuck|together|dropped|lost|unborn) possible' "$explored" || status=3
    ended=0
    "$program" --explore "${explored%.explored}.lock" > "$work/output" 2> "$work/errors" || ended=$?
    if [ "$ended" -eq "$status" ] && [ ! -s "$work/errors" ] && cmp -s "$explored" "$work/output"; then
        passed=$((passed + 1))
    else
        failed=$((failed + 1))
        echo "$explored: status $ended where $status is due, or something else is found:" >&2
        cat "$work/errors" >&2
        diff "$explored" "$work/output" >&2 || true
    fi
done
for history in "$samples"/*.history; do
    told=${history%.history}.told
    hidden='^#'
    if sed 1q "$history" | grep -q -e --order; then status=0 hidden='^$'; elif [ -s "$told" ]; then status=3; else status=0; fi
    ended=0
    # shellcheck disable=SC2046
    "$program" $(sed -n '1s/^# lockreplay //p' "$history") "$history" > "$work/output" 2> "$work/errors" || ended=$?
    if [ "$ended" -eq "$status" ] && [ ! -s "$work/errors" ] && { grep -v "$hidden" "$work/output" || true; } | cmp -s "$told" -; then
        passed=$((passed + 1))
    else
        failed=$((failed + 1))
        echo "$history: status $ended where $status is due, or another verdict than the one beside it:" >&2
        cat "$work/output" "$work/errors" >&2
    fi
done
echo "$passed passed, $failed failed"
[ "$failed" -eq 0 ] && [ "$passed" -gt 0 ]

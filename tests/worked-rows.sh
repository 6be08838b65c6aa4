#!/bin/sh
# Prints the table of the worked scripts that have an output, each with the lines of its entries, as the tests of script_core have it:
# tests/worked-rows.sh > crates/script_core_tests/src/tests/worked.rt
set -eu
# So that the scripts have the same order everywhere.
export LC_ALL=C
cd "$(dirname "$0")/worked-scripts"

# A file's bytes within quotes.
quoted() {
    sed 's/[\\"]/\\&/g'
}

cat << 'END'
//! The worked scripts, with the lines of their entries. Printed by `tests/worked-rows.sh`, to which the gate holds it.
use super::taking::Row;

pub const ROWS: &[Row] = &[
END
for output in *.out; do
    script=${output%.out}
    printf '    Row {\n        name: "%s",\n        script: b"' "$script"
    quoted < "$script"
    printf '",\n        entries: b"'
    sed -n '/^[0-9]/p' "$output" | quoted
    printf '",\n    },\n'
done
echo '];'

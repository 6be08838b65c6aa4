#!/bin/sh
# Looks that `edit-reasons --compile` tells of the edits that don't compile, and of no others: in a tree of two crates with an edit of each
# kind, those with a fault named for it.
# Usage: bad-edits.sh
set -eu
work=$(mktemp -d)
trap 'rm -rf "$work"' EXIT
mkdir "$work/tools"
cp "$(dirname "$0")/edit-reasons" "$work/tools"
printf 'low:\nhigh: low\n' > "$work/crates.txt"
for crate in low high; do mkdir -p "$work/crates/$crate/src" "$work/crates/$crate/must-fail" "$work/crates/$crate/further-edits"; done
cat > "$work/crates/low/src/lib.rt" <<'END'
//! Pairs.
pub const LARGEST: u64 = 9;

#[derive(Drop)]
pub struct Pair {
    pub first: u64,
    pub second: u64,
}

impl Pair {
    pub fn new(first: u64) -> Pair {
        Pair {
            first,
            second: LARGEST,
        }
    }

    pub fn smaller(&self) -> u64 {
        if self.first < self.second {
            self.first
        } else {
            self.second
        }
    }
}

pub fn turned(pair: Pair) -> Pair {
    Pair {
        second: pair.first,
        first: pair.second,
    }
}

pub fn kept(pair: Pair) -> Pair {
    pair
}
END
cat > "$work/crates/high/src/lib.rt" <<'END'
//! What is made of pairs.
use low::Pair;

pub fn first_of(pair: &Pair) -> u64 {
    pair.first
}

pub fn smallest(first: &Pair, second: &Pair) -> u64 {
    first.smaller().min(second.smaller())
}
END

# edit CRATE FOLDER/NAME OLD NEW [RIGHT]
edit() {
    printf 'file: src/lib.rt\nold: %s\nnew: %s\n' "$3" "$4" > "$work/crates/$1/$2.edit"
    [ $# -lt 5 ] || echo "right: $5" >> "$work/crates/$1/$2.edit"
}
edit low must-fail/the_larger 'if self.first < self.second {' 'if self.second < self.first {'
edit low must-fail/another_constant 'LARGEST: u64 = 9;' 'LARGEST: u64 = 8;'
edit low must-fail/one_less 'second: pair.first,' 'second: pair.first.saturating_sub(1),' 'second: pair.first.saturating_sub(0),'
edit low must-fail/a_missing_field '            second: LARGEST,' ''
edit low further-edits/a_moved_value 'pub fn kept(pair: Pair) -> Pair {' 'pub fn kept(pair: Pair) -> Pair { let _other = pair;'
edit low further-edits/a_right_body_of_another_type 'first: pair.second,' 'first: pair.second / 2,' 'first: true,'
edit low further-edits/what_stands_twice 'pub fn' 'fn'
edit high must-fail/an_unknown_method 'first.smaller().min' 'first.larger().min'
edit high must-fail/the_second 'pair.first' 'pair.second'
edit high further-edits/a_text_that_is_no_code 'second.smaller()' 'second.smaller('

due='high/a_text_that_is_no_code
high/an_unknown_method
low/a_missing_field
low/a_moved_value
low/a_right_body_of_another_type, its right body
low/what_stands_twice'
ended=0
"$work/tools/edit-reasons" --compile > "$work/told" || ended=$?
found=$(sed -n 's/^\([a-z]*\/[^:]*\): .*/\1/p' "$work/told" | sort)
last=$(tail -n 1 "$work/told")
if [ "$ended" -ne 1 ] || [ "$found" != "$due" ] || [ "$last" != "edit-reasons: 4 edits compile, 6 don't" ]; then
    echo "edit-reasons --compile ended with status $ended, and told:" >&2
    cat "$work/told" >&2
    exit 1
fi
echo "edit-reasons --compile tells of the 6 bad edits of 10"

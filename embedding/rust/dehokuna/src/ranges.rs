//! Ranges of bytes and of owners: Rust's, and the library's first and last number.

use crate::LARGEST_OFFSET;
use std::ops::{Bound, RangeBounds};

/// No byte, which the library refuses, and nobody.
const EMPTY: (u64, u64) = (1, 0);

/// The first and the last byte; an empty range has them the wrong way round.
pub(crate) fn ends(range: impl RangeBounds<u64>) -> (u64, u64) {
    ends_up_to(range, LARGEST_OFFSET)
}

/// The first and the last owner; a range of nobody has them the wrong way round.
pub(crate) fn numbers(range: impl RangeBounds<u64>) -> (u64, u64) {
    ends_up_to(range, u64::MAX)
}

fn ends_up_to(range: impl RangeBounds<u64>, largest: u64) -> (u64, u64) {
    let first = match range.start_bound() {
        Bound::Included(&first) => Some(first),
        Bound::Excluded(&before) => before.checked_add(1),
        Bound::Unbounded => Some(0),
    };
    let last = match range.end_bound() {
        Bound::Included(&last) => Some(last),
        Bound::Excluded(&end) => end.checked_sub(1),
        Bound::Unbounded => Some(largest),
    };
    first.zip(last).unwrap_or(EMPTY)
}

#[cfg(test)]
mod tests {
    use super::{ends, numbers, EMPTY};
    use crate::LARGEST_OFFSET;
    use std::ops::Bound;

    #[test]
    fn ends_are_bytes_of_the_range() {
        assert_eq!(ends(3..=3), (3, 3));
        assert_eq!(ends(3..10), (3, 9));
        assert_eq!(ends(..10), (0, 9));
        assert_eq!(ends(3..), (3, LARGEST_OFFSET));
        assert_eq!(ends(..), (0, LARGEST_OFFSET));
        assert_eq!(ends((Bound::Excluded(3), Bound::Included(4))), (4, 4));
    }

    #[test]
    fn numbers_go_on_behind_the_largest_offset() {
        assert_eq!(numbers(3..=3), (3, 3));
        assert_eq!(numbers(3..), (3, u64::MAX));
        assert_eq!(numbers(..), (0, u64::MAX));
        assert_eq!(numbers(0..0), EMPTY);
    }

    #[test]
    fn an_empty_range_has_its_ends_the_wrong_way_round() {
        assert_eq!(ends(3..3), (3, 2));
        assert_eq!(ends(0..0), EMPTY);
        assert_eq!(ends((Bound::Excluded(u64::MAX), Bound::Unbounded)), EMPTY);
    }
}

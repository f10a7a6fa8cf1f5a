//! Section "Answer numbers", "Comparing two sets of sixteen counts".

use crate::table::Counts;
use std::cmp::Ordering;

/// Which side has more patches of a site.
#[derive(Clone, Copy, Debug, PartialEq, Eq)]
pub enum Side {
    /// Neither.
    None = 0,
    /// The first set.
    First = 1,
    /// The second set.
    Second = 2,
}

/// What one side has of a site and the other lacks.
#[derive(Clone, Copy, Debug, PartialEq, Eq)]
pub struct Difference {
    /// The side that has more.
    pub side: Side,
    /// The first number that the other side lacks, or 0.
    pub first: u32,
    /// The last number that the other side lacks, or 0.
    pub last: u32,
}

/// The differences of sites 1 to 16, in order.
pub fn compare_counts(first: &Counts, second: &Counts) -> Vec<Difference> {
    let pairs = first.iter().zip(second.iter());
    pairs.map(|(one, two)| difference(one, two)).collect()
}

fn difference(one: u32, two: u32) -> Difference {
    let side = match one.cmp(&two) {
        Ordering::Equal => {
            return Difference {
                side: Side::None,
                first: 0,
                last: 0,
            }
        }
        Ordering::Greater => Side::First,
        Ordering::Less => Side::Second,
    };
    Difference {
        side,
        first: one.min(two).saturating_add(1),
        last: one.max(two),
    }
}

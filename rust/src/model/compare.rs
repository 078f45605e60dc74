//! Two plans side by side (document 02, R-4).

use super::auction::*;
use super::matching::{admit, weight};
use super::refusal::*;
use std::cmp::Ordering;

#[derive(Clone, Copy, Debug, PartialEq, Eq)]
pub struct Comparison {
    /// "the difference in pence, negative where the first is worth less".
    pub difference: i64,
    /// Where the first stands beside the second: `Less` is earlier.
    pub order: Ordering,
}

/// Refusals: "9 and 10 for the first plan, then 9 and 10 for the second".
pub fn compare(auction: &Auction, first: &[u64], second: &[u64]) -> Result<Comparison, Refusal> {
    for plan in [first, second] {
        if plan.len() != auction.bidders.len() {
            return refuse(UNEVEN, 0);
        }
        admit(auction, plan)?;
    }
    let (one, other) = (weight(auction, first), weight(auction, second));
    Ok(Comparison {
        difference: one as i64 - other as i64,
        order: by_weight(one, other).then_with(|| by_cells(first, second)),
    })
}

/// "the greater worth first".
fn by_weight(one: u64, other: u64) -> Ordering {
    other.cmp(&one)
}

/// "the first smaller cell making the earlier plan".
fn by_cells(first: &[u64], second: &[u64]) -> Ordering {
    for (one, other) in first.iter().zip(second) {
        if one != other {
            return one.cmp(other);
        }
    }
    Ordering::Equal
}

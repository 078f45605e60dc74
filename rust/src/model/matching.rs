//! A matching that a caller lends: refusal 10, one for the check and for a comparison,
//! and its weight.

use super::auction::*;
use super::refusal::*;

/// "cell neither 0 nor a kettle's number, or its kettle gone, without entry for this
/// batch, or named by an earlier batch": 10 at the first such bidder. "A plan may name a
/// kettle once per place" (document 02, R-6).
pub fn admit(auction: &Auction, matching: &[u64]) -> Result<(), Refusal> {
    match (0..matching.len()).find(|&bidder| clashes(auction, matching, bidder)) {
        Some(bidder) => refuse(CLASH, bidder as u64 + 1),
        None => Ok(()),
    }
}

/// The cell is not 0 and is no live edge of this bidder, or as many earlier ones have its
/// item as there are places in it.
fn clashes(auction: &Auction, matching: &[u64], bidder: usize) -> bool {
    let cell = matching[bidder];
    if cell == 0 {
        return false;
    }
    if weight_at(auction, bidder, cell).is_none() {
        return true;
    }
    let named = matching[..bidder].iter().filter(|&&other| other == cell).count() as u64;
    named >= auction.items[cell as usize - 1].count()
}

fn weight_at(auction: &Auction, bidder: usize, item: u64) -> Option<u64> {
    let edges = &auction.bidders[bidder].edges;
    edges.iter().find(|e| e.item == item && auction.is_live(**e)).map(|e| e.weight)
}

/// "Its worth is the sum of the entries used."
pub fn weight(auction: &Auction, matching: &[u64]) -> u64 {
    let cells = matching.iter().enumerate();
    cells.filter_map(|(bidder, &item)| weight_at(auction, bidder, item)).sum()
}

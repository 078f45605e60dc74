//! The slow count (document 02, R-9), by trying everything: it knows nothing of prices.

use super::auction::*;
use super::refusal::*;

/// "For up to 6 batches and 6 places".
pub const MAX_COUNTED: u64 = 6;

/// "It returns the greatest worth"; 17 "over 6 of either, withdrawn kettles' places counted".
pub fn count(auction: &Auction) -> Result<u64, Refusal> {
    let (bidders, counts) = (auction.bidders.len() as u64, auction.counts());
    if bidders > MAX_COUNTED || counts.iter().sum::<u64>() > MAX_COUNTED {
        return refuse(LARGE, 0);
    }
    Ok(greatest(&auction.live_weights(), &counts))
}

/// The greatest weight on this sheet, a row per bidder, 0 for no edge, where items have so
/// many places: it "tries every free kettle and none for the first batch, then does likewise
/// for the rest".
pub fn greatest(weights: &[Vec<u64>], counts: &[u64]) -> u64 {
    fn rest(weights: &[Vec<u64>], free: &mut [u64]) -> u64 {
        let Some((first, others)) = weights.split_first() else {
            return 0;
        };
        let mut best = rest(others, free);
        for item in 0..free.len() {
            if free[item] > 0 && first[item] != 0 {
                free[item] -= 1;
                best = best.max(first[item] + rest(others, free));
                free[item] += 1;
            }
        }
        best
    }
    rest(weights, &mut counts.to_vec())
}

//! The check of a matching and a cover made elsewhere.

use super::auction::*;
use super::matching::{admit, weight};
use super::refusal::*;

/// "Refusal 11's limit of 1,000,000,000 becomes 2,000,000,000" (document 02, R-7).
pub const MAX_PRICE: u64 = 2_000_000_000;

#[derive(Clone, Copy, Debug, PartialEq, Eq)]
pub struct Totals {
    /// The matching's weight, in pence.
    pub weight: u64,
    /// All gains, and each item's price once per place, added.
    pub sum: u64,
}

/// A matching, a price list, a gain list and a slack to be checked.
#[derive(Clone, Debug, PartialEq, Eq)]
pub struct Claim {
    pub matching: Vec<u64>,
    pub price: Vec<u64>,
    pub gain: Vec<u64>,
    pub slack: Slack,
}

/// Refusals in the order 2, 9, 10, 11, 12; within one, the lowest place.
pub fn check(auction: &Auction, claim: &Claim) -> Result<Totals, Refusal> {
    if !claim.slack.may_check() {
        return refuse(SLACK, 0);
    }
    if !even(auction, claim) {
        return refuse(UNEVEN, 0);
    }
    admit(auction, &claim.matching)?;
    if let Some(place) = bad_price(auction, claim) {
        return refuse(PRICE, place);
    }
    if let Some(bidder) = (0..claim.gain.len()).find(|&b| is_bare(auction, claim, b)) {
        return refuse(BARE, bidder as u64 + 1);
    }
    Ok(totals(auction, claim))
}

fn even(auction: &Auction, claim: &Claim) -> bool {
    claim.matching.len() == auction.bidders.len()
        && claim.price.len() == auction.items.len()
        && claim.gain.len() == auction.bidders.len()
}

/// The first price, else the first gain, that is above the limit or stands at
/// a withdrawn item.
fn bad_price(auction: &Auction, claim: &Claim) -> Option<u64> {
    let bad =
        |i: usize| claim.price[i] > MAX_PRICE || auction.items[i].withdrawn && claim.price[i] != 0;
    let items = claim.price.len();
    let price = (0..items).find(|&i| bad(i)).map(|i| i + 1);
    let gain = claim.gain.iter().position(|&g| g > MAX_PRICE).map(|b| items + b + 1);
    price.or(gain).map(|place| place as u64)
}

fn is_bare(auction: &Auction, claim: &Claim, bidder: usize) -> bool {
    let Slack { p, q } = claim.slack;
    auction.bidders[bidder].edges.iter().any(|&e| {
        let paid = claim.gain[bidder] + claim.price[e.item as usize - 1];
        auction.is_live(e) && paid < (q - p) * e.weight
    })
}

/// "the check and exact level count a kettle's price once per place" (document 02, R-6).
fn totals(auction: &Auction, claim: &Claim) -> Totals {
    let prices = claim.price.iter().zip(&auction.items).map(|(price, item)| price * item.count());
    let sum = prices.sum::<u64>() + claim.gain.iter().sum::<u64>();
    Totals { weight: weight(auction, &claim.matching), sum }
}

//! Claims for the check: the auction's own, the exact pair, and damaged ones.

use crate::model::auction::*;
use crate::model::check::{Claim, MAX_PRICE};
use crate::model::hungarian;
use crate::rng::Rng;

/// The auction's matching and lists, as they are read out, at its slack.
pub fn own(auction: &Auction) -> Claim {
    Claim {
        matching: auction.matching(),
        price: auction.prices(),
        gain: auction.gains(),
        slack: auction.slack,
    }
}

/// A matching of greatest weight and a cover of equal sum, at 0/1.
pub fn exact(auction: &Auction) -> Claim {
    let exact = hungarian::solve(&auction.live_weights(), &auction.counts());
    Claim {
        matching: exact.matching,
        price: exact.price,
        gain: exact.gain,
        slack: Slack { p: 0, q: 1 },
    }
}

/// One of the two, with up to three damages.
pub fn damaged(rng: &mut Rng, auction: &Auction) -> Claim {
    let mut claim = if rng.chance(1, 2) { own(auction) } else { exact(auction) };
    for _ in 0..rng.below(4) {
        damage(rng, &mut claim, auction.items.len() as u64);
    }
    claim
}

fn damage(rng: &mut Rng, claim: &mut Claim, items: u64) {
    let high = rng.pick(&[MAX_PRICE, MAX_PRICE + 1, 2 * MAX_PRICE, u64::MAX]);
    match rng.below(9) {
        0 => {
            claim.slack.p =
                rng.pick(&[0, 1, claim.slack.q, claim.slack.q.saturating_sub(1), u64::MAX])
        }
        1 => claim.slack.q = rng.pick(&[0, 1, 2, 1_000, 1_001, u64::MAX]),
        2 => {
            let list = match rng.below(3) {
                0 => &mut claim.matching,
                1 => &mut claim.price,
                _ => &mut claim.gain,
            };
            list.resize(rng.pick(&[0, list.len().saturating_sub(1), list.len() + 1, 1_000]), 0);
        }
        3 | 4 => {
            let any = rng.range(0, items);
            let cell = rng.pick(&[0, 1, items, items + 1, any, u64::MAX]);
            put(rng, &mut claim.matching, |_| cell);
        }
        5 => put(rng, &mut claim.price, |_| high),
        6 => put(rng, &mut claim.gain, |_| high),
        7 => put(rng, &mut claim.price, |y| y.saturating_sub(1)),
        _ => put(rng, &mut claim.gain, |g| g ^ 1),
    }
}

fn put(rng: &mut Rng, list: &mut [u64], change: impl Fn(u64) -> u64) {
    if !list.is_empty() {
        let at = rng.index(list.len());
        list[at] = change(list[at]);
    }
}

/// A claim that is accepted and owes nothing to the auction's own lists: a
/// matching picked at random, prices at random, gains that cover the rest.
pub fn accepted(rng: &mut Rng, auction: &Auction) -> Claim {
    let q = rng.pick(&[1, 2, 10, 1_000]);
    let slack = Slack { p: rng.below(q), q };
    let factor = slack.q - slack.p;
    let limit = rng.pick(&[0, 1_000, MAX_PRICE]);
    let price: Vec<u64> = auction.items.iter().map(|item| price_up_to(rng, item, limit)).collect();
    let rest = |edge: &Edge| (factor * edge.weight).saturating_sub(price[edge.item as usize - 1]);
    let live = |bidder: &Bidder| {
        let edges = bidder.edges.iter().filter(|&&e| auction.is_live(e));
        edges.map(rest).max().unwrap_or(0)
    };
    let gain = auction.bidders.iter().map(live).collect();
    Claim { matching: matching(rng, auction), price, gain, slack }
}

fn price_up_to(rng: &mut Rng, item: &Item, limit: u64) -> u64 {
    match item.withdrawn {
        true => 0,
        false => rng.range(0, limit),
    }
}

fn matching(rng: &mut Rng, auction: &Auction) -> Vec<u64> {
    let mut left = auction.counts();
    let mut cell = |bidder: &Bidder| {
        let live = bidder.edges.iter().filter(|&&e| auction.is_live(e));
        let free: Vec<u64> = live.map(|e| e.item).filter(|&i| left[i as usize - 1] > 0).collect();
        if free.is_empty() || rng.chance(1, 4) {
            return 0;
        }
        let item = rng.pick(&free);
        left[item as usize - 1] -= 1;
        item
    };
    auction.bidders.iter().map(&mut cell).collect()
}

//! The laws of document 01 that hold on every sound board, read off the board's
//! own numbers, place by place (document 02, R-6); the greatest weight is the plain solver's.

use crate::fast::exact::greatest_of;
use crate::ffi;
use crate::model::auction::MAX_PLACES;
use crate::model::check::MAX_PRICE;

/// A law holds, or how it does not.
pub type Law = Result<(), String>;

fn weight_at(b: &ffi::Board, bidder: usize, place: usize) -> u64 {
    b.weights[MAX_PLACES * bidder + place] as u64
}

fn live_rows(b: &ffi::Board) -> Vec<[u32; MAX_PLACES]> {
    let row = |bidder: usize| {
        let mut row = [0; MAX_PLACES];
        for place in (0..b.places as usize).filter(|&i| b.withdrawn[i] == 0) {
            row[place] = b.weights[MAX_PLACES * bidder + place];
        }
        row
    };
    (0..b.arrived as usize).map(row).collect()
}

/// The weight of the matching that the board keeps.
pub fn weight(b: &ffi::Board) -> u64 {
    let held = (0..MAX_PLACES).filter(|&place| b.holder[place] != 0);
    held.map(|place| weight_at(b, b.holder[place] as usize - 1, place)).sum()
}

fn sums_agree(b: &ffi::Board) -> Law {
    let prices: u64 = b.price.iter().map(|y| y.0).sum();
    let gains: u64 = b.gain.iter().map(|g| g.0).sum();
    let expected = (b.slack.q + b.slack.p) * weight(b);
    require(prices + gains == expected, || format!("{prices} + {gains} is not {expected}"))
}

/// "placed pairs still sum to (q + p) × w" (document 02, R-7), at the place that is held.
fn pairs_sum(b: &ffi::Board) -> Law {
    for place in (0..MAX_PLACES).filter(|&place| b.holder[place] != 0) {
        let bidder = b.holder[place] as usize - 1;
        let (gain, price) = (b.gain[bidder].0, b.price[place].0);
        let expected = (b.slack.q + b.slack.p) * weight_at(b, bidder, place);
        let told = || format!("bidder {}: {gain} + {price} is not {expected}", bidder + 1);
        require(gain + price == expected, told)?;
    }
    Ok(())
}

fn share_holds(b: &ffi::Board) -> Law {
    let (own, greatest) = (weight(b), greatest_of(b.places as usize, &live_rows(b)));
    let share = own * (b.slack.q + b.slack.p) >= (b.slack.q - b.slack.p) * greatest;
    require(share && own <= greatest, || format!("{own} of {greatest} at {:?}", b.slack))
}

/// No unplaced bidder has a live edge at a free place.
fn nobody_is_left_out(b: &ffi::Board) -> Law {
    for bidder in 0..b.arrived as usize {
        let placed = b.holder.contains(&(bidder as u8 + 1));
        for place in (0..b.places as usize).filter(|&i| b.withdrawn[i] == 0) {
            let free = b.holder[place] == 0 && weight_at(b, bidder, place) != 0;
            let told = || format!("bidder {} unplaced, place {} free", bidder + 1, place + 1);
            require(placed || !free, told)?;
        }
    }
    Ok(())
}

/// How many places these items have in all: "the bid bound counts an entry once per place"
/// (document 02, R-6).
pub fn places_at(b: &ffi::Board, items: impl Iterator<Item = u64>) -> u64 {
    items.map(|item| b.items.places[item as usize - 1] as u64).sum()
}

/// "Over every history from opening, the bids number at most the entries ever
/// accepted times the whole part of (q - 1)/p", an entry once per place.
pub fn bids_are_bounded(b: &ffi::Board, accepted: u64, bids: u64) -> Law {
    let most = accepted * ((b.slack.q - 1) / b.slack.p);
    require(bids <= most, || format!("{bids} bids, at most {most} are allowed"))
}

pub fn require(holds: bool, told: impl Fn() -> String) -> Law {
    match holds {
        true => Ok(()),
        false => Err(told()),
    }
}

/// "a check of read-out prices may total less than q + p times the worth, never more"
/// (document 02, R-6), not less than q - p times it, and nothing less where every item has
/// one place. Since R-7 no price or gain of a sound board is above what a check takes.
fn read_out_is_checked(b: &ffi::Board) -> Law {
    let (bidders, items) = (b.arrived as usize, b.items.count as usize);
    let [mut plan, mut prices, mut gains] = [bidders, items, bidders].map(|cells| vec![0; cells]);
    let told = ffi::read_out(*b, &mut plan, &mut prices, &mut gains);
    require(told.number == 0, || format!("read out: {told:?}"))?;
    let most = prices.iter().chain(&gains).max();
    require(most.is_none_or(|&most| most <= MAX_PRICE), || format!("read out: {most:?}"))?;
    let ffi::Slack { p, q } = b.slack;
    let totals = ffi::check(*b, &plan, &prices, &gains, p, q);
    let most = (q + p) * weight(b);
    let least = if b.places == b.items.count { most } else { (q - p) * weight(b) };
    let holds = totals.number == 0 && totals.weight == weight(b);
    let within = least <= totals.total && totals.total <= most;
    require(holds && within, || format!("a check of the read-out: {totals:?}, at most {most}"))
}

/// Pairs and their sum, the share, nobody left out, and the check of what is read out.
pub fn on_board(b: &ffi::Board) -> Law {
    pairs_sum(b)?;
    sums_agree(b)?;
    share_holds(b)?;
    nobody_is_left_out(b)?;
    read_out_is_checked(b)
}

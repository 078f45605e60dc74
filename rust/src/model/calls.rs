//! The public calls over the fixed-size record, refusal 13 included. A refused
//! call changes neither record nor lists.

use super::auction::*;
use super::check::{check, Claim, Totals};
use super::compare::{compare, Comparison};
use super::count::count;
use super::hungarian;
use super::refusal::*;
use super::sound::{from_record, to_record, Record};
use crate::page;

pub fn open_record(items: u64, slack: Slack, counts: &[u64]) -> Result<Record, Refusal> {
    Auction::open_places(items, slack, counts).map(|auction| to_record(&auction))
}

pub fn arrive_record(record: &mut Record, edges: &[Edge]) -> Result<u64, Refusal> {
    let mut auction = from_record(record)?;
    let bids = auction.arrive(edges)?;
    *record = to_record(&auction);
    Ok(bids)
}

pub fn withdraw_record(record: &mut Record, items: &[u64]) -> Result<u64, Refusal> {
    let mut auction = from_record(record)?;
    let bids = auction.withdraw(items)?;
    *record = to_record(&auction);
    Ok(bids)
}

pub fn read_out_record(
    record: &Record,
    matching: &mut [u64],
    price: &mut [u64],
    gain: &mut [u64],
) -> Result<(), Refusal> {
    from_record(record)?.read_out(matching, price, gain)
}

/// The exact level. Its matching, prices and gains are one choice of several;
/// the weight it answers is not.
pub fn exact_record(
    record: &Record,
    matching: &mut [u64],
    price: &mut [u64],
    gain: &mut [u64],
) -> Result<u64, Refusal> {
    let auction = from_record(record)?;
    let (bidders, items) = (auction.bidders.len(), auction.items.len());
    if matching.len() < bidders || price.len() < items || gain.len() < bidders {
        return refuse(SHORT, 0);
    }
    let exact = hungarian::solve(&auction.live_weights(), &auction.counts());
    matching[..bidders].copy_from_slice(&exact.matching);
    price[..items].copy_from_slice(&exact.price);
    gain[..bidders].copy_from_slice(&exact.gain);
    Ok(exact.weight)
}

/// 17 "over 6 of either", "after 13".
pub fn count_record(record: &Record) -> Result<u64, Refusal> {
    count(&from_record(record)?)
}

pub fn check_record(record: &Record, claim: &Claim) -> Result<Totals, Refusal> {
    check(&from_record(record)?, claim)
}

/// "Answers: 13, then" those of the plans.
pub fn compare_record(
    record: &Record,
    first: &[u64],
    second: &[u64],
) -> Result<Comparison, Refusal> {
    compare(&from_record(record)?, first, second)
}

/// "Answers when writing: 8 if the lent page is too short, after 13. Writing returns
/// the bytes written"; "further cells keep what they held".
pub fn write_page_record(record: &Record, lent: &mut [u8]) -> Result<u64, Refusal> {
    let written = page::write(&page::rows(&from_record(record)?));
    if lent.len() < written.len() {
        return refuse(SHORT, 0);
    }
    lent[..written.len()].copy_from_slice(&written);
    Ok(written.len() as u64)
}

/// The refusals of the text itself, "then 8 for lists too short". Reading returns "the
/// number of batches"; "further cells keep what they held".
pub fn read_page(
    text: &[u8],
    matching: &mut [u64],
    weight: &mut [u64],
    gain: &mut [u64],
) -> Result<u64, Refusal> {
    let rows = page::read(text)?;
    if matching.len() < rows.len() || weight.len() < rows.len() || gain.len() < rows.len() {
        return refuse(SHORT, 0);
    }
    for (index, row) in rows.iter().enumerate() {
        matching[index] = row.item;
        weight[index] = row.weight;
        gain[index] = row.gain;
    }
    Ok(rows.len() as u64)
}

//! Boards for the slow count (document 02, R-9): up to 6 bidders and 6 places, and a few more.

use super::board::{raise_some, sound_of};
use super::history::{Call, History};
use super::items::rising;
use super::sheet::{edges, sheet, Pattern};
use crate::model::auction::*;
use crate::model::sound::Record;
use crate::rng::Rng;

/// So many places laid on items: each place but the first is a further one of the item
/// before, where the code's next bit is 1, or the first of a new item.
fn laid(places: u64, code: u64) -> Vec<u64> {
    let mut counts = vec![1];
    for bit in 0..places - 1 {
        match code >> bit & 1 {
            0 => counts.push(1),
            _ => *counts.last_mut().expect("an item") += 1,
        }
    }
    counts
}

/// Every way to lay so many places on items, 8 at most.
pub fn every_way(places: u64) -> impl Iterator<Item = Vec<u64>> {
    (0..1 << (places - 1)).map(move |code| laid(places, code))
}

/// Any such way; two in eight have an item for each place, one in eight one item for all.
pub fn any_way(rng: &mut Rng, places: u64) -> Vec<u64> {
    let any = rng.word();
    laid(places, rng.pick(&[0, 0, u64::MAX, any, any, any, any, any]))
}

/// Every list of some of so many items, in rising order; the first is empty.
pub fn every_choice(items: u64) -> impl Iterator<Item = Vec<u64>> {
    (0..1_u64 << items)
        .map(move |code| (1..=items).filter(|item| code >> (item - 1) & 1 == 1).collect())
}

/// A number up to 6, 6 itself at least one time in three.
fn up_to_6(rng: &mut Rng, least: u64) -> u64 {
    let any = rng.range(least, 6);
    rng.pick(&[any, any, 6])
}

/// A history of up to 6 bidders and 6 places. All calls are served.
pub fn small(rng: &mut Rng) -> History {
    let (bidders, places) = (up_to_6(rng, 0), up_to_6(rng, 1));
    let counts = any_way(rng, places);
    of_size(rng, bidders, counts)
}

/// A history of so many bidders: some arrive without an edge, and some items leave, before an
/// arrival or after the last.
pub fn of_size(rng: &mut Rng, bidders: u64, counts: Vec<u64>) -> History {
    let items = counts.len() as u64;
    let (pattern, density) = (rng.pick(&Pattern::ALL), rng.range(3, 8));
    let rows = sheet(rng, pattern, bidders, items, density);
    let withdrawals = rng.pick(&[0, 0, 1, 2]);
    let (mut live, mut calls) = ((1..=items).collect::<Vec<u64>>(), Vec::new());
    for row in rows {
        leave(rng, &mut live, withdrawals, &mut calls);
        let mut list = if rng.chance(1, 12) { Vec::new() } else { edges(&row) };
        list.retain(|edge| live.contains(&edge.item));
        calls.push(Call::Arrive(list));
    }
    leave(rng, &mut live, 3 * withdrawals, &mut calls);
    History { counts, slack: slack(rng), calls }
}

/// One or two of the live items leave, so many times in 8.
fn leave(rng: &mut Rng, live: &mut Vec<u64>, times: u64, calls: &mut Vec<Call>) {
    if rng.chance(times, 8) {
        let count = rng.range(1, 2) as usize;
        let items = rising(rng, live, count);
        live.retain(|item| !items.contains(item));
        calls.push(Call::Withdraw(items));
    }
}

fn slack(rng: &mut Rng) -> Slack {
    let (p, q) = rng.pick(&[(1, 2), (1, 10), (9, 10), (1, 1_000), (999, 1_000)]);
    Slack { p, q }
}

/// A sound board of up to 6 bidders and 6 places that no history need reach, one in two with
/// some edges as heavy as its prices and gains allow.
pub fn made(rng: &mut Rng) -> Record {
    let (bidders, places) = (up_to_6(rng, 0), up_to_6(rng, 1));
    made_of_size(rng, bidders, places)
}

/// The same of so many.
pub fn made_of_size(rng: &mut Rng, bidders: u64, places: u64) -> Record {
    let counts = any_way(rng, places);
    let mut record = sound_of(rng, &counts, bidders);
    if rng.chance(1, 2) {
        raise_some(rng, &mut record);
    }
    record
}

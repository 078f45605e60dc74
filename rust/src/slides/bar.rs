//! Calls made for the prices that they find, so that many utilities are ε times the
//! weight, which is not open, or next to it.

use super::beside::call_ours;
use crate::both::record;
use crate::ffi;
use crate::gen::history::{Call, History};
use crate::gen::items::{items_of, rising};
use crate::gen::places::counts;
use crate::model::auction::{Edge, Slack, MAX_BIDDERS, MAX_WEIGHT};
use crate::rng::Rng;

const SLACKS: [(u64, u64); 8] =
    [(1, 2), (1, 3), (2, 3), (1, 4), (3, 4), (1, 10), (9, 10), (99, 100)];

/// Edges at most live items. Where q × w - Y can be p × w it often is, or nearly.
fn near_the_bar(rng: &mut Rng, b: &ffi::Board) -> Vec<Edge> {
    let factor = b.slack.q - b.slack.p;
    let mut edges = Vec::new();
    for item in items_of(&record(b), false) {
        let place = rng.pick(&b.places_of(item as usize - 1).collect::<Vec<usize>>());
        let bar = b.price[place].0 / factor;
        let weight = match rng.below(8) {
            0..=2 => bar,
            3 => bar + 1,
            4 => bar.saturating_sub(1),
            _ => factor * rng.range(1, 40),
        };
        if rng.chance(3, 4) {
            edges.push(Edge { item, weight: weight.clamp(1, MAX_WEIGHT) });
        }
    }
    edges
}

/// An arrival near the bar, or some items that leave.
pub fn call_near_the_bar(rng: &mut Rng, b: &ffi::Board) -> Call {
    let live = items_of(&record(b), false);
    if rng.chance(1, 8) || b.arrived == MAX_BIDDERS as u64 {
        let count = rng.index(4);
        return Call::Withdraw(rising(rng, &live, count));
    }
    Call::Arrive(near_the_bar(rng, b))
}

/// A history made beside the board that it comes to, its items of up to so many places.
pub fn history_near_the_bar(rng: &mut Rng, most: u64) -> History {
    let (p, q) = rng.pick(&SLACKS);
    let items = rng.range(1, 8);
    let mut history =
        History { counts: counts(rng, items, most), slack: Slack { p, q }, calls: Vec::new() };
    let mut board = ffi::open_places(items, p, q, &history.counts).board;
    for _ in 0..rng.range(3, 30) {
        let call = call_near_the_bar(rng, &board);
        board = call_ours(board, &call).board;
        history.calls.push(call);
    }
    history
}

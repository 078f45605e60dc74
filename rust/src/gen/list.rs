//! Lists of edges of any length, for arrivals: rising, or with one fault.

use crate::model::auction::*;
use crate::model::refusal::*;
use crate::rng::Rng;

/// Edges at items 1, 2, 3 and so on, past the last item too.
pub fn rising(rng: &mut Rng, count: usize) -> Vec<Edge> {
    (1..=count as u64).map(|item| Edge { item, weight: rng.range(1, MAX_WEIGHT) }).collect()
}

/// Makes the edge at a place, from 1, one that is refused with this number.
/// `gone` is a withdrawn item.
pub fn spoil(rng: &mut Rng, list: &mut [Edge], place: usize, number: u64, gone: u64) {
    let before = if place == 1 { 0 } else { list[place - 2].item };
    let edge = &mut list[place - 1];
    match number {
        UNKNOWN => edge.item = rng.pick(&[0, 65, 1 << 32, u64::MAX]),
        GONE => edge.item = gone,
        WORTH => {
            edge.weight = rng.pick(&[0, 1_000_001, 1 << 32, u64::MAX]);
            edge.item = edge.item.min(64);
        }
        ORDER => edge.item = before.min(64),
        _ => panic!("no edge is refused with {number}"),
    }
}

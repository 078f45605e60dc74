//! How many places items have, for openings.

use crate::model::auction::{ones, MAX_COUNT, MAX_PLACES};
use crate::rng::Rng;

/// Up to so many places for each of some items, 64 at most in all; one item in three has one.
pub fn counts(rng: &mut Rng, items: u64, most: u64) -> Vec<u64> {
    let mut counts = ones(items);
    let mut room = MAX_PLACES as u64 - items;
    let mut order: Vec<usize> = (0..counts.len()).collect();
    rng.shuffle(&mut order);
    for item in order {
        let more = if rng.chance(1, 3) { 0 } else { rng.below(most).min(room) };
        counts[item] += more;
        room -= more;
    }
    counts
}

/// 64 places in all: items of 8, 4 or 2 places, one of 8 among others, or any.
pub fn full(rng: &mut Rng) -> Vec<u64> {
    match rng.below(5) {
        0 => vec![8; 8],
        1 => vec![4; 16],
        2 => vec![2; 32],
        3 => {
            let mut counts = ones(57);
            counts[rng.index(57)] = MAX_COUNT;
            counts
        }
        _ => {
            let items = rng.range(8, 24);
            filled(rng, items)
        }
    }
}

/// Items of any places, 64 in all.
fn filled(rng: &mut Rng, items: u64) -> Vec<u64> {
    let mut counts = ones(items);
    while counts.iter().sum::<u64>() < MAX_PLACES as u64 {
        let item = rng.index(counts.len());
        counts[item] += (counts[item] < MAX_COUNT) as u64;
    }
    counts
}

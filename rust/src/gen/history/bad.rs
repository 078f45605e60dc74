//! Calls that are refused, for histories.

use super::{edges, leaving, live_items, one_of, Call, Shape};
use crate::model::auction::Edge;
use crate::rng::Rng;

const STRANGE: [u64; 10] = [0, 65, 66, 127, 255, 256, 65_536, 1 << 32, 1 << 63, u64::MAX];
const BAD_WEIGHTS: [u64; 5] = [0, 1_000_001, 9_999_999, 1 << 32, u64::MAX];

/// A call that is refused, but for an arrival without edges or a withdrawal without
/// items.
pub(super) fn call(rng: &mut Rng, shape: &Shape, withdrawn: &[bool]) -> Call {
    let items = shape.counts.len() as u64;
    let any = rng.range(0, items + 1);
    let gone = (1..=items).filter(|&i| withdrawn[i as usize - 1]).collect::<Vec<u64>>();
    let bad_item = match rng.below(3) {
        0 => rng.pick(&STRANGE),
        1 => rng.pick(&[0, items + 1]),
        _ => one_of(rng, &gone).unwrap_or(any),
    };
    if rng.chance(1, 3) {
        let live = live_items(withdrawn);
        let mut list = leaving(rng, &live, items);
        spoil_items(rng, &mut list, if live.contains(&bad_item) { 0 } else { bad_item });
        return Call::Withdraw(list);
    }
    let mut list = edges(rng, shape, withdrawn);
    for _ in 0..rng.range(1, 2) {
        spoil_edges(rng, &mut list, bad_item);
    }
    Call::Arrive(list)
}

fn spoil_items(rng: &mut Rng, list: &mut Vec<u64>, bad_item: u64) {
    match rng.below(8) {
        0 => list.clear(),
        1 => *list = vec![bad_item],
        2 if !list.is_empty() => {
            let at = rng.index(list.len());
            list.insert(at, list[at]);
        }
        3 if list.len() > 1 => list.reverse(),
        4 => list.extend(1..=70),
        _ => {
            let at = rng.index(list.len() + 1);
            list.insert(at, bad_item);
        }
    }
}

fn spoil_edges(rng: &mut Rng, list: &mut Vec<Edge>, bad_item: u64) {
    match rng.below(5) {
        0 => {
            let at = rng.index(list.len() + 1);
            list.insert(at, Edge { item: bad_item, weight: rng.pick(&[0, 1, 5]) });
        }
        1 => list.push(Edge { item: 1, weight: 1 }),
        2 if !list.is_empty() => {
            let again = rng.pick(list);
            list.push(again);
        }
        3 if !list.is_empty() => list.reverse(),
        _ if !list.is_empty() => {
            let at = rng.index(list.len());
            list[at].weight = rng.pick(&BAD_WEIGHTS);
        }
        _ => list.extend((0..70).map(|i| Edge { item: i + 1, weight: 1 })),
    }
}

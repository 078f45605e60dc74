//! The greatest weight of a plan, found otherwise than by the count of R-9 in document 02:
//! every list of cells is written down, as a counter runs through its numbers, and those that
//! are no plans are struck out.

use crate::gen::plan::{times, Ground};
use crate::plans::weight_of;

/// The greatest weight of a plan.
pub fn greatest(ground: &Ground) -> u64 {
    let mut best = 0;
    for_each_plan(ground, |plan| best = best.max(weight_of(&ground.live, plan)));
    best
}

/// How many plans there are of each weight, from the lightest: the empty one is among them.
pub fn by_weight(ground: &Ground) -> Vec<(u64, u64)> {
    let mut weights = Vec::new();
    for_each_plan(ground, |plan| weights.push(weight_of(&ground.live, plan)));
    weights.sort();
    let alike = weights.chunk_by(|one, other| one == other);
    alike.map(|weights| (weights[0], weights.len() as u64)).collect()
}

fn for_each_plan(ground: &Ground, mut work: impl FnMut(&[u64])) {
    let mut cells = vec![0; ground.live.len()];
    loop {
        if is_plan(ground, &cells) {
            work(&cells);
        }
        if !next(&mut cells, ground.counts.len() as u64) {
            return;
        }
    }
}

/// The first cell that may rise does, and those before it are 0 again; false after the last
/// list.
fn next(cells: &mut [u64], most: u64) -> bool {
    for cell in cells {
        if *cell < most {
            *cell += 1;
            return true;
        }
        *cell = 0;
    }
    false
}

/// Only along live edges, and no item more often than it has places.
fn is_plan(ground: &Ground, cells: &[u64]) -> bool {
    let along = |(row, &cell): (&Vec<u64>, &u64)| cell == 0 || row[cell as usize - 1] != 0;
    let mut items = (1..).zip(&ground.counts);
    ground.live.iter().zip(cells).all(along)
        && items.all(|(item, &count)| times(cells, item) <= count)
}

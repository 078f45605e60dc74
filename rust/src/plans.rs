//! What R-4 of document 02 says of two plans, said otherwise than in the model: a key by
//! which plans are sorted, and every refusal that is met.

use crate::gen::plan::{times, Ground};
use crate::gen::sheet::Sheet;
use crate::model::compare::Comparison;
use crate::model::refusal::*;
use crate::model::sound::Record;
use std::cmp::Reverse;

/// The weight of a plan on these live edges.
pub fn weight_of(live: &Sheet, plan: &[u64]) -> u64 {
    let placed = plan.iter().zip(live).filter(|(&cell, _)| cell != 0);
    placed.map(|(&cell, row)| row[cell as usize - 1]).sum()
}

/// Plans whose keys rise stand in order: "the greater worth first, then by the plan's
/// cells, the first smaller cell making the earlier plan".
pub fn key<'a>(live: &Sheet, plan: &'a [u64]) -> (Reverse<u64>, &'a [u64]) {
    (Reverse(weight_of(live, plan)), plan)
}

/// Every refusal that one plan meets, place by place. "A plan may name a kettle once per
/// place" (R-6).
fn met_by(Ground { live, counts }: &Ground, plan: &[u64]) -> Vec<Refusal> {
    if plan.len() != live.len() {
        return vec![Refusal { number: UNEVEN, place: 0 }];
    }
    let mut all = Vec::new();
    for (bidder, row) in live.iter().enumerate() {
        let cell = plan[bidder];
        let known = 1 <= cell && cell <= row.len() as u64;
        let edge = known && row[cell as usize - 1] != 0;
        let full = edge && times(&plan[..=bidder], cell) > counts[cell as usize - 1];
        if cell != 0 && (!edge || full) {
            all.push(Refusal { number: CLASH, place: bidder as u64 + 1 });
        }
    }
    all
}

/// "9 and 10 for the first plan, then 9 and 10 for the second", on a sound board.
pub fn met(r: &Record, first: &[u64], second: &[u64]) -> Vec<Refusal> {
    let ground = Ground::of(r);
    [first, second].iter().flat_map(|plan| met_by(&ground, plan)).collect()
}

/// The first refusal met, or how the plans compare, on a sound board.
pub fn expected(r: &Record, first: &[u64], second: &[u64]) -> Result<Comparison, Refusal> {
    if let Some(&refusal) = met(r, first, second).first() {
        return Err(refusal);
    }
    let Ground { live, .. } = Ground::of(r);
    let weights = [first, second].map(|plan| weight_of(&live, plan) as i64);
    let order = key(&live, first).cmp(&key(&live, second));
    Ok(Comparison { difference: weights[0] - weights[1], order })
}

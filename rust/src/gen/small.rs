//! Sheets of small weights, for R-8 of document 02: "Where 2 × p times the greatest worth of a
//! plan on the live sheet, line `E`, is below q + p". A slack is drawn for the greatest weight, so
//! that a good part stands near this limit, on it and on either side of it.

use super::board::{raise_some, sound_at};
use super::history::{pounds, Call, History};
use super::items::rising;
use super::places::{counts, full};
use super::plan::{times, Ground, Plan};
use super::sheet::{edges, sheet, Pattern};
use crate::model::auction::*;
use crate::model::hungarian::{solve, Exact};
use crate::model::sound::Record;
use crate::rng::Rng;
use std::cmp::{Ordering, Reverse};

/// How 2 × p times the greatest weight stands to q + p.
pub fn stands(Slack { p, q }: Slack, greatest: u64) -> Ordering {
    (2 * p * greatest).cmp(&(q + p))
}

/// The greatest weight that stands below.
pub fn most_below(Slack { p, q }: Slack) -> u64 {
    (q + p - 1) / (2 * p)
}

/// A history, and the greatest weight on the live sheet that it comes to.
#[derive(Clone, Debug)]
pub struct Small {
    pub history: History,
    pub greatest: u64,
}

/// A matching of greatest weight on the live sheet that a history comes to, by the model's
/// solver. The slack has no part in it.
fn exact(history: &History) -> Exact {
    let auction = history.auction();
    solve(&auction.live_weights(), &auction.counts())
}

/// Few have a greatest weight of 0.
pub fn small(rng: &mut Rng) -> Small {
    let most = rng.pick(&[1, 2, 3, 4, 6, 10, 40]);
    let history = pounds(rng, most);
    let greatest = exact(&history).weight;
    if greatest == 0 && rng.chance(9, 10) {
        return small(rng);
    }
    Small { history: History { slack: slack_for(rng, greatest), ..history }, greatest }
}

/// 1/1,000, 1/q or p/q. At a q of p × (2 × E - 1) twice p × E is q + p; three in four have this
/// q, or one at most 2 × p from it.
fn slack_for(rng: &mut Rng, greatest: u64) -> Slack {
    let odd = (2 * greatest).max(2) - 1;
    let p = match rng.below(8) {
        0 => return Slack { p: 1, q: MAX_Q },
        1..=4 => 1,
        _ => rng.range(2, (MAX_Q / odd).clamp(2, MAX_Q - 1)),
    };
    let near = rng.range(1, 2 * p);
    let q = match rng.below(4) {
        0 => p * odd,
        1 => p * odd + near,
        2 => (p * odd).saturating_sub(near),
        _ => rng.range(p + 1, MAX_Q),
    };
    Slack { p, q: q.clamp(p + 1, MAX_Q) }
}

/// A history at 1/q whose greatest weight is from 1 to this, in one of two this itself: there an
/// edge of a matching of greatest weight has been given what was missing.
pub fn up_to(rng: &mut Rng, most: u64, q: u64) -> Small {
    loop {
        let heaviest = rng.range(1, most.div_ceil(2));
        let mut history = pounds(rng, heaviest);
        let Exact { weight, matching, .. } = exact(&history);
        if weight == 0 || weight > most {
            continue;
        }
        let more = if rng.chance(1, 2) { most - weight } else { 0 };
        add(rng, &mut history, &matching, more);
        history.slack = Slack { p: 1, q };
        return Small { history, greatest: weight + more };
    }
}

/// So much more for one of the edges of a matching.
fn add(rng: &mut Rng, history: &mut History, matching: &[u64], more: u64) {
    let placed: Vec<usize> = (0..matching.len()).filter(|&b| matching[b] != 0).collect();
    let bidder = rng.pick(&placed);
    let mut lists = history.calls.iter_mut().filter_map(|call| match call {
        Call::Arrive(edges) => Some(edges),
        Call::Withdraw(_) => None,
    });
    let edges = lists.nth(bidder).expect("it has arrived");
    let edge = edges.iter_mut().find(|edge| edge.item == matching[bidder]);
    edge.expect("an edge of the matching").weight += more;
}

/// Up to 128 bidders and 64 places, a few items that leave at the end, and the greatest slack 1/q
/// at which the sheet stands below.
pub fn large(rng: &mut Rng) -> Small {
    let counts = if rng.chance(1, 2) { ones(rng.range(20, 64)) } else { full(rng) };
    let (items, bidders, density) = (counts.len() as u64, rng.range(40, 128), rng.range(1, 8));
    let pattern = Pattern::UpTo(rng.pick(&[1, 3, 7]));
    let rows = sheet(rng, pattern, bidders, items, density);
    let mut calls: Vec<Call> = rows.iter().map(|row| Call::Arrive(edges(row))).collect();
    let all: Vec<u64> = (1..=items).collect();
    calls.push(Call::Withdraw(rising(rng, &all, 3)));
    let mut history = History { counts, slack: Slack { p: 1, q: 2 }, calls };
    let greatest = exact(&history).weight;
    history.slack.q = (2 * greatest).max(2);
    Small { history, greatest }
}

/// A sound board of small weights that no history need reach, in three of four with some edges
/// as heavy as its prices and gains allow.
pub fn made(rng: &mut Rng) -> Record {
    let items = rng.range(1, 4);
    let several = rng.chance(1, 2);
    let counts = if several { counts(rng, items, 3) } else { ones(items) };
    let (arrived, most) = (rng.range(1, 8), rng.pick(&[1, 2, 3, 5, 20]));
    let guess = rng.range(1, most * arrived.min(items));
    let slack = slack_for(rng, guess);
    let mut record = sound_at(rng, &counts, arrived, slack, most);
    if rng.chance(3, 4) {
        raise_some(rng, &mut record);
    }
    record
}

/// The plan without prices in which bidder after bidder takes the heaviest of its items that has
/// a free place, and keeps it.
pub fn first_come(ground: &Ground) -> Plan {
    let mut plan = vec![0; ground.live.len()];
    for bidder in 0..plan.len() {
        let weight = |item: &u64| ground.live[bidder][*item as usize - 1];
        plan[bidder] = ground.free(&plan, bidder).into_iter().max_by_key(weight).unwrap_or(0);
    }
    plan
}

/// The plan without prices that takes the heaviest edge, then the heaviest that still fits, and so
/// on.
pub fn heaviest_first(ground: &Ground) -> Plan {
    let row = |(bidder, row): (usize, &Vec<u64>)| {
        edges(row).into_iter().map(move |edge| (edge, bidder)).collect::<Vec<_>>()
    };
    let mut all: Vec<(Edge, usize)> = ground.live.iter().enumerate().flat_map(row).collect();
    all.sort_by_key(|(edge, _)| Reverse(edge.weight));
    let mut plan = vec![0; ground.live.len()];
    for (Edge { item, .. }, bidder) in all {
        if plan[bidder] == 0 && times(&plan, item) < ground.counts[item as usize - 1] {
            plan[bidder] = item;
        }
    }
    plan
}

//! Histories on which bids are counted, as they were until R-7 of document 02 and since: the
//! dense texts, and twenty histories of different sizes. "Long price wars fill the log."

use crate::gen::history::{Call, History};
use crate::gen::items::rising;
use crate::gen::places::counts;
use crate::gen::sheet::{edges, sheet, Pattern};
use crate::gen::text::{dense, dense_places};
use crate::model::auction::{ones, Slack, MAX_WEIGHT};
use crate::model::text::replay;
use crate::raises::{walked, Raise};
use crate::rng::Rng;

/// The seeds of the twenty.
pub const SEEDS: std::ops::Range<u64> = 7_000..7_020;

pub struct War {
    pub name: String,
    pub history: History,
}

/// The bids of a history, all of whose calls are served.
#[derive(Clone, Copy, Debug, PartialEq, Eq)]
pub struct Bids {
    pub until: u64,
    pub since: u64,
}

impl War {
    pub fn bids(&self) -> Bids {
        let bids = |raise: Raise| walked(&self.history, raise).ties.bids;
        Bids { until: bids(Raise::Slack), since: bids(Raise::Lead) }
    }

    /// Items, places, bidders and edges.
    pub fn size(&self) -> [usize; 4] {
        let History { counts, calls, .. } = &self.history;
        let lists = calls.iter().filter_map(|call| match call {
            Call::Arrive(edges) => Some(edges.len()),
            Call::Withdraw(_) => None,
        });
        let places = counts.iter().sum::<u64>() as usize;
        [counts.len(), places, lists.clone().count(), lists.sum()]
    }
}

/// The dense texts first.
pub fn wars() -> Vec<War> {
    let texts = [("the dense text", dense()), ("the dense text of places", dense_places())];
    let texts = texts.map(|(name, text)| War { name: name.into(), history: told_by(&text) });
    let others = SEEDS.map(|seed| War { name: format!("seed {seed}"), history: war(seed) });
    texts.into_iter().chain(others).collect()
}

/// The history of a text that has no `W` line.
fn told_by(text: &[u8]) -> History {
    let (auction, _) = replay(text).expect("a served text");
    let (counts, slack) = (auction.counts(), auction.slack);
    let calls = auction.bidders.into_iter().map(|bidder| Call::Arrive(bidder.edges)).collect();
    History { counts, slack, calls }
}

/// More bidders than places more often than not; of three one with places, and one with items
/// that leave at the end.
fn war(seed: u64) -> History {
    let rng = &mut Rng::new(seed);
    let (items, q) = (rng.range(2, 40), rng.pick(&[10, 20, 50, 100, 200, 500, 1_000]));
    let counts = if seed % 3 == 0 { counts(rng, items, 3) } else { ones(items) };
    let bidders = rng.range(items, 128);
    let (most, density) = (rng.pick(&[100, 9_999, MAX_WEIGHT]), rng.range(2, 8));
    let rows = sheet(rng, Pattern::UpTo(most), bidders, items, density);
    let mut calls: Vec<Call> = rows.iter().map(|row| Call::Arrive(edges(row))).collect();
    if seed % 3 == 1 {
        let all: Vec<u64> = (1..=items).collect();
        calls.push(Call::Withdraw(rising(rng, &all, items as usize / 4)));
    }
    History { counts, slack: Slack { p: 1, q }, calls }
}

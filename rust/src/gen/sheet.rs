//! Whole sheets of weights, for the exact level, and boards that hold them.

use crate::model::auction::*;
use crate::model::sound::{to_record, Record};
use crate::rng::Rng;

/// A row per bidder, a column per item, 0 for no edge.
pub type Sheet = Vec<Vec<u64>>;

/// How a sheet's weights come about.
#[derive(Clone, Copy, Debug, PartialEq, Eq)]
pub enum Pattern {
    UpTo(u64),
    /// 9,000 and a random part.
    Close,
    Product,
    /// Every edge weighs the same.
    Level,
    /// Falls along the diagonals.
    Diagonal,
    /// Only 1 and 1,000,000.
    Ends,
    /// Edges at two items in a row, one bidder further each time.
    Chain,
}

impl Pattern {
    pub const ALL: [Pattern; 10] = [
        Pattern::UpTo(1),
        Pattern::UpTo(3),
        Pattern::UpTo(9_999),
        Pattern::UpTo(MAX_WEIGHT),
        Pattern::Close,
        Pattern::Product,
        Pattern::Level,
        Pattern::Diagonal,
        Pattern::Ends,
        Pattern::Chain,
    ];

    fn weight(self, rng: &mut Rng, bidder: u64, item: u64) -> u64 {
        match self {
            Pattern::UpTo(most) => rng.range(1, most),
            Pattern::Close => 9_000 + rng.range(0, 999),
            Pattern::Product => (bidder + 1) * (item + 1),
            Pattern::Level => 777,
            Pattern::Diagonal => 9_999 - 70 * ((bidder + item) % 128),
            Pattern::Ends => rng.pick(&[1, MAX_WEIGHT]),
            Pattern::Chain if item == bidder || item == bidder + 1 => 100,
            Pattern::Chain => 0,
        }
    }
}

/// Edges stand `density` times in 8.
pub fn sheet(rng: &mut Rng, pattern: Pattern, bidders: u64, items: u64, density: u64) -> Sheet {
    let mut cell = |bidder: u64, item: u64| match rng.chance(density, 8) {
        true => pattern.weight(rng, bidder, item),
        false => 0,
    };
    (0..bidders).map(|bidder| (0..items).map(|item| cell(bidder, item)).collect()).collect()
}

/// The board after these bidders have arrived at slack 1/2 in a random order of
/// rows, and up to `withdrawals` items have left. Items have one place each.
pub fn board(rng: &mut Rng, sheet: Sheet, items: u64, withdrawals: u64) -> Record {
    board_of(rng, sheet, &ones(items), withdrawals)
}

/// The same of items with so many places.
pub fn board_of(rng: &mut Rng, mut sheet: Sheet, counts: &[u64], withdrawals: u64) -> Record {
    let items = counts.len() as u64;
    let opened = Auction::open_places(items, Slack { p: 1, q: 2 }, counts);
    let mut auction = opened.expect("1 to 64 items, 64 places at most");
    rng.shuffle(&mut sheet);
    for row in &sheet {
        auction.arrive(&edges(row)).expect("a row is a list of edges");
    }
    for _ in 0..withdrawals {
        auction.withdraw(&[rng.range(1, items)]).ok();
    }
    to_record(&auction)
}

/// The weights of a board's live edges.
pub fn live(r: &Record) -> Sheet {
    let weight = |bidder: usize, item: usize| match r.is_gone(item) {
        true => 0,
        false => r.weight_at(bidder, item),
    };
    let row = |bidder: usize| (0..r.items as usize).map(|item| weight(bidder, item)).collect();
    (0..r.arrived as usize).map(row).collect()
}

/// The weights of all its edges, those at withdrawn items too.
pub fn all(r: &Record) -> Sheet {
    let row = |bidder: usize| (0..r.items as usize).map(|item| r.weight_at(bidder, item)).collect();
    (0..r.arrived as usize).map(row).collect()
}

/// A row's edges in rising order.
pub fn edges(row: &[u64]) -> Vec<Edge> {
    let cells = row.iter().enumerate().filter(|(_, &weight)| weight != 0);
    cells.map(|(item, &weight)| Edge { item: item as u64 + 1, weight }).collect()
}

//! Random histories: an opening and the calls after it.

use super::items::rising;
use super::places::{counts, full};
use crate::model::auction::*;
use crate::model::refusal::Refusal;
use crate::rng::Rng;

mod bad;

#[derive(Clone, Debug)]
pub enum Call {
    Arrive(Vec<Edge>),
    Withdraw(Vec<u64>),
}

#[derive(Clone, Debug)]
pub struct History {
    /// How many places each item has.
    pub counts: Vec<u64>,
    pub slack: Slack,
    pub calls: Vec<Call>,
}

impl History {
    /// One of items with one place each.
    pub fn of_ones(items: u64, slack: Slack, calls: Vec<Call>) -> History {
        History { counts: ones(items), slack, calls }
    }

    pub fn items(&self) -> u64 {
        self.counts.len() as u64
    }

    /// The auction before the calls.
    pub fn opened(&self) -> Auction {
        Auction::open_places(self.items(), self.slack, &self.counts).expect("it opens")
    }

    /// The auction that the calls come to. All are served.
    pub fn auction(&self) -> Auction {
        let mut auction = self.opened();
        for call in &self.calls {
            call.carry_out(&mut auction).expect("a good call");
        }
        auction
    }
}

impl Call {
    /// The call's bids.
    pub fn carry_out(&self, auction: &mut Auction) -> Result<u64, Refusal> {
        match self {
            Call::Arrive(edges) => auction.arrive(edges),
            Call::Withdraw(items) => auction.withdraw(items),
        }
    }
}

/// In every kind but `Refused` and `PlacesRefused` each call is served. From `Places` on
/// items have several places (document 02, R-6).
#[derive(Clone, Copy, Debug, PartialEq, Eq)]
pub enum Kind {
    Small,
    Sparse,
    Dense,
    Ties,
    Limits,
    Withdrawals,
    Refused,
    EqualUtility,
    Lists,
    Places,
    PlacesTies,
    PlacesLimits,
    PlacesRefused,
    PlacesEqualUtility,
    PlacesLists,
}

impl Kind {
    pub const ALL: [Kind; 15] = [
        Kind::Small,
        Kind::Sparse,
        Kind::Dense,
        Kind::Ties,
        Kind::Limits,
        Kind::Withdrawals,
        Kind::Refused,
        Kind::EqualUtility,
        Kind::Lists,
        Kind::Places,
        Kind::PlacesTies,
        Kind::PlacesLimits,
        Kind::PlacesRefused,
        Kind::PlacesEqualUtility,
        Kind::PlacesLists,
    ];

    /// Those with several places, all of whose calls are served.
    pub const OF_PLACES: [Kind; 5] = [
        Kind::Places,
        Kind::PlacesTies,
        Kind::PlacesLimits,
        Kind::PlacesEqualUtility,
        Kind::PlacesLists,
    ];

    /// Whether every call is served.
    pub fn is_served(self) -> bool {
        !matches!(self, Kind::Refused | Kind::PlacesRefused)
    }

    /// Whether it takes many bids or long texts, so that few are tried.
    pub fn is_large(self) -> bool {
        matches!(self, Kind::Limits | Kind::PlacesLimits)
    }
}

/// What a kind fixes about its histories.
struct Shape {
    counts: Vec<u64>,
    slack: Slack,
    calls: u64,
    /// Edges that a bidder has, of the live items.
    most_edges: u64,
    weights: Weights,
    /// Withdrawals and bad calls, of 100 calls.
    withdrawals: u64,
    refused: u64,
    /// Items that leave at once.
    most_items: u64,
}

#[derive(Clone, Copy)]
enum Weights {
    UpTo(u64),
    Among(&'static [u64]),
    /// Within 10 of either limit.
    Ends,
}

pub fn history(rng: &mut Rng, kind: Kind) -> History {
    match kind {
        Kind::Small => shaped(rng, small),
        Kind::Sparse => shaped(rng, sparse),
        Kind::Dense => shaped(rng, dense),
        Kind::Ties => shaped(rng, ties),
        Kind::Limits => shaped(rng, limits),
        Kind::Withdrawals => shaped(rng, withdrawals),
        Kind::Refused => shaped(rng, refused),
        Kind::EqualUtility => equal_utility(rng, |rng| ones(rng.range(2, 7))),
        Kind::Lists => shaped(rng, lists),
        Kind::Places => shaped(rng, places),
        Kind::PlacesTies => shaped(rng, places_ties),
        Kind::PlacesLimits => shaped(rng, places_limits),
        Kind::PlacesRefused => shaped(rng, places_refused),
        Kind::PlacesEqualUtility => equal_utility(rng, |rng| some_counts(rng, 2, 5, 3)),
        Kind::PlacesLists => shaped(rng, places_lists),
    }
}

fn shaped(rng: &mut Rng, shape: fn(&mut Rng) -> Shape) -> History {
    let shape = shape(rng);
    of_shape(rng, shape)
}

fn of_shape(rng: &mut Rng, shape: Shape) -> History {
    let mut withdrawn = vec![false; shape.counts.len()];
    let mut arrived = 0;
    let mut calls = Vec::new();
    for _ in 0..shape.calls {
        if rng.chance(shape.refused, 100) {
            calls.push(bad::call(rng, &shape, &withdrawn));
        } else if rng.chance(shape.withdrawals, 100) {
            let items = leaving(rng, &live_items(&withdrawn), shape.most_items);
            items.iter().for_each(|&item| withdrawn[item as usize - 1] = true);
            calls.extend((!items.is_empty()).then_some(Call::Withdraw(items)));
        } else if arrived < MAX_BIDDERS || shape.refused > 0 {
            arrived += 1;
            calls.push(Call::Arrive(edges(rng, &shape, &withdrawn)));
        }
    }
    History { counts: shape.counts, slack: shape.slack, calls }
}

/// Some items of up to so many places each.
fn some_counts(rng: &mut Rng, low: u64, high: u64, most: u64) -> Vec<u64> {
    let items = rng.range(low, high);
    counts(rng, items, most)
}

fn small(rng: &mut Rng) -> Shape {
    Shape {
        counts: ones(rng.range(1, 4)),
        slack: slack_to(rng, 10),
        calls: rng.range(0, 9),
        most_edges: 4,
        weights: Weights::UpTo(20),
        withdrawals: 15,
        refused: 0,
        most_items: 3,
    }
}

fn sparse(rng: &mut Rng) -> Shape {
    Shape {
        counts: ones(rng.range(5, 64)),
        slack: slack_to(rng, 100),
        calls: rng.range(1, 100),
        weights: Weights::UpTo(1_000),
        withdrawals: 5,
        most_items: 6,
        ..small(rng)
    }
}

fn dense(rng: &mut Rng) -> Shape {
    Shape {
        counts: ones(rng.range(2, 20)),
        slack: slack_to(rng, 50),
        calls: rng.range(1, 40),
        most_edges: 64,
        weights: Weights::UpTo(9_999),
        withdrawals: 3,
        refused: 0,
        most_items: 4,
    }
}

fn ties(rng: &mut Rng) -> Shape {
    Shape {
        counts: ones(rng.range(2, 10)),
        slack: Slack { p: 1, q: rng.pick(&[2, 3, 5, 10]) },
        calls: rng.range(1, 25),
        most_edges: 10,
        weights: Weights::Among(&[5, 10, 10, 20]),
        withdrawals: 10,
        refused: 0,
        most_items: 3,
    }
}

fn withdrawals(rng: &mut Rng) -> Shape {
    Shape {
        counts: ones(rng.range(8, 40)),
        slack: slack_to(rng, 20),
        calls: rng.range(10, 80),
        most_edges: 12,
        weights: Weights::UpTo(300),
        withdrawals: 40,
        refused: 0,
        most_items: 2,
    }
}

/// More bidders than items, so that several items that leave displace several bidders,
/// and these displace others.
fn lists(rng: &mut Rng) -> Shape {
    Shape {
        counts: ones(rng.range(4, 16)),
        slack: Slack { p: 1, q: rng.pick(&[3, 10, 30]) },
        calls: rng.range(12, 50),
        most_edges: 9,
        weights: Weights::Among(&[30, 40, 47, 50, 53, 60]),
        withdrawals: 12,
        refused: 0,
        most_items: 6,
    }
}

fn refused(rng: &mut Rng) -> Shape {
    Shape {
        counts: ones(rng.pick(&[1, 3, 8, 64])),
        calls: rng.pick(&[5, 20, 60, 260]),
        weights: Weights::UpTo(200),
        withdrawals: 12,
        refused: 40,
        ..small(rng)
    }
}

fn limits(rng: &mut Rng) -> Shape {
    let (p, q) = rng.pick(&[(1, 1_000), (999, 1_000), (1, 2), (500, 999), (7, 1_000)]);
    Shape {
        counts: ones(rng.range(63, 64)),
        slack: Slack { p, q },
        calls: rng.range(120, 135),
        most_edges: if p == 1 && q > 2 { 3 } else { rng.pick(&[2, 16, 64]) },
        weights: Weights::Ends,
        withdrawals: rng.pick(&[0, 3]),
        refused: 0,
        most_items: rng.pick(&[1, 3, 64]),
    }
}

/// Up to 40 places, fewer than bidders more often than not.
fn places(rng: &mut Rng) -> Shape {
    Shape {
        counts: some_counts(rng, 1, 8, 5),
        slack: slack_to(rng, 30),
        calls: rng.range(1, 50),
        most_edges: 6,
        weights: Weights::UpTo(60),
        withdrawals: 8,
        refused: 0,
        most_items: 3,
    }
}

/// Few weights, so that places of one item and of several are equal.
fn places_ties(rng: &mut Rng) -> Shape {
    Shape {
        counts: some_counts(rng, 1, 5, 4),
        slack: Slack { p: 1, q: rng.pick(&[2, 3, 5, 10]) },
        calls: rng.range(1, 30),
        most_edges: 64,
        weights: Weights::Among(&[5, 10, 10, 20]),
        withdrawals: 8,
        refused: 0,
        most_items: 2,
    }
}

/// 64 places in all.
fn places_limits(rng: &mut Rng) -> Shape {
    let counts = full(rng);
    Shape { most_items: rng.pick(&[1, 3, counts.len() as u64]), counts, ..limits(rng) }
}

fn places_refused(rng: &mut Rng) -> Shape {
    let (low, high) = rng.pick(&[(1, 1), (3, 3), (8, 8), (30, 40)]);
    Shape { counts: some_counts(rng, low, high, 4), ..refused(rng) }
}

/// As `lists`: each item that leaves displaces several bidders.
fn places_lists(rng: &mut Rng) -> Shape {
    Shape {
        counts: some_counts(rng, 2, 7, 4),
        calls: rng.range(12, 60),
        most_edges: 6,
        most_items: 3,
        ..lists(rng)
    }
}

fn slack_to(rng: &mut Rng, most: u64) -> Slack {
    let q = rng.range(2, most);
    let p = rng.range(1, q - 1);
    Slack { p: rng.pick(&[1, 1, p]), q }
}

fn one_of(rng: &mut Rng, items: &[u64]) -> Option<u64> {
    (!items.is_empty()).then(|| rng.pick(items))
}

/// Items that leave at once: one, or up to so many.
fn leaving(rng: &mut Rng, live: &[u64], most: u64) -> Vec<u64> {
    let count = if rng.chance(1, 3) { 1 } else { rng.range(1, most) };
    rising(rng, live, count as usize)
}

fn live_items(withdrawn: &[bool]) -> Vec<u64> {
    let live = withdrawn.iter().enumerate().filter(|(_, &gone)| !gone);
    live.map(|(item, _)| item as u64 + 1).collect()
}

fn weight(rng: &mut Rng, weights: Weights) -> u64 {
    match weights {
        Weights::UpTo(most) => rng.range(1, most),
        Weights::Among(list) => rng.pick(list),
        Weights::Ends if rng.chance(1, 3) => rng.range(1, 10),
        Weights::Ends => rng.range(MAX_WEIGHT - 10, MAX_WEIGHT),
    }
}

fn edges(rng: &mut Rng, shape: &Shape, withdrawn: &[bool]) -> Vec<Edge> {
    let mut items = live_items(withdrawn);
    rng.shuffle(&mut items);
    let full = shape.most_edges >= 64 && rng.chance(3, 4);
    let most = shape.most_edges.min(items.len() as u64);
    items.truncate(if full { items.len() } else { rng.range(0, most) as usize });
    items.sort();
    items.into_iter().map(|item| Edge { item, weight: weight(rng, shape.weights) }).collect()
}

/// A history made beside its auction: each arrival is made for the prices that it
/// finds, so that many edges of different weights have one utility.
fn equal_utility(rng: &mut Rng, counts: fn(&mut Rng) -> Vec<u64>) -> History {
    let (p, q) = rng.pick(&[(1, 2), (1, 3), (1, 10), (2, 5)]);
    let opening = History { counts: counts(rng), slack: Slack { p, q }, calls: Vec::new() };
    let (mut auction, mut calls) = (opening.opened(), Vec::new());
    for _ in 0..rng.range(3, 20) {
        let withdrawn: Vec<bool> = auction.items.iter().map(|item| item.withdrawn).collect();
        let live = live_items(&withdrawn);
        let call = match one_of(rng, &live) {
            Some(_) if rng.chance(10, 100) => Call::Withdraw(leaving(rng, &live, 2)),
            Some(item) => Call::Arrive(meeting(rng, &auction, &live, item)),
            None => Call::Arrive(Vec::new()),
        };
        call.carry_out(&mut auction).expect("a good call");
        calls.push(call);
    }
    History { calls, ..opening }
}

/// Edges at most live items. Where the price allows it, at the item `met` at least,
/// "q × w - Y" is one number for all.
fn meeting(rng: &mut Rng, auction: &Auction, live: &[u64], met: u64) -> Vec<Edge> {
    let (q, prices) = (auction.slack.q, auction.prices());
    let price = |item: u64| prices[item as usize - 1];
    let utility = 300 * q * rng.range(1, 3) - price(met) % q;
    let mut edges = Vec::new();
    for &item in live {
        let scaled = utility + price(item);
        let meets = scaled % q == 0 && rng.chance(7, 8);
        let weight = if meets { scaled / q } else { rng.pick(&[30, 300, 600]) };
        if rng.chance(3, 4) {
            edges.push(Edge { item, weight });
        }
    }
    edges
}

/// So few bidders and places that every plan can be tried, also after each call.
pub fn tiny_places(rng: &mut Rng) -> History {
    shaped(rng, |rng| Shape {
        counts: some_counts(rng, 1, 3, 3),
        slack: slack_to(rng, 10),
        calls: rng.range(1, 7),
        most_edges: 3,
        weights: Weights::UpTo(12),
        withdrawals: 12,
        refused: 0,
        most_items: 2,
    })
}

/// "Village kitchens enter worths in pounds" (document 02, R-8): few items, which may have several
/// places in one of two, often more bidders than places, and weights up to this. The slack is 1/2.
pub fn pounds(rng: &mut Rng, most: u64) -> History {
    let several = rng.chance(1, 2);
    let counts = if several { some_counts(rng, 1, 4, 3) } else { ones(rng.range(1, 5)) };
    let shape = Shape {
        counts,
        slack: Slack { p: 1, q: 2 },
        calls: rng.range(2, 12),
        most_edges: rng.pick(&[3, 64]),
        weights: Weights::UpTo(most),
        withdrawals: rng.pick(&[0, 10, 20]),
        refused: 0,
        most_items: 2,
    };
    of_shape(rng, shape)
}

/// The deepest alternating path: `items` bidders, the last of whom moves every
/// other to its second item.
pub fn staircase(items: u64) -> History {
    let step = |i: u64| vec![Edge { item: i, weight: 100 }, Edge { item: i + 1, weight: 100 }];
    let mut calls: Vec<Call> = (1..items).map(|i| Call::Arrive(step(i))).collect();
    calls.push(Call::Arrive(vec![Edge { item: 1, weight: 100 }]));
    History::of_ones(items, Slack { p: 1, q: 2 }, calls)
}

/// The same path, its bidders in the other order but for the last.
pub fn staircase_down(items: u64) -> History {
    let mut history = staircase(items);
    history.calls[..items as usize - 1].reverse();
    history
}

/// Every bidder has every edge, all of one weight: the one bidder too many looks
/// at every item and its holder.
pub fn level(items: u64, bidders: usize) -> History {
    level_of(ones(items), bidders)
}

/// The same of items with so many places.
pub fn level_of(counts: Vec<u64>, bidders: usize) -> History {
    let edge = |item: usize| Edge { item: item as u64 + 1, weight: 777 };
    let row: Vec<Edge> = (0..counts.len()).map(edge).collect();
    let calls = vec![Call::Arrive(row); bidders];
    History { counts, slack: Slack { p: 1, q: 2 }, calls }
}

/// Edges at two items in a row whose weights rise along the row, so that prices
/// change on the way.
pub fn slope(items: u64) -> History {
    let edge = |item: u64, weight: u64| Edge { item, weight: 100 * weight };
    let mut calls: Vec<Call> =
        (1..items).map(|i| Call::Arrive(vec![edge(i, i + 1), edge(i + 1, i)])).collect();
    calls.push(Call::Arrive(vec![edge(1, items), edge(items, 1)]));
    calls.push(Call::Arrive(vec![edge(1, 2 * items)]));
    History::of_ones(items, Slack { p: 1, q: 2 }, calls)
}

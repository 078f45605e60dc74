//! The proved calls beside the slides: a call on both, and what its bids met.

use super::fraction::Fraction;
use super::{Offer, Picked, Place, Slides};
use crate::both::{equal, Same};
use crate::ffi::{self, Told};
use crate::gen::history::Call;
use crate::model::auction::Edge;

/// What was met. A turn is a bid, or ends a chain for want of an open edge.
#[derive(Debug, Default)]
pub struct Met {
    pub calls: u64,
    /// Calls that made two or more bidders bid at once.
    pub several: u64,
    /// Turns that were bids; those that displaced a bidder.
    pub bids: u64,
    pub displaced: u64,
    /// Turns without an open edge.
    pub ends: u64,
    /// Bids at which another open edge had the utility picked: one of another weight, one
    /// of the same, one at a lower item; and at which the same edge had it at another place.
    pub weights: u64,
    pub full: u64,
    pub lower: u64,
    pub places: u64,
    /// Turns at which an edge's utility was ε times its weight; of these, turns at which
    /// it would be picked if that were open, and at which it would be the second.
    pub bar: u64,
    pub decides: u64,
    pub seconds: u64,
    /// Bids at which an edge that was not open had a greater utility than the one picked.
    pub closed: u64,
    /// Bids at a price that was no whole penny.
    pub parts: u64,
    /// Bids without another open place; those at which the second utility was that of another
    /// place of the item picked, and of no other item; those at which an edge that was not
    /// open had a greater one.
    pub alone: u64,
    pub own: u64,
    pub shut: u64,
}

impl Met {
    pub fn look(&mut self, slides: &Slides, v: u64) {
        let (all, open) = (slides.offers(v), slides.test_open(v));
        let bar = |uv: &Offer| slides.epsilon * uv.weight;
        let reached: Vec<Offer> = all.iter().copied().filter(|uv| uv.utility >= bar(uv)).collect();
        let picked = Slides::pick(&open);
        self.bar += reached.iter().any(|uv| uv.utility == bar(uv)) as u64;
        let would = Slides::pick(&reached);
        self.decides += (would.map(|it| it.offer) != picked.map(|it| it.offer)) as u64;
        self.seconds += (would.map(|it| it.second) != picked.map(|it| it.second)) as u64;
        match picked {
            Some(Picked { offer, second }) => {
                self.note(slides, &all, &open, offer);
                self.note_second(&all, &open, offer, second);
            }
            None => self.ends += 1,
        }
    }

    fn note(&mut self, slides: &Slides, all: &[Offer], open: &[Offer], picked: Offer) {
        let equal = open.iter().filter(|uv| uv.utility == picked.utility);
        let (own, equal): (Vec<&Offer>, Vec<&Offer>) =
            equal.partition(|uv| uv.place.0 == picked.place.0);
        self.bids += 1;
        self.places += (own.len() > 1) as u64;
        self.displaced += slides.allocated.contains_key(&picked.place) as u64;
        self.weights += equal.iter().any(|uv| uv.weight != picked.weight) as u64;
        self.full += equal.iter().any(|uv| uv.weight == picked.weight) as u64;
        self.lower += equal.iter().any(|uv| uv.place < picked.place) as u64;
        self.closed += all.iter().any(|uv| uv.utility > picked.utility) as u64;
        self.parts += slides.prices[&picked.place].to_whole().is_none() as u64;
    }

    fn note_second(&mut self, all: &[Offer], open: &[Offer], picked: Offer, second: Fraction) {
        let mut others = open.iter().filter(|uv| uv.place.0 != picked.place.0);
        let own = others.all(|uv| uv.utility < second);
        let rest = |uv: &&Offer| uv.place != picked.place;
        self.alone += (open.len() == 1) as u64;
        self.own += (own && open.len() > 1) as u64;
        self.shut += all.iter().filter(rest).any(|uv| uv.utility > second) as u64;
    }
}

/// "Prices and gains count q-ths of a penny".
pub fn scaled(pence: Option<&Fraction>, q: u64) -> u64 {
    let pence = pence.copied().unwrap_or(Fraction::whole(0));
    (pence * Fraction::whole(q)).to_whole().expect("whole q-ths of a penny")
}

/// Matching, prices and gains as a read-out has them: "a kettle's least price" (document
/// 02, R-6).
pub fn lists(slides: &Slides, items: u64, q: u64) -> [Vec<u64>; 3] {
    let mut matching = vec![0; slides.edges.len()];
    slides.allocated.iter().for_each(|(&(item, _), &v)| matching[v as usize - 1] = item);
    let least = |item: u64| slides.prices.range((item, 0)..(item + 1, 0)).map(|(_, y)| y).min();
    let prices = (1..=items).map(|item| scaled(least(item), q)).collect();
    let gains = slides.edges.keys().map(|v| scaled(slides.gains.get(v), q)).collect();
    [matching, prices, gains]
}

pub fn equal_lists(ours: &ffi::Board, slides: &Slides) -> Same<()> {
    let [bidders, items] = [ours.arrived, ours.items.count].map(|cells| cells as usize);
    let [mut m, mut y, mut g] = [bidders, items, bidders].map(|cells| vec![u64::MAX; cells]);
    let answer = ffi::read_out(*ours, &mut m, &mut y, &mut g);
    equal("read out", answer, Told { number: 0, place: 0, value: 0 })?;
    equal("read out, the lists", [m, y, g], lists(slides, ours.items.count, ours.slack.q))?;
    let [prices, holders] = [ours.price.map(|y| y.0), ours.holder.map(u64::from)]
        .map(|cells| cells[..ours.places as usize].to_vec());
    equal("place by place", [prices, holders], by_place(slides, &ours.items, ours.slack.q))
}

/// The price of each place, and the bidder that it is allocated to.
fn by_place(slides: &Slides, items: &ffi::Items, q: u64) -> [Vec<u64>; 2] {
    let counts = items.places.iter().take(items.count as usize);
    let places =
        (1..).zip(counts).flat_map(|(item, &count)| (1..=count).map(move |n| (item, n as u64)));
    let places: Vec<Place> = places.collect();
    let price = |u: &Place| scaled(slides.prices.get(u), q);
    let holder = |u: &Place| slides.allocated.get(u).copied().unwrap_or(0);
    [places.iter().map(price).collect(), places.iter().map(holder).collect()]
}

/// The while has ended: no unallocated bidder has an open edge.
pub fn is_settled(slides: &Slides) -> bool {
    let placed: Vec<&u64> = slides.allocated.values().collect();
    let mut left = slides.edges.keys().filter(|v| !placed.contains(v));
    slides.waiting.is_empty() && left.all(|&v| slides.test_open(v).is_empty())
}

pub fn enter(slides: &mut Slides, call: &Call) {
    match call {
        Call::Arrive(edges) => slides.arrive(edges.iter().map(|edge| (edge.item, edge.weight))),
        Call::Withdraw(items) => slides.withdraw(items),
    }
}

pub fn call_ours(board: ffi::Board, call: &Call) -> ffi::Answer {
    let lent = |edge: &Edge| ffi::Edge { item: edge.item, weight: edge.weight };
    match call {
        Call::Arrive(edges) => ffi::arrive(board, &edges.iter().map(lent).collect::<Vec<_>>()),
        Call::Withdraw(items) => ffi::withdraw(board, items),
    }
}

/// A call on both; it is served.
pub fn step(ours: &mut ffi::Board, slides: &mut Slides, call: &Call, met: &mut Met) -> Same<()> {
    enter(slides, call);
    met.calls += 1;
    met.several += (slides.waiting.len() > 1) as u64;
    let bids = slides.run(|slides, v| met.look(slides, v));
    let after = call_ours(*ours, call);
    equal("the bids", after.told(), Told { number: 0, place: 0, value: bids })?;
    equal("settled", is_settled(slides), true)?;
    *ours = after.board;
    equal_lists(ours, slides)
}

//! A bid as the slides have it (source document 002), for R-5 of document 02:
//!
//!     While there is v in V unallocated, util(uv) > ε · w(uv),
//!     v bids y_u + ε · w(uv) and allocated max util u.
//!
//! Since R-7 the bid is higher by the lead over the second choice: source document 003 adds
//! "the second best object value" less the best one, of costs, where utilities are compared
//! here.
//!
//! Left are the places u of the items, right the bidders v (document 01: kettles and
//! batches), all by their numbers from 1; an edge uv (an entry), one at each place of its
//! item, has the weight w(uv) (its worth). Money is in pence and fractions of a penny;
//! nothing is multiplied by q. Only calls that are served are made here. Nothing is taken
//! from `model`.

use fraction::Fraction;
use std::collections::{BTreeMap, VecDeque};

pub mod bar;
pub mod beside;
pub mod fraction;

/// An item's number and a place's in it: "As in source document 001 each place has its own
/// price" (document 02, R-6).
pub type Place = (u64, u64);

/// An edge of v at a place u that is not withdrawn, with util(uv) = w(uv) - y_u.
#[derive(Clone, Copy, Debug, PartialEq, Eq)]
pub struct Offer {
    pub place: Place,
    pub weight: Fraction,
    pub utility: Fraction,
}

/// The offer that v picks, and the second utility.
#[derive(Clone, Copy, Debug, PartialEq, Eq)]
pub struct Picked {
    pub offer: Offer,
    pub second: Fraction,
}

/// The auction (document 01: the board).
#[derive(Clone, Debug)]
pub struct Slides {
    pub epsilon: Fraction,
    /// y_u of each place that is not withdrawn.
    pub prices: BTreeMap<Place, Fraction>,
    /// Each bidder's edges: items with weights.
    pub edges: BTreeMap<u64, Vec<(u64, Fraction)>>,
    /// The bidder that a place is allocated to.
    pub allocated: BTreeMap<Place, u64>,
    /// The gain of each bidder that has a place; that of any other is 0.
    pub gains: BTreeMap<u64, Fraction>,
    /// The unallocated bidders that are to bid, the next one first.
    pub waiting: VecDeque<u64>,
}

/// The four steps of a bid.
impl Slides {
    /// Test open entries: those of v with util(uv) > ε · w(uv).
    pub fn test_open(&self, v: u64) -> Vec<Offer> {
        let mut open = self.offers(v);
        open.retain(|uv| uv.utility > self.epsilon * uv.weight);
        open
    }

    /// Pick: max util u. "of two kettles with equal utility a batch takes the one with
    /// the larger worth, and only then the lower number" (document 02, R-1); "the lower
    /// place breaks a last tie" (R-6).
    pub fn pick(open: &[Offer]) -> Option<Picked> {
        let greatest = open.iter().map(|uv| uv.utility).max()?;
        let equal = open.iter().filter(|uv| uv.utility == greatest);
        let largest = equal.clone().map(|uv| uv.weight).max()?;
        let offer = *equal.filter(|uv| uv.weight == largest).min_by_key(|uv| uv.place)?;
        Some(Picked { offer, second: Slides::second(open, offer.place) })
    }

    /// "the greatest utility of any other open place of that batch, 0 if none".
    fn second(open: &[Offer], place: Place) -> Fraction {
        let others = open.iter().filter(|uv| uv.place != place);
        others.map(|uv| uv.utility).max().unwrap_or(Fraction::whole(0))
    }

    /// Price: y_u becomes y_u + ε · w(uv), and "the lead" more.
    pub fn price(&mut self, Picked { offer, second }: Picked) {
        let lead = offer.utility - second;
        let price = self.prices[&offer.place] + self.epsilon * offer.weight + lead;
        self.prices.insert(offer.place, price);
    }

    /// Hand over: u is allocated to v, whose gain is "that second utility". The bidder
    /// that had u "is displaced, its gain becomes 0, and it bids next" (document 01).
    pub fn hand_over(&mut self, v: u64, Picked { offer, second }: Picked) {
        let displaced = self.allocated.insert(offer.place, v);
        self.gains.insert(v, second);
        if let Some(displaced) = displaced {
            self.gains.remove(&displaced);
            self.waiting.push_front(displaced);
        }
    }
}

impl Slides {
    pub fn open(counts: &[u64], p: u64, q: u64) -> Slides {
        let places =
            (1..).zip(counts).flat_map(|(item, &count)| (1..=count).map(move |n| (item, n)));
        Slides {
            epsilon: Fraction::new(p as i64, q as i64),
            prices: places.map(|u| (u, Fraction::whole(0))).collect(),
            edges: BTreeMap::new(),
            allocated: BTreeMap::new(),
            gains: BTreeMap::new(),
            waiting: VecDeque::new(),
        }
    }

    pub fn offers(&self, v: u64) -> Vec<Offer> {
        let at_item = |&(item, weight): &(u64, Fraction)| {
            let places = self.prices.range((item, 0)..(item + 1, 0));
            places.map(move |(&place, &y)| Offer { place, weight, utility: weight - y })
        };
        self.edges[&v].iter().flat_map(at_item).collect()
    }

    /// A new bidder is unallocated.
    pub fn arrive(&mut self, edges: impl Iterator<Item = (u64, u64)>) {
        let v = self.edges.len() as u64 + 1;
        self.edges.insert(v, edges.map(|(u, weight)| (u, Fraction::whole(weight))).collect());
        self.waiting.push_back(v);
    }

    /// "All go first; then the displaced batches bid in number order, each chain run to
    /// its end" (document 02, R-3); "A withdrawal removes all places" (R-6).
    pub fn withdraw(&mut self, items: &[u64]) {
        self.prices.retain(|(item, _), _| !items.contains(item));
        let leaving = |(item, _): &Place| items.contains(item);
        let held = self.allocated.iter().filter(|(u, _)| leaving(u));
        let mut displaced: Vec<u64> = held.map(|(_, &v)| v).collect();
        self.allocated.retain(|u, _| !leaving(u));
        displaced.sort();
        self.gains.retain(|v, _| !displaced.contains(v));
        self.waiting.extend(displaced);
    }

    /// The while: one bid after the other, and how many they are. `look` is shown each
    /// bidder before it bids.
    pub fn run(&mut self, mut look: impl FnMut(&Slides, u64)) -> u64 {
        let mut bids = 0;
        while let Some(v) = self.waiting.pop_front() {
            look(self, v);
            let open = self.test_open(v);
            let Some(picked) = Slides::pick(&open) else { continue };
            self.price(picked);
            self.hand_over(v, picked);
            bids += 1;
        }
        bids
    }
}

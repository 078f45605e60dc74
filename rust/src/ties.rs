//! Chains of bids, one bid after another, by any rule of choice, and what stood
//! equal when a bidder chose. So the ties of a history are counted, and another
//! rule can be seen to give something else. What a bid comes to is `raises`'.

use crate::gen::history::{Call, History};
use crate::model::auction::*;
use crate::orders::Order;
use crate::raises::Raise;
use std::ops::AddAssign;

/// A live edge of a bidder that bids, at a place of its item: "a batch compares places"
/// (document 02, R-6).
#[derive(Clone, Copy, Debug, PartialEq, Eq)]
pub struct Offer {
    pub weight: u64,
    pub place: Place,
    /// "The utility is q × w - Y."
    pub utility: i64,
    /// "The entry is open if the utility is greater than p × w; equality is not open."
    pub open: bool,
}

/// Which of a bidder's offers it takes, if any.
pub type Rule = fn(&[Offer]) -> Option<Offer>;

/// How many bids were made, and at how many of them other edges of the bidder
/// had the utility of the one taken.
#[derive(Clone, Copy, Debug, Default, PartialEq, Eq)]
pub struct Ties {
    pub bids: u64,
    /// An open one of another weight.
    pub weights: u64,
    /// An open one at a lower item.
    pub lower: u64,
    /// An open one of the same weight, at another item.
    pub full: u64,
    /// A heavier one that is not open.
    pub closed: u64,
    /// The same one, at another place.
    pub places: u64,
    /// The same one at another place, and one of the same weight at another item.
    pub both: u64,
    /// Bids at which the same one had a smaller utility at a lower place.
    pub cheaper: u64,
}

impl Ties {
    pub fn note(&mut self, offers: &[Offer], taken: Offer) {
        let Offer { weight, place, .. } = taken;
        let (own, others): (Vec<&Offer>, Vec<&Offer>) =
            offers.iter().filter(|o| o.place != place).partition(|o| o.place.item == place.item);
        let equal = others.into_iter().filter(|o| o.utility == taken.utility);
        let (open, closed): (Vec<&Offer>, Vec<&Offer>) = equal.partition(|o| o.open);
        let full = open.iter().any(|o| o.weight == weight);
        let places = own.iter().any(|o| o.utility == taken.utility);
        self.bids += 1;
        self.weights += open.iter().any(|o| o.weight != weight) as u64;
        self.lower += open.iter().any(|o| o.place < place) as u64;
        self.full += full as u64;
        self.closed += closed.iter().any(|o| o.weight > weight) as u64;
        self.places += places as u64;
        self.both += (full && places) as u64;
        self.cheaper += own.iter().any(|o| o.place < place) as u64;
    }
}

impl AddAssign for Ties {
    fn add_assign(&mut self, more: Ties) {
        self.bids += more.bids;
        self.weights += more.weights;
        self.lower += more.lower;
        self.full += more.full;
        self.closed += more.closed;
        self.places += more.places;
        self.both += more.both;
        self.cheaper += more.cheaper;
    }
}

pub fn offers(auction: &Auction, bidder: usize) -> Vec<Offer> {
    let Slack { p, q } = auction.slack;
    let live = auction.bidders[bidder].edges.iter().filter(|&&edge| auction.is_live(edge));
    live.flat_map(|&Edge { item, weight }| {
        auction.places(item).map(move |place| {
            let utility = (q * weight) as i64 - auction.price(place) as i64;
            Offer { weight, place, utility, open: utility > (p * weight) as i64 }
        })
    })
    .collect()
}

/// "Of two kettles with equal utility a batch takes the one with the larger worth,
/// and only then the lower number" (document 02, R-1), "and the lower place breaks a last
/// tie" (R-6); of two others, document 01's, the one of greater utility.
fn comes_first(one: &Offer, other: &Offer) -> bool {
    if one.utility != other.utility {
        return one.utility > other.utility;
    }
    if one.weight != other.weight {
        return one.weight > other.weight;
    }
    if one.place.item != other.place.item {
        return one.place.item < other.place.item;
    }
    one.place.number < other.place.number
}

/// The open offer that comes first in every pair with another open one.
pub fn by_pairs(offers: &[Offer]) -> Option<Offer> {
    let open: Vec<&Offer> = offers.iter().filter(|o| o.open).collect();
    let others = |one: &Offer| open.iter().filter(|o| o.place != one.place).count();
    let won = |one: &Offer| open.iter().filter(|o| comes_first(one, o)).count();
    let first: Vec<&Offer> = open.iter().copied().filter(|one| won(one) == others(one)).collect();
    assert_eq!(first.len(), !open.is_empty() as usize, "not one that comes first: {open:?}");
    first.first().map(|&&offer| offer)
}

/// An auction whose calls are all served, by a rule of choice.
pub struct Walk {
    pub auction: Auction,
    pub ties: Ties,
    /// Who bid, bid by bid, from 0.
    pub bidders: Vec<usize>,
    rule: Rule,
    raise: Raise,
}

impl Walk {
    pub fn open(history: &History, rule: Rule) -> Walk {
        Walk::on(history.opened(), rule)
    }

    pub fn on(auction: Auction, rule: Rule) -> Walk {
        let (ties, bidders) = (Ties::default(), Vec::new());
        Walk { auction, ties, bidders, rule, raise: Raise::Lead }
    }

    /// The call's bids.
    pub fn call(&mut self, call: &Call) -> u64 {
        let before = self.ties.bids;
        match call {
            Call::Arrive(edges) => {
                self.auction.bidders.push(Bidder::unplaced(edges.clone()));
                self.chain(self.auction.bidders.len() - 1);
            }
            Call::Withdraw(items) => self.withdraw(items, Order::Number),
        }
        self.ties.bids - before
    }

    /// A bidder's bid, and those of the bidders that it displaces, to the end.
    pub fn chain(&mut self, bidder: usize) {
        let mut bidding = Some(bidder);
        while let Some(bidder) = bidding {
            bidding = self.bid(bidder);
        }
    }

    /// One bid, if an edge is open, and the bidder that it displaces, if any. "The batch that
    /// held the kettle, if any, is displaced, its gain becomes 0, and it bids next."
    pub fn bid(&mut self, bidder: usize) -> Option<usize> {
        let offers = offers(&self.auction, bidder);
        let taken = (self.rule)(&offers)?;
        self.ties.note(&offers, taken);
        self.bidders.push(bidder);
        let displaced = self.auction.holder(taken.place);
        self.displace(displaced);
        let least = self.auction.slack.p * taken.weight;
        let (gain, rise) = self.raise.of(&offers, taken, least as i64);
        self.auction.bidders[bidder].held = Some(taken.place);
        self.auction.bidders[bidder].gain = gain as u64;
        *self.auction.price_mut(taken.place) += rise as u64;
        displaced
    }

    pub fn displace(&mut self, holder: Option<usize>) {
        if let Some(holder) = holder {
            self.auction.bidders[holder].held = None;
            self.auction.bidders[holder].gain = 0;
        }
    }
}

/// The history's end by a rule: the auction, and what its bids met.
pub fn walk(history: &History, rule: Rule) -> Walk {
    walk_raising(history, rule, Raise::Lead)
}

/// The same where bids come to this.
pub fn walk_raising(history: &History, rule: Rule, raise: Raise) -> Walk {
    let mut walk = Walk { raise, ..Walk::open(history, rule) };
    for call in &history.calls {
        walk.call(call);
    }
    walk
}

/// What the bids of these histories met, all of whose calls are served.
pub fn ties_of(histories: impl Iterator<Item = History>) -> Ties {
    let mut met = Ties::default();
    histories.for_each(|history| met += walk(&history, by_pairs).ties);
    met
}

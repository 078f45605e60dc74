//! The auction (document 01: the board) and its calls open, arrive, withdraw
//! and read out. A bidder is a batch, an item a kettle, an edge an entry. An item has
//! one place or more (document 02, R-6), each with its own price.

use super::refusal::*;
use std::cmp::Reverse;
use std::collections::BTreeSet;

pub const MAX_ITEMS: usize = 64;
/// Of all items.
pub const MAX_PLACES: usize = 64;
/// Of one item.
pub const MAX_COUNT: u64 = 8;
pub const MAX_BIDDERS: usize = 128;
pub const MAX_WEIGHT: u64 = 1_000_000;
pub const MAX_Q: u64 = 1_000;

#[repr(C)]
#[derive(Clone, Copy, Debug, PartialEq, Eq)]
pub struct Slack {
    pub p: u64,
    pub q: u64,
}

/// An item's number, from 1, with a weight in pence (document 01: worth).
#[derive(Clone, Copy, Debug, PartialEq, Eq)]
pub struct Edge {
    pub item: u64,
    pub weight: u64,
}

#[derive(Clone, Debug, PartialEq, Eq)]
pub struct Item {
    /// The price of each place.
    pub prices: Vec<u64>,
    pub withdrawn: bool,
}

/// An item's number and a place's number in it, both from 1. Places stand in item order,
/// those of an item side by side.
#[derive(Clone, Copy, Debug, PartialEq, Eq, PartialOrd, Ord)]
pub struct Place {
    pub item: u64,
    pub number: u64,
}

#[derive(Clone, Debug, PartialEq, Eq)]
pub struct Bidder {
    pub edges: Vec<Edge>,
    pub gain: u64,
    pub held: Option<Place>,
}

/// A sound auction. Item and bidder of number n stand at n - 1.
#[derive(Clone, Debug, PartialEq, Eq)]
pub struct Auction {
    pub slack: Slack,
    pub items: Vec<Item>,
    pub bidders: Vec<Bidder>,
}

impl Slack {
    /// The range that opening asks for.
    pub fn may_open(self) -> bool {
        1 <= self.p && self.p < self.q && self.q <= MAX_Q
    }

    /// The range that a check asks for.
    pub fn may_check(self) -> bool {
        self.p < self.q && self.q <= MAX_Q
    }
}

impl Item {
    /// An item of so many places, all free.
    pub fn free(count: u64) -> Item {
        Item { prices: vec![0; count as usize], withdrawn: false }
    }

    pub fn count(&self) -> u64 {
        self.prices.len() as u64
    }

    /// "Read-out gives a kettle's least price" (document 02, R-6).
    pub fn price(&self) -> u64 {
        *self.prices.iter().min().expect("an item has a place")
    }

    /// "it leaves the live sheet and its price becomes 0"; "A withdrawal removes all places".
    pub fn leave(&mut self) {
        self.withdrawn = true;
        self.prices.fill(0);
    }
}

impl Bidder {
    pub fn unplaced(edges: Vec<Edge>) -> Bidder {
        Bidder { edges, gain: 0, held: None }
    }

    /// The item held, 0 where the bidder is unplaced.
    pub fn item(&self) -> u64 {
        self.held.map_or(0, |place| place.item)
    }
}

/// One place for each of so many items.
pub fn ones(items: u64) -> Vec<u64> {
    vec![1; items.min(MAX_ITEMS as u64) as usize]
}

impl Auction {
    /// Items of one place each.
    pub fn open(items: u64, slack: Slack) -> Result<Auction, Refusal> {
        Auction::open_places(items, slack, &ones(items))
    }

    /// "at opening after 2, 9 for counts of another length, then 16 "places": a count
    /// outside 1 to 8 at that kettle, else over 64 in all at place 0" (document 02, R-6).
    pub fn open_places(items: u64, slack: Slack, counts: &[u64]) -> Result<Auction, Refusal> {
        if items < 1 || items > MAX_ITEMS as u64 {
            return refuse(COUNT, 0);
        }
        if !slack.may_open() {
            return refuse(SLACK, 0);
        }
        if counts.len() as u64 != items {
            return refuse(UNEVEN, 0);
        }
        if let Some(item) = counts.iter().position(|&count| !may_have(count)) {
            return refuse(PLACES, item as u64 + 1);
        }
        if counts.iter().sum::<u64>() > MAX_PLACES as u64 {
            return refuse(PLACES, 0);
        }
        let items = counts.iter().map(|&count| Item::free(count)).collect();
        Ok(Auction { slack, items, bidders: Vec::new() })
    }

    /// A new bidder with these edges bids; the answer is the number of bids.
    pub fn arrive(&mut self, edges: &[Edge]) -> Result<u64, Refusal> {
        if self.bidders.len() >= MAX_BIDDERS {
            return refuse(FULL, 0);
        }
        for (index, edge) in edges.iter().enumerate() {
            let before = if index == 0 { 0 } else { edges[index - 1].item };
            self.admit(edge, before, index as u64 + 1)?;
        }
        self.bidders.push(Bidder::unplaced(edges.to_vec()));
        Ok(self.settle(self.bidders.len() - 1))
    }

    fn admit(&self, edge: &Edge, before: u64, place: u64) -> Result<(), Refusal> {
        if !self.knows(edge.item) {
            return refuse(UNKNOWN, place);
        }
        if self.item(edge.item).withdrawn {
            return refuse(GONE, place);
        }
        if edge.weight < 1 || edge.weight > MAX_WEIGHT {
            return refuse(WORTH, place);
        }
        if edge.item <= before {
            return refuse(ORDER, place);
        }
        Ok(())
    }

    /// "All go first; then the displaced batches bid in number order, each chain run
    /// to its end" (document 02, R-3). "A withdrawal removes all places, with displaced
    /// batches in R-3's order" (R-6). The answer is the number of bids.
    pub fn withdraw(&mut self, items: &[u64]) -> Result<u64, Refusal> {
        for (index, &item) in items.iter().enumerate() {
            let before = if index == 0 { 0 } else { items[index - 1] };
            self.dismiss(item, before, index as u64 + 1)?;
        }
        let holders: BTreeSet<usize> = items.iter().flat_map(|&i| self.holders(i)).collect();
        holders.iter().for_each(|&bidder| self.displace(bidder));
        items.iter().for_each(|&item| self.items[item as usize - 1].leave());
        Ok(holders.into_iter().map(|bidder| self.settle(bidder)).sum())
    }

    /// "kettle by kettle 4, 5, 7, nothing withdrawn if any fails; 5 is read from the
    /// board handed in, so a live kettle named twice is 7".
    fn dismiss(&self, item: u64, before: u64, place: u64) -> Result<(), Refusal> {
        if !self.knows(item) {
            return refuse(UNKNOWN, place);
        }
        if self.item(item).withdrawn {
            return refuse(GONE, place);
        }
        if item <= before {
            return refuse(ORDER, place);
        }
        Ok(())
    }

    /// Matching, prices and gains; cells past them keep what they held.
    pub fn read_out(
        &self,
        matching: &mut [u64],
        price: &mut [u64],
        gain: &mut [u64],
    ) -> Result<(), Refusal> {
        let (bidders, items) = (self.bidders.len(), self.items.len());
        if matching.len() < bidders || price.len() < items || gain.len() < bidders {
            return refuse(SHORT, 0);
        }
        matching[..bidders].copy_from_slice(&self.matching());
        price[..items].copy_from_slice(&self.prices());
        gain[..bidders].copy_from_slice(&self.gains());
        Ok(())
    }
}

/// Whether an item may have so many places.
pub fn may_have(count: u64) -> bool {
    (1..=MAX_COUNT).contains(&count)
}

/// A bid for a place, along an edge of this weight.
struct Bid {
    place: Place,
    weight: u64,
    /// The utility of that place.
    best: u64,
    /// "the greatest utility of any other open place of that batch, 0 if none" (document
    /// 02, R-7).
    second: u64,
}

/// The rule.
impl Auction {
    /// The chain of bids that starts with this bidder; its length.
    fn settle(&mut self, bidder: usize) -> u64 {
        let mut bids = 0;
        let mut next = Some(bidder);
        while let Some(bidder) = next {
            let Some(bid) = self.best_open(bidder) else {
                break;
            };
            next = self.holder(bid.place);
            if let Some(displaced) = next {
                self.displace(displaced);
            }
            self.take(bidder, bid);
            bids += 1;
        }
        bids
    }

    /// The open place of greatest utility. "Of two kettles with equal utility a batch takes
    /// the one with the larger worth, and only then the lower number" (document 02, R-1); "a
    /// batch compares places, and the lower place breaks a last tie" (R-6).
    fn best_open(&self, bidder: usize) -> Option<Bid> {
        let open = self.open_offers(bidder);
        let utility = |&(weight, place): &(u64, Place)| self.utility(weight, place);
        let taken = open.iter().max_by_key(|it| (utility(it), it.0, Reverse(it.1)))?;
        let others = open.iter().filter(|other| other.1 != taken.1);
        let second = others.map(utility).max().unwrap_or(0);
        Some(Bid { place: taken.1, weight: taken.0, best: utility(taken), second })
    }

    /// Each place at which a live edge of this bidder is open, with the edge's weight.
    fn open_offers(&self, bidder: usize) -> Vec<(u64, Place)> {
        let live = self.bidders[bidder].edges.iter().filter(|&&e| self.is_live(e));
        live.flat_map(|e| self.places(e.item).map(|place| (e.weight, place)))
            .filter(|&(weight, place)| self.is_open(weight, place))
            .collect()
    }

    /// "The gain becomes that second utility, and the price rises by the lead plus p × w"
    /// (document 02, R-7).
    fn take(&mut self, bidder: usize, bid: Bid) {
        let lead = bid.best - bid.second;
        self.bidders[bidder].gain = bid.second;
        self.bidders[bidder].held = Some(bid.place);
        *self.price_mut(bid.place) += lead + self.slack.p * bid.weight;
    }

    fn displace(&mut self, bidder: usize) {
        self.bidders[bidder].held = None;
        self.bidders[bidder].gain = 0;
    }

    fn is_open(&self, weight: u64, place: Place) -> bool {
        let Slack { p, q } = self.slack;
        self.price(place) + p * weight < q * weight
    }

    /// Asked of open edges only, so it is not negative.
    fn utility(&self, weight: u64, place: Place) -> u64 {
        self.slack.q * weight - self.price(place)
    }
}

/// What can be read off.
impl Auction {
    fn knows(&self, item: u64) -> bool {
        1 <= item && item <= self.items.len() as u64
    }

    fn item(&self, number: u64) -> &Item {
        &self.items[number as usize - 1]
    }

    pub fn is_live(&self, edge: Edge) -> bool {
        !self.item(edge.item).withdrawn
    }

    /// The places of an item.
    pub fn places(&self, item: u64) -> impl Iterator<Item = Place> {
        (1..=self.item(item).count()).map(move |number| Place { item, number })
    }

    pub fn price(&self, place: Place) -> u64 {
        self.item(place.item).prices[place.number as usize - 1]
    }

    pub fn price_mut(&mut self, place: Place) -> &mut u64 {
        &mut self.items[place.item as usize - 1].prices[place.number as usize - 1]
    }

    /// Who holds the place, counted from 0.
    pub fn holder(&self, place: Place) -> Option<usize> {
        self.bidders.iter().position(|b| b.held == Some(place))
    }

    /// Who holds a place of the item, in the order of its places.
    pub fn holders(&self, item: u64) -> Vec<usize> {
        self.places(item).filter_map(|place| self.holder(place)).collect()
    }

    /// A cell per bidder: its item, or 0.
    pub fn matching(&self) -> Vec<u64> {
        self.bidders.iter().map(Bidder::item).collect()
    }

    /// A cell per item: its least price.
    pub fn prices(&self) -> Vec<u64> {
        self.items.iter().map(Item::price).collect()
    }

    pub fn gains(&self) -> Vec<u64> {
        self.bidders.iter().map(|b| b.gain).collect()
    }

    /// How many places each item has.
    pub fn counts(&self) -> Vec<u64> {
        self.items.iter().map(Item::count).collect()
    }

    /// How many places these edges are at: "the bid bound counts an entry once per place".
    pub fn places_at(&self, edges: &[Edge]) -> u64 {
        edges.iter().map(|edge| self.item(edge.item).count()).sum()
    }

    /// The matching's weight (document 01: the plan's worth).
    pub fn weight(&self) -> u64 {
        let held = |b: &Bidder| b.edges.iter().find(|e| e.item == b.item()).map_or(0, |e| e.weight);
        self.bidders.iter().map(held).sum()
    }

    /// All gains and "every place's price" added.
    pub fn sum(&self) -> u64 {
        let prices = self.items.iter().flat_map(|item| &item.prices);
        prices.sum::<u64>() + self.gains().iter().sum::<u64>()
    }

    /// The live edges as a matrix: a row per bidder, a column per item, 0 for none.
    pub fn live_weights(&self) -> Vec<Vec<u64>> {
        let mut weights = vec![vec![0; self.items.len()]; self.bidders.len()];
        for (row, bidder) in weights.iter_mut().zip(&self.bidders) {
            for edge in bidder.edges.iter().filter(|&&e| self.is_live(e)) {
                row[edge.item as usize - 1] = edge.weight;
            }
        }
        weights
    }
}

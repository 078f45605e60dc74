//! The board and its bids. Items have their numbers from 1; places and bidders are indices.

use super::record::Edge;
use std::ops::Range;

pub const MAX_ITEMS: usize = 64;
pub const MAX_PLACES: usize = 64;
pub const MAX_BIDDERS: usize = 128;
pub const MAX_WEIGHT: i64 = 1_000_000;

pub struct Board {
    pub p: i64,
    pub q: i64,
    pub items: Vec<Item>,
    pub places: Vec<Place>,
    pub bidders: Vec<Bidder>,
}

pub struct Item {
    pub withdrawn: bool,
    /// Its places, side by side.
    pub places: Range<usize>,
}

pub struct Place {
    pub item: usize,
    pub price: i64,
    pub holder: Option<usize>,
}

pub struct Bidder {
    pub edges: Vec<Edge>,
    pub gain: i64,
    pub place: Option<usize>,
}

/// The open place that a bidder takes.
struct Choice {
    place: usize,
    weight: i64,
    utility: i64,
}

impl Board {
    /// A board of items with these numbers of places.
    pub fn new(counts: &[usize], p: i64, q: i64) -> Board {
        let (mut items, mut places) = (Vec::new(), Vec::new());
        for (index, &count) in counts.iter().enumerate() {
            items.push(Item { withdrawn: false, places: places.len()..places.len() + count });
            for _ in 0..count {
                places.push(Place { item: index + 1, price: 0, holder: None });
            }
        }
        Board { p, q, items, places, bidders: Vec::new() }
    }

    pub fn item(&self, number: usize) -> &Item {
        &self.items[number - 1]
    }

    /// A new bidder bids; the number of bids, or that of a refusal.
    pub fn arrive(&mut self, edges: Vec<Edge>) -> Result<u64, u32> {
        if self.bidders.len() == MAX_BIDDERS {
            return Err(3);
        }
        let mut before = 0;
        for edge in &edges {
            self.check_live(edge.item)?;
            if !(1..=MAX_WEIGHT).contains(&edge.weight) {
                return Err(6);
            }
            if edge.item <= before {
                return Err(7);
            }
            before = edge.item;
        }
        self.bidders.push(Bidder { edges, gain: 0, place: None });
        Ok(self.settle(self.bidders.len() - 1))
    }

    fn check_live(&self, item: usize) -> Result<(), u32> {
        if !(1..=self.items.len()).contains(&item) {
            return Err(4);
        }
        if self.item(item).withdrawn {
            return Err(5);
        }
        Ok(())
    }

    /// All of these items go; then the displaced bid in number order.
    pub fn withdraw(&mut self, items: &[usize]) -> Result<u64, u32> {
        let mut before = 0;
        for &item in items {
            self.check_live(item)?;
            if item <= before {
                return Err(7);
            }
            before = item;
        }
        let mut displaced = Vec::new();
        for &item in items {
            self.items[item - 1].withdrawn = true;
            for place in &mut self.places[self.items[item - 1].places.clone()] {
                place.price = 0;
                displaced.extend(place.holder.take());
            }
        }
        displaced.sort();
        for &bidder in &displaced {
            self.unplace(bidder);
        }
        Ok(displaced.into_iter().map(|bidder| self.settle(bidder)).sum())
    }

    fn unplace(&mut self, bidder: usize) {
        self.bidders[bidder].gain = 0;
        self.bidders[bidder].place = None;
    }

    /// The chain of bids that this bidder begins; how many they are.
    fn settle(&mut self, mut bidder: usize) -> u64 {
        let mut bids = 0;
        while let Some((best, second)) = self.choose(bidder) {
            bids += 1;
            self.bidders[bidder].gain = second;
            self.bidders[bidder].place = Some(best.place);
            let place = &mut self.places[best.place];
            place.price += best.utility - second + self.p * best.weight;
            let Some(displaced) = place.holder.replace(bidder) else {
                break;
            };
            self.unplace(displaced);
            bidder = displaced;
        }
        bids
    }

    /// The open place of greatest utility, of equal ones that of the larger weight, then the
    /// lowest; and the greatest utility of the other open ones, 0 if there is none.
    fn choose(&self, bidder: usize) -> Option<(Choice, i64)> {
        let mut best: Option<Choice> = None;
        let mut second = 0;
        for edge in &self.bidders[bidder].edges {
            let item = self.item(edge.item);
            if item.withdrawn {
                continue;
            }
            for place in item.places.clone() {
                let weight = edge.weight;
                let utility = self.q * weight - self.places[place].price;
                if utility <= self.p * weight {
                    continue;
                }
                match &best {
                    Some(best) if (utility, weight) <= (best.utility, best.weight) => {
                        second = second.max(utility);
                    }
                    _ => {
                        second = best.map_or(0, |best| best.utility);
                        best = Some(Choice { place, weight, utility });
                    }
                }
            }
        }
        best.map(|best| (best, second))
    }
}

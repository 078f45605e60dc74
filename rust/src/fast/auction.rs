//! The auction in fixed arrays. Items, places and bidders count from 0 here; the places of
//! an item stand side by side.

use std::ops::Range;

pub const ITEMS: usize = 64;
pub const PLACES: usize = 64;
pub const BIDDERS: usize = 128;
const MAX_COUNT: u32 = 8;
const MAX_WEIGHT: u32 = 1_000_000;
const MAX_Q: u32 = 1_000;

/// No bidder, in `holder`.
pub const FREE: u8 = u8::MAX;

/// An edge at one of the places of its item.
#[derive(Clone, Copy)]
pub struct Edge {
    pub place: u8,
    pub weight: u32,
}

pub struct Auction {
    pub items: usize,
    /// How many places each item has.
    counts: [u8; ITEMS],
    /// The first place of each item, and the end of the last.
    first: [u8; ITEMS + 1],
    pub arrived: usize,
    pub p: u64,
    pub q: u64,
    pub price: [u64; PLACES],
    pub holder: [u8; PLACES],
    pub withdrawn: [bool; PLACES],
    pub gain: [u64; BIDDERS],
    degree: [u8; BIDDERS],
    edges: [[Edge; PLACES]; BIDDERS],
}

/// The open edge that a bidder takes, at a place of its item.
struct Choice {
    place: usize,
    weight: u64,
    utility: u64,
    /// The greatest utility of its other open places, 0 for none.
    second: u64,
}

impl Auction {
    /// The auction with one place for each item, or the number of a refusal.
    pub fn open(items: u32, p: u32, q: u32) -> Result<Auction, u32> {
        if items < 1 || items > ITEMS as u32 {
            return Err(1);
        }
        if p < 1 || p >= q || q > MAX_Q {
            return Err(2);
        }
        let mut auction = Auction {
            items: items as usize,
            counts: [1; ITEMS],
            first: [0; ITEMS + 1],
            arrived: 0,
            p: p as u64,
            q: q as u64,
            price: [0; PLACES],
            holder: [FREE; PLACES],
            withdrawn: [false; PLACES],
            gain: [0; BIDDERS],
            degree: [0; BIDDERS],
            edges: [[Edge { place: 0, weight: 0 }; PLACES]; BIDDERS],
        };
        auction.line_up();
        Ok(auction)
    }

    /// An item has so many places; no bidder has arrived. The item of the call before is
    /// `before`, 0 for none.
    pub fn set_places(&mut self, item: u32, count: u32, before: u32) -> Result<(), u32> {
        if item < 1 || item as usize > self.items {
            return Err(4);
        }
        if item <= before {
            return Err(7);
        }
        if !(1..=MAX_COUNT).contains(&count) {
            return Err(16);
        }
        self.counts[item as usize - 1] = count as u8;
        self.line_up();
        Ok(())
    }

    /// Sets the first place of each item.
    fn line_up(&mut self) {
        for item in 0..self.items {
            self.first[item + 1] = self.first[item] + self.counts[item];
        }
    }

    /// How many places there are in all.
    pub fn places(&self) -> usize {
        self.first[self.items] as usize
    }

    pub fn places_of(&self, item: usize) -> Range<usize> {
        self.first[item] as usize..self.first[item + 1] as usize
    }

    /// A new bidder with these pairs of item and weight; the number of bids.
    pub fn arrive(&mut self, pairs: &[u32]) -> Result<u64, u32> {
        let bidder = self.arrived;
        if bidder == BIDDERS {
            return Err(3);
        }
        let (mut before, mut degree) = (0, 0);
        for pair in pairs.chunks_exact(2) {
            let (item, weight) = (pair[0], pair[1]);
            self.admit(item, weight, before)?;
            for place in self.places_of(item as usize - 1) {
                self.edges[bidder][degree] = Edge { place: place as u8, weight };
                degree += 1;
            }
            before = item;
        }
        self.degree[bidder] = degree as u8;
        self.arrived += 1;
        Ok(self.settle(bidder))
    }

    fn admit(&self, item: u32, weight: u32, before: u32) -> Result<(), u32> {
        self.live(item)?;
        if !(1..=MAX_WEIGHT).contains(&weight) {
            return Err(6);
        }
        if item <= before {
            return Err(7);
        }
        Ok(())
    }

    /// The index of a live item.
    fn live(&self, item: u32) -> Result<usize, u32> {
        if item < 1 || item as usize > self.items {
            return Err(4);
        }
        let index = item as usize - 1;
        if self.is_gone(index) {
            return Err(5);
        }
        Ok(index)
    }

    /// Whether an item is withdrawn.
    pub fn is_gone(&self, item: usize) -> bool {
        self.withdrawn[self.first[item] as usize]
    }

    /// All of these items leave, then their holders bid in the order of their
    /// numbers; the number of bids.
    pub fn withdraw(&mut self, items: &[u32]) -> Result<u64, u32> {
        let mut before = 0;
        for &item in items {
            self.live(item)?;
            if item <= before {
                return Err(7);
            }
            before = item;
        }
        let mut displaced = 0;
        for &item in items {
            let places = self.places_of(item as usize - 1);
            displaced |= places.fold(0, |set, place| set | self.remove(place));
        }
        let mut bids = 0;
        while displaced != 0 {
            bids += self.settle(displaced.trailing_zeros() as usize);
            displaced &= displaced - 1;
        }
        Ok(bids)
    }

    /// The place leaves; the bit of the bidder that held it, if any.
    fn remove(&mut self, place: usize) -> u128 {
        self.withdrawn[place] = true;
        self.price[place] = 0;
        let holder = std::mem::replace(&mut self.holder[place], FREE);
        if holder == FREE {
            return 0;
        }
        self.gain[holder as usize] = 0;
        1 << holder
    }

    /// The chain of bids that starts with this bidder.
    fn settle(&mut self, mut bidder: usize) -> u64 {
        let mut bids = 0;
        while let Some(choice) = self.best_open(bidder) {
            bids += 1;
            self.gain[bidder] = choice.second;
            self.price[choice.place] += choice.utility - choice.second + self.p * choice.weight;
            let displaced = std::mem::replace(&mut self.holder[choice.place], bidder as u8);
            if displaced == FREE {
                break;
            }
            bidder = displaced as usize;
            self.gain[bidder] = 0;
        }
        bids
    }

    /// Greatest utility, then largest weight, then lowest place: edges stand in
    /// rising order of places, so the first of equal ones stays.
    fn best_open(&self, bidder: usize) -> Option<Choice> {
        let mut best = Choice { place: 0, weight: 0, utility: 0, second: 0 };
        for edge in self.edges_of(bidder) {
            let (place, weight) = (edge.place as usize, edge.weight as u64);
            let price = self.price[place];
            if self.withdrawn[place] || price >= (self.q - self.p) * weight {
                continue;
            }
            let utility = self.q * weight - price;
            if utility < best.second {
                continue;
            }
            if utility < best.utility || utility == best.utility && weight <= best.weight {
                best.second = utility;
            } else {
                best = Choice { place, weight, utility, second: best.utility };
            }
        }
        (best.weight > 0).then_some(best)
    }

    pub fn edges_of(&self, bidder: usize) -> &[Edge] {
        &self.edges[bidder][..self.degree[bidder] as usize]
    }

    /// The item that each bidder holds, from 1; 0 for none.
    pub fn matching(&self) -> [u8; BIDDERS] {
        let mut matching = [0; BIDDERS];
        for item in 0..self.items {
            for place in self.places_of(item).filter(|&place| self.holder[place] != FREE) {
                matching[self.holder[place] as usize] = item as u8 + 1;
            }
        }
        matching
    }

    /// The least price of an item's places.
    pub fn least_price(&self, item: usize) -> u64 {
        *self.price[self.places_of(item)].iter().min().expect("an item has a place")
    }

    /// The weight of what is held.
    pub fn weight(&self) -> u64 {
        let held = |bidder: usize| {
            let mut edges = self.edges_of(bidder).iter();
            let held = edges.find(|e| self.holder[e.place as usize] == bidder as u8);
            held.map_or(0, |e| e.weight as u64)
        };
        (0..self.arrived).map(held).sum()
    }

    pub fn sum(&self) -> u64 {
        self.price.iter().sum::<u64>() + self.gain.iter().sum::<u64>()
    }
}

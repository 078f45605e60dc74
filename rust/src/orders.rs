//! Withdrawals of several items bid by bid, in the order of R-3 and in others, so
//! that a board can be seen to tell them apart.

use crate::model::auction::Place;
use crate::ties::Walk;
use std::collections::VecDeque;

/// A price at which nothing is open.
const CLOSED: u64 = 1 << 40;

/// Who bids when.
#[derive(Clone, Copy, Debug, PartialEq, Eq)]
pub enum Order {
    /// "All go first; then the displaced batches bid in number order, each chain run
    /// to its end" (document 02, R-3).
    Number,
    /// All go first; then the displaced bid in the order of the places they held.
    Item,
    /// All go first; then the displaced bid from the highest number down.
    Falling,
    /// All go first; then the displaced make one bid each, and whom they displace bids
    /// after them.
    Rounds,
    /// Each item by itself, as document 01 withdraws one: its holders bid before the
    /// next item goes.
    OneByOne,
    /// Each place by itself, so that its holder may bid at the item's next place.
    PlaceByPlace,
}

impl Order {
    /// Those that R-3 does not mean, nor R-6: "A withdrawal removes all places, with displaced
    /// batches in R-3's order".
    pub const OTHERS: [Order; 5] =
        [Order::Item, Order::Falling, Order::Rounds, Order::OneByOne, Order::PlaceByPlace];
}

impl Walk {
    /// A withdrawal that is served, in this order.
    pub fn withdraw(&mut self, items: &[u64], order: Order) {
        match order {
            Order::OneByOne => return items.iter().for_each(|&item| self.withdraw_one(item)),
            Order::PlaceByPlace => return self.place_by_place(items),
            _ => {}
        }
        let mut displaced: Vec<usize> =
            items.iter().flat_map(|&item| self.auction.holders(item)).collect();
        items.iter().for_each(|&item| self.remove(item));
        match order {
            Order::Number => displaced.sort(),
            Order::Falling => displaced.sort_by(|one, other| other.cmp(one)),
            _ => {}
        }
        match order {
            Order::Rounds => self.rounds(displaced),
            _ => displaced.into_iter().for_each(|bidder| self.chain(bidder)),
        }
    }

    /// Document 01, before R-3: "it leaves the live sheet and its price becomes 0. Its
    /// holder, if any, is unplaced, gain 0, and bids." Several bid in number order.
    pub fn withdraw_one(&mut self, item: u64) {
        let mut holders = self.auction.holders(item);
        holders.sort();
        self.remove(item);
        holders.into_iter().for_each(|bidder| self.chain(bidder));
    }

    /// The item leaves the live sheet, and its holders are unplaced.
    fn remove(&mut self, item: u64) {
        self.auction.holders(item).into_iter().for_each(|holder| self.displace(Some(holder)));
        self.auction.items[item as usize - 1].leave();
    }

    /// A place that has left is one at which nothing is open.
    fn place_by_place(&mut self, items: &[u64]) {
        let places: Vec<Place> = items.iter().flat_map(|&item| self.auction.places(item)).collect();
        for place in places {
            let holder = self.auction.holder(place);
            self.displace(holder);
            *self.auction.price_mut(place) = CLOSED;
            holder.into_iter().for_each(|bidder| self.chain(bidder));
        }
        items.iter().for_each(|&item| self.remove(item));
    }

    fn rounds(&mut self, mut displaced: Vec<usize>) {
        displaced.sort();
        let mut waiting = VecDeque::from(displaced);
        while let Some(bidder) = waiting.pop_front() {
            waiting.extend(self.bid(bidder));
        }
    }
}

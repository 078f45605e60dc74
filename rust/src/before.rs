//! The auction without the places of R-6 of document 02, an item with one place and one
//! price, as it was before, but with the bid of R-7; and what R-6 says of it: a board of
//! places is the board of before in which every place is an item, with the edges of its
//! item. Only calls that are served are made here. Nothing is taken from the model's rule.

use crate::gen::history::{Call, History};
use crate::model::auction::{ones, Edge};
use crate::model::sound::Record;

/// Items and bidders count from 0; an edge is the item's number and a weight.
#[derive(Clone, Debug)]
pub struct Before {
    pub p: u64,
    pub q: u64,
    pub price: Vec<u64>,
    pub withdrawn: Vec<bool>,
    pub holder: Vec<Option<usize>>,
    pub gain: Vec<u64>,
    pub edges: Vec<Vec<(usize, u64)>>,
}

impl Before {
    pub fn open(items: u64, p: u64, q: u64) -> Before {
        let items = items as usize;
        Before {
            p,
            q,
            price: vec![0; items],
            withdrawn: vec![false; items],
            holder: vec![None; items],
            gain: Vec::new(),
            edges: Vec::new(),
        }
    }

    /// The call's bids.
    pub fn call(&mut self, call: &Call) -> u64 {
        match call {
            Call::Arrive(edges) => {
                let edge = |edge: &Edge| (edge.item as usize - 1, edge.weight);
                self.edges.push(edges.iter().map(edge).collect());
                self.gain.push(0);
                self.bid(self.edges.len() - 1)
            }
            Call::Withdraw(items) => {
                let displaced = |&item: &u64| self.remove(item as usize - 1);
                let mut displaced: Vec<usize> = items.iter().filter_map(displaced).collect();
                displaced.sort();
                displaced.into_iter().map(|bidder| self.bid(bidder)).sum()
            }
        }
    }

    /// The item leaves; who held it.
    fn remove(&mut self, item: usize) -> Option<usize> {
        self.withdrawn[item] = true;
        self.price[item] = 0;
        let holder = self.holder[item].take()?;
        self.gain[holder] = 0;
        Some(holder)
    }

    /// Bids from this bidder on until nobody is displaced, or nothing is open. What a bid
    /// comes to, gain and price, is (q + p) times the weight.
    fn bid(&mut self, mut bidder: usize) -> u64 {
        for bids in 0.. {
            let Some((item, weight)) = self.choice(bidder) else { return bids };
            self.gain[bidder] = self.second(bidder, item);
            self.price[item] = (self.q + self.p) * weight - self.gain[bidder];
            let Some(displaced) = self.holder[item].replace(bidder) else { return bids + 1 };
            self.gain[displaced] = 0;
            bidder = displaced;
        }
        unreachable!()
    }

    fn open_edges(&self, bidder: usize) -> impl Iterator<Item = (usize, u64)> + '_ {
        let live = self.edges[bidder].iter().copied().filter(|(item, _)| !self.withdrawn[*item]);
        live.filter(|(item, weight)| self.price[*item] < (self.q - self.p) * weight)
    }

    fn utility(&self, (item, weight): (usize, u64)) -> u64 {
        self.q * weight - self.price[item]
    }

    /// The greatest utility; of equal ones the larger weight, then the lower item.
    fn choice(&self, bidder: usize) -> Option<(usize, u64)> {
        self.open_edges(bidder).reduce(|best, next| {
            let better = (self.utility(next), next.1) > (self.utility(best), best.1);
            if better {
                next
            } else {
                best
            }
        })
    }

    /// The greatest utility at another item, 0 for none.
    fn second(&self, bidder: usize, taken: usize) -> u64 {
        let others = self.open_edges(bidder).filter(|(item, _)| *item != taken);
        others.map(|edge| self.utility(edge)).max().unwrap_or(0)
    }

    /// The numbers of a board of this auction are those of a record, place by place.
    pub fn is_record(&self, r: &Record) -> bool {
        let (items, bidders) = (self.price.len(), self.edges.len());
        let number = |holder: &Option<usize>| holder.map_or(0, |bidder| bidder as u8 + 1);
        let rows = r.rows.iter().zip(&self.edges).all(|(row, edges)| {
            let mut expected = [0; 64];
            edges.iter().for_each(|&(item, weight)| expected[item] = weight as u32);
            *row == expected
        });
        (r.places, r.arrived) == (items as u64, bidders as u64)
            && (r.slack.p, r.slack.q) == (self.p, self.q)
            && r.price[..items] == self.price
            && r.gain[..bidders] == self.gain
            && r.holder[..items].iter().copied().eq(self.holder.iter().map(number))
            && r.withdrawn[..items]
                .iter()
                .copied()
                .eq(self.withdrawn.iter().map(|&gone| gone as u8))
            && rows
    }
}

/// The first place of each item, numbered through from 1.
fn first_places(counts: &[u64]) -> Vec<u64> {
    (0..counts.len()).map(|item| 1 + counts[..item].iter().sum::<u64>()).collect()
}

/// The call in which every place is an item.
pub fn spread_call(counts: &[u64], call: &Call) -> Call {
    let first = first_places(counts);
    let places = |item: u64| {
        let index = item as usize - 1;
        first[index]..first[index] + counts[index]
    };
    match call {
        Call::Arrive(edges) => {
            let at = |edge: &Edge| {
                let weight = edge.weight;
                places(edge.item).map(move |item| Edge { item, weight }).collect::<Vec<_>>()
            };
            Call::Arrive(edges.iter().flat_map(at).collect())
        }
        Call::Withdraw(items) => {
            Call::Withdraw(items.iter().flat_map(|&item| places(item)).collect())
        }
    }
}

/// The history in which every place is an item of one place.
pub fn spread(history: &History) -> History {
    let History { counts, slack, calls } = history;
    let calls = calls.iter().map(|call| spread_call(counts, call)).collect();
    History { counts: ones(counts.iter().sum()), slack: *slack, calls }
}

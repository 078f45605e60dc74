//! The greatest weight of a matching on the live edges, by the Hungarian
//! method: bidders come one by one, each with one search that keeps its tree.
//! Every place counts as an item here.

use super::auction::{Auction, BIDDERS, PLACES};

const NONE: u8 = u8::MAX;

struct Solver {
    items: usize,
    weights: [[i32; PLACES]; BIDDERS],
    price: [i32; PLACES],
    gain: [i32; BIDDERS],
    holder: [u8; PLACES],
    held: [u8; BIDDERS],
}

/// One search. Gains of reached bidders fall together, so `excess` and `least`
/// are stored `fall` too high, and prices and gains change once, at the end.
struct Tree {
    fall: i32,
    excess: [i32; PLACES],
    parent: [u8; PLACES],
    reached: [(u8, i32); PLACES + 1],
    bidders: usize,
    seen: [(u8, i32); PLACES],
    items: usize,
    unseen: u64,
    least: i32,
    poorest: usize,
}

pub fn greatest_weight(auction: &Auction) -> u64 {
    let mut solver = Solver::new(auction.places());
    for bidder in 0..auction.arrived {
        for edge in auction.edges_of(bidder) {
            if !auction.withdrawn[edge.place as usize] {
                solver.weights[bidder][edge.place as usize] = edge.weight as i32;
            }
        }
        solver.add(bidder);
    }
    solver.weight()
}

/// The same of the live weights themselves, a row per bidder, 0 for no edge.
pub fn greatest_of(items: usize, rows: &[[u32; PLACES]]) -> u64 {
    let mut solver = Solver::new(items);
    for (bidder, row) in rows.iter().enumerate() {
        solver.weights[bidder] = row.map(|weight| weight as i32);
        solver.add(bidder);
    }
    solver.weight()
}

impl Solver {
    fn new(items: usize) -> Solver {
        Solver {
            items,
            weights: [[0; PLACES]; BIDDERS],
            price: [0; PLACES],
            gain: [0; BIDDERS],
            holder: [NONE; PLACES],
            held: [NONE; BIDDERS],
        }
    }

    /// The weight of what is held.
    fn weight(&self) -> u64 {
        let held = self.holder.iter().enumerate().filter(|(_, &b)| b != NONE);
        held.map(|(item, &b)| self.weights[b as usize][item] as u64).sum()
    }

    fn add(&mut self, bidder: usize) {
        let surplus = |item: usize| self.weights[bidder][item] - self.price[item];
        self.gain[bidder] = (0..self.items).map(surplus).max().unwrap_or(0).max(0);
        let mut tree = Tree {
            fall: 0,
            excess: [i32::MAX; PLACES],
            parent: [NONE; PLACES],
            reached: [(0, 0); PLACES + 1],
            bidders: 0,
            seen: [(0, 0); PLACES],
            items: 0,
            unseen: u64::MAX >> (PLACES - self.items),
            least: i32::MAX,
            poorest: bidder,
        };
        let last = self.search(&mut tree, bidder);
        self.fold(&tree);
        self.shift(&tree, bidder, last);
    }

    /// Grows the tree to a free item, or to a bidder of gain 0 that is left out;
    /// the answer is the item that ends the path, `NONE` if the newcomer stays out.
    fn search(&mut self, tree: &mut Tree, newcomer: usize) -> u8 {
        let mut bidder = newcomer;
        loop {
            let (excess, item) = self.reach(tree, bidder);
            if tree.least <= excess {
                tree.fall = tree.least;
                return std::mem::replace(&mut self.held[tree.poorest], NONE);
            }
            tree.fall = excess;
            tree.seen[tree.items] = (item as u8, excess);
            tree.items += 1;
            tree.unseen &= !(1 << item);
            if self.holder[item] == NONE {
                return item as u8;
            }
            bidder = self.holder[item] as usize;
        }
    }

    /// Adds a bidder to the tree; the unseen item of least excess.
    fn reach(&self, tree: &mut Tree, bidder: usize) -> (i32, usize) {
        tree.reached[tree.bidders] = (bidder as u8, tree.fall);
        tree.bidders += 1;
        let gain = self.gain[bidder] + tree.fall;
        if gain < tree.least {
            tree.least = gain;
            tree.poorest = bidder;
        }
        let mut nearest = (i32::MAX, 0);
        let mut left = tree.unseen;
        while left != 0 {
            let item = left.trailing_zeros() as usize;
            left &= left - 1;
            let excess = gain + self.price[item] - self.weights[bidder][item];
            if excess < tree.excess[item] {
                tree.excess[item] = excess;
                tree.parent[item] = bidder as u8;
            }
            if tree.excess[item] < nearest.0 {
                nearest = (tree.excess[item], item);
            }
        }
        nearest
    }

    /// Lowers the gains of the reached and raises the prices of the seen.
    fn fold(&mut self, tree: &Tree) {
        for &(bidder, since) in &tree.reached[..tree.bidders] {
            self.gain[bidder as usize] -= tree.fall - since;
        }
        for &(item, since) in &tree.seen[..tree.items] {
            self.price[item as usize] += tree.fall - since;
        }
    }

    /// Hands each item of the path to its parent, up to the newcomer.
    fn shift(&mut self, tree: &Tree, newcomer: usize, last: u8) {
        let mut item = last;
        while item != NONE {
            let bidder = tree.parent[item as usize] as usize;
            self.holder[item as usize] = bidder as u8;
            item = std::mem::replace(&mut self.held[bidder], item);
            if bidder == newcomer {
                break;
            }
        }
    }
}

//! Who bids when several items leave: "All go first; then the displaced batches bid in
//! number order, each chain run to its end" (document 02, R-3). On both sides, and beside
//! other orders, which come to other boards.

use noughtelm_tests::both::watched::Watched;
use noughtelm_tests::both::{wide, Same, Tally};
use noughtelm_tests::gen::history::{history, Call, History, Kind};
use noughtelm_tests::model::auction::*;
use noughtelm_tests::model::sound::{from_record, to_record};
use noughtelm_tests::orders::Order;
use noughtelm_tests::rng::Rng;
use noughtelm_tests::ties::{by_pairs, Walk};
use std::ops::Range;

/// The withdrawal in this order, bid by bid.
fn walked(auction: &Auction, items: &[u64], order: Order) -> Walk {
    let mut walk = Walk::on(auction.clone(), by_pairs);
    walk.withdraw(items, order);
    walk
}

// ---- boards made by hand

/// A board, the items that leave it, and what it comes to.
struct Case {
    /// How many places the items have.
    counts: &'static [u64],
    q: u64,
    arrivals: &'static [&'static [(u64, u64)]],
    list: &'static [u64],
    bidders: &'static [usize],
    matching: &'static [u64],
    prices: &'static [u64],
    gains: &'static [u64],
    /// The orders that come to something else.
    apart: &'static [Order],
}

impl Case {
    fn board<'a>(&self, seen: &'a mut Tally) -> Same<Watched<'a>> {
        let slack = Slack { p: 1, q: self.q };
        let history = History { counts: self.counts.to_vec(), slack, calls: Vec::new() };
        let mut board = Watched::opened(&history, seen)?;
        for list in self.arrivals {
            let edge = |&(item, weight): &(u64, u64)| Edge { item, weight };
            let edges: Vec<Edge> = list.iter().map(edge).collect();
            board.arrive(&edges)?.expect("a good list");
        }
        Ok(board)
    }

    /// The board on both sides, and every order bid by bid.
    fn assert(&self) {
        let mut seen = Tally::default();
        let mut board = self.board(&mut seen).expect("both agree");
        let before = from_record(&board.both.model).expect("a sound board");
        assert_eq!(board.withdraw(self.list), Ok(Ok(self.bidders.len() as u64)));
        let [m, y, g] = board.both.read_out(wide()).expect("both agree").expect("room");
        let (bidders, items) = (self.arrivals.len(), self.counts.len());
        let lists = (&m[..bidders], &y[..items], &g[..bidders]);
        assert_eq!(lists, (self.matching, self.prices, self.gains));
        let right = walked(&before, self.list, Order::Number);
        assert_eq!(to_record(&right.auction), board.both.model);
        assert_eq!(right.bidders.iter().map(|b| b + 1).collect::<Vec<usize>>(), self.bidders);
        for order in Order::OTHERS {
            let other = walked(&before, self.list, order);
            let differs = other.auction != right.auction;
            assert_eq!(differs, self.apart.contains(&order), "{order:?}: {:?}", other.auction);
        }
    }
}

/// Bidders 1 and 2 hold items 2 and 1, and want item 3: the lower number has it, though
/// its item is the higher, and raises it to 150.
#[test]
fn number_order_is_not_the_order_of_items() {
    Case {
        counts: &[1, 1, 1],
        q: 2,
        arrivals: &[&[(2, 100), (3, 50)], &[(1, 100), (3, 50)]],
        list: &[1, 2],
        bidders: &[1],
        matching: &[3, 0],
        prices: &[0, 0, 150],
        gains: &[0, 0],
        apart: &[Order::Item, Order::Falling, Order::OneByOne, Order::PlaceByPlace],
    }
    .assert();
}

/// If item 2 were still there, it would be bidder 1's second, with 400 - 260, and item 3 would
/// not be raised above 110, at which bidder 2 takes it.
#[test]
fn all_go_first() {
    Case {
        counts: &[1, 1, 1],
        q: 4,
        arrivals: &[&[(1, 100), (2, 100), (3, 50)], &[(2, 100), (3, 60)]],
        list: &[1, 2],
        bidders: &[1],
        matching: &[3, 0],
        prices: &[0, 0, 250],
        gains: &[0, 0],
        apart: &[Order::Falling, Order::OneByOne, Order::PlaceByPlace],
    }
    .assert();
}

/// Bidder 1 displaces bidder 3, who is at item 4 before bidder 2 bids.
#[test]
fn each_chain_is_run_to_its_end() {
    Case {
        counts: &[1; 4],
        q: 2,
        arrivals: &[&[(1, 200), (3, 100)], &[(2, 200), (4, 30)], &[(3, 40), (4, 30)]],
        list: &[1, 2],
        bidders: &[1, 3],
        matching: &[3, 0, 4],
        prices: &[0, 0, 300, 90],
        gains: &[0, 0, 0],
        apart: &[Order::Falling, Order::Rounds],
    }
    .assert();
}

/// Bidder 1's chain moves bidder 3 on, bidder 2's moves bidder 1 and again bidder 3. Bidder 2
/// finds 190 at item 3, then at 210, and 75 at item 4, then at 5.
#[test]
fn chains_displace_each_others_bidders() {
    Case {
        counts: &[1; 5],
        q: 4,
        arrivals: &[
            &[(2, 50), (3, 50), (4, 10)],
            &[(1, 100), (3, 100), (4, 20)],
            &[(3, 15), (4, 5), (5, 5)],
        ],
        list: &[1, 2],
        bidders: &[1, 3, 2, 1, 3],
        matching: &[4, 3, 5],
        prices: &[0, 0, 425, 50, 25],
        gains: &[0, 75, 0],
        apart: &Order::OTHERS,
    }
    .assert();
}

/// "A withdrawal removes all places, with displaced batches in R-3's order" (document 02,
/// Bidder 3 has the first place of item 1 and bidder 2 the second: bidder 2 is at
/// item 2 first.
#[test]
fn number_order_is_not_the_order_of_places() {
    Case {
        counts: &[2, 1],
        q: 2,
        arrivals: &[&[(1, 20)], &[(1, 60), (2, 20)], &[(1, 100), (2, 20)]],
        list: &[1],
        bidders: &[2],
        matching: &[0, 2, 0],
        prices: &[0, 60],
        gains: &[0, 0, 0],
        apart: &[Order::Item, Order::Falling],
    }
    .assert();
}

/// Bidders 1 and 2 have both places of item 1. If the first left by itself, bidder 1 would
/// take the second from bidder 2, who would be at item 2 first.
#[test]
fn all_places_go_first() {
    Case {
        counts: &[2, 1],
        q: 4,
        arrivals: &[&[(1, 100), (2, 50)], &[(1, 80), (2, 60)]],
        list: &[1],
        bidders: &[1],
        matching: &[2, 0],
        prices: &[0, 250],
        gains: &[0, 0],
        apart: &[Order::Falling, Order::PlaceByPlace],
    }
    .assert();
}

// ---- random histories

/// What the withdrawals of several items met, in R-3's order and in the others.
#[derive(Debug, Default)]
struct Met {
    withdrawals: u64,
    /// Two or more were displaced by the items that left.
    several: u64,
    /// A bidder bid that held none of these items.
    inside: u64,
    /// A bidder that held one of them bid, and again within a later chain.
    again: u64,
    /// How many come to another board in each of the other orders.
    apart: [u64; 5],
}

impl Met {
    fn note(&mut self, before: &Auction, items: &[u64], right: &Walk) {
        let first: Vec<usize> = items.iter().flat_map(|&item| before.holders(item)).collect();
        let bids = |bidder: usize| right.bidders.iter().filter(|&&b| b == bidder).count();
        self.withdrawals += 1;
        self.several += (first.len() > 1) as u64;
        self.inside += right.bidders.iter().any(|bidder| !first.contains(bidder)) as u64;
        self.again += first.iter().any(|&bidder| bids(bidder) > 1) as u64;
        for (apart, order) in self.apart.iter_mut().zip(Order::OTHERS) {
            *apart += (walked(before, items, order).auction != right.auction) as u64;
        }
    }
}

/// A history on both sides, its withdrawals bid by bid too.
fn run(history: &History, seen: &mut Tally, met: &mut Met) -> Same<()> {
    let mut board = Watched::opened(history, seen)?;
    for call in &history.calls {
        let before = from_record(&board.both.model).expect("a sound board");
        let bids = board.call(call)?.expect("a good call");
        if let Call::Withdraw(items) = call {
            let right = walked(&before, items, Order::Number);
            assert_eq!(right.ties.bids, bids, "{items:?}\n{before:?}");
            assert_eq!(to_record(&right.auction), board.both.model, "{items:?}\n{before:?}");
            let several = history.counts.iter().any(|&count| count > 1);
            if several || items.len() > 1 {
                met.note(&before, items, &right);
            }
        }
    }
    Ok(())
}

fn run_all(kind: Kind, seeds: Range<u64>) -> Met {
    let (mut seen, mut met) = (Tally::default(), Met::default());
    for seed in seeds {
        let history = history(&mut Rng::new(seed), kind);
        if let Err(found) = run(&history, &mut seen, &mut met) {
            panic!("seed {seed}: {found}\n{history:?}");
        }
    }
    println!("{met:?}");
    met
}

#[test]
fn random_histories_tell_the_orders_apart() {
    let met = run_all(Kind::Lists, 570_000..572_000);
    assert!(met.withdrawals > 1_000 && met.several > 700);
    assert!(met.inside > 250 && met.again > 150);
    assert!(met.apart.iter().all(|&boards| boards > 100));
}

#[test]
fn random_histories_of_places_tell_the_orders_apart() {
    let met = run_all(Kind::PlacesLists, 572_000..573_800);
    assert!(met.withdrawals > 2_500 && met.several > 1_200);
    assert!(met.inside > 250 && met.again > 150);
    assert!(met.apart.iter().all(|&boards| boards > 80));
}

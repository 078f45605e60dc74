//! The model against itself: document 01's laws on random histories, the choice
//! of an edge and of the second against trying all pairs of them, the solver
//! against trying everything, and the check on pairs that it must take.

use noughtelm_tests::gen::claim;
use noughtelm_tests::gen::history::{history, staircase, Call, History, Kind};
use noughtelm_tests::gen::places::{counts, full};
use noughtelm_tests::model::auction::*;
use noughtelm_tests::model::check::{check, Totals};
use noughtelm_tests::model::count;
use noughtelm_tests::model::hungarian::{solve, Exact};
use noughtelm_tests::model::refusal::*;
use noughtelm_tests::model::sound::{from_record, is_sound, to_record};
use noughtelm_tests::rng::Rng;
use noughtelm_tests::ties::{by_pairs, offers, walk, Offer, Ties, Walk};
use std::collections::BTreeSet;

/// Histories of each kind; those at the limits take the most bids.
fn histories(kind: Kind) -> u64 {
    match kind.is_large() {
        true => 120,
        false => 600,
    }
}

/// What a run over histories saw.
#[derive(Default)]
struct Seen {
    histories: u64,
    served: u64,
    bids: u64,
    boards: u64,
    refused: BTreeSet<u64>,
}

fn exact_of(auction: &Auction) -> Exact {
    solve(&auction.live_weights(), &auction.counts())
}

/// The laws that need no solver, on any board that a history reaches.
fn assert_laws(auction: &Auction, edges: u64, bids: u64) {
    let Slack { p, q } = auction.slack;
    let record = to_record(auction);
    assert!(is_sound(&record));
    assert_eq!(from_record(&record).as_ref(), Ok(auction));
    assert_eq!(auction.sum(), (q + p) * auction.weight());
    assert!(bids <= edges * ((q - 1) / p), "{bids} bids on {edges} edges at {p}/{q}");
    for bidder in auction.bidders.iter().filter(|b| b.held.is_none()) {
        for &edge in bidder.edges.iter().filter(|&&e| auction.is_live(e)) {
            let full = auction.places(edge.item).all(|place| auction.holder(place).is_some());
            assert!(full, "a free place left to an unplaced bidder");
        }
    }
    assert_read_out(auction);
}

/// "a check of read-out prices may total less than q + p times the worth, never more"
/// (document 02, R-6); it totals that where every item has one place.
fn assert_read_out(auction: &Auction) {
    let totals = check(auction, &claim::own(auction)).expect("the auction's own lists");
    assert_eq!(totals.weight, auction.weight());
    assert!(totals.sum <= auction.sum(), "{totals:?}");
    let single = auction.items.iter().all(|item| item.count() == 1);
    assert!(!single || totals.sum == auction.sum(), "{totals:?}");
}

/// The share, and the exact pair at 0/1.
fn assert_share(auction: &Auction) {
    let Slack { p, q } = auction.slack;
    let weight = exact_of(auction).weight;
    assert!(weight >= auction.weight());
    assert!((q + p) * auction.weight() >= (q - p) * weight);
    let totals = Totals { weight, sum: weight };
    assert_eq!(check(auction, &claim::exact(auction)), Ok(totals));
}

fn run(history: &History, seen: &mut Seen) {
    let mut auction = history.opened();
    let (mut edges, mut bids) = (0, 0);
    for (index, next) in history.calls.iter().enumerate() {
        let before = auction.clone();
        match next.carry_out(&mut auction) {
            Ok(made) => {
                seen.served += 1;
                bids += made;
                if let Call::Arrive(list) = next {
                    edges += auction.places_at(list);
                }
            }
            Err(refusal) => {
                seen.refused.insert(refusal.number);
                assert_eq!(auction, before, "a refusal changed the auction");
            }
        }
        assert_laws(&auction, edges, bids);
        if index % 16 == 0 || index + 1 == history.calls.len() {
            assert_share(&auction);
        }
        seen.boards += 1;
    }
    seen.histories += 1;
    seen.bids += bids;
}

fn run_kind(kind: Kind) -> Seen {
    let mut seen = Seen::default();
    let mut rng = Rng::new(kind as u64);
    for _ in 0..histories(kind) {
        run(&history(&mut rng, kind), &mut seen);
    }
    println!("{kind:?}: {} boards, {} bids", seen.boards, seen.bids);
    assert_eq!(seen.histories, histories(kind));
    assert!(seen.boards > seen.histories && seen.served > 0 && seen.bids > seen.histories);
    seen
}

fn run_served(kind: Kind) {
    assert_eq!(run_kind(kind).refused, BTreeSet::new());
}

#[test]
fn small_histories() {
    run_served(Kind::Small);
}

#[test]
fn sparse_histories() {
    run_served(Kind::Sparse);
}

#[test]
fn dense_histories() {
    run_served(Kind::Dense);
}

#[test]
fn histories_full_of_ties() {
    run_served(Kind::Ties);
}

#[test]
fn histories_at_the_limits() {
    run_served(Kind::Limits);
}

#[test]
fn histories_with_many_withdrawals() {
    run_served(Kind::Withdrawals);
}

#[test]
fn histories_with_refused_calls() {
    let refused = run_kind(Kind::Refused).refused;
    assert_eq!(refused, BTreeSet::from([FULL, UNKNOWN, GONE, WORTH, ORDER]));
}

#[test]
fn histories_of_equal_utility() {
    run_served(Kind::EqualUtility);
}

#[test]
fn histories_of_lists() {
    run_served(Kind::Lists);
}

#[test]
fn histories_of_places() {
    Kind::OF_PLACES.into_iter().for_each(run_served);
}

#[test]
fn histories_of_places_with_refused_calls() {
    let refused = run_kind(Kind::PlacesRefused).refused;
    assert_eq!(refused, BTreeSet::from([FULL, UNKNOWN, GONE, WORTH, ORDER]));
}

/// A bidder at the last item, with edges at others whose prices leave few utilities; these
/// have up to so many places.
fn choosing(rng: &mut Rng, most: u64) -> Auction {
    let (p, q): (u64, u64) = rng.pick(&[(1, 2), (1, 3), (1, 10), (2, 5), (9, 10), (999, 1_000)]);
    let last = rng.range(2, 8);
    let mut items = vec![Item::free(1); last as usize];
    let mut edges = Vec::new();
    for item in 1..last {
        let weight = rng.pick(&[4, 5, 5, 6, 8]);
        let prices = (0..rng.range(1, most))
            .map(|_| (q * weight).saturating_sub(rng.pick(&[4 * q, 4 * q, 5 * p, 6 * p])))
            .collect();
        items[item as usize - 1] = Item { prices, withdrawn: rng.chance(1, 8) };
        if rng.chance(7, 8) {
            edges.push(Edge { item, weight });
        }
    }
    edges.push(Edge { item: last, weight: 1 });
    let held = Some(Place { item: last, number: 1 });
    Auction { slack: Slack { p, q }, items, bidders: vec![Bidder { edges, gain: 0, held }] }
}

/// What one bid comes to: the place held, the gain, and the prices of all places.
type Bid = (Option<Place>, u64, Vec<Vec<u64>>);

fn by_place(auction: &Auction) -> Vec<Vec<u64>> {
    auction.items.iter().map(|item| item.prices.clone()).collect()
}

/// The bid that takes the first of these offers, with the first of the others as second.
fn bid_among(left: &Auction, offers: &[Offer]) -> Bid {
    let Some(first) = by_pairs(offers) else { return (None, 0, by_place(left)) };
    let others: Vec<Offer> = offers.iter().copied().filter(|o| o.place != first.place).collect();
    let second = by_pairs(&others).map_or(0, |offer| offer.utility);
    let mut left = left.clone();
    let rise = (first.utility - second) as u64 + left.slack.p * first.weight;
    *left.price_mut(first.place) += rise;
    (Some(first.place), second as u64, by_place(&left))
}

/// One bid at any prices, of a bidder whose item is withdrawn: the edge taken comes
/// first in every pair of open ones, the second in every pair of the others.
fn choose_by_pairs(rng: &mut Rng, most: u64) -> Ties {
    let (mut ties, mut unplaced) = (Ties::default(), 0);
    for _ in 0..30_000 {
        let mut auction = choosing(rng, most);
        let last = auction.items.len();
        let mut left = auction.clone();
        left.items[last - 1].leave();
        let offers = offers(&left, 0);
        let expected = by_pairs(&offers);
        assert_eq!(auction.withdraw(&[last as u64]), Ok(expected.is_some() as u64));
        let bid = (auction.bidders[0].held, auction.bidders[0].gain, by_place(&auction));
        assert_eq!(bid, bid_among(&left, &offers), "{:?}, {offers:?}", auction.slack);
        unplaced += expected.is_none() as u64;
        expected.into_iter().for_each(|taken| ties.note(&offers, taken));
    }
    println!("{ties:?}, {unplaced} unplaced");
    assert!(ties.weights >= 6_000 && ties.lower >= 3_000);
    assert!(ties.full >= 4_000 && ties.closed >= 3_000 && unplaced >= 500);
    ties
}

#[test]
fn choice_by_pairs() {
    let ties = choose_by_pairs(&mut Rng::new(9), 1);
    assert!(ties.bids <= 25_000 && ties.places == 0);
}

#[test]
fn choice_among_places_by_pairs() {
    let ties = choose_by_pairs(&mut Rng::new(19), 4);
    assert!(ties.places >= 10_000 && ties.both >= 2_500 && ties.cheaper >= 5_000);
}

/// Every bid of a history by pairs, beside the model's calls.
fn bid_by_pairs(history: &History) -> Ties {
    let mut auction = history.opened();
    let mut walk = Walk::open(history, by_pairs);
    for next in &history.calls {
        assert_eq!(next.carry_out(&mut auction), Ok(walk.call(next)), "{history:?}");
        assert_eq!(auction, walk.auction, "{history:?}");
    }
    walk.ties
}

#[test]
fn bids_by_pairs() {
    let mut rng = Rng::new(10);
    let mut ties = Ties::default();
    for kind in [Kind::Small, Kind::Ties, Kind::Withdrawals, Kind::EqualUtility, Kind::Lists] {
        (0..1_000).for_each(|_| ties += bid_by_pairs(&history(&mut rng, kind)));
        println!("up to {kind:?}: {ties:?}");
    }
    assert!(ties.weights >= 3_000 && ties.lower >= 1_000);
    assert!(ties.full >= 4_500 && ties.closed >= 1_000 && ties.places == 0);
    for kind in [Kind::Places, Kind::PlacesTies, Kind::PlacesEqualUtility, Kind::PlacesLists] {
        (0..1_000).for_each(|_| ties += bid_by_pairs(&history(&mut rng, kind)));
        println!("up to {kind:?}: {ties:?}");
    }
    assert!(ties.places >= 10_000 && ties.both >= 2_000 && ties.cheaper >= 10_000);
}

/// Document 01's choice without R-1: "of equal ones, the lowest kettle".
fn lowest_item(offers: &[Offer]) -> Option<Offer> {
    let open = offers.iter().copied().filter(|offer| offer.open);
    open.reduce(|best, next| if next.utility > best.utility { next } else { best })
}

/// R-1's example, and many histories, end otherwise where the lowest item is taken.
#[test]
fn lowest_item_gives_something_else() {
    let edge = |item: u64, weight: u64| Edge { item, weight };
    let lists = [vec![edge(2, 100), edge(3, 100)], vec![edge(1, 50), edge(2, 60)]];
    let example = History::of_ones(3, Slack { p: 1, q: 10 }, lists.map(Call::Arrive).to_vec());
    let (now, before) = (walk(&example, by_pairs), walk(&example, lowest_item));
    assert_eq!((now.ties.bids, now.auction.prices()), (3, vec![0, 160, 260]));
    assert_eq!((before.ties.bids, before.auction.prices()), (2, vec![50, 100, 0]));
    let mut rng = Rng::new(17);
    let (mut boards, mut matchings) = (0, 0);
    for _ in 0..2_000 {
        let history = history(&mut rng, Kind::EqualUtility);
        let (now, before) = (walk(&history, by_pairs), walk(&history, lowest_item));
        boards += (now.auction != before.auction) as u64;
        matchings += (now.auction.matching() != before.auction.matching()) as u64;
    }
    println!("of 2,000 histories {boards} end otherwise, {matchings} in another matching");
    assert!(boards >= 800 && matchings >= 500);
}

/// Longest path, and the exact level where every bidder moves.
#[test]
fn staircases() {
    let mut seen = Seen::default();
    for items in 2..=64 {
        run(&staircase(items), &mut seen);
    }
    assert_eq!(seen.histories, 63);
}

/// Weights of up to so many bidders and items, and how many places these have.
fn tiny_weights(rng: &mut Rng, most: [u64; 3]) -> (Vec<Vec<u64>>, Vec<u64>) {
    let [bidders, items, places] = most;
    let (rows, items) = (rng.range(0, bidders), rng.range(1, items));
    let most = rng.pick(&[1, 2, 10, 1_000_000]);
    let mut cell = || if rng.chance(2, 3) { rng.range(1, most) } else { 0 };
    let weights = (0..rows).map(|_| (0..items).map(|_| cell()).collect()).collect();
    (weights, counts(rng, items, places))
}

/// The solver's lists are a matching and a cover of equal totals, an item's price counting
/// once per place.
fn assert_exact(weights: &[Vec<u64>], counts: &[u64], exact: &Exact) {
    let (mut left, mut weight) = (counts.to_vec(), 0);
    for (row, &cell) in weights.iter().zip(&exact.matching) {
        if cell != 0 {
            let item = cell as usize - 1;
            assert!(left[item] > 0 && row[item] > 0);
            left[item] -= 1;
            weight += row[item];
        }
    }
    for (row, gain) in weights.iter().zip(&exact.gain) {
        assert!((0..counts.len()).all(|i| gain + exact.price[i] >= row[i]));
    }
    assert_eq!((exact.matching.len(), exact.gain.len()), (weights.len(), weights.len()));
    assert_eq!(exact.price.len(), counts.len());
    assert_eq!(weight, exact.weight);
    let prices: u64 = exact.price.iter().zip(counts).map(|(price, count)| price * count).sum();
    assert_eq!(prices + exact.gain.iter().sum::<u64>(), weight);
}

fn compare_solvers(rng: &mut Rng, most: [u64; 3]) {
    let (mut positive, mut priced, mut shared) = (0, 0, 0);
    for _ in 0..20_000 {
        let (weights, counts) = tiny_weights(rng, most);
        let exact = solve(&weights, &counts);
        assert_exact(&weights, &counts, &exact);
        assert_eq!(exact.weight, count::greatest(&weights, &counts), "{weights:?} {counts:?}");
        positive += (exact.weight > 0) as u64;
        priced += (0..counts.len()).any(|i| counts[i] > 1 && exact.price[i] > 0) as u64;
        let named: BTreeSet<&u64> = exact.matching.iter().filter(|&&cell| cell != 0).collect();
        let placed = exact.matching.iter().filter(|&&cell| cell != 0).count();
        shared += (named.len() < placed) as u64;
    }
    println!("{positive} weigh something, {shared} name an item twice, {priced} price one");
    assert!(positive > 10_000);
    assert!(most[2] == 1 || shared > 5_000 && priced > 2_000);
}

#[test]
fn solver_equals_brute_force() {
    compare_solvers(&mut Rng::new(7), [5, 5, 1]);
}

#[test]
fn solver_with_places_equals_brute_force() {
    compare_solvers(&mut Rng::new(27), [7, 3, 3]);
}

#[test]
fn solver_at_full_size() {
    let mut rng = Rng::new(8);
    let mut ran = 0;
    for most in [1, 10, 9_999, 1_000_000] {
        for _ in 0..5 {
            let mut cell = || if rng.chance(7, 8) { rng.range(1, most) } else { 0 };
            let weights: Vec<Vec<u64>> =
                (0..128).map(|_| (0..64).map(|_| cell()).collect()).collect();
            assert_exact(&weights, &ones(64), &solve(&weights, &ones(64)));
            ran += 1;
        }
        for _ in 0..5 {
            let counts = full(&mut rng);
            let mut cell = || if rng.chance(7, 8) { rng.range(1, most) } else { 0 };
            let weights: Vec<Vec<u64>> =
                (0..128).map(|_| counts.iter().map(|_| cell()).collect()).collect();
            assert_exact(&weights, &counts, &solve(&weights, &counts));
            ran += 1;
        }
    }
    assert_eq!(ran, 40);
}

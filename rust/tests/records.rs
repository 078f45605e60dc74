//! The fixed-size record: sound ones that no history need reach, each clause
//! of soundness broken, any numbers at all; and the check on all sorts of claims.

use noughtelm_tests::gen::history::Kind;
use noughtelm_tests::gen::plan::times;
use noughtelm_tests::gen::{board, claim, history, items};
use noughtelm_tests::model::auction::*;
use noughtelm_tests::model::calls::*;
use noughtelm_tests::model::check::{Claim, Totals, MAX_PRICE};
use noughtelm_tests::model::hungarian::solve;
use noughtelm_tests::model::refusal::*;
use noughtelm_tests::model::sound::{from_record, is_sound, to_record, Record};
use noughtelm_tests::rng::Rng;
use std::collections::BTreeMap;

const MARK: u64 = 0xabcd_ef01_2345_6789;

fn share_holds(auction: &Auction) {
    let Slack { p, q } = auction.slack;
    assert_eq!(auction.sum(), (q + p) * auction.weight());
    let best = solve(&auction.live_weights(), &auction.counts()).weight;
    assert!((q + p) * auction.weight() >= (q - p) * best);
}

fn live_arrival(rng: &mut Rng, auction: &Auction) -> Vec<Edge> {
    let mut edges = Vec::new();
    for (index, item) in auction.items.iter().enumerate() {
        if !item.withdrawn && rng.chance(2, 3) {
            edges.push(Edge { item: index as u64 + 1, weight: rng.range(1, MAX_WEIGHT) });
        }
    }
    edges
}

/// No price and no gain of a sound record is above 2,000,000,000, so that the check takes
/// what is read out: gain and price are (q + p) × w at most, below 2,000 × 1,000,000.
fn assert_own_lists(record: &Record, auction: &Auction) {
    let most = record.price.iter().chain(&record.gain).max().expect("a cell");
    assert!(*most <= MAX_PRICE, "{most}");
    let totals = check_record(record, &claim::own(auction)).expect("the auction's own lists");
    assert_eq!(totals.weight, auction.weight());
}

#[test]
fn sound_records_are_served() {
    let mut rng = Rng::new(11);
    let (mut high, mut arrivals, mut withdrawals) = (0, 0, 0);
    for _ in 0..4_000 {
        let mut record = board::sound(&mut rng);
        assert!(is_sound(&record));
        let auction = from_record(&record).unwrap();
        assert_eq!(to_record(&auction), record);
        share_holds(&auction);
        high += record.price.iter().any(|&y| y > 1_000_000_000) as u64;
        assert_own_lists(&record, &auction);
        if auction.bidders.len() < MAX_BIDDERS {
            arrive_record(&mut record, &live_arrival(&mut rng, &auction)).unwrap();
            assert!(is_sound(&record));
            arrivals += 1;
        }
        let count = rng.index(auction.items.len()) + 1;
        let items = items::rising(&mut rng, &items::items_of(&record, false), count);
        withdraw_record(&mut record, &items).unwrap();
        assert!(is_sound(&record));
        withdrawals += !items.is_empty() as u64;
        share_holds(&from_record(&record).unwrap());
    }
    println!("{high} records with a price above the check's limit of before R-7");
    assert!(high > 100 && arrivals > 1_000 && withdrawals > 1_000);
}

/// Every call on a record that is not sound answers 13 and keeps every byte.
fn assert_spoilt(record: &Record, what: &str) {
    let spoilt = Refusal { number: SPOILT, place: 0 };
    let mut after = record.clone();
    let mut lists = [[MARK; 200]; 3];
    let [m, y, g] = &mut lists;
    let claim = Claim { matching: vec![], price: vec![], gain: vec![], slack: record.slack };
    assert_eq!(arrive_record(&mut after, &[Edge { item: 0, weight: 0 }]), Err(spoilt), "{what}");
    for items in [&[][..], &[1], &[0, 0]] {
        assert_eq!(withdraw_record(&mut after, items), Err(spoilt), "{what}");
    }
    assert_eq!(read_out_record(record, &mut m[..0], &mut y[..0], g), Err(spoilt), "{what}");
    assert_eq!(exact_record(record, m, y, g), Err(spoilt), "{what}");
    assert_eq!(count_record(record), Err(spoilt), "{what}");
    assert_eq!(check_record(record, &claim), Err(spoilt), "{what}");
    assert_eq!(lists, [[MARK; 200]; 3]);
    for (first, second) in [(0, 0), (0, 200), (200, 0), (record.arrived.min(128) as usize, 200)] {
        let answer = compare_record(record, &[0; 200][..first], &[MARK; 200][..second]);
        assert_eq!(answer, Err(spoilt), "{what}");
    }
    let mut page = [0xab; 4_000];
    assert_eq!(write_page_record(record, &mut page[..0]), Err(spoilt), "{what}");
    assert_eq!(write_page_record(record, &mut page), Err(spoilt), "{what}");
    assert_eq!(page, [0xab; 4_000]);
    assert!(&after == record);
}

#[test]
fn every_clause_counts() {
    let mut rng = Rng::new(12);
    for (what, spoil) in board::SPOILS {
        let mut tried = 0;
        for _ in 0..300 {
            let mut record = board::sound(&mut rng);
            if spoil(&mut rng, &mut record) {
                assert!(!is_sound(&record), "still sound: {what}");
                assert_spoilt(&record, what);
                tried += 1;
            }
        }
        assert!(tried > 50, "{what}: tried {tried} times");
    }
}

#[test]
fn any_numbers_are_answered() {
    let mut rng = Rng::new(13);
    let mut spoilt = 0;
    for _ in 0..3_000 {
        let record = board::random(&mut rng);
        match from_record(&record) {
            Ok(auction) => assert!(to_record(&auction) == record),
            Err(_) => {
                spoilt += 1;
                assert_spoilt(&record, "random numbers");
            }
        }
    }
    assert!(spoilt > 2_000);
}

#[test]
fn lists_keep_their_further_cells() {
    let mut rng = Rng::new(14);
    let (mut written, mut short) = (0, 0);
    for _ in 0..2_000 {
        let record = board::sound(&mut rng);
        let (bidders, items) = (record.arrived as usize, record.items as usize);
        let mut lists = [MARK; 3].map(|mark| vec![mark; 200]);
        let [m, y, g] = &mut lists;
        let room = |rng: &mut Rng, cells: usize| (cells + rng.index(4)).saturating_sub(1);
        let rooms = [room(&mut rng, bidders), room(&mut rng, items), room(&mut rng, bidders)];
        let (m, y, g) = (&mut m[..rooms[0]], &mut y[..rooms[1]], &mut g[..rooms[2]]);
        let fits = rooms[0] >= bidders && rooms[1] >= items && rooms[2] >= bidders;
        let exact = rng.chance(1, 2);
        let answer = if exact {
            exact_record(&record, m, y, g).map(|_| ())
        } else {
            read_out_record(&record, m, y, g)
        };
        let cells = if fits { [bidders, items, bidders] } else { [0; 3] };
        let refused = Err(Refusal { number: SHORT, place: 0 });
        assert_eq!(answer, if fits { Ok(()) } else { refused });
        for (list, used) in lists.iter().zip(cells) {
            assert!(list[..used].iter().all(|&cell| cell != MARK));
            assert!(list[used..].iter().all(|&cell| cell == MARK));
        }
        written += fits as u64;
        short += !fits as u64;
    }
    assert!(written > 300 && short > 300);
}

/// Every refusal of the check that is met, number by number, place by place.
fn met(r: &Record, c: &Claim) -> Vec<Refusal> {
    let (items, bidders) = (r.items as usize, r.arrived as usize);
    let mut all = Vec::new();
    let mut note = |met: bool, number: u64, place: usize| {
        if met {
            all.push(Refusal { number, place: place as u64 });
        }
    };
    note(c.slack.p >= c.slack.q || c.slack.q > 1_000, SLACK, 0);
    let lengths = (c.matching.len(), c.price.len(), c.gain.len());
    let even = lengths == (bidders, items, bidders);
    note(!even, UNEVEN, 0);
    let factor = c.slack.q.saturating_sub(c.slack.p) as u128;
    if even {
        for b in 0..bidders {
            note(cell_clashes(r, c, b), CLASH, b + 1);
        }
        for i in 0..items {
            note(c.price[i] > 2_000_000_000, PRICE, i + 1);
            note(r.is_gone(i) && c.price[i] > 0, PRICE, i + 1);
        }
        for b in 0..bidders {
            note(c.gain[b] > 2_000_000_000, PRICE, items + b + 1);
        }
        for (b, i) in (0..bidders).flat_map(|b| (0..items).map(move |i| (b, i))) {
            let paid = c.gain[b] as u128 + c.price[i] as u128;
            let weight = r.weight_at(b, i);
            let bare = paid < factor * weight as u128;
            note(!r.is_gone(i) && weight > 0 && bare, BARE, b + 1);
        }
    }
    all
}

fn cell_clashes(r: &Record, c: &Claim, bidder: usize) -> bool {
    let cell = c.matching[bidder];
    if cell == 0 {
        return false;
    }
    if cell > r.items {
        return true;
    }
    let item = cell as usize - 1;
    let full = times(&c.matching[..bidder], cell) >= r.counts[item] as u64;
    r.is_gone(item) || r.weight_at(bidder, item) == 0 || full
}

fn totals(r: &Record, c: &Claim) -> Totals {
    let weight = |(b, &cell): (usize, &u64)| match cell {
        0 => 0,
        cell => r.weight_at(b, cell as usize - 1),
    };
    let weight = c.matching.iter().enumerate().map(weight).sum();
    let prices = c.price.iter().zip(&r.counts).map(|(price, &count)| count as u64 * price);
    Totals { weight, sum: prices.sum::<u64>() + c.gain.iter().sum::<u64>() }
}

fn try_claim(record: &Record, claim: &Claim, seen: &mut BTreeMap<u64, u64>) {
    let expected = match met(record, claim).first() {
        Some(&refusal) => Err(refusal),
        None => Ok(totals(record, claim)),
    };
    let answer = check_record(record, claim);
    assert_eq!(answer, expected, "{claim:?}");
    *seen.entry(answer.err().map_or(0, |refusal| refusal.number)).or_default() += 1;
}

fn reached(rng: &mut Rng) -> Record {
    let kind = rng.pick(&[Kind::Small, Kind::Ties, Kind::Withdrawals, Kind::Places]);
    to_record(&history::history(rng, kind).auction())
}

#[test]
fn check_answers_in_order() {
    let mut rng = Rng::new(15);
    let mut seen = BTreeMap::new();
    for round in 0..10_000 {
        let record = if round % 2 == 0 { board::sound(&mut rng) } else { reached(&mut rng) };
        let auction = from_record(&record).unwrap();
        try_claim(&record, &claim::damaged(&mut rng, &auction), &mut seen);
    }
    println!("answers by number: {seen:?}");
    assert!([0, SLACK, UNEVEN, CLASH, PRICE, BARE].iter().all(|n| seen[n] > 100));
}

/// Lowering any gain of a placed bidder uncovers its own edge.
#[test]
fn check_misses_no_penny() {
    let mut rng = Rng::new(16);
    let mut tried = 0;
    for _ in 0..2_000 {
        let record = reached(&mut rng);
        let mut claim = claim::exact(&from_record(&record).unwrap());
        for bidder in 0..claim.gain.len() {
            if claim.matching[bidder] != 0 && claim.gain[bidder] > 0 {
                claim.gain[bidder] -= 1;
                let place = bidder as u64 + 1;
                assert_eq!(check_record(&record, &claim), Err(Refusal { number: BARE, place }));
                claim.gain[bidder] += 1;
                tried += 1;
            }
        }
    }
    assert!(tried > 1_000);
}

//! The exact level against the Rust solver, its pair against both checks; the
//! check on claims made elsewhere, good and damaged, with its refusals in order.

use noughtelm_tests::both::{rooms, wide, Both, Same, Tally};
use noughtelm_tests::gen::places::{counts, full};
use noughtelm_tests::gen::sheet::{self, Pattern};
use noughtelm_tests::gen::{board, claim};
use noughtelm_tests::model::auction::*;
use noughtelm_tests::model::check::{Claim, Totals, MAX_PRICE};
use noughtelm_tests::model::count;
use noughtelm_tests::model::hungarian::solve;
use noughtelm_tests::model::refusal::*;
use noughtelm_tests::model::sound::{from_record, Record};
use noughtelm_tests::rng::Rng;

/// The exact level with room and with any lists; its weight.
fn try_exact(record: &Record, rng: &mut Rng, seen: &mut Tally) -> Same<u64> {
    let mut both = Both::on(record.clone(), seen);
    let room = rooms(rng, record);
    both.exact(room)?.ok();
    let pair = both.exact(wide())?.expect("a sound board and room");
    Ok(sum(record, &pair))
}

/// All gains, and each price once per place, added.
fn sum(r: &Record, c: &Claim) -> u64 {
    let prices = c.price.iter().zip(&r.counts).map(|(price, &count)| price * count as u64);
    prices.chain(c.gain.iter().copied()).sum()
}

/// Sheets of one pattern; each is made and withdrawn from by its seed alone. In one of two
/// some items have several places.
fn try_sheets(
    pattern: Pattern,
    seeds: std::ops::Range<u64>,
    most: (u64, u64),
    seen: &mut Tally,
) -> u64 {
    let mut weighty = 0;
    for seed in seeds {
        let rng = &mut Rng::new(seed);
        let (bidders, items) = (rng.range(0, most.0), rng.range(1, most.1));
        let density = rng.range(1, 8);
        let sheet = sheet::sheet(rng, pattern, bidders, items, density);
        let withdrawals = rng.pick(&[0, 0, 1, 3]);
        let counts = if seed % 2 == 0 { ones(items) } else { counts(rng, items, 5) };
        let record = sheet::board_of(rng, sheet, &counts, withdrawals);
        seen.count("places", (record.places > record.items) as u64);
        match try_exact(&record, rng, seen) {
            Ok(weight) => weighty += (weight > 0) as u64,
            Err(found) => panic!("seed {seed}, {pattern:?}: {found}\n{record:?}"),
        }
    }
    weighty
}

fn try_patterns(seeds: std::ops::Range<u64>, most: (u64, u64)) {
    let mut seen = Tally::default();
    for (index, pattern) in Pattern::ALL.into_iter().enumerate() {
        let first = 100_000 * (index as u64 + 1);
        let count = seeds.end - seeds.start;
        let weighty = try_sheets(pattern, first + seeds.start..first + seeds.end, most, &mut seen);
        assert!(weighty * 2 > count, "{pattern:?}: {weighty} of {count} weigh anything");
    }
    println!("{seen:?}");
    seen.assert_seen("exact", &[0, SHORT], 10);
    seen.assert_seen("check", &[0], 100);
    seen.assert_seen("places", &[0, 1], 10 * (seeds.end - seeds.start) / 4);
}

#[test]
fn sheets_of_middle_size() {
    try_patterns(0..250, (24, 16));
}

#[test]
fn sheets_of_any_size() {
    try_patterns(5_000..5_060, (128, 64));
}

/// Every bidder with every edge, 64 places and 128 bidders.
#[test]
fn full_sheets() {
    let mut seen = Tally::default();
    for (index, pattern) in Pattern::ALL.into_iter().enumerate() {
        for seed in (0..12).map(|n| 60_000 + 100 * index as u64 + n) {
            let rng = &mut Rng::new(seed);
            let counts = if seed % 2 == 0 { ones(64) } else { full(rng) };
            let sheet = sheet::sheet(rng, pattern, 128, counts.len() as u64, 8);
            let record = sheet::board_of(rng, sheet, &counts, 0);
            let weight = try_exact(&record, rng, &mut seen);
            let told = |found| panic!("seed {seed}, {pattern:?}: {found}\n{record:?}");
            assert!(weight.unwrap_or_else(told) > 0);
        }
    }
    seen.assert_seen("exact", &[0, SHORT], 5);
}

/// Against trying everything, on sheets small enough for that.
#[test]
fn tiny_sheets() {
    let (mut seen, mut weighty) = (Tally::default(), 0);
    for seed in 70_000..74_000 {
        let rng = &mut Rng::new(seed);
        let (bidders, items) = (rng.range(0, 5), rng.range(1, 5));
        let pattern = rng.pick(&Pattern::ALL);
        let sheet = sheet::sheet(rng, pattern, bidders, items, 6);
        let withdrawals = rng.below(2);
        let counts = if seed % 2 == 0 { ones(items) } else { counts(rng, items, 3) };
        let record = sheet::board_of(rng, sheet, &counts, withdrawals);
        let live = from_record(&record).unwrap().live_weights();
        let best = count::greatest(&live, &record.counts());
        assert_eq!(solve(&live, &record.counts()).weight, best, "seed {seed}");
        let weight = try_exact(&record, rng, &mut seen);
        assert_eq!(weight, Ok(best), "seed {seed}\n{record:?}");
        weighty += (best > 0) as u64;
    }
    assert!(weighty > 2_500);
    seen.assert_seen("exact", &[0, SHORT], 200);
}

/// A board with bidders and edges, reached or not.
fn any_board(rng: &mut Rng) -> Record {
    if rng.chance(1, 2) {
        return board::sound(rng);
    }
    let (bidders, items) = (rng.range(1, 12), rng.range(1, 9));
    let sheet = sheet::sheet(rng, Pattern::UpTo(500), bidders, items, 5);
    let most = rng.pick(&[1, 3]);
    let counts = counts(rng, items, most);
    sheet::board_of(rng, sheet, &counts, 2)
}

#[test]
fn damaged_claims() {
    let mut seen = Tally::default();
    for seed in 80_000..92_000 {
        let rng = &mut Rng::new(seed);
        let record = any_board(rng);
        let claim = claim::damaged(rng, &from_record(&record).unwrap());
        let mut both = Both::on(record.clone(), &mut seen);
        if let Err(found) = both.check(&claim) {
            panic!("seed {seed}: {found}\n{claim:?}\n{record:?}");
        }
    }
    println!("{seen:?}");
    seen.assert_seen("check", &[0, SLACK, UNEVEN, CLASH, PRICE, BARE], 300);
}

fn totals(r: &Record, c: &Claim) -> Totals {
    let placed = c.matching.iter().enumerate().filter(|(_, &cell)| cell != 0);
    let weight = placed.map(|(b, &cell)| r.weight_at(b, cell as usize - 1)).sum();
    Totals { weight, sum: sum(r, c) }
}

/// Claims made without the auction's lists are accepted with their own totals.
#[test]
fn accepted_claims() {
    let (mut seen, mut weighty) = (Tally::default(), 0);
    for seed in 93_000..97_000 {
        let rng = &mut Rng::new(seed);
        let record = any_board(rng);
        let claim = claim::accepted(rng, &from_record(&record).unwrap());
        let expected = totals(&record, &claim);
        let answer = Both::on(record.clone(), &mut seen).check(&claim);
        assert_eq!(answer, Ok(Ok(expected)), "seed {seed}\n{claim:?}\n{record:?}");
        weighty += (expected.weight > 0) as u64;
    }
    assert!(weighty > 2_000);
    seen.assert_seen("check", &[0], 4_000);
}

/// Two bidders and two items, so that every fault has two places.
fn case_board(seen: &mut Tally) -> Both<'_> {
    let slack = Slack { p: 1, q: 10 };
    let mut both = Both::open(3, slack, seen).unwrap().expect("it opens");
    let list = [Edge { item: 1, weight: 100 }, Edge { item: 2, weight: 60 }];
    both.arrive(&list).unwrap().expect("a good list");
    both.arrive(&[Edge { item: 1, weight: 90 }]).unwrap().expect("a good list");
    both.withdraw(&[3]).unwrap().expect("item 3 is there");
    both
}

type Damage = fn(&mut Claim);

/// The damages of the check in the order of their refusals, places rising.
const DAMAGES: [(u64, u64, Damage); 11] = [
    (SLACK, 0, |c| c.slack = Slack { p: 1, q: 1 }),
    (UNEVEN, 0, |c| c.price.push(0)),
    (CLASH, 1, |c| c.matching[0] = 3),
    (CLASH, 2, |c| c.matching[1] = 2),
    (PRICE, 1, |c| c.price[0] = MAX_PRICE + 1),
    (PRICE, 2, |c| c.price[1] = u64::MAX),
    (PRICE, 3, |c| c.price[2] = 1),
    (PRICE, 4, |c| c.gain[0] = MAX_PRICE + 1),
    (PRICE, 5, |c| c.gain[1] = u64::MAX),
    (BARE, 1, |c| c.gain[0] = 59),
    (BARE, 2, |c| c.gain[1] = 49),
];

/// Of any two damages the one that stands first decides; 13 comes before all.
#[test]
fn refusals_in_order() {
    let mut seen = Tally::default();
    let mut both = case_board(&mut seen);
    let slack = Slack { p: 0, q: 1 };
    let good = Claim { matching: vec![2, 1], price: vec![40, 0, 0], gain: vec![60, 50], slack };
    let sum = Totals { weight: 150, sum: 150 };
    assert_eq!(both.check(&good), Ok(Ok(sum)));
    for (first, &(number, place, damage)) in DAMAGES.iter().enumerate() {
        for (_, _, other) in &DAMAGES[first..] {
            let mut claim = good.clone();
            other(&mut claim);
            damage(&mut claim);
            let expected = Refusal { number, place };
            assert_eq!(both.check(&claim), Ok(Err(expected)), "{claim:?}");
        }
    }
    let mut record = both.model.clone();
    record.gain[0] += 1;
    for (_, _, damage) in DAMAGES {
        let mut claim = good.clone();
        damage(&mut claim);
        let answer = Both::on(record.clone(), &mut seen).check(&claim);
        assert_eq!(answer, Ok(Err(Refusal { number: SPOILT, place: 0 })));
    }
    seen.assert_seen("check", &[0, SLACK, UNEVEN, CLASH, PRICE, BARE, SPOILT], 1);
}

/// A price or a gain of the case board, item 3 left out, and whether the check takes it.
const NUMBERS: [(u64, bool); 9] = [
    (1_000_000_000, true),
    (1_000_000_001, true),
    (1_999_000_000, true),
    (2_000_000_000, true),
    (2_000_000_001, false),
    (4_000_000_000, false),
    ((1 << 32) + 1, false),
    (1 << 63, false),
    (u64::MAX, false),
];

/// "Refusal 11's limit of 1,000,000,000 becomes 2,000,000,000" (document 02, R-7).
#[test]
fn prices_and_gains_at_the_limit() {
    let mut seen = Tally::default();
    let mut both = case_board(&mut seen);
    for (slack, cell) in
        [(0, 1), (1, 10)].iter().flat_map(|&slack| [0, 1, 3, 4].map(|cell| (slack, cell)))
    {
        for (number, taken) in NUMBERS {
            let mut cells = [1_000, 1_000, 0, 1_000, 1_000];
            cells[cell] = number;
            let (price, gain) = (cells[..3].to_vec(), cells[3..].to_vec());
            let slack = Slack { p: slack.0, q: slack.1 };
            let claim = Claim { matching: vec![2, 1], price, gain, slack };
            let expected = match taken {
                true => Ok(Totals { weight: 150, sum: cells.iter().sum() }),
                false => refuse(PRICE, cell as u64 + 1),
            };
            assert_eq!(both.check(&claim), Ok(expected), "{claim:?}");
        }
    }
    seen.assert_seen("check", &[0, PRICE], 32);
}

/// Lowering the gain of a placed bidder by a penny uncovers its own edge.
#[test]
fn no_penny_is_missed() {
    let mut seen = Tally::default();
    for seed in 98_000..99_500 {
        let rng = &mut Rng::new(seed);
        let record = any_board(rng);
        let mut both = Both::on(record.clone(), &mut seen);
        let pair = both.exact(wide());
        let pair = pair.unwrap_or_else(|found| panic!("seed {seed}: {found}\n{record:?}"));
        let mut pair = pair.expect("a sound board and room");
        for bidder in 0..pair.gain.len() {
            if pair.matching[bidder] != 0 && pair.gain[bidder] > 0 {
                pair.gain[bidder] -= 1;
                let bare = Refusal { number: BARE, place: bidder as u64 + 1 };
                assert_eq!(both.check(&pair), Ok(Err(bare)), "seed {seed}\n{record:?}");
                pair.gain[bidder] += 1;
            }
        }
    }
    seen.assert_seen("check", &[0, BARE], 1_000);
}

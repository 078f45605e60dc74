//! What a comparison of two plans refuses, on both sides: "13, then 9 and 10 for the first
//! plan, then 9 and 10 for the second" (document 02, R-4).

use noughtelm_tests::both::{wide, Both, Tally};
use noughtelm_tests::gen::board;
use noughtelm_tests::gen::plan::{any_board, damaged, pairs, several, Flaw, Plan};
use noughtelm_tests::gen::sheet::{self, Pattern};
use noughtelm_tests::model::auction::*;
use noughtelm_tests::model::check::Claim;
use noughtelm_tests::model::compare::Comparison;
use noughtelm_tests::model::refusal::*;
use noughtelm_tests::model::sound::{from_record, Record};
use noughtelm_tests::plans::{expected, met};
use noughtelm_tests::rng::Rng;

// ---- a board made by hand

/// Four items, of which 4 is gone, and three bidders.
fn case_board(seen: &mut Tally) -> Both<'_> {
    let mut both = Both::open(4, Slack { p: 1, q: 10 }, seen).unwrap().expect("it opens");
    for list in [&[(1, 100), (2, 60), (4, 50)][..], &[(1, 90), (3, 70)], &[(2, 60), (4, 30)]] {
        let edges: Vec<Edge> = list.iter().map(|&(item, weight)| Edge { item, weight }).collect();
        both.arrive(&edges).unwrap().expect("a good list");
    }
    both.withdraw(&[4]).unwrap().expect("item 4 is there");
    both
}

/// Plans with their weights, in order; the second and the third weigh the same.
const GOOD: [([u64; 3], i64); 5] =
    [([1, 3, 2], 230), ([0, 1, 2], 150), ([2, 1, 0], 150), ([2, 0, 0], 60), ([0, 0, 0], 0)];

/// Lists that are refused, with number and place.
const BAD: [(&[u64], u64, u64); 27] = [
    (&[], 9, 0),
    (&[2], 9, 0),
    (&[2, 1], 9, 0),
    (&[2, 1, 0, 0], 9, 0),
    (&[5, 5], 9, 0),
    (&[5, 1, 0, 4], 9, 0),
    (&[1, 1, 1, 1], 9, 0),
    // Not an item's number.
    (&[5, 1, 0], 10, 1),
    (&[u64::MAX, 1, 0], 10, 1),
    (&[2, 5, 0], 10, 2),
    (&[2, 257, 0], 10, 2),
    (&[2, 1, 5], 10, 3),
    (&[2, 1, (1 << 32) + 2], 10, 3),
    (&[0, 0, u64::MAX], 10, 3),
    // Gone.
    (&[4, 1, 0], 10, 1),
    (&[0, 0, 4], 10, 3),
    // Without edge.
    (&[3, 1, 0], 10, 1),
    (&[1, 2, 0], 10, 2),
    (&[0, 0, 1], 10, 3),
    // Named before.
    (&[1, 1, 0], 10, 2),
    (&[2, 1, 2], 10, 3),
    (&[2, 0, 2], 10, 3),
    // Two flaws.
    (&[5, 5, 0], 10, 1),
    (&[4, 1, 5], 10, 1),
    (&[1, 1, 5], 10, 2),
    (&[0, u64::MAX, 4], 10, 2),
    (&[2, 2, 2], 10, 2),
];

/// A list, and its refusal where it is bad.
type Lent<'a> = (&'a [u64], Option<Refusal>);

/// What such a board answers to two of them.
fn by_hand(first: Lent, second: Lent) -> Result<Comparison, Refusal> {
    if let Some(refusal) = first.1.or(second.1) {
        return Err(refusal);
    }
    let rank = |plan: &[u64]| GOOD.iter().position(|(good, _)| good == plan).expect("a good one");
    let (one, other) = (rank(first.0), rank(second.0));
    Ok(Comparison { difference: GOOD[one].1 - GOOD[other].1, order: one.cmp(&other) })
}

/// Every good and every bad plan beside every other: the first decides, then the second.
/// Where the board is not sound it is 13.
#[test]
fn each_plan_beside_each_other() {
    let mut seen = Tally::default();
    let mut both = case_board(&mut seen);
    let good = GOOD.iter().map(|(plan, _)| (&plan[..], None));
    let bad = BAD.iter().map(|&(plan, number, place)| (plan, Some(Refusal { number, place })));
    let plans: Vec<Lent> = good.chain(bad).collect();
    let mut spoilt = both.model.clone();
    spoilt.gain[0] += 1;
    for (&first, &second) in pairs(&plans) {
        let answer = both.compare(first.0, second.0);
        assert_eq!(answer, Ok(by_hand(first, second)), "{first:?} {second:?}");
        let answer = Both::on(spoilt.clone(), both.seen).compare(first.0, second.0);
        assert_eq!(answer, Ok(refuse(SPOILT, 0)), "{first:?} {second:?}");
    }
    seen.assert_seen("compare", &[0, UNEVEN, CLASH, SPOILT], 25);
}

// ---- every length, every place

/// Boards of so many bidders: only lists of as many cells are plans.
#[test]
fn every_length() {
    let mut seen = Tally::default();
    for bidders in [0, 1, 2, 63, 64, 65, 127, 128] {
        let rng = &mut Rng::new(620_000 + bidders);
        let sheet = sheet::sheet(rng, Pattern::UpTo(9), bidders, 64, 4);
        let record = sheet::board(rng, sheet, 64, 2);
        let plan = from_record(&record).expect("a sound board").matching();
        let mut both = Both::on(record, &mut seen);
        for length in (0..=bidders + 130).chain([bidders + 256, 1_000, 65_536]) {
            let mut list = plan.clone();
            list.resize(length as usize, rng.pick(&[0, 1, 65, u64::MAX]));
            let refused = (length != bidders).then_some(Refusal { number: UNEVEN, place: 0 });
            let told = || format!("{length} cells for {bidders} bidders");
            assert_eq!(both.compare(&list, &plan).unwrap().err(), refused, "{}", told());
            assert_eq!(both.compare(&plan, &list).unwrap().err(), refused, "{}", told());
            assert_eq!(both.compare(&list, &list).unwrap().err(), refused, "{}", told());
        }
    }
    seen.assert_seen("compare", &[0, UNEVEN], 3 * 8);
}

/// A board of 64 items, up to five of them gone, and 128 bidders, with three edges of four.
fn wide_board(rng: &mut Rng) -> Record {
    let sheet = sheet::sheet(rng, Pattern::UpTo(9_999), 128, 64, 6);
    sheet::board(rng, sheet, 64, 5)
}

/// The list with anything in the cells after a bidder, from 0.
fn anything_after(rng: &mut Rng, list: &[u64], bidder: usize) -> Plan {
    let mut list = list.to_vec();
    list[bidder + 1..].iter_mut().for_each(|cell| *cell = rng.pick(&[0, 1, 64, 65, *cell]));
    list
}

/// Each flaw of a cell at each place, in either plan; what comes after it is anything, and
/// so is the second plan where the first is bad.
#[test]
fn every_flaw_at_every_place() {
    let mut seen = Tally::default();
    for (seed, bidder) in (0..2).flat_map(|seed| (0..128).map(move |bidder| (seed, bidder))) {
        let rng = &mut Rng::new(621_000 + 128 * seed + bidder as u64);
        let record = wide_board(rng);
        let good = several(rng, &from_record(&record).expect("a sound board"), 5);
        let mut both = Both::on(record.clone(), &mut seen);
        for flaw in Flaw::ALL {
            let base = rng.index(5);
            let Some(bad) = flaw.put(rng, &record, &good[base], bidder) else { continue };
            let bad = anything_after(rng, &bad, bidder);
            let other = damaged(rng, &record, &good[0]);
            let clash = Ok(refuse(CLASH, bidder as u64 + 1));
            let told = || format!("{flaw:?} at {}, seed {seed}, {bad:?}\n{record:?}", bidder + 1);
            assert_eq!(both.compare(&bad, &other), clash, "{}", told());
            assert_eq!(both.compare(&good[0], &bad), clash, "{}", told());
            both.seen.count("flaw", flaw as u64);
        }
    }
    println!("{seen:?}");
    seen.assert_seen("flaw", &[0, 1, 2, 3, 4], 150);
    seen.assert_seen("compare", &[CLASH], 2_000);
}

// ---- boards and plans of all sorts

/// Plans with up to two flaws each, or of another length: the first refusal met decides.
#[test]
fn the_first_refusal_decides() {
    let mut seen = Tally::default();
    for seed in 622_000..623_500 {
        let rng = &mut Rng::new(seed);
        let record = any_board(rng);
        let plans = several(rng, &from_record(&record).expect("a sound board"), 4);
        for _ in 0..6 {
            let [first, second] = [0; 2].map(|_| {
                let plan = rng.index(4);
                damaged(rng, &record, &plans[plan])
            });
            let answer = Both::on(record.clone(), &mut seen).compare(&first, &second);
            let told = || format!("seed {seed}, {first:?} {second:?}\n{record:?}");
            assert_eq!(answer, Ok(expected(&record, &first, &second)), "{}", told());
            let numbers: Vec<u64> =
                met(&record, &first, &second).iter().map(|it| it.number).collect();
            seen.count("refusals met", numbers.len().min(3) as u64);
            seen.count("10 before 9", numbers.windows(2).any(|two| two == [CLASH, UNEVEN]) as u64);
            seen.count("9 before 10", numbers.windows(2).any(|two| two == [UNEVEN, CLASH]) as u64);
        }
    }
    println!("{seen:?}");
    seen.assert_seen("compare", &[0, UNEVEN, CLASH], 1_000);
    seen.assert_seen("refusals met", &[0, 1, 2, 3], 200);
    seen.assert_seen("10 before 9", &[0, 1], 200);
    seen.assert_seen("9 before 10", &[0, 1], 200);
}

/// A list that the check refuses with 10 is refused so here, at the same place, as either
/// plan; and one that it takes is a plan.
#[test]
fn refusal_10_is_the_checks() {
    let mut seen = Tally::default();
    for seed in 624_000..625_000 {
        let rng = &mut Rng::new(seed);
        let record = any_board(rng);
        let mut both = Both::on(record.clone(), &mut seen);
        let exact = both.exact(wide()).expect("both agree").expect("room");
        for _ in 0..5 {
            let list = damaged(rng, &record, &exact.matching);
            let claim = Claim { matching: list.clone(), ..exact.clone() };
            let checked = both.check(&claim).expect("both agree").err();
            let told = || format!("seed {seed}, {list:?}\n{record:?}");
            let first = both.compare(&list, &exact.matching).expect("both agree");
            assert_eq!(first.err(), checked, "{}", told());
            let second = both.compare(&exact.matching, &list).expect("both agree");
            assert_eq!(second.err(), checked, "{}", told());
        }
    }
    println!("{seen:?}");
    seen.assert_seen("check", &[0, UNEVEN, CLASH], 500);
    seen.assert_seen("compare", &[0, UNEVEN, CLASH], 1_000);
}

/// Whatever the plans: those of the board as it was, of another length, with flaws.
#[test]
fn boards_that_are_not_sound() {
    for (clause, spoil) in board::SPOILS {
        let mut seen = Tally::default();
        for seed in 626_000..626_060 {
            let rng = &mut Rng::new(seed);
            let sound = board::sound(rng);
            let mut record = sound.clone();
            if !spoil(rng, &mut record) {
                continue;
            }
            let plan = from_record(&sound).expect("a sound board").matching();
            let mut both = Both::on(record.clone(), &mut seen);
            let lists = [plan.clone(), vec![], damaged(rng, &sound, &plan)];
            for (first, second) in pairs(&lists) {
                let answer = both.compare(first, second);
                assert_eq!(answer, Ok(refuse(SPOILT, 0)), "{clause}, seed {seed}\n{record:?}");
            }
        }
        seen.assert_seen("compare", &[SPOILT], 9 * 10);
    }
}

//! The proved library against the model, call by call: random histories of
//! every kind, openings, and arrivals with lists of any length.

use noughtelm_tests::both::{marked, rooms, Both, Same, Tally};
use noughtelm_tests::ffi;
use noughtelm_tests::gen::history::{history, Call, History, Kind};
use noughtelm_tests::gen::list::{rising, spoil};
use noughtelm_tests::model::auction::*;
use noughtelm_tests::model::refusal::*;
use noughtelm_tests::rng::Rng;
use noughtelm_tests::ties::ties_of;
use std::ops::Range;

/// How many histories of each kind are tried.
const HISTORIES: [(Kind, u64); 15] = [
    (Kind::Small, 9_000),
    (Kind::Sparse, 2_000),
    (Kind::Dense, 2_000),
    (Kind::Ties, 5_000),
    (Kind::Limits, 300),
    (Kind::Withdrawals, 2_000),
    (Kind::Refused, 1_500),
    (Kind::EqualUtility, 4_000),
    (Kind::Lists, 2_000),
    (Kind::Places, 3_000),
    (Kind::PlacesTies, 3_000),
    (Kind::PlacesLimits, 200),
    (Kind::PlacesRefused, 1_000),
    (Kind::PlacesEqualUtility, 3_000),
    (Kind::PlacesLists, 2_000),
];

fn seeds(kind: Kind) -> Range<u64> {
    let (_, count) = HISTORIES.iter().find(|(other, _)| kind == *other).unwrap();
    let first = 1_000_000 * (kind as u64 + 1);
    first..first + count
}

#[test]
fn histories_are_many() {
    assert!(HISTORIES.iter().map(|(_, count)| count).sum::<u64>() >= 20_000);
    assert!(Kind::ALL.iter().all(|kind| HISTORIES.iter().any(|(other, _)| kind == other)));
}

/// The read-out after every call, and the slow count as long as the board is not far too
/// large for it; this, soundness, the page and the exact level now and then, less often where
/// there are many bidders.
fn look(both: &mut Both, rng: &mut Rng, last: bool) -> Same<()> {
    let room = rooms(rng, &both.model);
    both.read_out(room)?.ok();
    let now = last || rng.chance(1, 8 + both.model.arrived);
    if now || both.model.arrived <= 7 && both.model.places <= 7 {
        both.count()?.ok();
    }
    if now {
        assert!(both.is_sound()?);
        both.write_page(ffi::MAX_PAGE)?.expect("room for every page");
        both.exact(room)?.ok();
    }
    Ok(())
}

fn carry_out(both: &mut Both, call: &Call, rng: &mut Rng, last: bool) -> Same<()> {
    match call {
        Call::Arrive(edges) => both.arrive(edges)?.ok(),
        Call::Withdraw(items) => both.withdraw(items)?.ok(),
    };
    look(both, rng, last)
}

fn run(history: &History, rng: &mut Rng, seen: &mut Tally) -> Same<()> {
    let mut both = Both::opened(history, seen)?;
    for (index, call) in history.calls.iter().enumerate() {
        let last = index + 1 == history.calls.len();
        carry_out(&mut both, call, rng, last)
            .map_err(|found| format!("call {}: {found}", index + 1))?;
    }
    both.seen.count("bidders", both.model.arrived);
    Ok(())
}

fn run_kind(kind: Kind) -> Tally {
    let mut seen = Tally::default();
    for seed in seeds(kind) {
        let history = history(&mut Rng::new(seed), kind);
        if let Err(found) = run(&history, &mut Rng::new(!seed), &mut seen) {
            panic!("seed {seed}, {kind:?}: {found}\n{history:?}");
        }
        note_limits(&history, &mut seen);
    }
    assert_eq!(seen.of("open", 0), seeds(kind).count() as u64);
    println!("{kind:?}: {seen:?}");
    seen
}

fn note_limits(history: &History, seen: &mut Tally) {
    let Slack { p, q } = history.slack;
    seen.count("items", history.items());
    seen.count("places", history.counts.iter().sum());
    history.counts.iter().for_each(|&count| seen.count("places of an item", count));
    seen.count("p at q", 10_000 * p + q);
    for call in &history.calls {
        if let Call::Arrive(edges) = call {
            edges.iter().for_each(|edge| seen.count("weight", edge.weight));
        }
    }
}

fn run_served(kind: Kind) -> Tally {
    let seen = run_kind(kind);
    seen.assert_seen("arrive", &[0], 1_000);
    seen.assert_seen("withdraw", &[0], 100);
    seen.assert_seen("read out", &[0, SHORT], 1_000);
    seen.assert_seen("exact", &[0, SHORT], 20);
    seen
}

#[test]
fn small_histories() {
    let seen = run_served(Kind::Small);
    seen.assert_seen("count", &[0, LARGE], 1_000);
}

#[test]
fn sparse_histories() {
    run_served(Kind::Sparse);
}

#[test]
fn dense_histories() {
    run_served(Kind::Dense);
}

#[test]
fn histories_full_of_ties() {
    run_served(Kind::Ties);
}

#[test]
fn histories_at_the_limits() {
    let seen = run_served(Kind::Limits);
    assert!(seen.of("items", 64) > 50 && seen.of("bidders", 128) > 50);
    assert!(seen.of("weight", 1) > 100 && seen.of("weight", MAX_WEIGHT) > 100);
    assert!(seen.of("p at q", 10_000 + 1_000) > 20 && seen.of("p at q", 9_990_000 + 1_000) > 20);
}

#[test]
fn histories_with_many_withdrawals() {
    run_served(Kind::Withdrawals);
}

#[test]
fn histories_with_refused_calls() {
    let seen = run_kind(Kind::Refused);
    seen.assert_seen("arrive", &[0, FULL, UNKNOWN, GONE, WORTH, ORDER], 500);
    seen.assert_seen("withdraw", &[0, UNKNOWN, GONE, ORDER], 500);
}

/// R-1 of document 02 decides many bids of these, and so does the lower number.
#[test]
fn histories_of_equal_utility() {
    let kind = Kind::EqualUtility;
    run_served(kind);
    let ties = ties_of(seeds(kind).map(|seed| history(&mut Rng::new(seed), kind)));
    println!("{ties:?}");
    assert!(ties.weights >= 10_000 && ties.lower >= 4_000);
    assert!(ties.full >= 9_000 && ties.closed >= 3_000);
}

#[test]
fn histories_of_lists() {
    run_served(Kind::Lists);
}

// ---- items of several places (document 02, R-6)

#[test]
fn histories_of_places() {
    let seen = run_served(Kind::Places);
    assert!((1..=5).all(|count| seen.of("places of an item", count) > 500));
    seen.assert_seen("count", &[0, LARGE], 1_000);
}

/// Places of one item stand equal, and places of several.
#[test]
fn histories_of_places_full_of_ties() {
    for kind in [Kind::PlacesTies, Kind::PlacesEqualUtility] {
        run_served(kind);
        let ties = ties_of(seeds(kind).map(|seed| history(&mut Rng::new(seed), kind)));
        println!("{ties:?}");
        assert!(ties.places > 6_000 && ties.both > 2_000 && ties.cheaper > 10_000);
        assert!(ties.full > 4_000 && ties.lower > 150);
    }
}

/// 64 places in all, as one number of items after another has them.
#[test]
fn histories_of_places_at_the_limits() {
    let seen = run_served(Kind::PlacesLimits);
    assert_eq!(seen.of("places", 64), 200);
    assert!([8, 16, 32, 57].iter().all(|&items| seen.of("items", items) > 20));
    assert!((1..=8).all(|count| seen.of("places of an item", count) > 20));
    assert!(seen.of("bidders", 128) > 40 && seen.of("weight", MAX_WEIGHT) > 100);
}

#[test]
fn histories_of_places_with_refused_calls() {
    let seen = run_kind(Kind::PlacesRefused);
    seen.assert_seen("arrive", &[0, FULL, UNKNOWN, GONE, WORTH, ORDER], 300);
    seen.assert_seen("withdraw", &[0, UNKNOWN, GONE, ORDER], 300);
}

#[test]
fn histories_of_places_and_lists() {
    run_served(Kind::PlacesLists);
}

#[test]
fn openings() {
    let mut seen = Tally::default();
    let counts = [0, 1, 2, 63, 64, 65, 256, 320, 1 << 32, 1 << 63, u64::MAX];
    let numbers = [0, 1, 2, 500, 998, 999, 1_000, 1_001, 1_024, 1 << 32, 1 << 63, u64::MAX];
    for items in counts {
        for p in numbers {
            for q in numbers {
                let opened = Both::open(items, Slack { p, q }, &mut seen);
                opened.unwrap_or_else(|found| panic!("{items} items, {p}/{q}: {found}")).ok();
            }
        }
    }
    seen.assert_seen("open", &[0, COUNT, SLACK], 60);
}

/// A board of 64 items, the last one withdrawn if `gone`, and some bidders.
fn full_width<'a>(rng: &mut Rng, gone: bool, seen: &'a mut Tally) -> Same<Both<'a>> {
    let mut both = Both::open(64, Slack { p: 1, q: 4 }, seen)?.expect("it opens");
    for _ in 0..rng.below(5) {
        let length = rng.pick(&[0, 1, 63, 64]);
        both.arrive(&rising(rng, length))?.expect("a good list");
    }
    if gone {
        both.withdraw(&[64])?.expect("item 64 is there");
    }
    Ok(both)
}

/// Lists without fault up to 64 edges; the 65th of a longer one is unknown.
#[test]
fn rising_lists() {
    let mut seen = Tally::default();
    for seed in 5_000..5_040 {
        let rng = &mut Rng::new(seed);
        for length in [0, 1, 63, 64, 65, 66, 128, 10_000] {
            let answer = full_width(rng, false, &mut seen)
                .and_then(|mut both| both.arrive(&rising(rng, length)))
                .unwrap_or_else(|found| panic!("seed {seed}, {length}: {found}"));
            let unknown = Refusal { number: UNKNOWN, place: 65 };
            assert_eq!(answer.err(), (length > 64).then_some(unknown), "seed {seed}, {length}");
        }
    }
    seen.assert_seen("arrive", &[0, UNKNOWN], 100);
}

/// A fault at place 1, 64, 65 and beyond, in lists of 64, 65 and 10,000 edges.
#[test]
fn lists_with_a_fault() {
    let mut seen = Tally::default();
    for seed in 6_000..6_020 {
        let rng = &mut Rng::new(seed);
        for (length, number) in [64, 65, 10_000].into_iter().flat_map(|length| {
            [UNKNOWN, GONE, WORTH, ORDER].into_iter().map(move |number| (length, number))
        }) {
            for place in [1, 2, 63, 64, 65, 66, 9_999].into_iter().filter(|&p| p <= length) {
                let found = try_fault(rng, length, number, place, &mut seen);
                found.unwrap_or_else(|found| {
                    panic!("seed {seed}: {number} at {place} of {length}: {found}")
                });
            }
        }
    }
    seen.assert_seen("arrive", &[0, UNKNOWN, GONE, WORTH, ORDER], 20);
    assert!(seen.of("place", 1) > 100 && seen.of("place", 64) > 100 && seen.of("place", 65) > 100);
}

/// The first fault decides: a rising list has one at place 64, where item 64 is
/// gone, and at 65 in any case.
fn try_fault(
    rng: &mut Rng,
    length: usize,
    number: u64,
    place: usize,
    seen: &mut Tally,
) -> Same<()> {
    let gone = number == GONE;
    let mut both = full_width(rng, gone, seen)?;
    let mut list = rising(rng, length);
    spoil(rng, &mut list, place, number, 64);
    let answer = both.arrive(&list)?.expect_err("a fault");
    let first = if gone { 64 } else { 65 };
    let expected = match (number, place) {
        // Nothing stands before the first edge.
        (ORDER, 1) => Refusal { number: UNKNOWN, place: 1 },
        (number, place) if place <= first => Refusal { number, place: place as u64 },
        (_, _) if gone => Refusal { number: GONE, place: 64 },
        _ => Refusal { number: UNKNOWN, place: 65 },
    };
    assert_eq!(answer, expected, "{number} at {place} of {length}");
    both.seen.count("place", answer.place);
    let room = rooms(rng, &both.model);
    both.read_out(room)?.ok();
    Ok(())
}

/// A buffer whose cells are all filled counts as far as its count says, and to
/// 65 at most.
#[test]
fn filled_buffers() {
    let mut seen = Tally::default();
    for seed in 7_000..7_200 {
        let rng = &mut Rng::new(seed);
        let board = full_width(rng, false, &mut seen).expect("both agree").ours;
        let list = rising(rng, 65);
        let lent: Vec<_> =
            list.iter().map(|e| ffi::Edge { item: e.item, weight: e.weight }).collect();
        for count in [0, 1, 63, 64, 65, 66, u64::MAX] {
            let counted = &lent[..count.min(65) as usize];
            let buffer = ffi::EdgeBuffer { count, ..ffi::EdgeBuffer::new(&lent) };
            let (ours, expected) = (ffi::arrive_buffer(board, buffer), ffi::arrive(board, counted));
            assert!(ours == expected, "seed {seed}, count {count}");
            assert_eq!(ours.number != 0, count > 64, "seed {seed}, count {count}");
        }
    }
}

#[test]
fn marks_are_no_answers() {
    let [m, y, g] = marked([200; 3]);
    assert!(m.iter().chain(&y).chain(&g).all(|&cell| cell > 1 << 62));
    assert!(m.windows(2).all(|pair| pair[0] != pair[1]));
}

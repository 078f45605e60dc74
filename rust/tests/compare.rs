//! Two plans side by side (document 02, R-4) on both sides: on boards of all sorts, from
//! call to call of a history, at every cell, and at both ends of the difference.

use noughtelm_tests::both::compare::{comparison, order_of};
use noughtelm_tests::both::{board, Both, Same, Tally};
use noughtelm_tests::ffi;
use noughtelm_tests::gen::history::{history, level, Call, History, Kind};
use noughtelm_tests::gen::plan::{any_board, pairs, several, Plan};
use noughtelm_tests::model::auction::*;
use noughtelm_tests::model::compare::Comparison;
use noughtelm_tests::model::refusal::*;
use noughtelm_tests::model::sound::{from_record, to_record, Record};
use noughtelm_tests::plans::expected;
use noughtelm_tests::rng::Rng;
use std::cmp::Ordering::{self, Equal, Greater, Less};
use std::hint::black_box;

fn served(difference: i64, order: Ordering) -> Same<Result<Comparison, Refusal>> {
    Ok(Ok(Comparison { difference, order }))
}

/// Both ways round: the first plan comes before the second.
fn comes_before(both: &mut Both, first: &[u64], second: &[u64], difference: i64) {
    assert_eq!(both.compare(first, second), served(difference, Less), "{first:?} {second:?}");
    assert_eq!(both.compare(second, first), served(-difference, Greater), "{first:?} {second:?}");
}

// ---- boards of all sorts

/// What decided: 1 the greater weight, against the cells, 2 with them, 3 the cells alone;
/// 0 for plans that are the same.
fn decided(first: &[u64], second: &[u64], found: Comparison) -> u64 {
    match (found.difference, first.cmp(second)) {
        (0, Equal) => 0,
        (0, _) => 3,
        (_, cells) if cells == found.order => 2,
        _ => 1,
    }
}

/// Every plan of some beside every other, by the model and by another reading.
#[test]
fn boards_of_all_sorts() {
    let mut seen = Tally::default();
    for seed in 600_000..601_200 {
        let rng = &mut Rng::new(seed);
        let record = any_board(rng);
        let plans = several(rng, &from_record(&record).expect("a sound board"), 6);
        let mut both = Both::on(record.clone(), &mut seen);
        for (first, second) in pairs(&plans) {
            let answer = both.compare(first, second);
            let answer = answer.unwrap_or_else(|found| panic!("seed {seed}: {found}\n{record:?}"));
            let told = || format!("seed {seed}, {first:?} {second:?}\n{record:?}");
            assert_eq!(answer, expected(&record, first, second), "{}", told());
            let found = answer.unwrap_or_else(|refusal| panic!("{refusal:?}: {}", told()));
            both.seen.count("decided", decided(first, second, found));
        }
        seen.count("withdrawn", record.withdrawn.contains(&1) as u64);
    }
    println!("{seen:?}");
    seen.assert_seen("compare", &[0], 1_200 * 36);
    seen.assert_seen("decided", &[0, 1, 2, 3], 2_000);
    seen.assert_seen("withdrawn", &[0, 1], 200);
}

// ---- from call to call

/// The plan before a call beside the one after it. A bidder more makes it uneven, until
/// its cell is added; an item less makes it clash, until its holder's cell is emptied.
fn held_against(both: &mut Both, call: &Call, before: &[u64]) -> Same<()> {
    let after = from_record(&both.model).expect("a sound board").matching();
    let (mut before, refusal) = (before.to_vec(), refusal_of(call, before));
    if let Some(refusal) = refusal {
        assert_eq!(both.compare(&before, &after)?, Err(refusal), "{call:?}");
        assert_eq!(both.compare(&after, &before)?, Err(refusal), "{call:?}");
    }
    match call {
        Call::Arrive(_) => before.push(0),
        Call::Withdraw(items) => {
            before.iter_mut().filter(|cell| items.contains(cell)).for_each(|cell| *cell = 0)
        }
    }
    let answer = both.compare(&before, &after)?;
    assert_eq!(answer, expected(&both.model, &before, &after), "{call:?}, {before:?} {after:?}");
    both.seen.count("order", order_of(answer.expect("two plans").order));
    Ok(())
}

fn refusal_of(call: &Call, before: &[u64]) -> Option<Refusal> {
    match call {
        Call::Arrive(_) => Some(Refusal { number: UNEVEN, place: 0 }),
        Call::Withdraw(items) => {
            let first = before.iter().position(|cell| items.contains(cell));
            first.map(|bidder| Refusal { number: CLASH, place: bidder as u64 + 1 })
        }
    }
}

fn run(history: &History, seen: &mut Tally) -> Same<()> {
    let mut both = Both::opened(history, seen)?;
    for call in &history.calls {
        let before = from_record(&both.model).expect("a sound board").matching();
        match call {
            Call::Arrive(edges) => both.arrive(edges)?.expect("a good call"),
            Call::Withdraw(items) => both.withdraw(items)?.expect("a good call"),
        };
        held_against(&mut both, call, &before)?;
    }
    Ok(())
}

/// "Planners hold last week's plan against today's on one live sheet."
#[test]
fn last_weeks_plan() {
    let mut seen = Tally::default();
    for kind in [Kind::Small, Kind::Ties, Kind::EqualUtility, Kind::Withdrawals, Kind::Lists] {
        let first = 602_000 + 1_000 * kind as u64;
        for seed in first..first + 120 {
            let history = history(&mut Rng::new(seed), kind);
            if let Err(found) = run(&history, &mut seen) {
                panic!("seed {seed}, {kind:?}: {found}\n{history:?}");
            }
        }
    }
    println!("{seen:?}");
    seen.assert_seen("compare", &[0, UNEVEN, CLASH], 1_000);
    seen.assert_seen("order", &[1, 2, 3], 50);
}

// ---- every cell

/// A board of 64 items and 128 bidders with every edge, of weight 777; that of item 64
/// weighs so much more.
fn full_board(more: u64) -> Record {
    let mut history = level(64, 128);
    for call in &mut history.calls {
        if let Call::Arrive(edges) = call {
            edges[63].weight += more;
        }
    }
    to_record(&history.auction())
}

/// Two plans that differ in one cell, which is 63 in one and 64 in the other. Where these
/// weigh the same the lower is the earlier, else the heavier.
#[test]
fn plans_that_differ_in_one_cell() {
    let mut seen = Tally::default();
    for more in [0, 1] {
        let mut both = Both::on(full_board(more), &mut seen);
        for bidder in 0..128 {
            // Items 1 to 62 are at every other bidder.
            let other = |place: u64| if place % 2 == 0 && place < 126 { place / 2 } else { 0 };
            let mut plan: Plan = (0..128).map(other).collect();
            let [none, low, high] = [0, 63, 64].map(|cell| {
                plan[bidder] = cell;
                plan.clone()
            });
            assert_eq!(both.compare(&low, &low), served(0, Equal));
            match more {
                0 => comes_before(&mut both, &low, &high, 0),
                _ => comes_before(&mut both, &high, &low, 1),
            }
            comes_before(&mut both, &low, &none, 777);
        }
    }
    seen.assert_seen("compare", &[0], 2 * 128 * 5);
}

// ---- the ends

/// A board whose bidders 1 to 64 have an edge of weight 1,000,000 each, and bidder 65 one
/// of a penny less at the last item.
fn heaviest_board(seen: &mut Tally) -> Both<'_> {
    let mut both = Both::open(64, Slack { p: 1, q: 2 }, seen).unwrap().expect("it opens");
    for item in 1..=64 {
        both.arrive(&[Edge { item, weight: MAX_WEIGHT }]).unwrap().expect("a good list");
    }
    both.arrive(&[Edge { item: 64, weight: MAX_WEIGHT - 1 }]).unwrap().expect("a good list");
    both
}

/// 64,000,000 takes 26 bits and a sign: fewer lose it, and so do 32 bits that are widened
/// without their sign. A penny beside it is lost where only the first 24 bits are kept.
#[test]
fn both_ends() {
    let mut seen = Tally::default();
    let mut both = heaviest_board(&mut seen);
    let all: Plan = (1..=64).chain([0]).collect();
    let none = vec![0; 65];
    assert_eq!(both.compare(&all, &all), served(0, Equal));
    assert_eq!(both.compare(&none, &none), served(0, Equal));
    comes_before(&mut both, &all, &none, 64_000_000);
    let mut penny_less: Plan = (1..=63).chain([0, 64]).collect();
    comes_before(&mut both, &all, &penny_less, 1);
    comes_before(&mut both, &penny_less, &none, 63_999_999);
    penny_less[64] = 0;
    comes_before(&mut both, &all, &penny_less, 1_000_000);
    for count in 0..64 {
        let mut plan = all.clone();
        plan[count..].fill(0);
        comes_before(&mut both, &all, &plan, 1_000_000 * (64 - count as i64));
    }
    seen.assert_seen("compare", &[0], 2 + 2 * 68);
}

// ---- few cells, shared cells

/// Two empty plans of a board without bidders are the same; any cell makes a plan uneven.
#[test]
fn boards_without_bidders() {
    let mut seen = Tally::default();
    for items in 1..=64 {
        let mut both =
            Both::open(items, Slack { p: 1, q: 2 }, &mut seen).unwrap().expect("it opens");
        assert_eq!(both.compare(&[], &[]), served(0, Equal), "{items}");
        assert_eq!(both.compare(&[0], &[]), Ok(refuse(UNEVEN, 0)), "{items}");
        assert_eq!(both.compare(&[], &[0]), Ok(refuse(UNEVEN, 0)), "{items}");
    }
}

/// Both plans are only read, so they may share their cells: one list twice, or two that
/// overlap.
#[test]
fn lists_that_overlap() {
    let (record, mut list) = (full_board(1), vec![0; 130]);
    (1..=64).for_each(|item| list[2 * item as usize] = item);
    let kept = list.clone();
    let ours = board(&record);
    for (&one, &other) in pairs(&[0, 1, 2]) {
        let (first, second) = (&list[one..one + 128], &list[other..other + 128]);
        let answer = ffi::compare(ours, first, second);
        assert_eq!(answer, comparison(expected(&record, first, second)), "{one} {other}");
        assert_eq!((answer.number, answer.order == ffi::SAME), (0, one == other));
    }
    assert_eq!(black_box(list), kept);
}

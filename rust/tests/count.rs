//! The slow count (document 02, R-9) on both sides: boards worked by hand, boards whose count
//! a formula gives, boards of all sorts beside every list of cells and the exact level, and
//! what one more edge, bidder or withdrawal does to it.

use noughtelm_tests::before::spread;
use noughtelm_tests::both::{board, record, Both, Same, Tally};
use noughtelm_tests::every_list::by_weight;
use noughtelm_tests::ffi::{self, Told};
use noughtelm_tests::gen::board::is_unreached;
use noughtelm_tests::gen::counted::{every_choice, every_way, made, small};
use noughtelm_tests::gen::history::{Call, History};
use noughtelm_tests::gen::items::{items_of, rising};
use noughtelm_tests::gen::plan::Ground;
use noughtelm_tests::gen::sheet::{all, edges, Sheet};
use noughtelm_tests::gen::small::{first_come, heaviest_first};
use noughtelm_tests::model::auction::*;
use noughtelm_tests::model::sound::{from_record, Record};
use noughtelm_tests::plans::weight_of;
use noughtelm_tests::rng::Rng;
use noughtelm_tests::slides::beside::call_ours;

// ---- by hand

/// Items of so many places at this slack, then the edges of one bidder after another.
fn arrived<'a>(
    counts: &[u64],
    (p, q): (u64, u64),
    bidders: &[&[(u64, u64)]],
    seen: &'a mut Tally,
) -> Both<'a> {
    let opened = Both::open_places(counts.len() as u64, Slack { p, q }, counts, seen);
    let mut both = opened.expect("both agree").expect("it opens");
    for list in bidders {
        let edges: Vec<Edge> = list.iter().map(|&(item, weight)| Edge { item, weight }).collect();
        both.arrive(&edges).expect("both agree").expect("a good list");
    }
    both
}

fn withdraw(both: &mut Both, items: &[u64]) {
    both.withdraw(items).expect("both agree").expect("live items");
}

/// Item 1 has two places, item 2 one.
const LESSON: [&[(u64, u64)]; 4] =
    [&[(1, 100), (2, 90)], &[(1, 80)], &[(1, 70), (2, 30)], &[(2, 25)]];

/// Bidder 1 has three ways to go.
///
/// At item 1 it saves 100, and a place is left there, and item 2. If bidder 2 takes that place
/// for 80, item 2 is left to bidder 3 for 30, better than to bidder 4 for 25: 210. If bidder 2
/// goes without, bidder 3 takes the place for 70 and bidder 4 item 2 for 25: 195, or bidder 3
/// takes item 2 and nobody the place: 130. So 210 at best.
///
/// At item 2 it saves 90, and both places of item 1 are left: bidder 2 takes one for 80 and
/// bidder 3 the other for 70. Bidder 4 has nowhere to go. That is 240.
///
/// Without any, bidders 2 and 3 fill item 1 and bidder 4 takes item 2: 80 + 70 + 25 is 175.
///
/// The count is 240, although it leaves out the greatest edge, 100. Who lets the bidders choose
/// in turn, or takes the greatest edge and then the next that fits, ends at 210.
#[test]
fn a_lesson_for_planners() {
    let mut seen = Tally::default();
    let mut both = arrived(&[2, 1], (1, 10), &LESSON, &mut seen);
    assert_eq!(both.counted(), Ok(240));
    let ground = Ground::of(&both.model);
    assert_eq!(weight_of(&ground.live, &[2, 1, 1, 0]), 240);
    for greedy in [first_come(&ground), heaviest_first(&ground)] {
        assert_eq!((weight_of(&ground.live, &greedy), greedy), (210, vec![1, 1, 2, 0]));
    }
}

/// Without item 2 its edges are not tried: 100 and 80 at item 1. Without item 1 only one
/// bidder goes to item 2, the first for 90. Without either nobody goes anywhere.
#[test]
fn the_lesson_after_withdrawals() {
    let mut seen = Tally::default();
    for (items, value) in [(&[][..], 240), (&[2], 180), (&[1], 90), (&[1, 2], 0)] {
        let mut both = arrived(&[2, 1], (1, 10), &LESSON, &mut seen);
        withdraw(&mut both, items);
        assert_eq!(both.counted(), Ok(value), "{items:?}");
    }
}

/// "and none for the first batch": bidder 1 has to make room, though it could go to item 1. In
/// the second case so has bidder 3, between bidders that go somewhere; in the third all but
/// the last.
#[test]
fn none_for_the_first() {
    let mut seen = Tally::default();
    assert_eq!(arrived(&[1], (1, 2), &[&[(1, 50)], &[(1, 60)]], &mut seen).counted(), Ok(60));
    let bidders: [&[(u64, u64)]; 4] = [&[(1, 5)], &[(1, 9)], &[(2, 4)], &[(2, 7)]];
    assert_eq!(arrived(&[1, 1], (1, 2), &bidders, &mut seen).counted(), Ok(16));
    let bidders: [&[(u64, u64)]; 6] =
        [&[(1, 1)], &[(1, 2)], &[(1, 3)], &[(1, 4)], &[(1, 5)], &[(1, 6)]];
    assert_eq!(arrived(&[1], (1, 2), &bidders, &mut seen).counted(), Ok(6));
    assert_eq!(arrived(&[2], (1, 2), &bidders, &mut seen).counted(), Ok(11));
    assert_eq!(arrived(&[6], (1, 2), &bidders, &mut seen).counted(), Ok(21));
}

/// The greatest worths of document 01's cases, 100 and 61 of which the quick plans of cases 3
/// and 15 have.
#[test]
fn cases_of_document_01() {
    let mut seen = Tally::default();
    let case_1: [&[(u64, u64)]; 2] = [&[(1, 100), (2, 60)], &[(1, 90)]];
    let mut both = arrived(&[1, 1], (1, 10), &case_1, &mut seen);
    assert_eq!(both.counted(), Ok(150));
    withdraw(&mut both, &[1]);
    assert_eq!(both.counted(), Ok(60));
    let case_15: [&[(u64, u64)]; 3] = [&[(1, 60)], &[(1, 61), (2, 30)], &[(1, 121)]];
    let cases: [(u64, (u64, u64), &[&[(u64, u64)]], u64); 5] = [
        (1, (9, 10), &[&[(1, 100)], &[(1, 500)]], 500),
        (1, (1, 2), &[&[(1, 100)], &[(1, 100)]], 100),
        (2, (1, 10), &[&[(1, 50), (2, 50)]], 50),
        (2, (1, 10), &[&[]], 0),
        (2, (1, 2), &case_15, 151),
    ];
    for (items, slack, bidders, value) in cases {
        let mut both = arrived(&ones(items), slack, bidders, &mut seen);
        assert_eq!(both.counted(), Ok(value), "{bidders:?}");
    }
}

// ---- by a formula

/// The same weight everywhere: as many bidders as there are live places for go somewhere, up to
/// 6,000,000 in all. Every way to lay up to 6 places on items, every choice of them withdrawn.
#[test]
fn level_sheets() {
    let (mut seen, mut boards) = (Tally::default(), 0);
    for counts in (1..=6).flat_map(every_way) {
        let items = counts.len() as u64;
        let full: Vec<(u64, u64)> = (1..=items).map(|item| (item, MAX_WEIGHT)).collect();
        for bidders in 0..=6 {
            let opened = arrived(&counts, (1, 2), &vec![&full[..]; bidders], &mut seen).model;
            for gone in every_choice(items) {
                let mut both = Both::on(opened.clone(), &mut seen);
                withdraw(&mut both, &gone);
                let gone_places: u64 = gone.iter().map(|&item| counts[item as usize - 1]).sum();
                let live = both.model.places - gone_places;
                let expected = MAX_WEIGHT * live.min(bidders as u64);
                assert_eq!(both.count(), Ok(Ok(expected)), "{counts:?}, {bidders}, {gone:?}");
                both.seen.count("value", expected);
                boards += 1;
            }
        }
    }
    assert_eq!(boards, 728 * 7);
    assert!(seen.of("value", 6_000_000) >= 32);
}

/// Bidder i has i × j at item j: the greatest with the greatest, and so on down.
#[test]
fn products() {
    let mut seen = Tally::default();
    for (bidders, items) in (0..=6).flat_map(|b| (1..=6).map(move |i| (b, i))) {
        let row = |bidder: u64| (1..=items).map(|item| (item, bidder * item)).collect();
        let rows: Vec<Vec<(u64, u64)>> = (1..=bidders).map(row).collect();
        let lists: Vec<&[(u64, u64)]> = rows.iter().map(|row| &row[..]).collect();
        let mut both = arrived(&ones(items), (1, 3), &lists, &mut seen);
        let expected = (0..bidders.min(items)).map(|n| (bidders - n) * (items - n)).sum();
        assert_eq!(both.counted(), Ok(expected), "{bidders} bidders, {items} items");
    }
}

// ---- boards of all sorts

/// What a board has that a count could go wrong at.
fn note(r: &Record, value: u64, seen: &mut Tally) {
    let ground = Ground::of(r);
    let bests = by_weight(&ground).last().expect("the empty plan").1;
    let idle = (0..r.arrived as usize).any(|bidder| r.rows[bidder].iter().all(|&w| w == 0));
    let greedy = weight_of(&ground.live, &first_come(&ground));
    let own = from_record(r).expect("a sound board").weight();
    seen.count("bidders", r.arrived);
    seen.count("places", r.places);
    r.counts().iter().for_each(|&count| seen.count("places of an item", count));
    seen.count("6 by 6 items", (r.arrived == 6 && r.items == 6) as u64);
    seen.count("withdrawn", r.withdrawn.contains(&1) as u64);
    seen.count("a bidder without edges", idle as u64);
    seen.count("several best plans", (bests > 1) as u64);
    seen.count("above first come", (value > greedy) as u64);
    seen.count("above the board's own plan", (value > own) as u64);
    seen.count("a million or more", (value >= MAX_WEIGHT) as u64);
}

fn assert_noted(seen: &Tally, least: u64) {
    assert!((0..=6).all(|bidders| seen.of("bidders", bidders) > least));
    assert!((1..=6).all(|places| seen.of("places", places) > least));
    assert!((1..=6).all(|count| seen.of("places of an item", count) > least));
    for what in [
        "6 by 6 items",
        "withdrawn",
        "a bidder without edges",
        "several best plans",
        "above first come",
        "above the board's own plan",
        "a million or more",
    ] {
        seen.assert_seen(what, &[0, 1], least);
    }
    seen.assert_seen("count", &[0], 1_000);
}

/// Every board of a history.
fn run(history: &History, seen: &mut Tally) -> Same<()> {
    let mut both = Both::opened(history, seen)?;
    let mut value = both.counted()?;
    assert_eq!(value, 0, "nobody has arrived");
    for call in &history.calls {
        match call {
            Call::Arrive(edges) => both.arrive(edges)?,
            Call::Withdraw(items) => both.withdraw(items)?,
        }
        .expect("a good call");
        value = both.counted()?;
    }
    let record = both.model.clone();
    note(&record, value, seen);
    Ok(())
}

#[test]
fn boards_that_histories_reach() {
    let mut seen = Tally::default();
    for seed in 1_020_000..1_021_500 {
        let history = small(&mut Rng::new(seed));
        if let Err(found) = run(&history, &mut seen) {
            panic!("seed {seed}: {found}\n{history:?}");
        }
    }
    println!("{seen:?}");
    assert_noted(&seen, 20);
}

#[test]
fn boards_that_no_history_reaches() {
    let (mut seen, mut unreached) = (Tally::default(), 0);
    for seed in 1_030_000..1_033_000 {
        let record = made(&mut Rng::new(seed));
        let mut both = Both::on(record.clone(), &mut seen);
        assert_eq!(both.is_sound(), Ok(true), "seed {seed}");
        let value = both.counted();
        let value = value.unwrap_or_else(|found| panic!("seed {seed}: {found}\n{record:?}"));
        note(&record, value, &mut seen);
        unreached += is_unreached(&record) as u64;
    }
    println!("{unreached} unreached, {seen:?}");
    assert!(unreached > 1_000);
    assert_noted(&seen, 20);
}

// ---- relations

/// The library's count of a board that it takes.
fn count(ours: ffi::Board) -> u64 {
    let Told { number, place, value } = ffi::count(ours);
    assert_eq!((number, place), (0, 0));
    value
}

/// The board of a history, by the library.
fn reached(history: &History) -> ffi::Board {
    let Slack { p, q } = history.slack;
    let opened = ffi::open_places(history.items(), p, q, &history.counts).board;
    history.calls.iter().fold(opened, |ours, call| call_ours(ours, call).board)
}

/// The count where these bidders arrive at items of so many places, at any slack, and some
/// leave then.
fn counted_anew(rng: &mut Rng, rows: &Sheet, counts: &[u64], gone: &[u64]) -> u64 {
    let (p, q) = rng.pick(&[(1, 2), (1, 10), (999, 1_000)]);
    let mut calls: Vec<Call> = rows.iter().map(|row| Call::Arrive(edges(row))).collect();
    calls.push(Call::Withdraw(gone.to_vec()));
    count(reached(&History { counts: counts.to_vec(), slack: Slack { p, q }, calls }))
}

/// Boards of which some items may be withdrawn.
fn boards(seeds: std::ops::Range<u64>) -> impl Iterator<Item = (u64, History, Record)> {
    seeds.map(|seed| {
        let history = small(&mut Rng::new(seed));
        let record = record(&reached(&history));
        (seed, history, record)
    })
}

/// One more edge, or a heavier one, never lowers the count, and raises it by no more than what
/// it weighs more.
#[test]
fn one_edge_more() {
    let (mut raised, mut kept) = (0, 0);
    for (seed, _, r) in boards(1_040_000..1_040_800).filter(|(_, _, r)| r.arrived > 0) {
        let rng = &mut Rng::new(!seed);
        let (mut rows, gone) = (all(&r), items_of(&r, true));
        let before = count(board(&r));
        let (bidder, item) = (rng.index(rows.len()), rng.index(r.items as usize));
        let weight = rows[bidder][item];
        rows[bidder][item] = rng.pick(&[weight + 1, weight + 500, MAX_WEIGHT]).min(MAX_WEIGHT);
        let after = counted_anew(rng, &rows, &r.counts(), &gone);
        let more = rows[bidder][item] - weight;
        assert!(before <= after && after <= before + more, "seed {seed}: {before}, {after}");
        assert!(!r.is_gone(item) || after == before, "seed {seed}: {before}, {after}");
        *if after > before { &mut raised } else { &mut kept } += 1;
    }
    println!("{raised} raised, {kept} kept");
    assert!(raised > 100 && kept > 100);
}

/// One more bidder never lowers the count, and raises it by no more than its heaviest live edge.
#[test]
fn one_bidder_more() {
    let (mut raised, mut kept) = (0, 0);
    for (seed, _, r) in boards(1_041_000..1_041_800).filter(|(_, _, r)| r.arrived < 6) {
        let rng = &mut Rng::new(!seed);
        let before = count(board(&r));
        let weight = |item: u64| Edge { item, weight: rng.pick(&[1, 3, 800, 9_999, MAX_WEIGHT]) };
        let edges: Vec<Edge> = items_of(&r, false).into_iter().map(weight).collect();
        let heaviest = edges.iter().map(|edge| edge.weight).max().unwrap_or(0);
        let after = count(call_ours(board(&r), &Call::Arrive(edges)).board);
        assert!(before <= after && after <= before + heaviest, "seed {seed}: {before}, {after}");
        *if after > before { &mut raised } else { &mut kept } += 1;
    }
    println!("{raised} raised, {kept} kept");
    assert!(raised > 100 && kept > 30);
}

/// A withdrawal never raises the count. It lowers it by no more than the heaviest edges at the
/// items that leave, one for each place.
#[test]
fn items_withdrawn() {
    let (mut lowered, mut kept) = (0, 0);
    for (seed, _, r) in boards(1_042_000..1_042_800) {
        let rng = &mut Rng::new(!seed);
        let leaving = rng.range(1, 2) as usize;
        let items = rising(rng, &items_of(&r, false), leaving);
        let before = count(board(&r));
        let after = count(call_ours(board(&r), &Call::Withdraw(items.clone())).board);
        let heaviest = |item: usize| (0..r.arrived as usize).map(|b| r.weight_at(b, item)).max();
        let places = |&item: &u64| r.counts[item as usize - 1] as u64;
        let most = |item: &u64| places(item) * heaviest(*item as usize - 1).unwrap_or(0);
        let least = before.saturating_sub(items.iter().map(most).sum());
        assert!(least <= after && after <= before, "seed {seed}: {before}, {after}");
        *if after < before { &mut lowered } else { &mut kept } += 1;
    }
    println!("{lowered} lowered, {kept} kept");
    assert!(lowered > 100 && kept > 100);
}

/// Neither the order of the bidders nor that of the items counts, nor the slack; and an item of
/// several places is as good as several items of one.
#[test]
fn other_orders_and_places_as_items() {
    let mut weighty = 0;
    for (seed, history, r) in boards(1_043_000..1_043_600) {
        let rng = &mut Rng::new(!seed);
        let (mut rows, counts, gone) = (all(&r), r.counts(), items_of(&r, true));
        let value = count(board(&r));
        rng.shuffle(&mut rows);
        assert_eq!(counted_anew(rng, &rows, &counts, &gone), value, "seed {seed}");
        let mut order: Vec<usize> = (0..counts.len()).collect();
        rng.shuffle(&mut order);
        let moved = |list: &Vec<u64>| order.iter().map(|&item| list[item]).collect::<Vec<u64>>();
        let rows: Sheet = rows.iter().map(moved).collect();
        let places = (1..).zip(&order).filter(|(_, &item)| r.is_gone(item));
        let gone: Vec<u64> = places.map(|(place, _)| place).collect();
        assert_eq!(counted_anew(rng, &rows, &moved(&counts), &gone), value, "seed {seed}");
        assert_eq!(count(reached(&spread(&history))), value, "seed {seed}");
        weighty += (value > 0) as u64;
    }
    assert!(weighty > 300);
}

/// Prices, gains and the board's own plan have no part in it: a board that no history need
/// reach has the count of the one that comes of its edges by calls.
#[test]
fn prices_have_no_part() {
    let mut apart = 0;
    for seed in 1_044_000..1_044_600 {
        let rng = &mut Rng::new(seed);
        let r = made(rng);
        let value = count(board(&r));
        let anew = counted_anew(rng, &all(&r), &r.counts(), &items_of(&r, true));
        assert_eq!(anew, value, "seed {seed}\n{r:?}");
        let own = from_record(&r).expect("a sound board").weight();
        apart += (own < value) as u64;
    }
    assert!(apart > 100);
}

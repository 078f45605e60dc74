//! The proved calls beside bids as the slides have them, raised by the lead of R-7. R-5 of
//! document 02: "These four steps in turn, however it is done now, must be shown equal to the
//! bid as defined until now, at every bid of every call on a sound board." After every call
//! the bids, the matching, the prices and the gains are equal; so they are after whole texts.

use noughtelm_tests::both::{board, equal, record, shown, Same};
use noughtelm_tests::ffi::{self, Told};
use noughtelm_tests::gen::board::sound;
use noughtelm_tests::gen::history::{history, level, slope, staircase, Call, History, Kind};
use noughtelm_tests::gen::items::items_of;
use noughtelm_tests::gen::text::write;
use noughtelm_tests::model::auction::{Edge, Slack, MAX_PLACES};
use noughtelm_tests::rng::Rng;
use noughtelm_tests::slides::bar::{call_near_the_bar, history_near_the_bar};
use noughtelm_tests::slides::beside::*;
use noughtelm_tests::slides::fraction::Fraction;
use noughtelm_tests::slides::{Place, Slides};
use std::collections::BTreeSet;

fn run(history: &History, met: &mut Met) -> Same<()> {
    let Slack { p, q } = history.slack;
    let mut ours = ffi::open_places(history.items(), p, q, &history.counts).board;
    let mut slides = Slides::open(&history.counts, p, q);
    for (index, call) in history.calls.iter().enumerate() {
        step(&mut ours, &mut slides, call, met)
            .map_err(|found| format!("call {}: {found}", index + 1))?;
    }
    Ok(())
}

// ---- random histories

fn run_kind(kind: Kind, count: u64) -> Met {
    let mut met = Met::default();
    let first = 700_000 + 10_000 * kind as u64;
    for seed in first..first + count {
        let history = history(&mut Rng::new(seed), kind);
        if let Err(found) = run(&history, &mut met) {
            panic!("seed {seed}, {kind:?}: {found}\n{history:?}");
        }
    }
    println!("{kind:?}: {met:?}");
    met
}

#[test]
fn histories_of_many_sizes() {
    for (kind, count) in
        [(Kind::Small, 4_000), (Kind::Sparse, 300), (Kind::Dense, 150), (Kind::Withdrawals, 300)]
    {
        let met = run_kind(kind, count);
        assert!(met.bids > 3_000 && met.displaced > 1_000 && met.parts > 1_000 && met.ends > 500);
    }
}

#[test]
fn histories_full_of_ties() {
    let met = run_kind(Kind::Ties, 2_000);
    assert!(met.full > 1_000 && met.bar > 3_000 && met.decides > 1_000 && met.seconds > 1_500);
    let met = run_kind(Kind::EqualUtility, 600);
    assert!(met.weights > 1_500 && met.lower > 600 && met.full > 1_200 && met.decides > 300);
}

/// Slacks from 1/1,000 to 999/1,000, weights up to 1,000,000.
#[test]
fn histories_at_the_limits() {
    let met = run_kind(Kind::Limits, 12);
    assert!(met.calls > 1_200 && met.displaced > 1_000);
}

/// Several displaced at once, who displace others.
#[test]
fn histories_of_lists() {
    let met = run_kind(Kind::Lists, 700);
    assert!(met.several > 150 && met.displaced > 10_000 && met.weights > 100);
}

/// Each place with its own price (document 02, R-6): places of one item that stand equal,
/// several displaced at once.
#[test]
fn histories_of_places() {
    for (kind, count) in [
        (Kind::Places, 250),
        (Kind::PlacesTies, 400),
        (Kind::PlacesEqualUtility, 600),
        (Kind::PlacesLists, 300),
    ] {
        let met = run_kind(kind, count);
        assert!(met.places > 1_000 && met.displaced > 1_000 && met.several > 50);
        assert!(met.own > 1_000 && met.shut > 150);
    }
    let met = run_kind(Kind::PlacesLimits, 10);
    assert!(met.calls > 1_000 && met.displaced > 500);
}

// ---- prices at the bar

#[test]
fn histories_near_the_bar() {
    let mut met = Met::default();
    for seed in 810_000..811_000 {
        let history = history_near_the_bar(&mut Rng::new(seed), 1);
        if let Err(found) = run(&history, &mut met) {
            panic!("seed {seed}: {found}\n{history:?}");
        }
    }
    println!("{met:?}");
    assert!(met.bar > 4_000 && met.decides > 2_000 && met.closed > 500 && met.displaced > 1_500);
    assert!(met.seconds > 2_000 && met.shut > 1_000);
}

#[test]
fn histories_of_places_near_the_bar() {
    let mut met = Met::default();
    for seed in 811_000..812_000 {
        let history = history_near_the_bar(&mut Rng::new(seed), 3);
        if let Err(found) = run(&history, &mut met) {
            panic!("seed {seed}: {found}\n{history:?}");
        }
    }
    println!("{met:?}");
    assert!(met.bar > 4_000 && met.decides > 1_000 && met.closed > 500 && met.places > 1_000);
    assert!(met.seconds > 2_000 && met.shut > 1_000 && met.own > 1_000);
}

// ---- sound boards that no history reaches

fn weight_at(slides: &Slides, u: Place, v: u64) -> Fraction {
    let edge = slides.edges[&v].iter().find(|(item, _)| *item == u.0);
    edge.expect("items are allocated along edges").1
}

/// In every history the price of a place that is allocated is at least ε times the weight.
fn is_unreached(slides: &Slides) -> bool {
    let bar = |u: Place, v: u64| slides.epsilon * weight_at(slides, u, v);
    slides.allocated.iter().any(|(&u, &v)| slides.prices[&u] < bar(u, v))
}

fn slides_of(b: &ffi::Board) -> Slides {
    let mut slides = Slides::open(&record(b).counts(), b.slack.p, b.slack.q);
    let pence = |cell: ffi::Scaled| Fraction::new(cell.0 as i64, b.slack.q as i64);
    for row in b.weights.chunks(MAX_PLACES).take(b.arrived as usize) {
        let weight = |item: u64| row[b.places_of(item as usize - 1).start] as u64;
        let edges = (1..=b.items.count).map(|item| (item, weight(item)));
        slides.arrive(edges.filter(|(_, weight)| *weight != 0));
    }
    slides.waiting.clear();
    let places: Vec<Place> = slides.prices.keys().copied().collect();
    for (u, cell) in places.into_iter().zip(0..) {
        slides.prices.insert(u, pence(b.price[cell]));
        let holder = b.holder[cell] as u64;
        if holder != 0 {
            slides.allocated.insert(u, holder);
            slides.gains.insert(holder, pence(b.gain[holder as usize - 1]));
        }
    }
    slides.withdraw(&items_of(&record(b), true));
    slides
}

#[test]
fn sound_boards_that_no_history_reaches() {
    let (mut met, mut unreached) = (Met::default(), 0);
    for seed in 820_000..820_600 {
        let rng = &mut Rng::new(seed);
        let mut ours = board(&sound(rng));
        let mut slides = slides_of(&ours);
        unreached += is_unreached(&slides) as u64;
        let mut found = equal_lists(&ours, &slides);
        for _ in 0..6 {
            let call = call_near_the_bar(rng, &ours);
            found = found.and_then(|_| step(&mut ours, &mut slides, &call, &mut met));
        }
        found.unwrap_or_else(|found| panic!("seed {seed}: {found}\n{:?}", record(&ours)));
    }
    println!("{unreached} boards unreached: {met:?}");
    assert!(unreached > 250 && met.displaced > 10_000 && met.bar > 1_000 && met.decides > 200);
    assert!(met.seconds > 300 && met.shut > 500);
}

// ---- whole texts

/// What the program prints for an accepted text, up to the number in the last line.
fn printed(slides: &Slides, history: &History, bids: u64) -> String {
    let [matching, prices, gains] = lists(slides, history.items(), history.slack.q);
    let mut out = String::new();
    for (v, (u, gain)) in (1..).zip(matching.iter().zip(&gains)) {
        out.push_str(&format!("P\t{v}\t{u}\t{gain}\n"));
    }
    let items: BTreeSet<u64> = slides.prices.keys().map(|(item, _)| *item).collect();
    for item in items {
        out.push_str(&format!("Y\t{item}\t{}\n", prices[item as usize - 1]));
    }
    let held = slides.allocated.iter().map(|(&u, &v)| weight_at(slides, u, v));
    let weight: u64 = held.map(|weight| scaled(Some(&weight), 1)).sum();
    let every_price = slides.prices.values().map(|y| scaled(Some(y), history.slack.q));
    let sum: u64 = every_price.chain(gains).sum();
    out + &format!("T\t{weight}\t{sum}\t{bids}\nE\t")
}

/// A history's text, replayed and planned.
fn run_text(history: &History, met: &mut Met) -> Same<()> {
    let mut slides = Slides::open(&history.counts, history.slack.p, history.slack.q);
    let mut bids = 0;
    for call in &history.calls {
        enter(&mut slides, call);
        bids += slides.run(|slides, v| met.look(slides, v));
    }
    let text = write(history);
    let after = ffi::replay(&text);
    equal("replay", after.told(), Told { number: 0, place: 0, value: bids })?;
    equal_lists(&after.board, &slides)?;
    let mut out = vec![0; ffi::MAX_OUTPUT];
    let told = ffi::plan_text(&text, &mut out);
    let (expected, plan) = (printed(&slides, history, bids), shown(&out[..told.value as usize]));
    let greatest = plan.strip_prefix(&expected).map(|rest| rest.trim_end_matches('\n'));
    let agrees = told.number == 0 && greatest.is_some_and(|rest| rest.parse::<u64>().is_ok());
    equal("the plan", agrees, true).map_err(|found| format!("{found}\n{plan}\n{expected}"))
}

#[test]
fn texts_of_histories() {
    let mut met = Met::default();
    let served = Kind::ALL.into_iter().filter(|kind| kind.is_served());
    let counts = served.map(|kind| (kind, if kind.is_large() { 4 } else { 60 }));
    let mut histories = vec![staircase(64), level(64, 128), slope(64)];
    for (kind, count) in counts {
        let rng = &mut Rng::new(830_000 + kind as u64);
        histories.extend((0..count).map(|_| history(rng, kind)));
    }
    let rng = &mut Rng::new(840_000);
    histories.extend((0..100).map(|n| history_near_the_bar(rng, 1 + 3 * (n % 2))));
    // "an empty list changes nothing in a call and is badly formed as a line".
    let nothing = |call: &Call| matches!(call, Call::Withdraw(items) if items.is_empty());
    for history in &mut histories {
        history.calls.retain(|call| !nothing(call));
        let found = run_text(history, &mut met);
        found.unwrap_or_else(|found| panic!("{found}\n{history:?}"));
    }
    println!("{} texts: {met:?}", histories.len());
    assert!(histories.len() > 500 && met.displaced > 10_000);
    assert!(met.weights > 200 && met.full > 500 && met.bar > 1_000 && met.decides > 500);
}

// ---- by hand

/// A turn in quarters of a penny: the bidder, its open items with their utilities; then
/// the item picked, the second utility, the price after the bid, and who had it, 0 for nobody.
struct Turn(u64, &'static [(u64, i64)], Option<(u64, i64, i64, u64)>);

/// What a call is given.
enum Given {
    Edges(&'static [(u64, u64)]),
    Items(&'static [u64]),
}

impl Given {
    fn call(&self) -> Call {
        let edge = |&(item, weight): &(u64, u64)| Edge { item, weight };
        match self {
            Given::Edges(edges) => Call::Arrive(edges.iter().map(edge).collect()),
            Given::Items(items) => Call::Withdraw(items.to_vec()),
        }
    }
}

/// A call, its turns, and the matching, prices and gains that it leaves, in quarters too.
type Worked = (Given, &'static [Turn], [&'static [u64]; 3]);

/// ε is 1/4. Bidder 1 has the lower of two equal items, bidder 3 the larger of two weights
/// of equal utility, both without lead. Bidders 4 and 5 find 9 - 27/4 = 1/4 · 9 at item 2,
/// which is not open: bidder 4 does not take it, though it has less at item 3, and for
/// neither is it the second. Then bidders 2 and 5 are displaced, and find items 2 and 3.
const WORKED: [Worked; 6] = [
    (
        Given::Edges(&[(1, 8), (2, 8)]),
        &[Turn(1, &[(1, 32), (2, 32)], Some((1, 32, 8, 0)))],
        [&[1], &[8, 0, 0, 0], &[32]],
    ),
    (
        Given::Edges(&[(1, 13), (2, 12), (3, 6)]),
        &[Turn(2, &[(1, 44), (2, 48), (3, 24)], Some((2, 44, 16, 0)))],
        [&[1, 2], &[8, 16, 0, 0], &[32, 44]],
    ),
    (
        Given::Edges(&[(1, 9), (2, 11), (3, 5)]),
        &[
            Turn(3, &[(1, 28), (2, 28), (3, 20)], Some((2, 28, 27, 2))),
            Turn(2, &[(1, 44), (2, 21), (3, 24)], Some((1, 24, 41, 1))),
            Turn(1, &[], None),
        ],
        [&[0, 1, 2], &[41, 27, 0, 0], &[0, 24, 28]],
    ),
    (
        Given::Edges(&[(2, 9), (3, 2)]),
        &[Turn(4, &[(3, 8)], Some((3, 0, 10, 0)))],
        [&[0, 1, 2, 3], &[41, 27, 10, 0], &[0, 24, 28, 0]],
    ),
    (
        Given::Edges(&[(2, 9), (4, 20)]),
        &[Turn(5, &[(4, 80)], Some((4, 0, 100, 0)))],
        [&[0, 1, 2, 3, 4], &[41, 27, 10, 100], &[0, 24, 28, 0, 0]],
    ),
    (
        Given::Items(&[1, 4]),
        &[
            Turn(2, &[(2, 21), (3, 14)], Some((2, 14, 46, 3))),
            Turn(3, &[(3, 10)], Some((3, 0, 25, 4))),
            Turn(4, &[], None),
            Turn(5, &[], None),
        ],
        [&[0, 2, 3, 0, 0], &[0, 46, 25, 0], &[0, 14, 0, 0, 0]],
    ),
];

/// One turn, step by step.
fn turn_by_hand(slides: &mut Slides, &Turn(v, offers, taken): &Turn) {
    let quarters = |n: i64| Fraction::new(n, 4);
    assert_eq!(slides.waiting.pop_front(), Some(v));
    let open = slides.test_open(v);
    let expected: Vec<_> = offers.iter().map(|&(u, utility)| (u, quarters(utility))).collect();
    assert_eq!(open.iter().map(|uv| (uv.place.0, uv.utility)).collect::<Vec<_>>(), expected);
    let picked = Slides::pick(&open);
    assert_eq!(picked.map(|it| it.offer.place), taken.map(|(u, ..)| (u, 1)));
    let Some((picked, (u, second, price, had))) = picked.zip(taken) else { return };
    assert_eq!(picked.second, quarters(second));
    let u = (u, 1);
    slides.price(picked);
    assert_eq!(slides.prices[&u], quarters(price));
    assert_eq!(slides.allocated.get(&u).map_or(0, |&v| v), had, "not handed over yet");
    slides.hand_over(v, picked);
    assert_eq!((slides.allocated[&u], slides.gains[&v]), (v, quarters(second)));
    assert!(had == 0 || slides.waiting.front() == Some(&had) && !slides.gains.contains_key(&had));
}

/// The steps, the while around them and the library's calls come to what was worked out.
#[test]
fn a_chain_by_hand() {
    let (mut slides, mut ours) = (Slides::open(&[1; 4], 1, 4), ffi::open(4, 1, 4).board);
    for (given, turns, left) in WORKED {
        let call = given.call();
        enter(&mut slides, &call);
        let (mut whole, mut bidders) = (slides.clone(), Vec::new());
        turns.iter().for_each(|turn| turn_by_hand(&mut slides, turn));
        assert_eq!(lists(&slides, 4, 4), left.map(|list| list.to_vec()));
        let bids = turns.iter().filter(|turn| turn.2.is_some()).count() as u64;
        assert_eq!(whole.run(|_, v| bidders.push(v)), bids);
        assert_eq!(bidders, turns.iter().map(|turn| turn.0).collect::<Vec<u64>>());
        assert!(lists(&whole, 4, 4) == lists(&slides, 4, 4) && is_settled(&slides));
        let after = call_ours(ours, &call);
        assert_eq!(after.told(), Told { number: 0, place: 0, value: bids });
        assert_eq!(equal_lists(&after.board, &slides), Ok(()));
        ours = after.board;
    }
}

#[test]
fn fractions_are_exact() {
    let [tenth, third] = [Fraction::new(1, 10), Fraction::new(1, 3)];
    assert_eq!(tenth + tenth + tenth, Fraction::new(3, 10));
    assert_eq!(Fraction::new(6, 8), Fraction::new(3, 4));
    assert_eq!(Fraction::new(0, 7), Fraction::whole(0));
    assert_eq!((third * Fraction::whole(6)).to_whole(), Some(2));
    assert_eq!((third - Fraction::new(1, 2), third.to_whole()), (Fraction::new(-1, 6), None));
    assert!(Fraction::new(333, 1_000) < third && third < Fraction::new(334, 1_000));
    assert!(Fraction::new(-1, 2) < Fraction::new(-1, 3) && third > tenth);
}

//! Items of several places (document 02, R-6) on both sides: openings with every sort of
//! counts; boards worked by hand; the library's own board in which every place is an item;
//! every plan of small boards beside the share, the exact level, the check and each other.

use noughtelm_tests::before::{spread, spread_call};
use noughtelm_tests::both::watched::Watched;
use noughtelm_tests::both::{equal, record, wide, Both, Same, Tally};
use noughtelm_tests::ffi::{self, Items, MAX_PAGE};
use noughtelm_tests::gen::history::{history, tiny_places, Call, History, Kind};
use noughtelm_tests::gen::places::{counts, full};
use noughtelm_tests::gen::plan::{all, pairs, times, Ground};
use noughtelm_tests::model::auction::*;
use noughtelm_tests::model::check::{Claim, Totals, MAX_PRICE};
use noughtelm_tests::model::refusal::*;
use noughtelm_tests::model::sound::Record;
use noughtelm_tests::plans::{expected, weight_of};
use noughtelm_tests::rng::Rng;
use noughtelm_tests::slides::beside::call_ours;

const HALF: Slack = Slack { p: 1, q: 2 };

// ---- openings

/// The refusal of an opening at 1/2, which both sides give.
fn opened(items: u64, counts: &[u64], seen: &mut Tally) -> Option<Refusal> {
    opened_at(items, HALF, counts, seen)
}

fn opened_at(items: u64, slack: Slack, counts: &[u64], seen: &mut Tally) -> Option<Refusal> {
    let opened = Both::open_places(items, slack, counts, seen);
    let opened = opened.unwrap_or_else(|found| panic!("{items} items, {counts:?}: {found}"));
    let refusal = opened.err();
    refusal.into_iter().for_each(|refusal| seen.count("place", refusal.place));
    refusal
}

fn refusal(number: u64, place: u64) -> Option<Refusal> {
    Some(Refusal { number, place })
}

const STRANGE: [u64; 9] = [0, 9, 10, 64, 255, 256, 257, (1 << 32) + 1, u64::MAX];

/// Every count at every item of boards of several sizes.
#[test]
fn every_count_at_every_item() {
    let mut seen = Tally::default();
    for items in [1, 2, 3, 8, 31, 56, 57, 63, 64] {
        for item in 0..items {
            let with = |count: u64| {
                let mut counts = ones(items as u64);
                counts[item] = count;
                counts
            };
            for count in 1..=8 {
                let total = items as u64 + count - 1;
                let expected = (total > 64).then_some(Refusal { number: PLACES, place: 0 });
                assert_eq!(opened(items as u64, &with(count), &mut seen), expected);
            }
            for count in STRANGE {
                let expected = refusal(PLACES, item as u64 + 1);
                assert_eq!(opened(items as u64, &with(count), &mut seen), expected);
            }
        }
    }
    println!("{seen:?}");
    seen.assert_seen("open", &[0, PLACES], 500);
    assert!((0..=64).all(|place| seen.of("place", place) > 8));
}

/// Counts of so many items that add up to this, if there are any.
fn adding_up(rng: &mut Rng, items: usize, total: u64) -> Option<Vec<u64>> {
    let mut counts = ones(items as u64);
    while counts.iter().sum::<u64>() < total {
        let low: Vec<usize> = (0..items).filter(|&item| counts[item] < 8).collect();
        counts[(!low.is_empty()).then(|| rng.pick(&low))?] += 1;
    }
    (counts.iter().sum::<u64>() == total).then_some(counts)
}

/// 63 and 64 in all are served, 65 and more are 16 at place 0.
#[test]
fn every_total_of_every_number_of_items() {
    let (mut seen, rng) = (Tally::default(), &mut Rng::new(920_000));
    for items in 1..=64 {
        for total in [items as u64, 62, 63, 64, 65, 66, 71, 128, 256, 257, 320, 512] {
            let Some(counts) = adding_up(rng, items, total) else { continue };
            let expected = (total > 64).then_some(Refusal { number: PLACES, place: 0 });
            assert_eq!(opened(items as u64, &counts, &mut seen), expected, "{counts:?}");
            seen.count("total", total);
        }
    }
    println!("{seen:?}");
    assert!([63, 64, 65].iter().all(|&total| seen.of("total", total) > 50));
    seen.assert_seen("open", &[0, PLACES], 150);
}

/// "9 for counts of another length": whatever they are; the same length is served.
#[test]
fn every_length() {
    let mut seen = Tally::default();
    for items in [1, 2, 7, 32, 63, 64] {
        for length in (0..=130).chain([256, 320, 1_000, 65_536 + items as usize]) {
            let expected =
                (length != items as usize).then_some(refuse::<()>(UNEVEN, 0).unwrap_err());
            assert_eq!(opened(items, &vec![1; length], &mut seen), expected, "{items}, {length}");
            let met = expected.or(refusal(PLACES, 1));
            assert_eq!(opened(items, &vec![0; length], &mut seen), met, "{items}, {length}");
        }
    }
    seen.assert_seen("open", &[0, UNEVEN, PLACES], 6);
}

/// "at opening after 2, 9", "then 16": each with all that come after it.
#[test]
fn refusals_of_an_opening_in_order() {
    let mut seen = Tally::default();
    let slack = |good: bool| if good { HALF } else { Slack { p: 2, q: 2 } };
    let lists: [(&[u64], Option<u64>); 6] = [
        (&[1, 1, 1], None),
        (&[1, 9, 0], Some(2)),
        (&[0, 8, 8], Some(1)),
        (&[8, 8, 9], Some(3)),
        (&[1, 1], None),
        (&[0, 9, 9, 9], None),
    ];
    for items in [0, 3, 65, u64::MAX] {
        for (good, (counts, place)) in [true, false].iter().flat_map(|&g| lists.map(|l| (g, l))) {
            let expected = match (items, good, counts.len()) {
                (0 | 65 | u64::MAX, ..) => refusal(COUNT, 0),
                (_, false, _) => refusal(SLACK, 0),
                (_, _, 3) => place.and_then(|place| refusal(PLACES, place)),
                _ => refusal(UNEVEN, 0),
            };
            let answer = opened_at(items, slack(good), counts, &mut seen);
            assert_eq!(answer, expected, "{items}, {good}, {counts:?}");
        }
    }
    // The first bad count decides, and comes before the total.
    let mut counts = vec![8; 64];
    assert_eq!(opened(64, &counts, &mut seen), refusal(PLACES, 0));
    for item in (0..64).rev() {
        counts[item] = STRANGE[item % 9];
        assert_eq!(opened(64, &counts, &mut seen), refusal(PLACES, item as u64 + 1));
    }
    seen.assert_seen("open", &[0, COUNT, SLACK, UNEVEN, PLACES], 1);
}

#[test]
fn any_counts() {
    let mut seen = Tally::default();
    for seed in 921_000..925_000 {
        let rng = &mut Rng::new(seed);
        let items = rng.range(1, 64);
        let most = rng.pick(&[2, 5, 8]);
        let mut list = match rng.below(3) {
            0 => full(rng),
            1 => counts(rng, items, most),
            _ => (0..items).map(|_| rng.pick(&[1, 1, 1, 2, 2, 3, 8])).collect(),
        };
        for _ in 0..rng.pick(&[0, 0, 1, 2]) {
            let item = rng.index(list.len());
            list[item] = rng.pick(&STRANGE);
        }
        let length = list.len() as u64;
        let named = rng.pick(&[length, length, length, length, length + 1, 1, 0, 65]);
        opened(named, &list, &mut seen);
    }
    println!("{seen:?}");
    seen.assert_seen("open", &[0, COUNT, UNEVEN, PLACES], 10);
}

// ---- by hand

/// Opened with these counts; then the edges of one bidder after another, and its bids.
fn board_by_hand<'a>(
    counts: &[u64],
    arrivals: &[(&[(u64, u64)], u64)],
    seen: &'a mut Tally,
) -> Watched<'a> {
    let history = History { counts: counts.to_vec(), slack: HALF, calls: Vec::new() };
    let mut board = Watched::opened(&history, seen).expect("both agree");
    for (list, bids) in arrivals {
        let edges: Vec<Edge> = list.iter().map(|&(item, weight)| Edge { item, weight }).collect();
        assert_eq!(board.arrive(&edges), Ok(Ok(*bids)), "{list:?}");
    }
    board
}

fn cells(board: &ffi::Board) -> (Vec<u64>, Vec<u8>) {
    let places = board.places as usize;
    (board.price[..places].iter().map(|y| y.0).collect(), board.holder[..places].to_vec())
}

/// One item of two places at 1/2, and worths of 100, 120 and 150. The first has the first place
/// without lead. The second finds 240 at the second place and 140 at the first; the third finds
/// 200 at the first, above 150, and 80 at the second, which is not open.
fn double(seen: &mut Tally) -> Watched<'_> {
    let arrivals: [(&[(u64, u64)], u64); 3] =
        [(&[(1, 100)], 1), (&[(1, 120)], 1), (&[(1, 150)], 1)];
    board_by_hand(&[2], &arrivals, seen)
}

const DOUBLE: [&[u64]; 3] = [&[0, 1, 1], &[220], &[0, 140, 0]];

#[test]
fn a_double_kettle() {
    let mut seen = Tally::default();
    let mut board = double(&mut seen);
    let ours = board.both.ours;
    assert_eq!((ours.items.count, &ours.items.places[..2], ours.places), (1, &[2, 0][..], 2));
    assert_eq!(cells(&ours), (vec![450, 220], vec![3, 2]));
    let both = &mut board.both;
    let lists = both.read_out([3, 1, 3]).expect("both agree").expect("room");
    assert_eq!(lists, DOUBLE.map(|list| list.to_vec()));
    assert_eq!(both.read_out([3, 0, 3]), Ok(refuse(SHORT, 0)));
    let exact = both.exact(wide()).expect("both agree").expect("room");
    assert_eq!((times(&exact.matching, 1), exact.matching[0]), (2, 0));
    assert_eq!(both.compare(&[0, 1, 1], &exact.matching).unwrap().unwrap().difference, 0);
    assert_eq!(both.compare(&[1, 1, 0], &[0, 1, 1]).unwrap().unwrap().difference, -50);
    assert_eq!(both.compare(&[0, 1, 1], &[1, 1, 1]), Ok(refuse(CLASH, 3)));
    let page = both.write_page(MAX_PAGE).expect("both agree").expect("room");
    let lines = "  1 --       0          0\n  2  1     120        140\n  3  1     150          0\n";
    assert_eq!(String::from_utf8(page).unwrap(), format!("BAT KT   WORTH       GAIN\n{lines}"));
    assert_eq!(board.withdraw(&[1]), Ok(Ok(0)));
    assert_eq!(cells(&board.both.ours), (vec![0, 0], vec![0, 0]));
    assert_eq!(board.both.ours.withdrawn[..3], [1, 1, 0]);
}

/// The check on it: the price counts twice; at 149 bidder 3's edge is bare, at 99 bidder 1's
/// too. There is a cell for the item, not for its places; a gain's place counts from there.
#[test]
fn a_double_kettle_checked() {
    let mut seen = Tally::default();
    let both = &mut double(&mut seen).both;
    let [matching, price, gain] = DOUBLE.map(|list| list.to_vec());
    let own = Claim { matching, price, gain, slack: HALF };
    assert_eq!(both.check(&own), Ok(Ok(Totals { weight: 270, sum: 2 * 220 + 140 })));
    let with = |price: &[u64]| Claim { price: price.to_vec(), ..own.clone() };
    assert_eq!(both.check(&with(&[221])), Ok(Ok(Totals { weight: 270, sum: 582 })));
    assert_eq!(both.check(&with(&[150])), Ok(Ok(Totals { weight: 270, sum: 440 })));
    assert_eq!(both.check(&with(&[149])), Ok(refuse(BARE, 3)));
    assert_eq!(both.check(&with(&[99])), Ok(refuse(BARE, 1)));
    assert_eq!(both.check(&with(&[220, 220])), Ok(refuse(UNEVEN, 0)));
    assert_eq!(both.check(&with(&[MAX_PRICE + 1])), Ok(refuse(PRICE, 1)));
    let named = Claim { matching: vec![1, 1, 1], ..own.clone() };
    assert_eq!(both.check(&named), Ok(refuse(CLASH, 3)));
    let high = Claim { gain: vec![0, MAX_PRICE + 1, 0], ..own };
    assert_eq!(both.check(&high), Ok(refuse(PRICE, 1 + 2)));
}

/// Of equal ones an item's places are taken from the lowest on, then the next item's.
#[test]
fn ties_between_places() {
    let mut seen = Tally::default();
    for counts in [vec![2, 1, 3], vec![8; 8], vec![1, 8, 1], vec![4; 16], vec![1; 64]] {
        let history = History { counts: counts.clone(), slack: HALF, calls: Vec::new() };
        let mut board = Watched::opened(&history, &mut seen).expect("both agree");
        let edges: Vec<Edge> =
            (1..=counts.len() as u64).map(|item| Edge { item, weight: 50 }).collect();
        let places: u64 = counts.iter().sum();
        for place in 1..=places {
            assert_eq!(board.arrive(&edges), Ok(Ok(1)), "{counts:?}");
            assert_eq!(board.both.ours.holder[place as usize - 1] as u64, place, "{counts:?}");
        }
        assert_eq!(board.arrive(&edges), Ok(Ok(0)), "{counts:?}");
    }
}

/// Every number of places, all held: all leave at once, and their holders go to the next
/// item one after the other.
#[test]
fn items_of_every_count_withdrawn() {
    let mut seen = Tally::default();
    for (count, other) in (1..=8).flat_map(|count| (1..=8).map(move |other| (count, other))) {
        let edges: &[(u64, u64)] = &[(1, 100), (2, 40)];
        let arrivals = vec![(edges, 1); count as usize];
        let mut board = board_by_hand(&[count, other], &arrivals, &mut seen);
        assert_eq!(board.withdraw(&[1]), Ok(Ok(count.min(other))), "{count}, {other}");
        let matching: Vec<u64> = (1..=count).map(|b| if b <= other { 2 } else { 0 }).collect();
        let [m, ..] = board.both.read_out(wide()).expect("both agree").expect("room");
        assert_eq!(m[..count as usize], matching, "{count}, {other}");
    }
}

// ---- every place an item

/// The library's board of places beside its board of items of one place, call by call: only
/// the counts differ.
fn run_spread(history: &History) -> Same<u64> {
    let Slack { p, q } = history.slack;
    let mut ours = ffi::open_places(history.items(), p, q, &history.counts).board;
    let mut wide = ffi::open(spread(history).items(), p, q).board;
    let counts = ours.items;
    let mut bids = 0;
    for call in &history.calls {
        let one = call_ours(ours, call);
        let other = call_ours(wide, &spread_call(&history.counts, call));
        equal("every place an item, the answer", one.told(), other.told())?;
        (ours, wide) = (one.board, other.board);
        equal("the counts", ours.items, counts)?;
        let as_items = ffi::Board { items: wide.items, ..ours };
        equal("every place an item, the board", as_items == wide, true)?;
        bids += one.value;
    }
    Ok(bids)
}

#[test]
fn every_place_is_an_item() {
    for kind in Kind::OF_PLACES {
        let count = if kind.is_large() { 30 } else { 300 };
        let mut bids = 0;
        for seed in (0..count).map(|n| 930_000 + 1_000 * kind as u64 + n) {
            let history = history(&mut Rng::new(seed), kind);
            let found = run_spread(&history);
            bids += found.unwrap_or_else(|found| panic!("seed {seed}: {found}\n{history:?}"));
        }
        println!("{kind:?}: {bids} bids");
        assert!(bids > 3_000);
    }
}

/// Items of one place have counts of 1, and all else as it was.
#[test]
fn items_of_one_place() {
    for items in 1..=64 {
        let board = ffi::open(items, 1, 2).board;
        let mut places = [0; 64];
        places[..items as usize].fill(1);
        assert_eq!((board.items, board.places), (Items { count: items, places }, items));
    }
}

// ---- every plan of small boards

/// Every board of a tiny history, on both sides with the laws.
fn tiny_boards(seed: u64, seen: &mut Tally) -> Same<Vec<Record>> {
    let history = tiny_places(&mut Rng::new(seed));
    let mut board = Watched::opened(&history, seen)?;
    let mut records = vec![board.both.model.clone()];
    for call in &history.calls {
        board.call(call)?.expect("a good call");
        records.push(record(&board.both.ours));
    }
    Ok(records)
}

fn all_tiny_boards(seeds: std::ops::Range<u64>, seen: &mut Tally) -> Vec<Record> {
    let boards = |seed: u64| tiny_boards(seed, seen).unwrap_or_else(|e| panic!("seed {seed}: {e}"));
    seeds.flat_map(boards).collect()
}

/// "worth times q + p is at least q - p times the worth of every plan on the live sheet": of
/// the library's own plan, beside every plan with so many places; the exact level's worth is
/// the greatest, and its prices and gains check every plan.
#[test]
fn the_share_and_the_exact_level_beside_every_plan() {
    let (mut seen, mut plans, mut short, mut twice) = (Tally::default(), 0, 0, 0);
    for record in all_tiny_boards(940_000..941_000, &mut seen) {
        let (ground, Slack { p, q }) = (Ground::of(&record), record.slack);
        let mut both = Both::on(record.clone(), &mut seen);
        let [own, ..] = both.read_out(wide()).expect("both agree").expect("room");
        let own = &own[..record.arrived as usize];
        let worth = weight_of(&ground.live, own);
        let exact = both.exact(wide()).expect("both agree").expect("room");
        let greatest = weight_of(&ground.live, &exact.matching);
        let every = all(&ground);
        assert!(every.iter().any(|plan| plan == own), "{record:?}");
        for plan in &every {
            let weight = weight_of(&ground.live, plan);
            assert!((q + p) * worth >= (q - p) * weight && weight <= greatest, "{record:?}");
        }
        for plan in every.iter().step_by(5) {
            let claim = Claim { matching: plan.clone(), ..exact.clone() };
            let totals = Totals { weight: weight_of(&ground.live, plan), sum: greatest };
            assert_eq!(both.check(&claim), Ok(Ok(totals)), "{record:?}");
        }
        plans += every.len();
        short += (worth < greatest) as u64;
        twice += (1..=record.items).any(|item| times(&exact.matching, item) > 1) as u64;
    }
    println!("{plans} plans, {short} boards below the greatest, {twice} name an item twice");
    assert!(plans > 25_000 && short > 80 && twice > 500);
}

/// All plans of such boards beside each other, and lists that name an item once too often.
#[test]
fn plans_beside_each_other() {
    let (mut seen, mut clashing) = (Tally::default(), 0);
    for record in all_tiny_boards(942_000..942_120, &mut seen) {
        let ground = Ground::of(&record);
        let plans = all(&ground);
        let mut both = Both::on(record.clone(), &mut seen);
        for (first, second) in pairs(&plans).step_by(3) {
            let answer = both.compare(first, second);
            assert_eq!(answer, Ok(expected(&record, first, second)), "{record:?}");
        }
        for (plan, bidder) in plans.iter().flat_map(|plan| (0..plan.len()).map(move |b| (plan, b)))
        {
            let full = |&i: &u64| times(&plan[..bidder], i) == ground.counts[i as usize - 1];
            let Some(item) = (1..=record.items).find(full) else { continue };
            let mut crowded = plan.clone();
            crowded[bidder] = item;
            let clash = Ok(refuse(CLASH, bidder as u64 + 1));
            assert_eq!(both.compare(&crowded, plan), clash, "{crowded:?}\n{record:?}");
            assert_eq!(both.compare(plan, &crowded), clash, "{crowded:?}\n{record:?}");
            clashing += 1;
        }
    }
    println!("{clashing} lists with an item once too often, {seen:?}");
    assert!(clashing > 1_000);
    seen.assert_seen("compare", &[0, CLASH], 2_000);
}

// ---- places that stay free

/// More places than bidders, or fewer: an unplaced bidder finds every place of its live
/// items held.
#[test]
fn nobody_is_left_out() {
    let (mut seen, mut unplaced, mut free) = (Tally::default(), 0, 0);
    for kind in Kind::OF_PLACES {
        let count = if kind.is_large() { 5 } else { 100 };
        for seed in (0..count).map(|n| 950_000 + 1_000 * kind as u64 + n) {
            let history = history(&mut Rng::new(seed), kind);
            let mut board = Watched::opened(&history, &mut seen).expect("both agree");
            for call in &history.calls {
                let answer = board.call(call).unwrap_or_else(|e| panic!("seed {seed}: {e}"));
                answer.expect("a good call");
            }
            let ours = board.both.ours;
            let held = cells(&ours).1.iter().filter(|&&holder| holder != 0).count() as u64;
            unplaced += ours.arrived - held;
            free += ours.places - held;
            arrive_at_free_places(&mut board, seed);
        }
    }
    println!("{unplaced} bidders unplaced, {free} places free");
    assert!(unplaced > 1_500 && free > 500);
}

/// A bidder at one item alone of which a place is free has it with one bid.
fn arrive_at_free_places(board: &mut Watched, seed: u64) {
    let ours = board.both.ours;
    for item in 1..=ours.items.count {
        let mut places = ours.places_of(item as usize - 1);
        let free = places.find(|&i| board.both.ours.holder[i] == 0 && ours.withdrawn[i] == 0);
        if let Some(place) = free.filter(|_| board.both.ours.arrived < MAX_BIDDERS as u64) {
            let answer = board.arrive(&[Edge { item, weight: 7 }]);
            assert_eq!(answer, Ok(Ok(1)), "seed {seed}, item {item}");
            let holder = board.both.ours.holder[place] as u64;
            assert_eq!(holder, board.both.ours.arrived, "seed {seed}, item {item}");
        }
    }
}

/// A history's calls are those that it has on items of one place where it has them.
#[test]
fn calls_are_spread() {
    let edge = |item: u64, weight: u64| Edge { item, weight };
    let arrival = Call::Arrive(vec![edge(1, 5), edge(3, 7)]);
    let Call::Arrive(edges) = spread_call(&[2, 1, 3], &arrival) else { panic!("an arrival") };
    assert_eq!(edges, [edge(1, 5), edge(2, 5), edge(4, 7), edge(5, 7), edge(6, 7)]);
    let Call::Withdraw(items) = spread_call(&[2, 1, 3], &Call::Withdraw(vec![1, 2])) else {
        panic!("a withdrawal")
    };
    assert_eq!(items, [1, 2, 3]);
}

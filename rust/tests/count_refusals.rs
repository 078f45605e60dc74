//! What the slow count refuses, on both sides: "17 "large", over 6 of either, withdrawn
//! kettles' places counted, after 13" (document 02, R-9), at place 0.

use noughtelm_tests::both::{Both, Same, Tally};
use noughtelm_tests::ffi;
use noughtelm_tests::gen::board::{self, SPOILS};
use noughtelm_tests::gen::counted::{any_way, every_choice, every_way, made_of_size, of_size};
use noughtelm_tests::gen::history::{history, Call, Kind};
use noughtelm_tests::model::auction::*;
use noughtelm_tests::model::refusal::*;
use noughtelm_tests::model::sound::{to_record, Record};
use noughtelm_tests::rng::Rng;

/// What both sides answer to a board of so many bidders and places.
fn expected(bidders: u64, places: u64, value: u64) -> Same<Result<u64, Refusal>> {
    match bidders <= 6 && places <= 6 {
        true => Ok(Ok(value)),
        false => Ok(refuse(LARGE, 0)),
    }
}

fn opened<'a>(counts: &[u64], seen: &'a mut Tally) -> Both<'a> {
    let opened = Both::open_places(counts.len() as u64, Slack { p: 1, q: 10 }, counts, seen);
    opened.expect("both agree").expect("it opens")
}

fn arrive(both: &mut Both, edges: &[Edge]) {
    both.arrive(edges).expect("both agree").expect("a good list");
}

/// An edge of this weight at every item.
fn everywhere(items: u64, weight: u64) -> Vec<Edge> {
    (1..=items).map(|item| Edge { item, weight }).collect()
}

// ---- 6 and 7

/// One bidder after another, up to 8, on every way to lay up to 6 places: the seventh makes the
/// board large, whether bidders have edges everywhere, at item 1, or none, or only the first or
/// the last of them has any.
#[test]
fn six_and_seven_bidders() {
    let mut seen = Tally::default();
    for counts in (1..=6).flat_map(every_way) {
        let places: u64 = counts.iter().sum();
        let all = everywhere(counts.len() as u64, 10);
        let lists: [fn(u64, &[Edge]) -> &[Edge]; 5] = [
            |_, all| all,
            |_, all| &all[..1],
            |_, _| &[],
            |bidder, all| if bidder == 1 { all } else { &[] },
            |bidder, all| if bidder >= 6 { all } else { &[] },
        ];
        for list in lists {
            let mut both = opened(&counts, &mut seen);
            for bidder in 1..=8 {
                arrive(&mut both, list(bidder, &all));
                let placed = (1..=bidder).filter(|&b| !list(b, &all).is_empty()).count() as u64;
                let one = list(bidder, &all).len() == 1;
                let room = if one { counts[0] } else { places };
                let answer = both.count();
                assert_eq!(answer, expected(bidder, places, 10 * placed.min(room)), "{counts:?}");
            }
        }
    }
    seen.assert_seen("count", &[0, LARGE], 63 * 5 * 2);
}

/// Up to 8 places, laid on items in every way: with 0 to 7 bidders 7 places are too many, be
/// they 7 items of one, one of 7, or any others.
#[test]
fn six_and_seven_places() {
    let mut seen = Tally::default();
    for counts in (1..=8).flat_map(every_way) {
        let (items, places) = (counts.len() as u64, counts.iter().sum::<u64>());
        let mut both = opened(&counts, &mut seen);
        for bidders in 0..=7 {
            let value = MAX_WEIGHT * places.min(bidders);
            let answer = both.count();
            assert_eq!(answer, expected(bidders, places, value), "{bidders}, {counts:?}");
            both.seen.count("places", places);
            arrive(&mut both, &everywhere(items, MAX_WEIGHT));
        }
    }
    seen.assert_seen("count", &[0, LARGE], 400);
    assert_eq!((seen.of("places", 6), seen.of("places", 7)), (32 * 8, 64 * 8));
}

/// "withdrawn kettles' places counted": of 7 places, laid in every way, every choice of items
/// leaves, all of them at last; it stays 17. Of 6 it is served all the while, and the value is
/// that of the live ones.
#[test]
fn withdrawn_places_count() {
    let mut seen = Tally::default();
    for (places, bidders) in [(6, 0), (6, 3), (6, 6), (7, 0), (7, 3), (7, 6)] {
        for counts in every_way(places) {
            let items = counts.len() as u64;
            let mut both = opened(&counts, &mut seen);
            (0..bidders).for_each(|_| arrive(&mut both, &everywhere(items, 5)));
            let before = both.model.clone();
            for gone in every_choice(items) {
                let mut both = Both::on(before.clone(), &mut seen);
                both.withdraw(&gone).expect("both agree").expect("live items");
                let left: u64 = (1..=items)
                    .filter(|item| !gone.contains(item))
                    .map(|item| counts[item as usize - 1])
                    .sum();
                let value = 5 * left.min(bidders);
                assert_eq!(both.count(), expected(bidders, places, value), "{counts:?}, {gone:?}");
            }
        }
    }
    assert_eq!((seen.of("count", 0), seen.of("count", LARGE)), (3 * 486, 3 * 1_458));
}

/// Once large, always large: neither withdrawals nor refused calls make a board smaller. The
/// count of the board before the seventh bidder stands.
#[test]
fn the_seventh_bidder() {
    let mut seen = Tally::default();
    let mut both = opened(&[2, 1], &mut seen);
    (0..6).for_each(|_| arrive(&mut both, &everywhere(2, 7)));
    assert_eq!(both.count(), Ok(Ok(21)));
    assert_eq!(both.arrive(&[Edge { item: 3, weight: 7 }]), Ok(refuse(UNKNOWN, 1)));
    assert_eq!(both.count(), Ok(Ok(21)));
    let before = both.model.clone();
    arrive(&mut both, &[]);
    assert_eq!(both.count(), Ok(refuse(LARGE, 0)));
    for item in [1, 2] {
        both.withdraw(&[item]).expect("both agree").expect("a live item");
        assert_eq!(both.count(), Ok(refuse(LARGE, 0)));
    }
    assert_eq!(Both::on(before, &mut seen).count(), Ok(Ok(21)));
}

// ---- far larger

/// So many bidders with one edge each, on so many places: the greatest of both are 128 and 64.
#[test]
fn far_larger_boards() {
    let mut seen = Tally::default();
    for (places, full) in
        [1, 5, 6, 7, 8, 16, 32, 56, 63, 64].iter().flat_map(|&p| [(p, false), (p, true)])
    {
        // Items of one place, or of 8 and one of the rest.
        let rest = (places % 8 != 0).then_some(places % 8);
        let eights = || vec![8; places as usize / 8].into_iter().chain(rest).collect();
        let counts = if full { eights() } else { ones(places) };
        let mut both = opened(&counts, &mut seen);
        for bidders in 0..=128 {
            if [0, 1, 2, 5, 6, 7, 8, 62, 63, 64, 65, 70, 127, 128].contains(&bidders) {
                let value = 9 * bidders.min(counts[0]);
                assert_eq!(both.count(), expected(bidders, places, value), "{bidders}, {counts:?}");
            }
            if bidders < 128 {
                arrive(&mut both, &[Edge { item: 1, weight: 9 }]);
            }
        }
    }
    seen.assert_seen("count", &[0, LARGE], 20);
}

/// Sound boards that no history need reach, and those that histories do, of 4 to 9 of either.
#[test]
fn boards_near_the_limits() {
    let mut seen = Tally::default();
    for seed in 1_050_000..1_052_000 {
        let rng = &mut Rng::new(seed);
        let (bidders, places) = (rng.range(4, 9), rng.range(4, 8));
        let record = match seed % 2 {
            0 => made_of_size(rng, bidders, places),
            _ => {
                let counts = any_way(rng, places);
                to_record(&of_size(rng, bidders, counts).auction())
            }
        };
        let answer = Both::on(record.clone(), &mut seen).count();
        let answer = answer.unwrap_or_else(|found| panic!("seed {seed}: {found}\n{record:?}"));
        assert_eq!(answer.is_ok(), bidders <= 6 && places <= 6, "seed {seed}\n{record:?}");
    }
    println!("{seen:?}");
    seen.assert_seen("count", &[0, LARGE], 300);
}

/// After every call of a history whose board outgrows the count.
#[test]
fn histories_that_outgrow_it() {
    let mut seen = Tally::default();
    for (kind, seed) in [Kind::Small, Kind::Ties, Kind::Places, Kind::PlacesTies]
        .into_iter()
        .flat_map(|kind| (1_060_000..1_060_100).map(move |seed| (kind, seed)))
    {
        let history = history(&mut Rng::new(seed), kind);
        let mut both = Both::opened(&history, &mut seen).expect("both agree");
        for call in &history.calls {
            match call {
                Call::Arrive(edges) => both.arrive(edges),
                Call::Withdraw(items) => both.withdraw(items),
            }
            .expect("both agree")
            .expect("a good call");
            let (bidders, places) = (both.ours.arrived, history.counts.iter().sum::<u64>());
            let answer = both.count().unwrap_or_else(|e| panic!("seed {seed}: {e}\n{history:?}"));
            assert_eq!(answer.is_ok(), bidders <= 6 && places <= 6, "seed {seed}");
        }
    }
    seen.assert_seen("count", &[0, LARGE], 500);
}

// ---- 13 before 17

/// "after 13": every clause of soundness broken, on boards that are large and on others.
#[test]
fn boards_that_are_not_sound() {
    for (clause, spoil) in SPOILS {
        let mut seen = Tally::default();
        for seed in 1_070_000..1_070_250 {
            let rng = &mut Rng::new(seed);
            let (bidders, places) = (rng.range(0, 9), rng.range(1, 8));
            let mut record = match rng.below(3) {
                0 => board::sound(rng),
                _ => made_of_size(rng, bidders, places),
            };
            let large = record.arrived > 6 || record.places > 6;
            if !spoil(rng, &mut record) {
                continue;
            }
            let answer = Both::on(record.clone(), &mut seen).count();
            assert_eq!(answer, Ok(refuse(SPOILT, 0)), "{clause}, seed {seed}\n{record:?}");
            seen.count("large", large as u64);
        }
        seen.assert_seen("count", &[SPOILT], 30);
        seen.assert_seen("large", &[0, 1], 10);
    }
}

/// Numbers that say that a board is large, though it is not sound for them: 13, not 17.
#[test]
fn numbers_far_too_large() {
    type Break = fn(&mut Record);
    let breaks: [(&str, Break); 12] = [
        ("129 bidders", |r| r.arrived = 129),
        ("256 bidders and as many as before", |r| r.arrived += 256),
        ("2^32 bidders and as many", |r| r.arrived += 1 << 32),
        ("2^64 - 1 bidders", |r| r.arrived = u64::MAX),
        ("65 places", |r| r.places = 65),
        ("a place more", |r| r.places += 1),
        ("256 places more", |r| r.places += 256),
        ("2^64 - 1 places", |r| r.places = u64::MAX),
        ("65 items", |r| r.items = 65),
        ("2^64 - 1 items", |r| r.items = u64::MAX),
        ("an item of 9 places more", |r| {
            r.counts[r.items as usize] = 9;
            (r.items, r.places) = (r.items + 1, r.places + 9);
        }),
        ("an item of no place more", |r| r.items += 1),
    ];
    let mut seen = Tally::default();
    for counts in [vec![1], vec![2, 1], vec![1; 6], vec![6], vec![1; 7], vec![8; 7]] {
        let mut both = opened(&counts, &mut seen);
        arrive(&mut both, &everywhere(counts.len() as u64, 3));
        let sound = both.model.clone();
        assert_eq!(both.count(), expected(1, counts.iter().sum(), 3));
        for (what, spoil) in breaks {
            let mut record = sound.clone();
            spoil(&mut record);
            let answer = Both::on(record, &mut seen).count();
            assert_eq!(answer, Ok(refuse(SPOILT, 0)), "{what}, {counts:?}");
        }
    }
    seen.assert_seen("count", &[0, LARGE, SPOILT], 2);
}

/// A board of 7 bidders and 7 places whose gain, price, holder, flag or weight is not right.
#[test]
fn thirteen_before_seventeen() {
    type Break = fn(&mut ffi::Board);
    let breaks: [(&str, Break); 7] = [
        ("a gain", |b| b.gain[0].0 += 1),
        ("a price", |b| b.price[0].0 += 1),
        ("a holder", |b| b.holder[6] = 8),
        ("a flag", |b| b.withdrawn[3] = 2),
        ("a weight", |b| b.weights[64 * 6 + 3] = 1_000_001),
        ("a weight of nobody", |b| b.weights[64 * 7] = 1),
        ("the slack", |b| b.slack.p = b.slack.q),
    ];
    let mut seen = Tally::default();
    let mut both = opened(&[1; 7], &mut seen);
    (0..7).for_each(|_| arrive(&mut both, &everywhere(7, 40)));
    let large = both.ours;
    let told = |number: u64| ffi::Told { number, place: 0, value: 0 };
    assert_eq!(ffi::count(large), told(LARGE));
    for (what, spoil) in breaks {
        let mut spoilt = large;
        spoil(&mut spoilt);
        assert!(!ffi::is_sound(spoilt), "{what}");
        assert_eq!(ffi::count(spoilt), told(SPOILT), "{what}");
    }
    let zeros = ffi::open(0, 1, 2).board;
    assert_eq!(ffi::count(zeros), told(SPOILT));
}

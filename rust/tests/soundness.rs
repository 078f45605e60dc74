//! Boards that are not sound, on both sides: each clause broken by itself, each
//! unused cell, one number changed, any numbers at all. Every call that takes
//! such a board answers 13 and changes no byte.

use noughtelm_tests::both::{rooms, wide, Both, Same, Tally};
use noughtelm_tests::ffi::MAX_PAGE;
use noughtelm_tests::gen::board::{self, Unused};
use noughtelm_tests::gen::list::rising;
use noughtelm_tests::model::auction::*;
use noughtelm_tests::model::check::Claim;
use noughtelm_tests::model::refusal::*;
use noughtelm_tests::model::sound::{to_record, Record};
use noughtelm_tests::rng::Rng;

const CALLS: [&str; 8] =
    ["arrive", "withdraw", "read out", "exact", "count", "check", "compare", "write page"];

/// Lists to withdraw: none, one, and several, served on some sound board or on none.
const WITHDRAWN: [&[u64]; 10] =
    [&[], &[0], &[1], &[2], &[64], &[u64::MAX], &[1, 2], &[2, 1], &[1, 1], &[1, 65]];

fn empty_claim(slack: Slack) -> Claim {
    Claim { matching: vec![], price: vec![], gain: vec![], slack }
}

/// Two plans, each one number in a cell for each bidder, in one cell more, or in none.
fn plans(rng: &mut Rng, r: &Record) -> [Vec<u64>; 2] {
    let even = r.arrived.min(128) as usize;
    [0; 2].map(|_| {
        let length = rng.pick(&[even, even, even, even, even + 1, 0]);
        vec![rng.pick(&[0, 0, 0, 1, u64::MAX]); length]
    })
}

/// All that may be asked of a board; how many calls answered 13.
fn ask(both: &mut Both, rng: &mut Rng) -> Same<u64> {
    both.is_sound()?;
    let mut spoilt = 0;
    let mut note = |number: Option<Refusal>| {
        spoilt += (number == Some(Refusal { number: SPOILT, place: 0 })) as u64
    };
    let length = rng.pick(&[0, 1, 5, 64, 65]);
    note(both.arrive(&rising(rng, length))?.err());
    note(both.withdraw(rng.pick(&WITHDRAWN))?.err());
    let room = rooms(rng, &both.model);
    note(both.read_out(room)?.err());
    let room = if rng.chance(1, 2) { wide() } else { [0; 3] };
    note(both.exact(room)?.err());
    note(both.count()?.err());
    let slack = rng.pick(&[both.model.slack, Slack { p: 0, q: 1 }, Slack { p: 5, q: 5 }]);
    note(both.check(&empty_claim(slack))?.err());
    let [first, second] = plans(rng, &both.model);
    note(both.compare(&first, &second)?.err());
    note(both.write_page(if room == [0; 3] { 0 } else { MAX_PAGE })?.err());
    Ok(spoilt)
}

fn assert_spoilt(record: &Record, rng: &mut Rng, seen: &mut Tally, what: &dyn Fn() -> String) {
    let mut both = Both::on(record.clone(), seen);
    match ask(&mut both, rng) {
        Ok(spoilt) => assert_eq!(spoilt, CALLS.len() as u64, "{}\n{record:?}", what()),
        Err(found) => panic!("{}: {found}\n{record:?}", what()),
    }
}

#[test]
fn every_clause_counts() {
    for (clause, spoil) in board::SPOILS {
        let mut seen = Tally::default();
        for seed in 31_000..31_300 {
            let rng = &mut Rng::new(seed);
            let mut record = board::sound(rng);
            if spoil(rng, &mut record) {
                assert_spoilt(&record, rng, &mut seen, &|| format!("{clause}, seed {seed}"));
            }
        }
        CALLS.iter().for_each(|call| seen.assert_seen(call, &[SPOILT], 50));
        seen.assert_seen("sound", &[1], 50);
    }
}

/// Two items of two places and one of one; bidder 1 at the first, and item 2 withdrawn.
fn by_hand() -> Record {
    let slack = Slack { p: 1, q: 10 };
    let mut auction = Auction::open_places(3, slack, &[2, 2, 1]).expect("it opens");
    let edges = [1, 2].map(|item| Edge { item, weight: 100 });
    auction.arrive(&edges).expect("a good list");
    auction.arrive(&[Edge { item: 2, weight: 50 }]).expect("a good list");
    auction.withdraw(&[2]).expect("item 2 is there");
    to_record(&auction)
}

/// "Soundness is read place by place" (document 02, R-6): the new clauses broken at a cell or
/// two of a board that is sound without that.
#[test]
fn clauses_of_places_by_hand() {
    type Break = fn(&mut Record);
    let breaks: [(&str, Break); 21] = [
        ("a count of 0", |r| r.counts[2] = 0),
        ("a count less", |r| r.counts[0] = 1),
        ("a count more", |r| r.counts[0] = 3),
        ("counts exchanged", |r| r.counts.swap(0, 2)),
        ("a count of 9", |r| (r.counts[2], r.places) = (9, 13)),
        ("a count of 255", |r| (r.counts[2], r.places) = (255, 259)),
        ("an unused count", |r| r.counts[3] = 1),
        ("the last unused count", |r| r.counts[63] = 1),
        ("an item more", |r| r.items = 4),
        ("an item fewer", |r| r.items = 2),
        ("an item fewer, and its place", |r| (r.items, r.places) = (2, 4)),
        ("a place more", |r| r.places = 6),
        ("a place fewer", |r| r.places = 4),
        ("no places", |r| r.places = 0),
        ("places in the lower bits", |r| r.places += 1 << 32),
        ("a weight less at one place", |r| r.rows[0][1] = 99),
        ("no edge at one place", |r| r.rows[0][1] = 0),
        ("an edge at one place", |r| r.rows[1][3] = 49),
        ("an edge at a withdrawn place", |r| r.rows[0][3] = 7),
        ("the flag of one place", |r| r.withdrawn[1] = 1),
        ("the flag of the other", |r| r.withdrawn[2] = 0),
    ];
    let mut seen = Tally::default();
    for (what, spoil) in breaks {
        let mut record = by_hand();
        assert_eq!(Both::on(record.clone(), &mut seen).is_sound(), Ok(true));
        spoil(&mut record);
        for seed in 0..20 {
            assert_spoilt(&record, &mut Rng::new(seed), &mut seen, &|| what.into());
        }
    }
    CALLS.iter().for_each(|call| seen.assert_seen(call, &[SPOILT], 21 * 20));
}

/// The cells past the items and past the bidders, on boards of several sizes.
#[test]
fn every_unused_cell_counts() {
    let (mut seen, mut kinds) = (Tally::default(), [0; 6]);
    for seed in 32_000..32_004 {
        let rng = &mut Rng::new(seed);
        let sound = (0..).map(|_| board::sound(rng)).find(|r| r.places < 64 && r.arrived < 128);
        let sound = sound.unwrap();
        for cell in board::unused_cells(&sound) {
            let mut record = sound.clone();
            let number = rng.pick(&[1, 1, 127, 255, 255 << 24]);
            cell.fill(&mut record, if matches!(cell, Unused::Holder(_)) { 1 } else { number });
            assert_spoilt(&record, rng, &mut seen, &|| format!("{cell:?}, seed {seed}"));
            kinds[match cell {
                Unused::Price(_) => 0,
                Unused::Holder(_) => 1,
                Unused::Withdrawn(_) => 2,
                Unused::Gain(_) => 3,
                Unused::Weight(..) => 4,
                Unused::Count(_) => 5,
            }] += 1;
        }
    }
    println!("cells by kind: {kinds:?}");
    assert!(kinds.iter().all(|&cells| cells > 50));
    CALLS.iter().for_each(|call| seen.assert_seen(call, &[SPOILT], 10_000));
}

/// One to three numbers of a sound board changed: some boards stay sound.
#[test]
fn changed_numbers() {
    let mut seen = Tally::default();
    for seed in 33_000..42_000 {
        let rng = &mut Rng::new(seed);
        let mut record = board::sound(rng);
        (0..rng.range(1, 3)).for_each(|_| board::nudge(rng, &mut record));
        let mut both = Both::on(record.clone(), &mut seen);
        if let Err(found) = ask(&mut both, rng) {
            panic!("seed {seed}: {found}\n{record:?}");
        }
    }
    println!("{seen:?}");
    seen.assert_seen("sound", &[0, 1], 500);
    seen.assert_seen("arrive", &[0, SPOILT, FULL, UNKNOWN, GONE], 1);
    seen.assert_seen("withdraw", &[0, SPOILT, UNKNOWN, GONE, ORDER], 20);
    seen.assert_seen("read out", &[0, SPOILT, SHORT], 100);
    seen.assert_seen("exact", &[0, SPOILT, SHORT], 100);
    seen.assert_seen("count", &[0, SPOILT, LARGE], 100);
    seen.assert_seen("check", &[0, SPOILT, SLACK, UNEVEN], 2);
    seen.assert_seen("compare", &[0, SPOILT, UNEVEN, CLASH], 50);
    seen.assert_seen("write page", &[0, SPOILT, SHORT], 100);
}

#[test]
fn any_numbers() {
    let mut seen = Tally::default();
    for seed in 42_000..52_000 {
        let rng = &mut Rng::new(seed);
        let record = board::random(rng);
        let mut both = Both::on(record.clone(), &mut seen);
        if let Err(found) = ask(&mut both, rng) {
            panic!("seed {seed}: {found}\n{record:?}");
        }
    }
    println!("{seen:?}");
    assert!(CALLS.iter().all(|call| seen.of(call, SPOILT) > 9_000));
    assert!(seen.of("sound", 1) > 9_000);
}

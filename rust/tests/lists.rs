//! Withdrawals of lists (document 02, R-3) on both sides: lists of every length, every
//! fault at every place, empty lists, lists of one beside document 01's withdrawal, and
//! boards that are not sound.

use noughtelm_tests::both::watched::Watched;
use noughtelm_tests::both::{Both, Same, Tally};
use noughtelm_tests::gen::board;
use noughtelm_tests::gen::history::{history, Kind};
use noughtelm_tests::gen::items::{any, items_of, rising, Fault};
use noughtelm_tests::gen::list;
use noughtelm_tests::model::auction::*;
use noughtelm_tests::model::refusal::*;
use noughtelm_tests::model::sound::{from_record, to_record, Record};
use noughtelm_tests::rng::Rng;
use noughtelm_tests::ties::{by_pairs, Walk};

/// A board of 64 items with some bidders, who want one item, some or all; these items
/// are gone.
fn full_width<'a>(rng: &mut Rng, gone: &[u64], seen: &'a mut Tally) -> Same<Watched<'a>> {
    let mut board = Watched::open(64, Slack { p: 1, q: 4 }, seen)?;
    for _ in 0..rng.below(12) {
        let length = rng.pick(&[1, 5, 20, 63, 64]);
        board.arrive(&list::rising(rng, length))?.expect("a good list");
    }
    board.withdraw(gone)?.expect("they are there");
    Ok(board)
}

/// A board that a history reaches, or one that none need reach.
fn any_board(rng: &mut Rng) -> Record {
    match rng.below(5) {
        0 | 1 => board::sound(rng),
        2 => to_record(&history(rng, Kind::Lists).auction()),
        3 => to_record(&history(rng, Kind::PlacesLists).auction()),
        _ => to_record(&history(rng, Kind::Withdrawals).auction()),
    }
}

// ---- lists of any length

/// Items 1, 2, 3 and so on are served up to 64; the 65th there is not.
#[test]
fn rising_lists_of_every_length() {
    let mut seen = Tally::default();
    for (length, seed) in (0..=70).chain([128, 10_000]).flat_map(|n| (0..4).map(move |s| (n, s))) {
        let rng = &mut Rng::new(500_000 + 4 * length + seed);
        let items: Vec<u64> = (1..=length).collect();
        let answer = full_width(rng, &[], &mut seen).and_then(|mut b| b.withdraw(&items));
        let answer = answer.unwrap_or_else(|found| panic!("{length}, seed {seed}: {found}"));
        let unknown = Refusal { number: UNKNOWN, place: 65 };
        assert_eq!(answer.err(), (length > 64).then_some(unknown), "{length}, seed {seed}");
    }
    seen.assert_seen("withdraw", &[0, UNKNOWN], 30);
}

/// Any of the live items, on a board with some that are gone.
#[test]
fn live_items_of_every_number() {
    let (mut seen, mut bids) = (Tally::default(), 0);
    let all: Vec<u64> = (1..=64).collect();
    for (count, seed) in (0..=64).flat_map(|count| (0..4).map(move |seed| (count, seed))) {
        let rng = &mut Rng::new(510_000 + 4 * count as u64 + seed);
        let away = rng.index(65 - count);
        let gone = rising(rng, &all, away);
        let mut board = full_width(rng, &gone, &mut seen).expect("both agree");
        let items = rising(rng, &items_of(&board.both.model, false), count);
        let answer = board.withdraw(&items);
        let answer = answer.unwrap_or_else(|found| panic!("{count}, seed {seed}: {found}"));
        bids += answer.expect("live items in rising order");
        let left = 64 - gone.len() - count;
        assert_eq!(items_of(&board.both.model, false).len(), left, "{count}, seed {seed}");
    }
    println!("{bids} bids");
    assert!(bids > 100);
    seen.assert_seen("withdraw", &[0], 2 * 65 * 4);
}

/// Every kind of board: an empty list is served without a bid and keeps every byte.
#[test]
fn an_empty_list_changes_nothing() {
    let mut seen = Tally::default();
    for seed in 520_000..520_600 {
        let record = any_board(&mut Rng::new(seed));
        let mut both = Both::on(record.clone(), &mut seen);
        let before = both.ours;
        assert_eq!(both.withdraw(&[]), Ok(Ok(0)), "seed {seed}\n{record:?}");
        assert!(both.ours == before && both.model == record, "seed {seed}\n{record:?}");
    }
    seen.assert_seen("withdraw", &[0], 600);
}

/// Items that nobody holds leave without a bid; with all the live ones everybody is
/// unplaced.
#[test]
fn items_that_nobody_holds_and_all_items() {
    let (mut seen, mut free, mut placed) = (Tally::default(), 0, 0);
    for seed in 525_000..525_600 {
        let record = any_board(&mut Rng::new(seed));
        let mut both = Both::on(record.clone(), &mut seen);
        let mut left = record.clone();
        let places = |item: u64| record.places_of(item as usize - 1);
        let unheld = |item: &u64| record.holder[places(*item)].iter().all(|&holder| holder == 0);
        let (list, held): (Vec<u64>, Vec<u64>) =
            items_of(&record, false).into_iter().partition(unheld);
        assert_eq!(both.withdraw(&list), Ok(Ok(0)), "seed {seed}\n{record:?}");
        list.iter().for_each(|&item| left.withdrawn[places(item)].fill(1));
        assert!(both.model == left, "seed {seed}\n{record:?}");
        assert_eq!(both.withdraw(&held), Ok(Ok(0)), "seed {seed}\n{record:?}");
        assert_eq!((both.model.price, both.model.gain), ([0; 64], [0; 128]), "seed {seed}");
        free += list.len();
        placed += held.len();
    }
    println!("{free} free items, {placed} held");
    assert!(free > 1_000 && placed > 1_000);
}

// ---- faults

/// Each fault in a list of each length, at each place; what comes after it is anything.
#[test]
fn every_fault_at_every_place() {
    let mut seen = Tally::default();
    let all: Vec<u64> = (1..=64).collect();
    for length in 0..=64 {
        let rng = &mut Rng::new(530_000 + length as u64);
        let gone = rising(rng, &all, (64 - length).min(5));
        let mut both = full_width(rng, &gone, &mut seen).expect("both agree").both;
        let (board, record) = (both.ours, both.model.clone());
        let good = rising(rng, &items_of(&record, false), length);
        for (place, fault) in
            (1..=length + 1).flat_map(|place| Fault::ALL.map(|fault| (place, fault)))
        {
            let Some(mut list) = fault.put(rng, &record, &good, place) else { continue };
            (0..rng.below(6)).for_each(|_| list.push(rng.pick(&[0, 1, 64, 65])));
            let expected = refuse(fault.number(), place as u64);
            assert_eq!(both.withdraw(&list), Ok(expected), "{fault:?} at {place} of {list:?}");
            both.seen.count("fault", fault as u64);
            both.seen.count("place", place as u64);
        }
        assert!(both.ours == board && both.model == record, "a refusal keeps the board");
    }
    println!("{seen:?}");
    assert!(Fault::ALL.iter().all(|&fault| seen.of("fault", fault as u64) > 1_500));
    assert!((1..=65).all(|place| seen.of("place", place) > 3));
    seen.assert_seen("withdraw", &[0, UNKNOWN, GONE, ORDER], 60);
}

/// Every refusal that a list meets, place by place, in the order 4, 5, 7.
fn met(r: &Record, items: &[u64]) -> Vec<Refusal> {
    let mut all = Vec::new();
    for (index, &item) in items.iter().enumerate() {
        let known = 1 <= item && item <= r.items;
        let gone = known && r.is_gone(item as usize - 1);
        let order = index > 0 && item <= items[index - 1];
        let numbers = [(!known, UNKNOWN), (gone, GONE), (order, ORDER)];
        let place = index as u64 + 1;
        let at_place = numbers.iter().filter(|(met, _)| *met);
        all.extend(at_place.map(|&(_, number)| Refusal { number, place }));
    }
    all
}

/// Lists with up to two faults on boards of all sorts: the first decides, and a list
/// without one is served.
#[test]
fn the_first_fault_decides() {
    let mut seen = Tally::default();
    for seed in 540_000..541_500 {
        let rng = &mut Rng::new(seed);
        let record = any_board(rng);
        let most = rng.pick(&[1, 2, 3, 5, 64]);
        for _ in 0..6 {
            let list = any(rng, &record, most);
            let mut both = Both::on(record.clone(), &mut seen);
            let answer = both.withdraw(&list);
            let answer = answer.unwrap_or_else(|found| panic!("seed {seed}: {found}\n{list:?}"));
            let met = met(&record, &list);
            assert_eq!(answer.err(), met.first().copied(), "seed {seed}, {list:?}\n{record:?}");
            let kept = answer.is_ok() || both.model == record;
            assert!(kept && both.is_sound() == Ok(true), "seed {seed}, {list:?}\n{record:?}");
            let twice = met.windows(2).any(|two| two[0].place == two[1].place);
            seen.count("two at a place", twice as u64);
            seen.count("faults", met.len().min(3) as u64);
        }
    }
    println!("{seen:?}");
    seen.assert_seen("withdraw", &[0, UNKNOWN, GONE, ORDER], 500);
    seen.assert_seen("faults", &[0, 1, 2, 3], 200);
    seen.assert_seen("two at a place", &[0, 1], 200);
}

/// Items 1 to 4, of which 2 is gone. Of a place 4 and 5 come before 7, and "a live kettle
/// named twice is 7", but a gone one is 5.
#[test]
fn refusals_in_order() {
    let mut seen = Tally::default();
    let mut both = Both::open(4, Slack { p: 1, q: 10 }, &mut seen).unwrap().expect("it opens");
    let edges = [1, 2, 3].map(|item| Edge { item, weight: 100 });
    (0..2).for_each(|_| assert!(both.arrive(&edges).unwrap().is_ok()));
    assert!(both.withdraw(&[2]).unwrap().is_ok());
    let cases: [(&[u64], u64, u64); 16] = [
        (&[0], 4, 1),
        (&[5], 4, 1),
        (&[u64::MAX], 4, 1),
        (&[2], 5, 1),
        (&[1, 1], 7, 2),
        (&[3, 1], 7, 2),
        (&[2, 2], 5, 1),
        (&[1, 2, 2], 5, 2),
        (&[3, 2], 5, 2),
        (&[3, 0], 4, 2),
        (&[3, 1, 0], 7, 2),
        (&[1, 3, 4, 4], 7, 4),
        (&[1, 3, 4, 3], 7, 4),
        (&[1, 3, 4, 5], 4, 4),
        (&[1, 3, 1, 2], 7, 3),
        (&[1, 3, 2, 1], 5, 3),
    ];
    for (items, number, place) in cases {
        assert_eq!(both.withdraw(items), Ok(refuse(number, place)), "{items:?}");
    }
    assert_eq!(both.withdraw(&[1, 3, 4]), Ok(Ok(0)));
    assert_eq!(both.withdraw(&[1, 1]), Ok(refuse(GONE, 1)));
}

/// "Answers: 13, then": whatever the list, the empty one too.
#[test]
fn boards_that_are_not_sound() {
    let long: Vec<u64> = (1..=70).collect();
    let lists: [&[u64]; 7] = [&[], &[1], &[0], &[2, 1], &[1, 1], &long[..64], &long];
    for (clause, spoil) in board::SPOILS {
        let mut seen = Tally::default();
        for seed in 550_000..550_060 {
            let rng = &mut Rng::new(seed);
            let mut record = board::sound(rng);
            if !spoil(rng, &mut record) {
                continue;
            }
            let mut both = Both::on(record.clone(), &mut seen);
            let before = both.ours;
            for items in lists {
                let answer = both.withdraw(items);
                assert_eq!(answer, Ok(refuse(SPOILT, 0)), "{clause}, seed {seed}, {items:?}");
            }
            assert!(both.ours == before && both.model == record, "{clause}, seed {seed}");
        }
        seen.assert_seen("withdraw", &[SPOILT], 7 * 10);
    }
}

// ---- lists of one

/// Document 01's withdrawal of one item: bids and board, or "Withdraw 13, 4, 5".
fn one_by_document_01(record: &Record, item: u64) -> Result<(u64, Record), u64> {
    let auction = from_record(record).expect("a sound board");
    if item < 1 || item > record.items {
        return Err(UNKNOWN);
    }
    if record.is_gone(item as usize - 1) {
        return Err(GONE);
    }
    let mut walk = Walk::on(auction, by_pairs);
    walk.withdraw_one(item);
    Ok((walk.ties.bids, to_record(&walk.auction)))
}

/// "A list of one acts as before", but for a refusal's place, which is 1.
#[test]
fn a_list_of_one_acts_as_before() {
    let (mut seen, mut bids) = (Tally::default(), 0);
    for seed in 560_000..560_300 {
        let record = any_board(&mut Rng::new(seed));
        for item in (0..=record.items + 1).chain([u64::MAX]) {
            let mut both = Both::on(record.clone(), &mut seen);
            let answer = both.withdraw(&[item]).unwrap_or_else(|found| panic!("{seed}: {found}"));
            let (expected, after) = match one_by_document_01(&record, item) {
                Ok((bids, after)) => (Ok(bids), after),
                Err(number) => (refuse(number, 1), record.clone()),
            };
            assert_eq!(answer, expected, "seed {seed}, item {item}\n{record:?}");
            assert!(both.model == after, "seed {seed}, item {item}\n{record:?}");
            bids += answer.unwrap_or(0);
        }
    }
    println!("{bids} bids, {seen:?}");
    assert!(bids > 500);
    seen.assert_seen("withdraw", &[0, UNKNOWN, GONE], 500);
}

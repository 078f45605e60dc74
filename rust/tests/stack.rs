//! The deepest alternating paths of the exact level, many items withdrawn at once from a
//! full board, its plans compared, and the largest boards counted: in a thread with a stack of
//! 2 MB by call, and in the program, which compares and counts none, under a limit of 1 MB.

use noughtelm_tests::both::{board, record, shown, wide, Both, Tally};
use noughtelm_tests::ffi::{self, MAX_OUTPUT};
use noughtelm_tests::gen::counted::every_way;
use noughtelm_tests::gen::history::{level, level_of, slope, staircase, staircase_down, History};
use noughtelm_tests::gen::text::{dense, dense_places, write};
use noughtelm_tests::model::sound::to_record;
use noughtelm_tests::model::text::sheet;
use noughtelm_tests::program;
use std::cmp::Ordering;
use std::ops::RangeInclusive;
use std::thread;

/// Paths over every item, for 2 to 64 items, and sheets on which every item, or every place
/// of some, is seen.
fn deep_histories() -> Vec<History> {
    let makers: [fn(u64) -> History; 3] = [staircase, staircase_down, slope];
    let mut all: Vec<History> = makers.iter().flat_map(|make| (2..=64).map(make)).collect();
    all.extend([64, 65, 66, 128].map(|bidders| level(64, bidders)));
    for (count, items) in [(2, 32), (4, 16), (8, 8)] {
        all.extend([64, 65, 128].map(|bidders| level_of(vec![count; items], bidders)));
    }
    all
}

/// How many there are.
const DEEP: usize = 3 * 63 + 4 + 9;

/// 64 bidders at 64 items in a row. Without the last, each may hold the lower of
/// its items; with it, every one of them holds the higher.
#[test]
fn every_bidder_moves_on() {
    for (history, moved) in [
        (staircase(64), (2..=64).chain([1]).collect::<Vec<u64>>()),
        (staircase_down(64), (2..=64).rev().chain([1]).collect()),
    ] {
        let mut lists = wide().map(|room| vec![0; room]);
        let [m, y, g] = &mut lists;
        let told = ffi::exact(board(&to_record(&history.auction())), m, y, g);
        assert_eq!((told.number, told.value), (0, 6_400));
        assert_eq!(m[..64], moved);
    }
}

fn in_a_small_thread<T: Send + 'static>(work: impl FnOnce() -> T + Send + 'static) -> T {
    let thread = thread::Builder::new().stack_size(2 << 20).spawn(work).expect("a thread");
    thread.join().expect("the thread ends well")
}

#[test]
fn calls_in_a_thread_of_2_mb() {
    let tried = in_a_small_thread(|| {
        let mut seen = Tally::default();
        for history in deep_histories() {
            let mut both = Both::on(to_record(&history.auction()), &mut seen);
            let found = both.exact(wide());
            found.unwrap_or_else(|found| panic!("{found}\n{history:?}")).expect("room");
        }
        seen.of("exact", 0)
    });
    assert_eq!(tried, DEEP as u64);
}

#[test]
fn texts_in_a_thread_of_2_mb() {
    let tried = in_a_small_thread(|| {
        let mut tried = 0;
        for text in deep_histories().iter().map(write) {
            let mut out = Box::new([0; MAX_OUTPUT]);
            let told = ffi::sheet_text(&text, &mut out[..]);
            assert_eq!(told.number, 0);
            assert_eq!(shown(&out[..told.value as usize]), shown(&sheet(&text)));
            tried += 1;
        }
        tried
    });
    assert_eq!(tried, DEEP);
}

#[test]
fn program_under_a_limit_of_1_mb() {
    let mut tried = 0;
    for text in deep_histories().iter().map(write) {
        let output = program::run(program::command("ulimit -s 1024 &&", ""), &text);
        assert_eq!(program::printed(output), shown(&sheet(&text)), "{:?}", shown(&text));
        tried += 1;
    }
    assert_eq!(tried, DEEP);
}

/// The boards of the dense texts: each one's own plan beside itself and beside the exact one.
#[test]
fn plans_in_a_thread_of_2_mb() {
    compare_plans(dense());
    compare_plans(dense_places());
}

fn compare_plans(text: Vec<u8>) {
    let difference = in_a_small_thread(move || {
        let mut seen = Tally::default();
        let mut both = Both::on(record(&ffi::replay(&text).board), &mut seen);
        let [own, ..] = both.read_out(wide()).expect("both agree").expect("room");
        let exact = both.exact(wide()).expect("both agree").expect("room").matching;
        let own = &own[..exact.len()];
        let same = both.compare(own, own).expect("both agree").expect("a plan");
        assert_eq!((same.difference, same.order), (0, Ordering::Equal));
        both.compare(own, &exact).expect("both agree").expect("two plans").difference
    });
    assert!(difference < 0, "{difference}");
}

/// The slow count of 6 bidders with every edge, on 6 places laid in every way.
#[test]
fn counts_in_a_thread_of_2_mb() {
    let tried = in_a_small_thread(|| {
        let mut seen = Tally::default();
        for counts in every_way(6) {
            let mut both = Both::on(to_record(&level_of(counts, 6).auction()), &mut seen);
            assert_eq!(both.count(), Ok(Ok(6 * 777)));
        }
        seen.of("count", 0)
    });
    assert_eq!(tried, 32);
}

/// Items that leave the board of the dense text at once; each has a holder.
const LONG_LISTS: [RangeInclusive<u64>; 4] = [1..=32, 33..=64, 1..=63, 1..=64];

#[test]
fn long_lists_in_a_thread_of_2_mb() {
    let displaced = in_a_small_thread(|| {
        let mut seen = Tally::default();
        let full = record(&ffi::replay(&dense()).board);
        for items in LONG_LISTS {
            let mut both = Both::on(full.clone(), &mut seen);
            let answer = both.withdraw(&items.collect::<Vec<u64>>());
            answer.unwrap_or_else(|found| panic!("{found}")).expect("live items");
        }
        full.holder.iter().filter(|&&holder| holder != 0).count()
    });
    assert_eq!(displaced, 64);
}

/// Items of four places each.
#[test]
fn lists_of_places_in_a_thread_of_2_mb() {
    let displaced = in_a_small_thread(|| {
        let mut seen = Tally::default();
        let full = record(&ffi::replay(&dense_places()).board);
        for items in [1..=8, 9..=16, 1..=15, 1..=16] {
            let mut both = Both::on(full.clone(), &mut seen);
            let answer = both.withdraw(&items.collect::<Vec<u64>>());
            answer.unwrap_or_else(|found| panic!("{found}")).expect("live items");
        }
        full.holder.iter().filter(|&&holder| holder != 0).count()
    });
    assert_eq!(displaced, 64);
}

#[test]
fn long_lists_under_a_limit_of_1_mb() {
    for items in LONG_LISTS {
        let mut text = dense();
        let fields: String = items.map(|item| format!("\t{item}")).collect();
        text.extend_from_slice(format!("W{fields}\n").as_bytes());
        let output = program::run(program::command("ulimit -s 1024 &&", ""), &text);
        let printed = program::printed(output);
        assert!(printed.starts_with("P\t1\t"), "{printed}");
        assert_eq!(printed, shown(&sheet(&text)));
    }
}

//! History texts on both sides: the stored ones, those of histories, random and
//! damaged ones, and texts at the limit of length. Replay's board and bids, also
//! those of a refused text, and what is printed, in lists with room and in ones
//! that are too short.

use noughtelm_tests::both::{
    equal, equal_lines, equal_plans, equal_sheets, equal_texts, page, shown, Same, Tally,
};
use noughtelm_tests::ffi::MAX_OUTPUT;
use noughtelm_tests::gen::history::{history, staircase, Kind};
use noughtelm_tests::gen::text::{dense, dense_places, mutate, random, served_of_length, write};
use noughtelm_tests::model::refusal::{Refusal, PLACES};
use noughtelm_tests::rng::Rng;
use noughtelm_tests::{fast, ffi, model};
use std::fs;
use std::path::Path;

/// Everything about one text, with a list that fits, one that does not, and any;
/// what the program prints also with a list for every output, and with none.
fn compare(text: &[u8], rng: &mut Rng, seen: &mut Tally) -> Same<()> {
    equal_texts(text, seen)?;
    let printed = model::text::sheet(text);
    assert_eq!(shown(&fast::text::sheet(text)), shown(&printed));
    let any = rng.index(2 * printed.len());
    for room in [printed.len(), printed.len() - 1, any] {
        equal_plans(text, room, seen)?.ok();
        equal_sheets(text, &printed, room, seen)?;
    }
    for room in [MAX_OUTPUT, 0] {
        equal_sheets(text, &printed, room, seen)?;
    }
    Ok(())
}

fn try_text(seed: u64, text: &[u8], seen: &mut Tally) {
    if let Err(found) = compare(text, &mut Rng::new(!seed), seen) {
        panic!("seed {seed}: {found}\n{:?}", shown(text));
    }
}

#[test]
fn stored_texts() {
    let folder = Path::new(env!("CARGO_MANIFEST_DIR")).join("../tests/texts");
    let mut seen = Tally::default();
    let files = fs::read_dir(folder).expect("the folder of texts").map(|f| f.unwrap().path());
    for input in files.filter(|f| f.extension().is_some_and(|e| e == "in")) {
        let text = fs::read(&input).unwrap();
        let stored = fs::read(input.with_extension("out")).unwrap();
        let mut out = page(stored.len());
        let told = ffi::sheet_text(&text, &mut out);
        assert_eq!((told.number, told.value), (0, stored.len() as u64), "{input:?}");
        assert_eq!(shown(&out), shown(&stored), "{input:?}");
        let mut plan = page(stored.len());
        let told = ffi::plan_text(&text, &mut plan);
        if told.number == 0 {
            assert_eq!(shown(&plan), shown(&stored), "{input:?}");
        } else {
            let line = format!("R\t{}\t{}\n", told.number, told.place);
            assert_eq!(line, shown(&stored), "{input:?}");
            assert_eq!(plan, page(stored.len()));
        }
        try_text(0, &text, &mut seen);
    }
    println!("{seen:?}");
    assert!(seen.of("replay", 0) > 30 && seen.of("replay", 14) > 30);
}

#[test]
fn texts_of_histories() {
    let mut seen = Tally::default();
    for kind in Kind::ALL {
        let count = if kind.is_large() { 40 } else { 300 };
        for seed in (0..count).map(|n| 110_000 + 1_000 * kind as u64 + n) {
            try_text(seed, &write(&history(&mut Rng::new(seed), kind)), &mut seen);
        }
    }
    (2..=64).for_each(|items| try_text(items, &write(&staircase(items)), &mut seen));
    println!("{seen:?}");
    assert!(seen.of("replay", 0) > 1_500 && seen.of("plan", 8) > 1_500);
    seen.assert_seen("sheet", &[0, 8], 4_000);
}

/// 20,000 texts of histories, damaged.
#[test]
fn damaged_texts() {
    let mut seen = Tally::default();
    for seed in 120_000..140_000 {
        let rng = &mut Rng::new(seed);
        let kind = Kind::ALL[seed as usize % Kind::ALL.len()];
        let kind = if kind.is_large() { Kind::Small } else { kind };
        let text = write(&history(rng, kind));
        try_text(seed, &mutate(rng, &text), &mut seen);
    }
    println!("{seen:?}");
    seen.assert_seen("replay", &[0, 1, 2, 4, 5, 6, 7, 14, 15, 16], 20);
    seen.assert_seen("plan", &[0, 1, 2, 4, 5, 6, 7, 8, 14, 15, 16], 50);
    seen.assert_seen("sheet", &[0, 8], 40_000);
}

/// The first lines of a text.
fn first_lines(text: &[u8], count: u64) -> &[u8] {
    let lines = text.split_inclusive(|&byte| byte == b'\n').take(count as usize);
    &text[..lines.map(<[u8]>::len).sum()]
}

/// The lines before the refused one. Where `P` lines come to over 64 places this is told at line
/// 1: then they are the longest beginning that is served.
fn lines_before(text: &[u8], refusal: Refusal) -> &[u8] {
    let served = |&count: &u64| model::text::replay(first_lines(text, count)).is_ok();
    let count = match refusal {
        Refusal { number: PLACES, place: 1 } => (1..).take_while(served).last().unwrap_or(0),
        Refusal { place, .. } => place.saturating_sub(1),
    };
    first_lines(text, count)
}

/// A refused text has the board and the bids of the lines before the refused one, which are
/// served by themselves. There are none where the first line is refused, or the length.
fn keep_lines_before(text: &[u8], seen: &mut Tally) -> Same<()> {
    let Some(refusal) = equal_texts(text, seen)? else { return Ok(()) };
    let before = lines_before(text, refusal);
    let alone = equal_texts(before, &mut Tally::default())?;
    equal("the lines before, refused", alone.is_some(), before.is_empty())?;
    let (ours, expected) = (ffi::replay(text), ffi::replay(before));
    equal("bids, with and without the refused line", ours.value, expected.value)?;
    equal("the boards, with and without it, equal", ours.board == expected.board, true)?;
    seen.count("bids before", u64::from(expected.value > 0));
    seen.count("bidders before", expected.board.arrived);
    Ok(())
}

#[test]
fn a_refused_text_keeps_the_lines_before() {
    let mut seen = Tally::default();
    for seed in 180_000..192_000 {
        let rng = &mut Rng::new(seed);
        let kind = rng.pick(&[Kind::Small, Kind::Ties, Kind::Withdrawals, Kind::Refused]);
        let text = match rng.chance(1, 4) {
            true => random(rng),
            false => write(&history(rng, kind)),
        };
        let text = mutate(rng, &text);
        if let Err(found) = keep_lines_before(&text, &mut seen) {
            panic!("seed {seed}: {found}\n{:?}", shown(&text));
        }
    }
    println!("{seen:?}");
    seen.assert_seen("replay", &[0, 1, 2, 4, 5, 6, 7, 14, 15, 16], 10);
    seen.assert_seen("bids before", &[0, 1], 1_000);
    assert!((1..=5).all(|bidders| seen.of("bidders before", bidders) > 50));
}

#[test]
fn random_texts() {
    let mut seen = Tally::default();
    for seed in 150_000..165_000 {
        try_text(seed, &random(&mut Rng::new(seed)), &mut seen);
    }
    println!("{seen:?}");
    assert!([0, 4, 5, 6, 7, 14, 16].iter().all(|&number| seen.of("replay", number) > 50));
    assert!(seen.of("plan", 0) > 500 && seen.of("plan", 8) > 500);
}

/// Every beginning of a text that ends with a line, and some that do not.
#[test]
fn beginnings_of_texts() {
    let mut seen = Tally::default();
    for seed in 170_000..170_100 {
        let rng = &mut Rng::new(seed);
        let kind = rng.pick(&[Kind::Small, Kind::Ties]);
        let text = write(&history(rng, kind));
        for end in 0..text.len() {
            if text[..end].last() == Some(&b'\n') || rng.chance(1, 8) {
                try_text(seed, &text[..end], &mut seen);
            }
        }
    }
    seen.assert_seen("replay", &[0, 14], 300);
}

/// How a long text goes on after its first line, and with what it is filled.
const FILLERS: [(&str, &str); 12] = [
    ("", "A\n"),
    ("A", "\t1"),
    ("A", "\t1\t1"),
    ("A", "\t0\t1"),
    ("A", "\t9999999"),
    ("A\t1\t1\n", "W\t1\n"),
    ("W", "\t1"),
    ("W\t1\t2", "\t65"),
    ("W", "\t9999999"),
    ("A\t1\t1\n", "W\t1\t2\n"),
    ("A", "\n"),
    ("A\n", "\0"),
];

/// 65,535 to 65,537 bytes: served ones, and ones that are refused on the way.
#[test]
fn texts_at_the_limit() {
    let mut seen = Tally::default();
    try_text(0, &dense(), &mut seen);
    try_text(0, &dense_places(), &mut seen);
    for length in 65_535..=65_537 {
        try_text(0, &served_of_length(length), &mut seen);
        for (start, filler) in FILLERS {
            let mut text = format!("K\t64\t1\t10\n{start}").into_bytes();
            while text.len() < length {
                text.extend_from_slice(filler.as_bytes());
            }
            text.truncate(length - 1);
            text.push(b'\n');
            try_text(0, &text, &mut seen);
        }
    }
    println!("{seen:?}");
    assert_eq!((seen.of("replay", 0), seen.of("replay", 15)), (4, 13));
    seen.assert_seen("replay", &[0, 3, 4, 5, 7, 14, 15], 1);
    seen.assert_seen("sheet", &[0, 8], 50);
}

#[test]
fn lines_of_refusals() {
    let mut seen = Tally::default();
    let numbers = [0, 1, 9, 10, 14, 15, 16, 99, 1 << 32, u64::MAX - 1, u64::MAX];
    for number in numbers {
        for line in numbers {
            for room in (0..50).chain([200, MAX_OUTPUT, MAX_OUTPUT + 1]) {
                let found = equal_lines(number, line, room, &mut seen);
                found.unwrap_or_else(|found| panic!("{number}, {line} in {room}: {found}"));
            }
        }
    }
    seen.assert_seen("line", &[0, 8], 1_000);
}

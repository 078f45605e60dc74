//! `W` lines with several items (document 02, R-3) on both sides: every number of them, up
//! to lines far longer than a board has items, the form of such a line, texts with many
//! such lines, and texts beside the calls that they tell.

use noughtelm_tests::both::{equal_plans, equal_sheets, equal_texts, shown, Same, Tally};
use noughtelm_tests::fast;
use noughtelm_tests::ffi::{self, MAX_OUTPUT};
use noughtelm_tests::gen::history::{history, Call, History, Kind};
use noughtelm_tests::gen::text::write;
use noughtelm_tests::model::auction::{Edge, Slack};
use noughtelm_tests::model::refusal::*;
use noughtelm_tests::model::text::sheet;
use noughtelm_tests::rng::Rng;

/// A text on both sides, and what the plain program prints of it; the refusal.
fn compare(text: &[u8], seen: &mut Tally) -> Same<Option<Refusal>> {
    let printed = sheet(text);
    assert_eq!(shown(&fast::text::sheet(text)), shown(&printed), "{:?}", shown(text));
    equal_plans(text, printed.len(), seen)?.ok();
    equal_sheets(text, &printed, MAX_OUTPUT, seen)?;
    equal_texts(text, seen)
}

/// Lines 1 to 4: 64 items, and three bidders that hold items 1, 3 and 64.
const START: &str = "K\t64\t1\t10\nA\t1\t90\t2\t80\nA\t1\t80\t3\t90\t4\t70\nA\t4\t90\t64\t95\n";

/// The number that refuses a text at its line 5, which is this, or 0.
fn number_of(line: &str, seen: &mut Tally) -> u64 {
    let text = format!("{START}{line}A\n");
    let refusal = compare(text.as_bytes(), seen);
    let refusal = refusal.unwrap_or_else(|found| panic!("{found}\n{line:?}"));
    assert!(refusal.is_none_or(|refusal| refusal.place == 5), "{refusal:?}\n{line:?}");
    refusal.map_or(0, |refusal| refusal.number)
}

/// The `W` line of these numbers.
fn line_of(numbers: impl Iterator<Item = u64>) -> String {
    let fields: String = numbers.map(|number| format!("\t{number}")).collect();
    format!("W{fields}\n")
}

// ---- one line

/// Lines of 1 to 200 numbers, more than there are items: from 65 on they are refused for
/// their 65th.
#[test]
fn lines_of_every_length() {
    let mut seen = Tally::default();
    for count in 1..=200 {
        let of_65 = |number: u64| if count > 64 { number } else { 0 };
        assert_eq!(number_of(&line_of(1..=count), &mut seen), of_65(UNKNOWN), "{count}");
        let level = line_of((1..=count).map(|number| number.min(64)));
        assert_eq!(number_of(&level, &mut seen), of_65(ORDER), "{count}");
        let again = line_of((1..=64).take(count as usize).chain([1; 140]));
        assert_eq!(number_of(&again, &mut seen), ORDER, "{count}");
        let falling = line_of((1..=count).rev());
        let first = if count == 1 { 0 } else { ORDER };
        let expected = if count > 64 { UNKNOWN } else { first };
        assert_eq!(number_of(&falling, &mut seen), expected, "{count}");
    }
    println!("{seen:?}");
    seen.assert_seen("replay", &[0, UNKNOWN, ORDER], 100);
}

/// What spoils the form of a line at its end.
const BAD_ENDS: [&str; 10] =
    ["\t", "\t\t1", "\t00", "\t07", "\t12345678", "\t-1", " 1", "\t1x", "\r", "\t1\0"];

/// "A line's form (14) is tested before its meaning", to its last byte: lines of 1 to 200
/// numbers, served or not, with a fault of form at the end or anywhere.
#[test]
fn form_comes_first() {
    let mut seen = Tally::default();
    for count in 1..=200 {
        let rng = &mut Rng::new(count);
        let good = line_of((1..=count).map(|number| number.min(64)));
        let good = good.strip_suffix('\n').expect("a line");
        for end in BAD_ENDS {
            assert_eq!(number_of(&format!("{good}{end}\n"), &mut seen), LINE, "{count}, {end:?}");
        }
        let at = rng.index(good.len() - 1) + 1;
        let bad = rng.pick(&["x", "\t\t", ",", "W"]);
        let other = format!("{}{bad}{}\n", &good[..at], &good[at..]);
        assert_eq!(number_of(&other, &mut seen), LINE, "{other:?}");
    }
    seen.assert_seen("replay", &[LINE], 200 * 11);
}

/// An empty list "is badly formed as a line"; further lines of one or two items.
#[test]
fn forms_of_short_lines() {
    let mut seen = Tally::default();
    for (line, number) in [
        ("W\n", LINE),
        ("W\t\n", LINE),
        ("W\t\t1\n", LINE),
        ("W\t1\t\t2\n", LINE),
        ("W\t1,2\n", LINE),
        ("W1\n", LINE),
        ("w\t1\t2\n", LINE),
        ("WW\t1\n", LINE),
        ("\tW\t1\n", LINE),
        ("W\t01\n", LINE),
        ("W\t1\n", 0),
        ("W\t1\t2\n", 0),
        ("W\t1\t64\n", 0),
        ("W\t0\n", UNKNOWN),
        ("W\t1\t0\n", UNKNOWN),
        ("W\t1\t9999999\n", UNKNOWN),
        ("W\t1\t1\n", ORDER),
        ("W\t2\t1\n", ORDER),
        ("W\t1\t65\t1\n", UNKNOWN),
        ("W\t2\t1\t65\n", ORDER),
    ] {
        assert_eq!(number_of(line, &mut seen), number, "{line:?}");
    }
    for open in ["W", "W\t", "W\t1", "W\t1\t2"] {
        let refusal = compare(format!("{START}{open}").as_bytes(), &mut seen);
        assert_eq!(refusal, Ok(refuse::<()>(LINE, 5).err()), "{open:?}");
    }
    assert_eq!(compare(b"W\t1\n", &mut seen), Ok(refuse::<()>(LINE, 1).err()));
}

/// A refused line withdraws nothing: board and bids are those of the lines before.
#[test]
fn a_refused_line_withdraws_nothing() {
    let before = ffi::replay(START.as_bytes());
    let lines = [("W\t1\t3\t65\n", UNKNOWN), ("W\t1\t64\t3\n", ORDER), ("W\t3\t3\n", ORDER)];
    for (line, number) in lines {
        let after = ffi::replay(format!("{START}{line}").as_bytes());
        assert_eq!((after.number, after.place, after.value), (number, 5, before.value), "{line:?}");
        assert!(after.board == before.board, "{line:?}");
    }
    let gone = ffi::replay(format!("{START}W\t3\nW\t1\t3\t64\n").as_bytes());
    let alone = ffi::replay(format!("{START}W\t3\n").as_bytes());
    assert_eq!((gone.number, gone.place, gone.value), (GONE, 6, alone.value));
    assert!(gone.board == alone.board);
}

// ---- whole texts

/// Every answer of a list, worked out by hand: what is printed. Of three rivals for item 4 the
/// first finds 900, and raises it to 990, above 10 times what the others would save.
#[test]
fn texts_by_hand() {
    let mut seen = Tally::default();
    let small = "K\t3\t1\t10\nA\t1\t10\nA\t1\t11\nW\t2\n";
    let all_65 = line_of(1..=65);
    let rivals = "K\t4\t1\t10\nA\t1\t100\t4\t90\nA\t2\t100\t4\t95\nA\t3\t100\t4\t92\n";
    let rivals_out = "P\t1\t4\t0\nP\t2\t0\t0\nP\t3\t0\t0\nY\t4\t990\nT\t90\t990\t4\nE\t95\n";
    for (text, printed) in [
        (format!("{rivals}W\t1\t2\t3\n"), rivals_out),
        (format!("{small}W\t1\t1\nA\t1\t7\n"), "R\t7\t5\n"),
        (format!("{small}W\t1\t2\nA\t1\t7\n"), "R\t5\t5\n"),
        (format!("{small}W\t99\t98\nA\t1\t7\n"), "R\t4\t5\n"),
        (format!("K\t64\t1\t10\n{all_65}"), "R\t4\t2\n"),
        ("K\t3\t1\t10\nW\t1\nW\t2\t1\n".into(), "R\t5\t3\n"),
        ("K\t3\t1\t10\nW\t2\nW\t2\t2\n".into(), "R\t5\t3\n"),
        ("K\t3\t1\t10\nA\t1\t5\nW\t1\t9\n".into(), "R\t4\t3\n"),
    ] {
        assert_eq!(shown(&sheet(text.as_bytes())), printed, "{text:?}");
        compare(text.as_bytes(), &mut seen).unwrap_or_else(|found| panic!("{found}\n{text:?}"));
    }
}

/// A text is the calls that it tells: the board, the bids in all.
#[test]
fn texts_are_their_calls() {
    let mut seen = Tally::default();
    for seed in 580_000..580_600 {
        let history = history(&mut Rng::new(seed), Kind::Lists);
        let text = write(&history);
        let told = compare(&text, &mut seen);
        assert_eq!(told, Ok(None), "seed {seed}\n{:?}", shown(&text));
        let (board, bids) = by_calls(&history);
        let replayed = ffi::replay(&text);
        assert_eq!(replayed.value, bids, "seed {seed}\n{:?}", shown(&text));
        assert!(replayed.board == board, "seed {seed}\n{:?}", shown(&text));
    }
}

fn by_calls(history: &History) -> (ffi::Board, u64) {
    let Slack { p, q } = history.slack;
    let lent = |edge: &Edge| ffi::Edge { item: edge.item, weight: edge.weight };
    let start = (ffi::open_places(history.items(), p, q, &history.counts).board, 0);
    history.calls.iter().fold(start, |(board, bids), call| {
        let after = match call {
            Call::Arrive(edges) => ffi::arrive(board, &edges.iter().map(lent).collect::<Vec<_>>()),
            Call::Withdraw(items) => ffi::withdraw(board, items),
        };
        (after.board, bids + after.value)
    })
}

/// Lines of a small board: arrivals, and withdrawals of any numbers from 0 to 9, of which
/// there are 8, rising more often than not.
fn small_text(rng: &mut Rng) -> Vec<u8> {
    let mut text = String::from("K\t8\t1\t10\n");
    for _ in 0..rng.range(1, 8) {
        let mut numbers: Vec<u64> = (0..rng.below(6)).map(|_| rng.range(1, 8)).collect();
        if rng.chance(9, 10) {
            numbers.sort();
            numbers.dedup();
        }
        if rng.chance(1, 12) {
            numbers.push(rng.pick(&[0, 9]));
        }
        if rng.chance(1, 3) {
            text.push_str(&line_of(numbers.into_iter()));
        } else {
            let pairs = numbers.iter().map(|item| format!("\t{item}\t{}", rng.range(1, 50)));
            text.push_str(&format!("A{}\n", pairs.collect::<String>()));
        }
    }
    text.into_bytes()
}

#[test]
fn small_texts() {
    let mut seen = Tally::default();
    for seed in 590_000..594_000 {
        let text = small_text(&mut Rng::new(seed));
        if let Err(found) = compare(&text, &mut seen) {
            panic!("seed {seed}: {found}\n{:?}", shown(&text));
        }
    }
    println!("{seen:?}");
    seen.assert_seen("replay", &[0, UNKNOWN, GONE, ORDER, LINE], 150);
}

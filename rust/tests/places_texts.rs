//! `P` lines (document 02, R-6) on both sides: every refusal with its line, the form of such a
//! line, totals of 63 to 65, texts beside boards that are opened by the call, and texts in which
//! the lines are mixed.

use noughtelm_tests::both::pages::equal_page_texts;
use noughtelm_tests::both::{equal_plans, equal_sheets, equal_texts, shown, Same, Tally};
use noughtelm_tests::fast;
use noughtelm_tests::ffi::{self, MAX_OUTPUT, MAX_PAGE};
use noughtelm_tests::gen::history::{history, Call, History, Kind};
use noughtelm_tests::gen::places::{counts, full};
use noughtelm_tests::gen::text::{write, write_naming};
use noughtelm_tests::model::auction::{Edge, Slack};
use noughtelm_tests::model::refusal::*;
use noughtelm_tests::model::text::{page_of, sheet};
use noughtelm_tests::rng::Rng;
use noughtelm_tests::slides::beside::call_ours;

/// A text on both sides, and what the plain program prints of it; the refusal.
fn compare(text: &[u8], seen: &mut Tally) -> Same<Option<Refusal>> {
    let printed = sheet(text);
    assert_eq!(shown(&fast::text::sheet(text)), shown(&printed), "{:?}", shown(text));
    equal_plans(text, printed.len(), seen)?.ok();
    equal_sheets(text, &printed, MAX_OUTPUT, seen)?;
    equal_page_texts(text, &page_of(text), MAX_PAGE, seen)?;
    equal_texts(text, seen)
}

/// The number and the line that refuse a text, 0 and 0 where it is served.
fn answer(text: &str, seen: &mut Tally) -> (u64, u64) {
    let refusal = compare(text.as_bytes(), seen);
    let refusal = refusal.unwrap_or_else(|found| panic!("{found}\n{text:?}"));
    refusal.map_or((0, 0), |refusal| (refusal.number, refusal.place))
}

// ---- single lines

/// The second line of a text of four items, after it one more `P` line and an arrival.
#[test]
fn one_line() {
    let mut seen = Tally::default();
    for (line, number) in [
        ("P\t1\t1", 0),
        ("P\t1\t8", 0),
        ("P\t3\t2", 0),
        ("P\t1\t0", PLACES),
        ("P\t1\t9", PLACES),
        ("P\t3\t10", PLACES),
        ("P\t3\t64", PLACES),
        ("P\t1\t256", PLACES),
        ("P\t1\t257", PLACES),
        ("P\t1\t9999999", PLACES),
        ("P\t0\t1", UNKNOWN),
        ("P\t5\t1", UNKNOWN),
        ("P\t65\t1", UNKNOWN),
        ("P\t257\t1", UNKNOWN),
        ("P\t9999999\t1", UNKNOWN),
        ("P\t0\t0", UNKNOWN),
        ("P\t5\t9", UNKNOWN),
        ("P", LINE),
        ("P\t", LINE),
        ("P\t\t", LINE),
        ("P\t1", LINE),
        ("P\t1\t", LINE),
        ("P\t1\t2\t", LINE),
        ("P\t1\t2\t3", LINE),
        ("P\t1\t2\t3\t4", LINE),
        ("P\t1\t02", LINE),
        ("P\t01\t2", LINE),
        ("P\t00\t2", LINE),
        ("P\t1\t00", LINE),
        ("P\t1\t12345678", LINE),
        ("P\t12345678\t1", LINE),
        ("P\t1\t-2", LINE),
        ("P\t+1\t2", LINE),
        ("P\t1\t2.0", LINE),
        ("P\t1\tx", LINE),
        ("P\t1 2", LINE),
        ("P 1\t2", LINE),
        ("P1\t2", LINE),
        ("PP\t1\t2", LINE),
        ("p\t1\t2", LINE),
        ("\tP\t1\t2", LINE),
        (" P\t1\t2", LINE),
        ("P\t1\t2\r", LINE),
        ("P\t1\t2 ", LINE),
        ("P\t1\t2\0", LINE),
        ("P\t1,2", LINE),
        ("P\t9\t99999999", LINE),
        ("P\t0\t0\t0", LINE),
        ("Y\t1\t2", LINE),
        ("", LINE),
    ] {
        let line_of = if number == 0 { 0 } else { 2 };
        let text = format!("K\t4\t1\t10\n{line}\nP\t4\t2\nA\t1\t5\n");
        assert_eq!(answer(&text, &mut seen), (number, line_of), "{line:?}");
        let alone = format!("K\t4\t1\t10\n{line}\n");
        assert_eq!(answer(&alone, &mut seen), (number, line_of), "{line:?}");
        let open = format!("K\t4\t1\t10\n{line}");
        let expected = if line.is_empty() { (0, 0) } else { (LINE, 2) };
        assert_eq!(answer(&open, &mut seen), expected, "{line:?}, open");
    }
    seen.assert_seen("replay", &[0, UNKNOWN, PLACES, LINE], 6);
}

/// "A `P` line's kettle can meet 4, then 7, before 16", and 14 before all, after a line of
/// item 3.
#[test]
fn the_second_line() {
    let mut seen = Tally::default();
    for (line, number) in [
        ("P\t4\t1", 0),
        ("P\t4\t8", 0),
        ("P\t3\t1", ORDER),
        ("P\t2\t1", ORDER),
        ("P\t1\t8", ORDER),
        ("P\t3\t9", ORDER),
        ("P\t1\t0", ORDER),
        ("P\t0\t1", UNKNOWN),
        ("P\t0\t0", UNKNOWN),
        ("P\t5\t9", UNKNOWN),
        ("P\t4\t9", PLACES),
        ("P\t4\t0", PLACES),
        ("P\t3", LINE),
        ("P\t0\t0\t0", LINE),
        ("P\t3\t09", LINE),
        ("K\t4\t1\t10", LINE),
    ] {
        let line_of = if number == 0 { 0 } else { 3 };
        let text = format!("K\t4\t1\t10\nP\t3\t2\n{line}\nA\t4\t5\n");
        assert_eq!(answer(&text, &mut seen), (number, line_of), "{line:?}");
    }
}

/// "After `K`, lines `P`, kettle, places may follow": not before it, and not after another.
#[test]
fn only_after_the_first_line() {
    let mut seen = Tally::default();
    for (text, expected) in [
        ("P\t1\t2\n", (LINE, 1)),
        ("P\t1\t2\nK\t2\t1\t10\n", (LINE, 1)),
        ("K\t2\t1\t10\nA\nP\t1\t2\n", (LINE, 3)),
        ("K\t2\t1\t10\nW\t1\nP\t1\t2\n", (LINE, 3)),
        ("K\t2\t1\t10\nW\t1\nP\t2\t2\n", (LINE, 3)),
        ("K\t2\t1\t10\nP\t1\t2\nA\t1\t5\nP\t2\t2\n", (LINE, 4)),
        ("K\t2\t1\t10\nP\t1\t2\nW\t1\nP\t2\t2\n", (LINE, 4)),
        ("K\t2\t1\t10\nA\nP\t9\t9\n", (LINE, 3)),
        ("K\t2\t1\t10\nP\t1\t2\nK\t2\t1\t10\n", (LINE, 3)),
        ("K\t2\t1\t10\nP\t1\t2\n\nP\t2\t2\n", (LINE, 3)),
        ("K\t2\t1\t10\nP\t1\t2\nA\t3\t5\nP\t2\t2\n", (UNKNOWN, 3)),
        ("K\t0\t1\t10\nP\t1\t2\n", (COUNT, 1)),
        ("K\t65\t1\t10\nP\t1\t9\n", (COUNT, 1)),
        ("K\t2\t5\t5\nP\t1\t9\n", (SLACK, 1)),
        ("K\t2\t1\t10\nP\t1\t2\nP\t2\t3\nW\t1\t2\nA\n", (0, 0)),
    ] {
        assert_eq!(answer(text, &mut seen), expected, "{text:?}");
    }
}

// ---- totals

/// "over 64 in all at place 0 (line 1 of a text, tested after each `P` line, unnamed kettles
/// counting one)": before the next line is looked at.
#[test]
fn totals_by_hand() {
    let mut seen = Tally::default();
    let eights =
        |from: u64, to: u64| (from..=to).map(|i| format!("P\t{i}\t8\n")).collect::<String>();
    for (text, expected) in [
        (format!("K\t8\t1\t2\n{}", eights(1, 8)), (0, 0)),
        (format!("K\t9\t1\t2\n{}", eights(1, 7)), (0, 0)),
        (format!("K\t9\t1\t2\n{}", eights(1, 8)), (PLACES, 1)),
        (format!("K\t9\t1\t2\n{}P\t9\t9\n", eights(1, 7)), (PLACES, 9)),
        (format!("K\t9\t1\t2\n{}P\t9\t8\n", eights(1, 7)), (PLACES, 1)),
        (format!("K\t9\t1\t2\n{}P\t9\t7\n", eights(1, 7)), (0, 0)),
        ("K\t64\t1\t2\nP\t1\t1\n".into(), (0, 0)),
        ("K\t64\t1\t2\nP\t1\t2\n".into(), (PLACES, 1)),
        ("K\t64\t1\t2\nP\t64\t2\n".into(), (PLACES, 1)),
        ("K\t64\t1\t2\nP\t64\t9\n".into(), (PLACES, 2)),
        ("K\t64\t1\t2\nP\t65\t2\n".into(), (UNKNOWN, 2)),
        ("K\t63\t1\t2\nP\t1\t2\n".into(), (0, 0)),
        ("K\t63\t1\t2\nP\t1\t2\nP\t2\t2\n".into(), (PLACES, 1)),
        ("K\t63\t1\t2\nP\t1\t3\njunk".into(), (PLACES, 1)),
        ("K\t63\t1\t2\nP\t1\t2\njunk".into(), (LINE, 3)),
        ("K\t63\t1\t2\nP\t1\t3\nP\t1\t9\n".into(), (PLACES, 1)),
        ("K\t63\t1\t2\nP\t2\t2\nP\t1\t8\n".into(), (ORDER, 3)),
        ("K\t57\t1\t2\nP\t57\t8\n".into(), (0, 0)),
        ("K\t58\t1\t2\nP\t58\t8\n".into(), (PLACES, 1)),
        ("K\t58\t1\t2\nP\t58\t7\nA\t58\t3\n".into(), (0, 0)),
    ] {
        assert_eq!(answer(&text, &mut seen), expected, "{text:?}");
    }
}

/// Counts with up to two faults, as lines of all items or of those of several places: the
/// first line that is refused, or the first after which there are too many.
fn expected(counts: &[u64], lines: &[(u64, u64)]) -> (u64, u64) {
    let mut now = vec![1; counts.len()];
    for (index, &(item, count)) in lines.iter().enumerate() {
        let line = index as u64 + 2;
        if item == 0 || item > counts.len() as u64 {
            return (UNKNOWN, line);
        }
        if index > 0 && item <= lines[index - 1].0 {
            return (ORDER, line);
        }
        if count == 0 || count > 8 {
            return (PLACES, line);
        }
        now[item as usize - 1] = count;
        if now.iter().sum::<u64>() > 64 {
            return (PLACES, 1);
        }
    }
    (0, 0)
}

#[test]
fn lines_of_all_sorts() {
    let mut seen = Tally::default();
    for seed in 960_000..964_000 {
        let rng = &mut Rng::new(seed);
        let items = rng.range(1, 64);
        let most = rng.pick(&[2, 8]);
        let counts = if rng.chance(1, 3) { full(rng) } else { counts(rng, items, most) };
        let all = rng.chance(1, 2);
        let numbered = (1..).zip(counts.iter().copied());
        let mut lines: Vec<(u64, u64)> = numbered.filter(|(_, count)| all || *count > 1).collect();
        for _ in 0..rng.pick(&[0, 1, 1, 2]) {
            damage(rng, &mut lines, counts.len() as u64);
        }
        let told: String =
            lines.iter().map(|(item, count)| format!("P\t{item}\t{count}\n")).collect();
        let text = format!("K\t{}\t1\t10\n{told}A\t1\t50\n", counts.len());
        let answer = answer(&text, &mut seen);
        assert_eq!(answer, expected(&counts, &lines), "seed {seed}\n{text:?}");
        seen.count("at line 1", (answer == (PLACES, 1)) as u64);
    }
    println!("{seen:?}");
    seen.assert_seen("replay", &[0, UNKNOWN, ORDER, PLACES], 300);
    seen.assert_seen("at line 1", &[0, 1], 300);
}

/// Another count, one more, another item, a line more, one less, or two exchanged.
fn damage(rng: &mut Rng, lines: &mut Vec<(u64, u64)>, items: u64) {
    let at = rng.index(lines.len() + 1);
    match rng.below(8) {
        6 | 7 if at < lines.len() => lines[at].1 = 8.min(lines[at].1 + rng.range(1, 3)),
        0 if at < lines.len() => lines[at].1 = rng.pick(&[0, 9, 8, 8, 256]),
        1 if at < lines.len() => lines[at].0 = rng.pick(&[0, items, items + 1, 257]),
        2 if at < lines.len() => drop(lines.remove(at)),
        3 if at + 1 < lines.len() => lines.swap(at, at + 1),
        4 if at < lines.len() => lines.insert(at, lines[at]),
        _ => lines.insert(at, (rng.range(1, items), rng.range(1, 8))),
    }
}

// ---- texts and calls

/// The board that the call opens, and the calls made on it; the bids in all.
fn by_calls(history: &History) -> (ffi::Board, u64) {
    let Slack { p, q } = history.slack;
    let start = (ffi::open_places(history.items(), p, q, &history.counts).board, 0);
    history.calls.iter().fold(start, |(board, bids), call| {
        let after = call_ours(board, call);
        (after.board, bids + after.value)
    })
}

/// A text is the board that is opened by its counts, and the calls that it tells; lines of one
/// place change nothing.
#[test]
fn texts_are_their_calls() {
    let mut seen = Tally::default();
    for kind in Kind::OF_PLACES {
        let count = if kind.is_large() { 15 } else { 120 };
        for seed in (0..count).map(|n| 965_000 + 1_000 * kind as u64 + n) {
            let history = history(&mut Rng::new(seed), kind);
            let (board, bids) = by_calls(&history);
            for text in [write(&history), write_naming(&history, |_| true)] {
                let told = compare(&text, &mut seen);
                assert_eq!(told, Ok(None), "seed {seed}\n{:?}", shown(&text));
                let replayed = ffi::replay(&text);
                assert_eq!(replayed.value, bids, "seed {seed}\n{:?}", shown(&text));
                assert!(replayed.board == board, "seed {seed}\n{:?}", shown(&text));
            }
        }
    }
    seen.assert_seen("replay", &[0], 900);
}

/// Every opening by `P` lines alone: the board of the call.
#[test]
fn openings_by_text() {
    let mut seen = Tally::default();
    for seed in 980_000..980_400 {
        let rng = &mut Rng::new(seed);
        let items = rng.range(1, 64);
        let counts = if rng.chance(1, 2) { full(rng) } else { counts(rng, items, 8) };
        let history = History { counts, slack: Slack { p: 1, q: 10 }, calls: Vec::new() };
        let text = write(&history);
        assert_eq!(compare(&text, &mut seen), Ok(None), "{:?}", shown(&text));
        assert!(ffi::replay(&text).board == by_calls(&history).0, "{:?}", shown(&text));
    }
}

/// With a `P` line of one place for every item a text of before prints what it did.
#[test]
fn texts_of_before() {
    let mut seen = Tally::default();
    for kind in [Kind::Small, Kind::Ties, Kind::Lists, Kind::Withdrawals, Kind::Refused] {
        for seed in (0..100).map(|n| 985_000 + 1_000 * kind as u64 + n) {
            let history = history(&mut Rng::new(seed), kind);
            let (short, long) = (write(&history), write_naming(&history, |_| true));
            let shift = history.items();
            let [one, other] = [&short, &long].map(|text| {
                let told = compare(text, &mut seen);
                told.unwrap_or_else(|found| panic!("seed {seed}: {found}\n{:?}", shown(text)))
            });
            let later = one.map(|refusal| Refusal { place: refusal.place + shift, ..refusal });
            assert_eq!(later, other, "seed {seed}\n{:?}", shown(&short));
            if one.is_none() {
                assert_eq!(shown(&sheet(&short)), shown(&sheet(&long)), "seed {seed}");
            }
        }
    }
}

/// A refused `P` line leaves the board of the lines before it, also one after which there are
/// too many places, which is told at line 1.
#[test]
fn boards_of_refused_texts() {
    let before = ffi::replay(b"K\t60\t1\t2\nP\t3\t4\n");
    assert_eq!((before.number, before.board.items.places[2], before.board.places), (0, 4, 63));
    for (line, number, place) in [
        ("P\t3\t2\n", ORDER, 3),
        ("P\t61\t2\n", UNKNOWN, 3),
        ("P\t4\t9\n", PLACES, 3),
        ("P\t4\n", LINE, 3),
        ("A\t61\t2\n", UNKNOWN, 3),
    ] {
        let after = ffi::replay(format!("K\t60\t1\t2\nP\t3\t4\n{line}").as_bytes());
        assert_eq!((after.number, after.place, after.value), (number, place, 0), "{line:?}");
        assert!(after.board == before.board, "{line:?}");
    }
    let after = ffi::replay(b"K\t60\t1\t2\nP\t3\t4\nP\t4\t3\nA\t1\t5\n");
    assert_eq!((after.number, after.place, after.value), (PLACES, 1, 0));
    assert!(after.board == before.board);
}

// ---- what is printed

/// Worked by hand: an item of two places and one of one, and all that leave. Of the double one
/// the second finds 240 and 140, the third 200 at the first place, where it displaces the first.
#[test]
fn texts_by_hand() {
    let mut seen = Tally::default();
    let double = "K\t1\t1\t2\nP\t1\t2\nA\t1\t100\nA\t1\t120\nA\t1\t150\n";
    let double_out = "P\t1\t0\t0\nP\t2\t1\t140\nP\t3\t1\t0\nY\t1\t220\nT\t270\t810\t3\nE\t270\n";
    let crossed = "K\t2\t1\t2\nP\t1\t2\nA\t1\t20\nA\t1\t60\t2\t20\nA\t1\t100\t2\t20\n";
    let crossed_out =
        "P\t1\t0\t0\nP\t2\t1\t100\nP\t3\t1\t120\nY\t1\t80\nY\t2\t0\nT\t160\t480\t3\nE\t160\n";
    let left_out = "P\t1\t0\t0\nP\t2\t2\t0\nP\t3\t0\t0\nY\t2\t60\nT\t20\t60\t4\nE\t20\n";
    for (text, printed) in [
        (double.to_string(), double_out),
        (crossed.to_string(), crossed_out),
        (format!("{crossed}W\t1\n"), left_out),
        (format!("{crossed}W\t1\t2\n"), "P\t1\t0\t0\nP\t2\t0\t0\nP\t3\t0\t0\nT\t0\t0\t3\nE\t0\n"),
        ("K\t2\t1\t2\nP\t2\t8\n".into(), "Y\t1\t0\nY\t2\t0\nT\t0\t0\t0\nE\t0\n"),
        (format!("{double}P\t1\t2\n"), "R\t14\t6\n"),
    ] {
        assert_eq!(shown(&sheet(text.as_bytes())), printed, "{text:?}");
        compare(text.as_bytes(), &mut seen).unwrap_or_else(|found| panic!("{found}\n{text:?}"));
    }
}

/// Lines of a small board of two to four items: `P` lines first, rising more often than not,
/// then arrivals, withdrawals, and now and then a `P` line again.
fn small_text(rng: &mut Rng) -> Vec<u8> {
    let items = rng.range(2, 4);
    let mut text = format!("K\t{items}\t1\t10\n");
    for item in 1..=items {
        if rng.chance(2, 3) {
            let named = if rng.chance(1, 15) { rng.range(0, items + 1) } else { item };
            let count = rng.pick(&[1, 2, 2, 3, 3, 4, 8, 8, 8, 2, 2, 3, 0, 9]);
            text.push_str(&format!("P\t{named}\t{count}\n"));
        }
    }
    for _ in 0..rng.range(1, 9) {
        let numbers: Vec<u64> = (1..=items).filter(|_| rng.chance(1, 2)).collect();
        match rng.below(12) {
            0 => text.push_str(&format!("P\t{}\t2\n", rng.range(1, items))),
            1 | 2 if !numbers.is_empty() => {
                let items: String = numbers.iter().map(|item| format!("\t{item}")).collect();
                text.push_str(&format!("W{items}\n"));
            }
            _ => {
                let pair = |item: &u64| format!("\t{item}\t{}", rng.range(1, 50));
                text.push_str(&format!("A{}\n", numbers.iter().map(pair).collect::<String>()));
            }
        }
    }
    text.into_bytes()
}

#[test]
fn small_texts() {
    let mut seen = Tally::default();
    for seed in 990_000..994_000 {
        let text = small_text(&mut Rng::new(seed));
        if let Err(found) = compare(&text, &mut seen) {
            panic!("seed {seed}: {found}\n{:?}", shown(&text));
        }
    }
    println!("{seen:?}");
    seen.assert_seen("replay", &[0, UNKNOWN, GONE, ORDER, LINE, PLACES], 50);
}

/// A text of many `P` lines is as long as may be, and one byte more is 15 before all else.
#[test]
fn long_texts() {
    let mut seen = Tally::default();
    for length in 65_535..=65_537 {
        for filler in ["P\t1\t1\n", "P\t1\t9\n", "P\t9\t9\t", "P\n"] {
            let mut text = String::from("K\t4\t1\t10\n");
            while text.len() < length {
                text.push_str(filler);
            }
            text.truncate(length - 1);
            text.push('\n');
            let expected = match (length, filler) {
                (65_537, _) => (LONG, 0),
                (_, "P\t1\t1\n") => (ORDER, 3),
                (_, "P\t1\t9\n") => (PLACES, 2),
                _ => (LINE, 2),
            };
            assert_eq!(answer(&text, &mut seen), expected, "{length}, {filler:?}");
        }
    }
}

/// What a text of calls says after its `P` lines is what the calls are.
#[test]
fn written_texts() {
    let edge = |item: u64, weight: u64| Edge { item, weight };
    let calls = vec![Call::Arrive(vec![edge(1, 5), edge(3, 7)]), Call::Withdraw(vec![1, 3])];
    let history = History { counts: vec![2, 1, 8], slack: Slack { p: 1, q: 4 }, calls };
    let text = "K\t3\t1\t4\nP\t1\t2\nP\t3\t8\nA\t1\t5\t3\t7\nW\t1\t3\n";
    assert_eq!(shown(&write(&history)), text);
    let all = "K\t3\t1\t4\nP\t1\t2\nP\t2\t1\nP\t3\t8\nA\t1\t5\t3\t7\nW\t1\t3\n";
    assert_eq!(shown(&write_naming(&history, |_| true)), all);
}

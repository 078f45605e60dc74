//! Pages on both sides (R-2 of document 02): the stored ones; those of boards, in lists
//! of any length, and what is read back of them; those of texts.

use noughtelm_tests::both::pages::{equal_page_texts, equal_reads};
use noughtelm_tests::both::{equal, shown, wide, Both, Same, Tally};
use noughtelm_tests::ffi::MAX_PAGE;
use noughtelm_tests::gen::board;
use noughtelm_tests::gen::history::{history, Call, History, Kind};
use noughtelm_tests::gen::text::{dense, dense_places, mutate, random, served_of_length, write};
use noughtelm_tests::model::refusal::*;
use noughtelm_tests::model::sound::{to_record, Record};
use noughtelm_tests::model::text::{page_of, replay, sheet};
use noughtelm_tests::page;
use noughtelm_tests::program::root;
use noughtelm_tests::rng::Rng;
use std::collections::BTreeSet;
use std::fs;

// ---- the stored ones: NAME.in with its NAME.page, NAME.page with its NAME.answer

/// The names of the stored files that end so.
fn names(ending: &str) -> BTreeSet<String> {
    let files = fs::read_dir(root().join("tests/pages")).expect("the folder of pages");
    let files = files.map(|f| f.unwrap().file_name().into_string().unwrap());
    files.filter_map(|f| f.strip_suffix(ending).map(str::to_string)).collect()
}

fn stored(name: &str, ending: &str) -> Vec<u8> {
    fs::read(root().join("tests/pages").join(format!("{name}{ending}"))).expect("a stored file")
}

#[test]
fn every_page_has_its_history_or_its_answer() {
    let (histories, answers) = (names(".in"), names(".answer"));
    assert!(histories.len() >= 15 && answers.len() >= 106);
    assert!(histories.is_disjoint(&answers));
    assert_eq!(histories.union(&answers).cloned().collect::<BTreeSet<_>>(), names(".page"));
}

#[test]
fn stored_histories() {
    let mut seen = Tally::default();
    for name in names(".in") {
        let (text, expected) = (stored(&name, ".in"), stored(&name, ".page"));
        assert_eq!(shown(&page_of(&text)), shown(&expected), "{name}");
        let (auction, _) = replay(&text).expect("a served text");
        let mut both = Both::on(to_record(&auction), &mut seen);
        let tried = try_board(&mut both).and_then(|page| equal(&name, page, expected));
        tried.and_then(|()| try_text(&text, &mut seen)).unwrap_or_else(|e| panic!("{name}: {e}"));
    }
    seen.assert_seen("page of a text", &[0, SHORT], 15);
    seen.assert_seen("write page", &[0, SHORT], 15);
}

/// An answer as it is stored: `N` and the count, then item, weight and gain of each; or
/// `R`, number and line.
fn answer(text: &[u8]) -> String {
    match page::read(text) {
        Ok(rows) => {
            let row = |row: &page::Row| format!("{} {} {}\n", row.item, row.weight, row.gain);
            format!("N {}\n{}", rows.len(), rows.iter().map(row).collect::<String>())
        }
        Err(refusal) => format!("R {} {}\n", refusal.number, refusal.place),
    }
}

#[test]
fn stored_pages() {
    let mut seen = Tally::default();
    for name in names(".answer") {
        let text = stored(&name, ".page");
        assert_eq!(answer(&text), shown(&stored(&name, ".answer")), "{name}");
        let read = equal_reads(&text, [128; 3], &mut seen);
        read.unwrap_or_else(|found| panic!("{name}: {found}")).ok();
    }
    assert!(seen.of("read page", 0) > 15 && seen.of("read page", LINE) > 50);
    assert_eq!(seen.of("read page", LONG), 1);
}

// ---- those of boards

/// The page in lists of all lengths that matter, and read back.
fn try_board(both: &mut Both) -> Same<Vec<u8>> {
    let page = both.write_page(MAX_PAGE)?.expect("room for every page");
    let length = page.len();
    for room in [0, 1, length - 1, length, length + 1, MAX_PAGE - 1, MAX_PAGE + 1, 65_537] {
        equal("room for the page", both.write_page(room)?.is_ok(), length <= room)?;
    }
    read_back(both, &page)?;
    Ok(page)
}

/// "The page must read back to the same plan, worths and gains"
fn read_back(both: &mut Both, page: &[u8]) -> Same<()> {
    let count = both.model.arrived as usize;
    let [plan, weights, gains] = equal_reads(page, [count; 3], both.seen)?.expect("a page");
    let [matching, _, own_gains] = both.read_out(wide())?.expect("a sound board and room");
    equal("the plan read back", &plan[..], &matching[..count])?;
    equal("the gains read back", &gains[..], &own_gains[..count])?;
    let held = |(bidder, item): (usize, &u64)| match item {
        0 => 0,
        item => both.model.weight_at(bidder, *item as usize - 1),
    };
    let held: Vec<u64> = matching[..count].iter().enumerate().map(held).collect();
    equal("the worths read back", weights, held)
}

/// The calls up to the one that would bring one more bidder than these.
fn up_to(mut history: History, bidders: usize) -> History {
    let mut arrived = 0;
    history.calls.retain(|call| {
        arrived += matches!(call, Call::Arrive(_)) as usize;
        arrived <= bidders
    });
    history
}

/// Boards of so many bidders, by histories of all kinds that bring as many.
fn boards(bidders: usize, from: u64) -> impl Iterator<Item = Record> {
    let served = Kind::ALL.into_iter().filter(|kind| kind.is_served());
    let kinds = served.collect::<Vec<Kind>>().into_iter().cycle();
    let histories = kinds.zip(from..).map(move |(kind, seed)| {
        let history = history(&mut Rng::new(seed), kind);
        up_to(history, bidders)
    });
    let arrivals = |h: &History| h.calls.iter().filter(|c| matches!(c, Call::Arrive(_))).count();
    let enough = histories.filter(move |history| arrivals(history) == bidders);
    enough.map(|history| to_record(&history.auction()))
}

#[test]
fn boards_of_every_number_of_sheets() {
    let mut seen = Tally::default();
    for bidders in [0, 1, 2, 39, 40, 41, 79, 80, 81, 119, 120, 121, 127, 128] {
        for record in boards(bidders, 410_000).take(12) {
            let mut both = Both::on(record, &mut seen);
            let page = try_board(&mut both);
            let page = page.unwrap_or_else(|found| panic!("{found}\n{:?}", both.model));
            let full = bidders.saturating_sub(1) / 40;
            assert_eq!(page.len(), 26 + 26 * bidders + 27 * full);
            assert_eq!(page.iter().filter(|&&byte| byte == 12).count(), full);
            seen.count("unplaced", page.windows(2).filter(|two| two == b"--").count() as u64);
        }
    }
    println!("{seen:?}");
    seen.assert_seen("write page", &[0, SHORT], 14 * 12 * 3);
    seen.assert_seen("read page", &[0], 14 * 12);
    assert!(seen.of("unplaced", 0) < 14 * 6);
}

/// Gains of every length up to ten digits.
#[test]
fn boards_that_no_history_reaches() {
    let mut seen = Tally::default();
    for seed in 420_000..421_000 {
        let mut both = Both::on(board::sound(&mut Rng::new(seed)), &mut seen);
        let tried = try_board(&mut both);
        tried.unwrap_or_else(|found| panic!("seed {seed}: {found}\n{:?}", both.model));
        let gains = both.model.gain;
        let held = both.model.holder.iter().filter(|&&holder| holder != 0);
        let held: Vec<u64> = held.map(|&holder| gains[holder as usize - 1]).collect();
        held.iter().for_each(|gain| seen.count("digits", gain.to_string().len() as u64));
    }
    println!("{seen:?}");
    assert!((1..=10).all(|digits| seen.of("digits", digits) > 20));
}

/// "8 if the lent page is too short, after 13."
#[test]
fn boards_that_are_not_sound() {
    for (clause, spoil) in board::SPOILS {
        let mut seen = Tally::default();
        for seed in 430_000..430_060 {
            let rng = &mut Rng::new(seed);
            let mut record = board::sound(rng);
            if !spoil(rng, &mut record) {
                continue;
            }
            let mut both = Both::on(record, &mut seen);
            for room in [0, 25, MAX_PAGE] {
                let answer = both.write_page(room);
                assert_eq!(answer, Ok(refuse(SPOILT, 0)), "{clause}, seed {seed}");
            }
        }
        seen.assert_seen("write page", &[SPOILT], 3 * 10);
    }
}

// ---- those of texts

/// What is printed as a page, in lists with room and without; of a refused text it is
/// what is printed of it otherwise.
fn try_text(text: &[u8], seen: &mut Tally) -> Same<()> {
    let printed = page_of(text);
    let refusal = replay(text).err();
    seen.count("text", refusal.map_or(0, |refusal| refusal.number));
    if refusal.is_some() {
        equal("the line of a refusal", shown(&printed), shown(&sheet(text)))?;
    }
    for room in [printed.len(), printed.len() - 1, printed.len() + 1, MAX_PAGE, 0] {
        equal_page_texts(text, &printed, room, seen)?;
    }
    Ok(())
}

fn assert_text(seed: u64, text: &[u8], seen: &mut Tally) {
    if let Err(found) = try_text(text, seen) {
        panic!("seed {seed}: {found}\n{:?}", shown(text));
    }
}

#[test]
fn pages_of_texts() {
    let mut seen = Tally::default();
    for kind in Kind::ALL {
        let count = if kind.is_large() { 20 } else { 150 };
        for seed in (0..count).map(|n| 440_000 + 1_000 * kind as u64 + n) {
            assert_text(seed, &write(&history(&mut Rng::new(seed), kind)), &mut seen);
        }
    }
    println!("{seen:?}");
    assert!(seen.of("text", 0) > 900);
    assert!([UNKNOWN, GONE, WORTH, ORDER].iter().all(|&number| seen.of("text", number) > 2));
    seen.assert_seen("page of a text", &[0, SHORT], 2_000);
}

#[test]
fn pages_of_damaged_texts() {
    let mut seen = Tally::default();
    for seed in 450_000..453_000 {
        let rng = &mut Rng::new(seed);
        let kind = rng.pick(&[Kind::Small, Kind::Ties, Kind::Withdrawals, Kind::Refused]);
        let text = match seed % 3 {
            0 => random(rng),
            _ => {
                let text = write(&history(rng, kind));
                mutate(rng, &text)
            }
        };
        assert_text(seed, &text, &mut seen);
    }
    println!("{seen:?}");
    seen.assert_seen("text", &[0, 1, 2, 4, 5, 6, 7, 14, 15, 16], 2);
}

/// "An empty board gives the heading alone", also where its items are gone; the text
/// of most bidders and edges; texts at the limit of length.
#[test]
fn pages_of_the_least_and_the_greatest_texts() {
    let heading = "BAT KT   WORTH       GAIN\n";
    let mut seen = Tally::default();
    for text in [&b"K\t1\t1\t2\n"[..], b"K\t64\t999\t1000\n", b"K\t1\t1\t2\nW\t1\n"] {
        assert_eq!(shown(&page_of(text)), heading);
        assert_text(0, text, &mut seen);
    }
    let empty = format!("K\t1\t1\t2\n{}", "A\n".repeat(128));
    for text in [empty.into_bytes(), dense(), dense_places(), served_of_length(65_536)] {
        assert_eq!(page_of(&text).len(), MAX_PAGE);
        assert_text(0, &text, &mut seen);
    }
    for (text, line) in [(vec![], "R\t14\t1\n"), (served_of_length(65_537), "R\t15\t0\n")] {
        assert_eq!(shown(&page_of(&text)), line);
        assert_text(0, &text, &mut seen);
    }
    seen.assert_seen("text", &[0, LINE, LONG], 1);
}

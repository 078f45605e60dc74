//! Texts that are no pages, on both sides, and pages in lists that are too short. What
//! the model answers is held against the meaning of the first bad line each time.

use noughtelm_tests::both::pages::read_count;
use noughtelm_tests::both::{shown, Tally};
use noughtelm_tests::gen::page::{damage, lines, rows, BYTES};
use noughtelm_tests::model::refusal::*;
use noughtelm_tests::page::{write, UNPLACED};
use noughtelm_tests::rng::Rng;

const HEADING: &str = "BAT KT   WORTH       GAIN\n";
const ROOM: [usize; 3] = [131, 130, 129];

/// The number of bidders, or the refusal.
type Answer = Result<usize, Refusal>;

fn answer(text: &[u8]) -> Answer {
    read_count(text, ROOM, &mut Tally::default())
}

fn bad(line: u64) -> Answer {
    refuse(LINE, line)
}

fn page(rng: &mut Rng, bidders: usize) -> Vec<u8> {
    write(&rows(rng, bidders))
}

// ---- every place

/// At every place another byte, one less, and one more.
fn every_place(page: &[u8], bytes: &[u8], seen: &mut Tally) {
    for at in 0..page.len() {
        for &byte in bytes {
            let mut text = page.to_vec();
            text[at] = byte;
            read_count(&text, ROOM, seen).ok();
            text[at] = page[at];
            text.insert(at, byte);
            read_count(&text, ROOM, seen).ok();
        }
        let mut text = page.to_vec();
        text.remove(at);
        assert_eq!(read_count(&text, ROOM, seen).map_err(|refusal| refusal.number), Err(LINE));
    }
    let after = lines(page).len() as u64 + 1;
    for &byte in bytes {
        assert_eq!(read_count(&[page, &[byte]].concat(), ROOM, seen), bad(after));
    }
}

/// Whatever byte stands at whatever place of a short page.
#[test]
fn every_byte_at_every_place() {
    let every: Vec<u8> = (0..=255).collect();
    let mut seen = Tally::default();
    for seed in 0..3 {
        every_place(&page(&mut Rng::new(seed), 2), &every, &mut seen);
    }
    every_place(HEADING.as_bytes(), &every, &mut seen);
    println!("{seen:?}");
    seen.assert_seen("read page", &[0, LINE], 500);
}

#[test]
fn every_place_of_two_sheets() {
    let mut seen = Tally::default();
    every_place(&page(&mut Rng::new(5), 41), b" 019-\n\x0c\r", &mut seen);
    println!("{seen:?}");
    seen.assert_seen("read page", &[0, LINE], 200);
}

#[test]
fn every_place_of_four_sheets() {
    let mut seen = Tally::default();
    every_place(&page(&mut Rng::new(10), 128), b" 1", &mut seen);
    println!("{seen:?}");
    seen.assert_seen("read page", &[0, LINE], 200);
}

/// A page of 128 bidders that stops after any byte: those that stop at the end of a
/// bidder's line, or of the first heading, are pages.
#[test]
fn every_beginning() {
    let whole = page(&mut Rng::new(6), 128);
    for end in 0..=whole.len() {
        let text = &whole[..end];
        let mut lines = lines(text);
        lines.retain(|line| line.ends_with(b"\n"));
        let bidders = lines.iter().filter(|line| !line.contains(&b'B')).count();
        let after_feed = lines.last().is_some_and(|line| line[0] == 12);
        let expected = match text.ends_with(b"\n") && !after_feed {
            true => Ok(bidders),
            false => bad(lines.len() as u64 + 1),
        };
        assert_eq!(answer(text), expected, "{end} bytes");
    }
}

/// Lines swapped, doubled and left out, wherever they stand.
#[test]
fn every_line_out_of_place() {
    let mut seen = Tally::default();
    for bidders in [3, 41, 82] {
        let page = lines(&page(&mut Rng::new(7), bidders));
        let mut tried = |lines: &[Vec<u8>]| read_count(&lines.concat(), ROOM, &mut seen);
        for at in 0..page.len() {
            let mut less = page.clone();
            less.remove(at);
            let last = at + 1 == page.len() && page[at - 1][0] != 12;
            assert_eq!(tried(&less).is_ok(), last, "line {} of {bidders} left out", at + 1);
            let mut more = page.clone();
            more.insert(at, page[at].clone());
            assert_eq!(tried(&more), bad(at as u64 + 2), "line {} of {bidders} doubled", at + 1);
            for other in at + 1..page.len() {
                let mut swapped = page.clone();
                swapped.swap(at, other);
                // The second heading is as the third.
                let same = page[at] == page[other];
                let expected = if same { Ok(bidders) } else { bad(at as u64 + 1) };
                assert_eq!(tried(&swapped), expected, "{} and {} swapped", at + 1, other + 1);
            }
        }
    }
    seen.assert_seen("read page", &[0, LINE], 1);
}

#[test]
fn pages_with_windows_line_ends() {
    for bidders in [0, 1, 41, 128] {
        let page = page(&mut Rng::new(8), bidders);
        let all = shown(&page).replace('\n', "\r\n");
        assert_eq!(answer(all.as_bytes()), bad(1));
        let mut last = page.clone();
        last.insert(page.len() - 1, b'\r');
        assert_eq!(answer(&last), bad(lines(&page).len() as u64));
    }
}

// ---- at random

#[test]
fn damaged_pages() {
    let mut seen = Tally::default();
    for seed in 460_000..470_000 {
        let rng = &mut Rng::new(seed);
        let bidders = rng.pick(&[0, 1, 2, 3, 10, 39, 40, 41, 42, 79, 81, 120, 121, 127, 128, 129]);
        let page = page(rng, bidders);
        let text = damage(rng, &page);
        if let Err(refusal) = read_count(&text, ROOM, &mut seen) {
            seen.count("line", refusal.place);
        }
    }
    println!("{seen:?}");
    seen.assert_seen("read page", &[0, LINE], 300);
    assert!((1..=133).all(|line| seen.of("line", line) > 0));
}

/// Bytes of pages in any order.
#[test]
fn bytes_at_random() {
    let mut seen = Tally::default();
    for seed in 470_000..473_000 {
        let rng = &mut Rng::new(seed);
        let start = if rng.chance(3, 4) { HEADING } else { "" };
        let mut text = start.as_bytes().to_vec();
        (0..rng.below(200)).for_each(|_| text.push(rng.pick(BYTES)));
        read_count(&text, ROOM, &mut seen).ok();
    }
    assert!(seen.of("read page", LINE) > 2_900);
}

// ---- lengths, and the order of refusals

/// Long texts as they begin, and with what they are filled.
const FILLERS: [(&str, &str, u64); 7] = [
    (HEADING, "x", 2),
    (HEADING, "\n", 2),
    ("", "\n", 1),
    ("", " ", 1),
    ("", HEADING, 2),
    ("BAT KT   WORTH       GAIN\n  1 --       0          0\n", "\0", 3),
    ("BAT KT   WORTH       GAIN\n  1 --       0          0\n", "  1 --       0          0\n", 3),
];

/// "text above 65,536 bytes" is 15 before all else.
#[test]
fn texts_at_the_limit() {
    for (start, filler, line) in FILLERS {
        for length in [65_535, 65_536, 65_537, 100_000] {
            let mut text = start.to_string() + &filler.repeat(length / filler.len() + 1);
            text.truncate(length);
            let expected = if length > 65_536 { refuse(LONG, 0) } else { bad(line) };
            for rooms in [ROOM, [0; 3]] {
                let answer = read_count(text.as_bytes(), rooms, &mut Tally::default());
                assert_eq!(answer, expected, "{length} bytes after {start:?}");
            }
        }
    }
    let full = write(&[UNPLACED; 128]);
    let long: Vec<u8> = full.iter().copied().cycle().take(65_537).collect();
    assert_eq!(answer(&long), refuse(LONG, 0));
    assert_eq!(answer(&long[..65_536]), bad(133));
}

/// "after 15, then 8 for lists too short": any of the three, be it by one cell or by
/// all, and 14 before that.
#[test]
fn lists_that_are_too_short() {
    let mut seen = Tally::default();
    for bidders in [1, 2, 40, 41, 127, 128] {
        let page = page(&mut Rng::new(9), bidders);
        for list in 0..3 {
            for room in [0, 1, bidders - 1, bidders, bidders + 1] {
                let mut rooms = ROOM;
                rooms[list] = room;
                let expected = if room < bidders { refuse(SHORT, 0) } else { Ok(bidders) };
                assert_eq!(read_count(&page, rooms, &mut seen), expected, "{bidders} in {rooms:?}");
                let cut = &page[..page.len() - 1];
                let line = lines(&page).len() as u64;
                assert_eq!(read_count(cut, rooms, &mut seen), bad(line), "{bidders} in {rooms:?}");
                let long = [&page[..], &[b' '; 65_536]].concat();
                assert_eq!(read_count(&long, rooms, &mut seen), refuse(LONG, 0));
            }
        }
        for rooms in [[0; 3], [bidders - 1; 3], [bidders, bidders, bidders - 1]] {
            assert_eq!(read_count(&page, rooms, &mut seen), refuse(SHORT, 0));
        }
        assert_eq!(read_count(&page, [bidders; 3], &mut seen), Ok(bidders));
    }
    assert_eq!(read_count(HEADING.as_bytes(), [0; 3], &mut seen), Ok(0));
    assert_eq!(read_count(b"", [0; 3], &mut seen), bad(1));
    seen.assert_seen("read page", &[0, SHORT, LINE, LONG], 20);
}

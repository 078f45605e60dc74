//! The page of R-2 of document 02 by the model alone: pages written by hand, what is
//! written read back, and the judge that compares readers with the meaning.

use noughtelm_tests::both::shown;
use noughtelm_tests::ffi::MAX_PAGE;
use noughtelm_tests::gen::page::{damage, lines, rows};
use noughtelm_tests::model::refusal::*;
use noughtelm_tests::model::text::{page_of, sheet};
use noughtelm_tests::page::{judge, read, write, Row, MAX_GAIN, UNPLACED};
use noughtelm_tests::rng::Rng;

const HEADING: &str = "BAT KT   WORTH       GAIN\n";
const CASE_1: &str = "K\t2\t1\t10\nA\t1\t100\t2\t60\nA\t1\t90\n";

fn written(rows: &[Row]) -> String {
    shown(&write(rows))
}

fn printed(text: &str) -> String {
    shown(&page_of(text.as_bytes()))
}

#[test]
fn pages_by_hand() {
    assert_eq!(written(&[]), HEADING);
    let most = Row { item: 64, weight: 1_000_000, gain: 2_000_000_000 };
    let least = Row { item: 1, weight: 1, gain: 0 };
    let page = format!(
        "{HEADING}  1 64 1000000 2000000000\n  2 --       0          0\n  3  1       1          0\n"
    );
    assert_eq!(written(&[most, UNPLACED, least]), page);
    assert_eq!(read(page.as_bytes()), Ok(vec![most, UNPLACED, least]));
}

/// Case 1 of document 01 without its last line and with it, cases 2 and 6, and texts that are
/// refused.
#[test]
fn pages_of_texts_by_hand() {
    let alone = "  1  1     100        600\n";
    assert_eq!(printed("K\t2\t1\t10\nA\t1\t100\t2\t60\n"), format!("{HEADING}{alone}"));
    let first = "  1  2      60          0\n";
    assert_eq!(printed(CASE_1), format!("{HEADING}{first}  2  1      90          0\n"));
    let gone = format!("{CASE_1}W\t1\n");
    assert_eq!(printed(&gone), format!("{HEADING}{first}  2 --       0          0\n"));
    assert_eq!(printed("K\t64\t999\t1000\nA\n"), format!("{HEADING}  1 --       0          0\n"));
    assert_eq!(printed("K\t1\t1\t2\n"), HEADING);
    for refused in ["", "K\t65\t1\t2\n", &CASE_1[..CASE_1.len() - 1], &gone.repeat(3_000)] {
        assert_eq!(printed(refused), shown(&sheet(refused.as_bytes())));
    }
}

/// "25 columns and byte 10", a heading "before each 40 batches", "and form feed (byte
/// 12) before each heading but the first".
#[test]
fn every_count_of_bidders() {
    for count in 0..=128 {
        let rows = rows(&mut Rng::new(count), count as usize);
        let page = write(&rows);
        assert_eq!(read(&page), Ok(rows.clone()), "{count}");
        assert_eq!(judge::is_right(&page, &Ok(rows)), Ok(()), "{count}");
        let parts: Vec<&[u8]> = page.split(|&byte| byte == 12).collect();
        let full = count.saturating_sub(1) as usize / 40;
        assert_eq!(parts.len(), full + 1, "{count}");
        assert!(parts.iter().all(|part| part.starts_with(HEADING.as_bytes())));
        assert!(parts[..full].iter().all(|part| part.len() == 26 * 41), "{count}");
        assert!(page.len() <= MAX_PAGE && (count < 128 || page.len() == MAX_PAGE));
        let columns = |line: &[u8]| line.iter().filter(|&&byte| byte != 12).count() == 26;
        assert!(lines(&page).iter().all(|line| columns(line) && line.ends_with(b"\n")));
    }
}

/// Rows that are not within limits are not read back, whatever is written of them.
#[test]
fn rows_beyond_the_limits() {
    let row = |item, weight, gain| Row { item, weight, gain };
    for beyond in [
        row(65, 1, 0),
        row(1, 0, 0),
        row(1, 0, 7),
        row(1, 1_000_001, 0),
        row(1, 1, MAX_GAIN + 1),
        row(0, 1, 0),
        row(0, 0, 1),
        row(0, 5, 5),
        row(100, 1, 1),
        row(1, 10_000_000, 1),
        row(1, 1, 10_000_000_000),
    ] {
        assert!(!beyond.is_within());
        for before in [0, 1, 39, 40, 127] {
            let mut rows = vec![UNPLACED; before];
            rows.push(beyond);
            let page = write(&rows);
            let place = lines(&page).len() as u64;
            let answer = refuse(LINE, place);
            assert_eq!(read(&page), answer, "{beyond:?} after {before}");
            assert_eq!(judge::is_right(&page, &answer), Ok(()), "{beyond:?} after {before}");
        }
    }
}

/// Of all answers that a reader could give the judge takes one, and it is the reader's.
#[test]
fn one_answer_is_right() {
    let (mut pages, mut bad) = (0, 0);
    for seed in 0..600 {
        let rng = &mut Rng::new(seed);
        let count = rng.pick(&[0, 1, 2, 5, 39, 40, 41, 80, 82, 120, 121, 128]);
        let page = write(&rows(rng, count));
        let text = if seed % 4 == 0 { page } else { damage(rng, &page) };
        let right = read(&text);
        assert_eq!(judge::is_right(&text, &right), Ok(()), "seed {seed}");
        let places = 0..=lines(&text).len() as u64 + 3;
        let others = places.map(|place| refuse(LINE, place)).chain([refuse(LONG, 0)]);
        let others = others.chain([refuse(SHORT, 0), refuse(LONG, 1), Ok(rows(rng, count + 1))]);
        for other in others.filter(|other| *other != right) {
            assert!(judge::is_right(&text, &other).is_err(), "seed {seed}: {other:?}");
        }
        *if right.is_ok() { &mut pages } else { &mut bad } += 1;
    }
    assert!(pages > 100 && bad > 200, "{pages} pages, {bad} others");
}

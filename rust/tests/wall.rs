//! The built program `wall`, which prints the page of a text (R-2 of document 02), on
//! the inputs that tests/program.rs gives to `sheet`.

use noughtelm_tests::both::shown;
use noughtelm_tests::ffi::MAX_PAGE;
use noughtelm_tests::gen::history::{history, staircase, Kind};
use noughtelm_tests::gen::text::{dense, dense_places, mutate, random, served_of_length, write};
use noughtelm_tests::model::text::page_of;
use noughtelm_tests::program::{at_terminal, built, command_of, feed, printed, reported, run};
use noughtelm_tests::rng::Rng;
use std::fs::File;
use std::process::{Command, Stdio};

const CASE_1: &[u8] = b"K\t2\t1\t10\nA\t1\t100\t2\t60\nA\t1\t90\n";
const PAGE_1: &str =
    "BAT KT   WORTH       GAIN\n  1  2      60          0\n  2  1      90          0\n";
const TOO_LONG: &str = "R\t15\t0\n";
const UNREAD: &str = "wall: input cannot be read\n";
const LOST: &str = "wall: output lost\n";

fn wall(before: &str, redirections: &str) -> Command {
    command_of(&built("wall"), before, redirections)
}

fn plain(text: &[u8]) -> String {
    printed(run(wall("", ""), text))
}

#[test]
fn case_1() {
    assert_eq!(plain(CASE_1), PAGE_1);
}

/// The heading alone, the first bidder, both, and the refusals of lines 1 to 3.
#[test]
fn every_start_of_case_1() {
    let mut seen = Vec::new();
    for n in 0..=CASE_1.len() {
        let page = plain(&CASE_1[..n]);
        assert_eq!(page, shown(&page_of(&CASE_1[..n])), "{n} bytes");
        if seen.last() != Some(&page) {
            seen.push(page);
        }
    }
    assert_eq!(seen.len(), 6, "{seen:?}");
}

#[test]
fn one_byte_pieces() {
    let text = dense();
    let served = printed(feed(wall("", ""), text.chunks(1)));
    assert_eq!(served.len(), MAX_PAGE);
    assert_eq!(served, shown(&page_of(&text)));
    let long = served_of_length(65_537);
    assert_eq!(printed(feed(wall("", ""), long.chunks(1))), TOO_LONG);
}

#[test]
fn lengths() {
    let longest = served_of_length(65_536);
    let served = plain(&longest);
    assert_eq!((served.len(), served), (MAX_PAGE, shown(&page_of(&longest))));
    assert_eq!(plain(&served_of_length(65_537)), TOO_LONG);
    let mut padded = CASE_1.to_vec();
    padded.resize(10_000_000, b'\n');
    assert_eq!(plain(&padded), TOO_LONG);
    padded.truncate(65_536);
    assert_eq!(plain(&padded), "R\t14\t4\n");
}

#[test]
fn empty_input() {
    assert_eq!(plain(b""), "R\t14\t1\n");
    assert_eq!(printed(run(wall("", "< /dev/null"), b"")), "R\t14\t1\n");
}

#[test]
fn input_that_cannot_be_read_prints_nothing() {
    assert_eq!(reported(run(wall("", "<&-"), CASE_1)), UNREAD);
    let folder = File::open(env!("CARGO_MANIFEST_DIR")).expect("this folder");
    let output = wall("", "").stdin(Stdio::from(folder)).output().expect("a shell");
    assert_eq!(reported(output), UNREAD);
    assert_eq!(reported(run(at_terminal("lost", &built("wall")), CASE_1)), UNREAD);
}

#[test]
fn end_is_given_once_at_a_terminal() {
    assert_eq!(printed(run(at_terminal("once", &built("wall")), CASE_1)), PAGE_1);
    assert_eq!(printed(run(at_terminal("once", &built("wall")), b"")), "R\t14\t1\n");
}

#[test]
fn lost_output_is_reported() {
    assert_eq!(reported(run(wall("", "> /dev/full"), CASE_1)), LOST);
    assert_eq!(reported(run(wall("", ">&-"), CASE_1)), LOST);
}

#[test]
fn under_a_limit_of_1_mb() {
    let longest = served_of_length(65_536);
    for text in [dense(), dense_places(), write(&staircase(64)), longest, CASE_1.to_vec()] {
        let output = run(wall("ulimit -s 1024 &&", ""), &text);
        assert_eq!(printed(output), shown(&page_of(&text)));
    }
}

#[test]
fn texts_of_all_sorts() {
    let (mut served, mut refused) = (0, 0);
    for seed in 480_000..480_300 {
        let rng = &mut Rng::new(seed);
        let kind = rng.pick(&Kind::ALL);
        let text = match seed % 3 {
            0 => write(&history(rng, kind)),
            1 => random(rng),
            _ => {
                let text = write(&history(rng, Kind::Small));
                mutate(rng, &text)
            }
        };
        let expected = shown(&page_of(&text));
        assert_eq!(plain(&text), expected, "seed {seed}\n{:?}", shown(&text));
        *if expected.starts_with('R') { &mut refused } else { &mut served } += 1;
    }
    assert!(served > 50 && refused > 50, "{served} served, {refused} refused");
}

//! The built program on the inputs of its table: pieces, lengths, inputs that
//! cannot be read, an output that cannot be written; and texts of all sorts.

use noughtelm_tests::both::shown;
use noughtelm_tests::gen::history::{history, Kind};
use noughtelm_tests::gen::text::{dense, mutate, random, served_of_length, write};
use noughtelm_tests::model::text::sheet;
use noughtelm_tests::program::{at_terminal, command, feed, path, printed, reported, run};
use noughtelm_tests::rng::Rng;
use std::fs::File;
use std::process::Stdio;
use std::thread::sleep;
use std::time::Duration;

const CASE_1: &[u8] = b"K\t2\t1\t10\nA\t1\t100\t2\t60\nA\t1\t90\n";
const PLAN_1: &str = "P\t1\t2\t0\nP\t2\t1\t0\nY\t1\t990\nY\t2\t660\nT\t150\t1650\t3\nE\t150\n";
const TOO_LONG: &str = "R\t15\t0\n";
const UNREAD: &str = "sheet: input cannot be read\n";
const LOST: &str = "sheet: output lost\n";

fn plain(text: &[u8]) -> String {
    printed(run(command("", ""), text))
}

#[test]
fn case_1() {
    assert_eq!(plain(CASE_1), PLAN_1);
}

/// Each part of a text from its start is planned as what it is: a program that
/// leaves the last byte out, or adds one, prints something else for most of them.
#[test]
fn every_start_of_case_1() {
    let mut seen = Vec::new();
    for n in 0..=CASE_1.len() {
        let text = &CASE_1[..n];
        let page = plain(text);
        assert_eq!(page, shown(&sheet(text)), "{n} bytes");
        if seen.last() != Some(&page) {
            seen.push(page);
        }
    }
    assert_eq!(seen.len(), 6, "{seen:?}");
}

/// A pause after each byte, so that each is read by itself.
#[test]
fn slow_bytes() {
    let text = write(&history(&mut Rng::new(301), Kind::Ties));
    assert!(text.len() > 100);
    let pieces = text.chunks(1).inspect(|_| sleep(Duration::from_millis(2)));
    assert_eq!(printed(feed(command("", ""), pieces)), shown(&sheet(&text)));
}

#[test]
fn one_byte_pieces() {
    let text = dense();
    let served = printed(feed(command("", ""), text.chunks(1)));
    assert!(served.starts_with("P\t1\t"));
    assert_eq!(served, shown(&sheet(&text)));
    let long = served_of_length(65_537);
    assert_eq!(printed(feed(command("", ""), long.chunks(1))), TOO_LONG);
}

#[test]
fn lengths() {
    let longest = served_of_length(65_536);
    assert_eq!(longest.len(), 65_536);
    let served = plain(&longest);
    assert!(served.starts_with("P\t1\t"));
    assert_eq!(served, shown(&sheet(&longest)));
    assert_eq!(plain(&served_of_length(65_537)), TOO_LONG);
    let mut padded = CASE_1.to_vec();
    padded.resize(10_000_000, b'\n');
    assert_eq!(plain(&padded), TOO_LONG);
    padded.truncate(65_537);
    assert_eq!(plain(&padded), TOO_LONG);
    padded.truncate(65_536);
    assert_eq!(plain(&padded), "R\t14\t4\n");
}

#[test]
fn empty_input() {
    assert_eq!(plain(b""), "R\t14\t1\n");
    assert_eq!(printed(run(command("", "< /dev/null"), b"")), "R\t14\t1\n");
}

#[test]
fn closed_input_prints_nothing() {
    assert_eq!(reported(run(command("", "<&-"), CASE_1)), UNREAD);
}

#[test]
fn directory_as_input_prints_nothing() {
    let folder = File::open(env!("CARGO_MANIFEST_DIR")).expect("this folder");
    let mut command = command("", "");
    let output = command.stdin(Stdio::from(folder)).output().expect("a shell");
    assert_eq!(reported(output), UNREAD);
}

/// A whole text that is followed by a failed read is not taken for the input.
#[test]
fn cut_line_prints_nothing() {
    assert_eq!(reported(run(at_terminal("lost", &path()), CASE_1)), UNREAD);
}

#[test]
fn end_is_given_once_at_a_terminal() {
    assert_eq!(printed(run(at_terminal("once", &path()), CASE_1)), PLAN_1);
    assert_eq!(printed(run(at_terminal("once", &path()), b"")), "R\t14\t1\n");
}

/// A file as input is read like a pipe.
#[test]
fn file_as_input() {
    let stored = concat!(env!("CARGO_MANIFEST_DIR"), "/../tests/texts/fix-case01.in");
    let file = File::open(stored).expect("a stored text");
    let mut command = command("", "");
    let output = command.stdin(Stdio::from(file)).output().expect("a shell");
    let text = std::fs::read(stored).expect("a stored text");
    assert_eq!(printed(output), shown(&sheet(&text)));
}

#[test]
fn lost_output_is_reported() {
    assert_eq!(reported(run(command("", "> /dev/full"), CASE_1)), LOST);
    assert_eq!(reported(run(command("", ">&-"), CASE_1)), LOST);
}

#[test]
fn texts_of_all_sorts() {
    let (mut served, mut refused) = (0, 0);
    for seed in 310_000..310_600 {
        let rng = &mut Rng::new(seed);
        let kind = rng.pick(&Kind::ALL);
        let text = match seed % 3 {
            0 => write(&history(rng, kind)),
            1 => random(rng),
            _ => {
                let text = write(&history(rng, Kind::Small));
                mutate(rng, &text)
            }
        };
        let expected = shown(&sheet(&text));
        assert_eq!(plain(&text), expected, "seed {seed}\n{:?}", shown(&text));
        *if expected.starts_with('R') { &mut refused } else { &mut served } += 1;
    }
    assert!(served > 100 && refused > 100, "{served} served, {refused} refused");
}

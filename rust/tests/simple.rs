//! The straightforward program (document 02, R-10) prints the stored answers, and what the plain
//! program prints: of histories, of random and damaged texts, at the limits, of the dense texts.

use noughtelm_tests::gen::history::{history, staircase, Kind};
use noughtelm_tests::gen::text::{dense, dense_of, dense_places, mutate, random, write};
use noughtelm_tests::rng::Rng;
use noughtelm_tests::{fast, program, simple};
use std::collections::BTreeMap;
use std::fs;
use std::path::Path;
use std::process::Command;

/// Counts the answers by refusal number, 0 for a plan.
#[derive(Default)]
struct Seen(BTreeMap<u64, u64>);

impl Seen {
    fn compare(&mut self, text: &[u8]) {
        let printed = simple::sheet(text);
        let expected = fast::text::sheet(text);
        let text = String::from_utf8_lossy(text);
        assert!(printed.as_bytes() == expected, "not equal on {text:?}");
        let refused = printed.strip_prefix("R\t").and_then(|rest| rest.split('\t').next());
        let number = refused.map_or(0, |number| number.parse().expect("a number"));
        *self.0.entry(number).or_default() += 1;
    }

    /// Each of these numbers was answered more often than so.
    fn assert_seen(&self, numbers: &[u64], more: u64) {
        println!("answers by number: {:?}", self.0);
        let seen = |number: &u64| self.0.get(number).copied().unwrap_or(0);
        assert!(numbers.iter().all(|number| seen(number) > more), "{:?}", self.0);
    }
}

#[test]
fn stored_texts() {
    let folder = program::root().join("tests/texts");
    let mut equal = 0;
    for file in fs::read_dir(folder).expect("the folder of texts") {
        let path = file.unwrap().path();
        if path.extension().is_some_and(|ending| ending == "in") {
            let expected = fs::read_to_string(path.with_extension("out")).unwrap();
            assert_eq!(simple::sheet(&fs::read(&path).unwrap()), expected, "{}", path.display());
            equal += 1;
        }
    }
    println!("{equal} texts equal");
    assert!(equal >= 450);
}

#[test]
fn histories() {
    let mut seen = Seen::default();
    for kind in Kind::ALL {
        let mut rng = Rng::new(1_000 + kind as u64);
        for _ in 0..300 {
            seen.compare(&write(&history(&mut rng, kind)));
        }
    }
    for items in 2..=64 {
        seen.compare(&write(&staircase(items)));
    }
    seen.assert_seen(&[0], 2_000);
}

#[test]
fn random_texts() {
    let mut seen = Seen::default();
    let mut rng = Rng::new(1_100);
    for _ in 0..10_000 {
        seen.compare(&random(&mut rng));
    }
    seen.assert_seen(&[0, 4, 5, 6, 7, 14, 16], 10);
}

#[test]
fn damaged_texts() {
    let mut seen = Seen::default();
    let mut rng = Rng::new(1_200);
    for round in 0..10_000 {
        let kind = Kind::ALL[round % Kind::ALL.len()];
        let kind = if kind.is_large() { Kind::Small } else { kind };
        let text = write(&history(&mut rng, kind));
        seen.compare(&mutate(&mut rng, &text));
    }
    seen.assert_seen(&[0, 1, 2, 4, 5, 6, 7, 14, 15, 16], 4);
}

/// 65,535 to 65,537 bytes, and 128 and 129 arrivals.
#[test]
fn limits() {
    let mut seen = Seen::default();
    for length in 65_535..=65_537 {
        for filler in ["A\n", "A\t1\t1\n", "W\t1\n", "\n", "\t1"] {
            let mut text = format!("K\t64\t1\t10\nA{}", filler.repeat(length)).into_bytes();
            text.truncate(length - 1);
            text.push(b'\n');
            seen.compare(&text);
        }
    }
    for arrivals in 127..=130 {
        seen.compare(format!("K\t2\t1\t10\n{}", "A\t1\t5\n".repeat(arrivals)).as_bytes());
        seen.compare(format!("K\t2\t1\t10\n{}", "A\n".repeat(arrivals)).as_bytes());
    }
    seen.assert_seen(&[0, 3, 14, 15], 3);
}

#[test]
fn dense_texts() {
    let mut seen = Seen::default();
    seen.compare(&dense());
    seen.compare(&dense_places());
    for (bidders, items) in [(0, 1), (1, 1), (4, 4), (32, 16), (16, 64), (64, 64), (128, 64)] {
        seen.compare(&dense_of(bidders, items));
    }
    assert_eq!(seen.0, BTreeMap::from([(0, 9)]));
}

/// The built program, on a text that is served, an empty one and one that is too long.
#[test]
fn as_a_program() {
    for text in [dense(), Vec::new(), vec![b'A'; 70_000]] {
        let built = Path::new(env!("CARGO_BIN_EXE_plan_simple"));
        let printed = program::printed(program::run(Command::new(built), &text));
        assert_eq!(printed.as_bytes(), fast::text::sheet(&text));
    }
}

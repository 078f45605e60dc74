//! The two readers against each other: texts of histories, every beginning of
//! them, random and damaged texts, and texts at the limit of length.

use noughtelm_tests::gen::history::{history, staircase, Kind};
use noughtelm_tests::gen::text::{dense, dense_places, mutate, random, write};
use noughtelm_tests::model::text::replay;
use noughtelm_tests::rng::Rng;
use noughtelm_tests::{fast, model};
use std::collections::BTreeMap;

/// Counts the answers by refusal number, 0 for a plan.
#[derive(Default)]
struct Seen(BTreeMap<u64, u64>);

impl Seen {
    fn compare(&mut self, text: &[u8]) {
        let expected = model::text::sheet(text);
        let printed = fast::text::sheet(text);
        assert!(printed == expected, "not equal on {:?}", String::from_utf8_lossy(text));
        let number = replay(text).err().map_or(0, |refusal| refusal.number);
        assert_eq!(expected.starts_with(b"R\t"), number != 0);
        *self.0.entry(number).or_default() += 1;
    }

    fn of(&self, number: u64) -> u64 {
        self.0.get(&number).copied().unwrap_or(0)
    }
}

#[test]
fn texts_of_histories() {
    let mut seen = Seen::default();
    for kind in Kind::ALL {
        let mut rng = Rng::new(100 + kind as u64);
        for _ in 0..400 {
            seen.compare(&write(&history(&mut rng, kind)));
        }
    }
    for items in 2..=64 {
        seen.compare(&write(&staircase(items)));
    }
    println!("answers by number: {:?}", seen.0);
    assert!(seen.of(0) > 2_000);
}

/// Every beginning of a text that ends with a line, and some that do not.
#[test]
fn beginnings_of_texts() {
    let mut seen = Seen::default();
    let mut rng = Rng::new(21);
    for kind in [Kind::Small, Kind::Ties] {
        for _ in 0..200 {
            let text = write(&history(&mut rng, kind));
            for end in 0..text.len() {
                let whole = text[..end].last() == Some(&b'\n');
                if whole || rng.chance(1, 8) {
                    seen.compare(&text[..end]);
                }
            }
        }
    }
    assert!(seen.of(0) > 1_000 && seen.of(14) > 1_000);
}

#[test]
fn random_texts() {
    let mut seen = Seen::default();
    let mut rng = Rng::new(22);
    for _ in 0..30_000 {
        seen.compare(&random(&mut rng));
    }
    println!("answers by number: {:?}", seen.0);
    assert!([0, 4, 5, 6, 7, 14, 16].iter().all(|&n| seen.of(n) > 50));
}

#[test]
fn damaged_texts() {
    let mut seen = Seen::default();
    let mut rng = Rng::new(23);
    for round in 0..20_000 {
        let kind = Kind::ALL[round % Kind::ALL.len()];
        let kind = if kind.is_large() { Kind::Small } else { kind };
        let text = write(&history(&mut rng, kind));
        seen.compare(&mutate(&mut rng, &text));
    }
    println!("answers by number: {:?}", seen.0);
    assert!([0, 1, 2, 4, 5, 6, 7, 14, 15, 16].iter().all(|&n| seen.of(n) > 10));
}

#[test]
fn dense_text_fits() {
    let text = dense();
    assert!(text.len() <= 65_536, "{} bytes", text.len());
    let (auction, bids) = replay(&text).unwrap();
    assert_eq!((auction.items.len(), auction.bidders.len()), (64, 128));
    assert!(auction.bidders.iter().all(|b| b.edges.len() == 64));
    println!("{} bytes, {bids} bids", text.len());
    Seen::default().compare(&text);
}

#[test]
fn dense_text_of_places_fits() {
    let text = dense_places();
    assert!(text.len() <= 65_536, "{} bytes", text.len());
    let (auction, bids) = replay(&text).unwrap();
    assert_eq!((auction.counts(), auction.bidders.len()), (vec![4; 16], 128));
    assert!(auction.bidders.iter().all(|b| b.edges.len() == 16));
    println!("{} bytes, {bids} bids", text.len());
    Seen::default().compare(&text);
}

/// The letter of a long text's second line, and with what the text is filled.
const FILLERS: [(char, &str); 9] = [
    ('A', "A\n"),
    ('A', "\t1"),
    ('A', "\t1\t1"),
    ('A', "\t9999999"),
    ('A', "\n"),
    ('A', "\0"),
    ('W', "\t1"),
    ('W', "\t9999999"),
    ('W', "\n"),
];

/// Texts of 65,535 to 65,537 bytes: empty arrivals are refused at the 129th,
/// a long list at its 65th edge or item at the latest.
#[test]
fn texts_at_the_limit() {
    let mut seen = Seen::default();
    for length in 65_535..=65_537 {
        for (letter, filler) in FILLERS {
            let mut text = format!("K\t64\t1\t10\n{letter}").into_bytes();
            while text.len() < length {
                text.extend_from_slice(filler.as_bytes());
            }
            text.truncate(length - 1);
            text.push(b'\n');
            seen.compare(&text);
        }
    }
    assert_eq!(seen.of(15), 9);
    assert_eq!(seen.0.values().sum::<u64>(), 27);
}

//! History texts: of a history, random, damaged, and the dense one.

use super::history::{Call, History};
use super::sheet::{edges, sheet, Pattern};
use crate::model::auction::Slack;
use crate::rng::Rng;
use std::ops::Range;

/// The text that tells this history. Items of one place have no `P` line.
pub fn write(history: &History) -> Vec<u8> {
    write_naming(history, |count| count > 1)
}

/// The same with a `P` line for every item that has such a number of places.
pub fn write_naming(history: &History, named: fn(u64) -> bool) -> Vec<u8> {
    let mut out = format!("K\t{}\t{}\t{}\n", history.items(), history.slack.p, history.slack.q);
    for (item, &count) in (1..).zip(&history.counts).filter(|(_, &count)| named(count)) {
        out.push_str(&format!("P\t{item}\t{count}\n"));
    }
    for call in &history.calls {
        match call {
            Call::Arrive(edges) => {
                out.push('A');
                for edge in edges {
                    out.push_str(&format!("\t{}\t{}", edge.item, edge.weight));
                }
            }
            Call::Withdraw(items) => {
                out.push('W');
                items.iter().for_each(|item| out.push_str(&format!("\t{item}")));
            }
        }
        out.push('\n');
    }
    out.into_bytes()
}

/// 64 items, 128 bidders, all 8,192 edges with weights 1 to 9,999, slack 1/100.
pub fn dense() -> Vec<u8> {
    let mut rng = Rng::new(2024);
    let mut out = String::from("K\t64\t1\t100\n");
    for _ in 0..128 {
        out.push('A');
        for item in 1..=64 {
            out.push_str(&format!("\t{item}\t{}", rng.range(1, 9_999)));
        }
        out.push('\n');
    }
    out.into_bytes()
}

/// So many bidders with an edge at each of so many items, weights 1 to 9,999, slack 1/100.
pub fn dense_of(bidders: u64, items: u64) -> Vec<u8> {
    let rows = sheet(&mut Rng::new(2024), Pattern::UpTo(9_999), bidders, items, 8);
    let calls = rows.iter().map(|row| Call::Arrive(edges(row))).collect();
    write(&History::of_ones(items, Slack { p: 1, q: 100 }, calls))
}

/// 16 items of 4 places each, 128 bidders, all 2,048 edges with weights 1 to 9,999, slack
/// 1/100: as many places as the dense text has.
pub fn dense_places() -> Vec<u8> {
    let mut rng = Rng::new(2026);
    let mut out = String::from("K\t16\t1\t100\n");
    (1..=16).for_each(|item| out.push_str(&format!("P\t{item}\t4\n")));
    for _ in 0..128 {
        out.push('A');
        for item in 1..=16 {
            out.push_str(&format!("\t{item}\t{}", rng.range(1, 9_999)));
        }
        out.push('\n');
    }
    out.into_bytes()
}

/// A text of exactly so many bytes that is served: as the dense one, with as
/// many weights of five digits as are needed.
pub fn served_of_length(bytes: usize) -> Vec<u8> {
    let shortest = 64_651;
    assert!((shortest..shortest + 8_192).contains(&bytes));
    let mut rng = Rng::new(2025);
    let mut long = bytes - shortest;
    let mut out = String::from("K\t64\t1\t100\n");
    for _ in 0..128 {
        out.push('A');
        for item in 1..=64 {
            let least = if long > 0 { 10_000 } else { 1_000 };
            long = long.saturating_sub(1);
            out.push_str(&format!("\t{item}\t{}", rng.range(least, 10 * least - 1)));
        }
        out.push('\n');
    }
    assert_eq!(out.len(), bytes);
    out.into_bytes()
}

const NUMBERS: [&str; 24] = [
    "0", "1", "2", "3", "8", "9", "10", "63", "64", "65", "128", "129", "999", "1000", "1001",
    "9999", "1000000", "1000001", "9999999", "10000000", "00", "01", "", "-1",
];

const BYTES: &[u8] = b"KAWPYTERkaw\t\t\t\n\n\n\r\0 0123456789-+.x\xff";

/// Lines of random fields, more often well formed than not.
pub fn random(rng: &mut Rng) -> Vec<u8> {
    let mut out = Vec::new();
    if rng.chance(19, 20) {
        out.extend_from_slice(b"K\t3\t1\t10\n");
    }
    for _ in 0..rng.pick(&[0, 0, 0, 1, 1, 2, 3]) {
        places_line(rng, &mut out);
    }
    for _ in 0..rng.below(9) {
        let letter = rng.pick(b"AAAAAAAAAAAAAAWWWWWWKP\t\n");
        let fields = match letter {
            b'A' => 2 * rng.below(4) + rng.chance(1, 30) as u64,
            b'W' => rng.pick(&[1, 1, 1, 1, 1, 1, 1, 1, 2, 2, 2, 3, 3, 0]),
            _ => rng.pick(&[1, 1, 1, 1, 1, 1, 0, 2, 3]),
        };
        out.push(letter);
        (0..fields).for_each(|_| random_field(rng, &mut out));
        if rng.chance(39, 40) {
            out.push(b'\n');
        }
    }
    out
}

/// A `P` line, more often good than not.
fn places_line(rng: &mut Rng, out: &mut Vec<u8>) {
    let item = rng.pick(&[1, 1, 2, 2, 3, 3, 3, 0, 4]);
    let count = rng.pick(&[1, 2, 2, 3, 4, 8, 8, 0, 9]);
    out.extend_from_slice(format!("P\t{item}\t{count}\n").as_bytes());
}

fn random_field(rng: &mut Rng, out: &mut Vec<u8>) {
    out.push(if rng.chance(79, 80) { b'\t' } else { rng.pick(BYTES) });
    match rng.below(20) {
        0 => out.extend_from_slice(rng.pick(&NUMBERS).as_bytes()),
        _ => out.push(rng.pick(b"1111222233340")),
    }
}

/// One to four damages to a text.
pub fn mutate(rng: &mut Rng, text: &[u8]) -> Vec<u8> {
    let mut out = text.to_vec();
    for _ in 0..rng.range(1, 4) {
        match rng.below(12) {
            0..=4 => change_byte(rng, &mut out),
            5 | 6 => change_number(rng, &mut out),
            7 => change_lines(rng, &mut out),
            8 => add_number(rng, &mut out),
            9 => out.truncate(rng.index(out.len() + 1)),
            10 => add_places(rng, &mut out),
            _ => out.extend_from_slice(&[rng.pick(BYTES)]),
        }
    }
    if rng.chance(1, 200) {
        let long = rng.range(65_530, 65_540) as usize;
        out.resize(long, rng.pick(b"A\n\t1"));
    }
    out
}

fn change_byte(rng: &mut Rng, text: &mut Vec<u8>) {
    let at = rng.index(text.len() + 1);
    let byte = rng.pick(BYTES);
    match rng.below(4) {
        0 => text.insert(at, byte),
        1 if at < text.len() => {
            text.remove(at);
        }
        2 if at < text.len() => text[at] ^= 1 << rng.below(8),
        _ if at < text.len() => text[at] = byte,
        _ => text.push(byte),
    }
}

/// Where a number of the text stands, if it has one.
fn a_number(rng: &mut Rng, text: &[u8]) -> Option<Range<usize>> {
    let starts: Vec<usize> =
        (1..text.len()).filter(|&i| text[i - 1] == b'\t' && text[i].is_ascii_digit()).collect();
    if starts.is_empty() {
        return None;
    }
    let start = rng.pick(&starts);
    let digits = text[start..].iter().take_while(|b| b.is_ascii_digit()).count();
    Some(start..start + digits)
}

/// Another number in the place of one that stands there.
fn change_number(rng: &mut Rng, text: &mut Vec<u8>) {
    if let Some(there) = a_number(rng, text) {
        text.splice(there, rng.pick(&NUMBERS).bytes());
    }
}

/// A number more: one that stands there twice, or any before it.
fn add_number(rng: &mut Rng, text: &mut Vec<u8>) {
    if let Some(there) = a_number(rng, text) {
        let again = text[there.clone()].to_vec();
        let more = if rng.chance(1, 2) { again } else { rng.pick(&NUMBERS).into() };
        text.splice(there.start..there.start, [&more[..], b"\t"].concat());
    }
}

/// A `P` line more, after one of the first three lines.
fn add_places(rng: &mut Rng, text: &mut Vec<u8>) {
    let ends: Vec<usize> = (1..=text.len()).filter(|&end| text[end - 1] == b'\n').take(3).collect();
    if !ends.is_empty() {
        let at = rng.pick(&ends);
        let mut line = Vec::new();
        places_line(rng, &mut line);
        text.splice(at..at, line);
    }
}

/// A line left out, doubled, or moved to the end.
fn change_lines(rng: &mut Rng, text: &mut Vec<u8>) {
    let mut lines: Vec<Vec<u8>> =
        text.split_inclusive(|&b| b == b'\n').map(|line| line.to_vec()).collect();
    if lines.is_empty() {
        return;
    }
    let at = rng.index(lines.len());
    match rng.below(3) {
        0 => drop(lines.remove(at)),
        1 => lines.insert(at, lines[at].clone()),
        _ => {
            let line = lines.remove(at);
            lines.push(line);
        }
    }
    *text = lines.concat();
}

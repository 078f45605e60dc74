//! R-2 of document 02, "A page for the kitchen wall": a writer, and a reader that
//! shares with it no more than the limits. `judge` tells by itself whether a
//! reader's answer is right.

use crate::model::auction::{Auction, Bidder, MAX_BIDDERS, MAX_ITEMS, MAX_WEIGHT};
use crate::model::refusal::*;
use crate::model::text::MAX_TEXT;

pub mod judge;

/// "gains at most 2,000,000,000"
pub const MAX_GAIN: u64 = 2_000_000_000;

/// A bidder's line. Its number is its place in the list of rows.
#[derive(Clone, Copy, Debug, PartialEq, Eq)]
pub struct Row {
    /// The item held, 0 where the bidder is unplaced.
    pub item: u64,
    pub weight: u64,
    pub gain: u64,
}

pub const UNPLACED: Row = Row { item: 0, weight: 0, gain: 0 };

impl Row {
    /// "kettles 1 to 64, worths within limits, gains at most 2,000,000,000"; both "0
    /// if unplaced".
    pub fn is_within(self) -> bool {
        let placed = (1..=MAX_ITEMS as u64).contains(&self.item)
            && (1..=MAX_WEIGHT).contains(&self.weight)
            && self.gain <= MAX_GAIN;
        placed || self == UNPLACED
    }
}

/// A board's rows: of a placed bidder, the weight is that of its edge at its item.
pub fn rows(auction: &Auction) -> Vec<Row> {
    let row = |bidder: &Bidder| {
        let held = bidder.edges.iter().find(|edge| edge.item == bidder.item());
        held.map_or(UNPLACED, |edge| Row {
            item: edge.item,
            weight: edge.weight,
            gain: bidder.gain,
        })
    };
    auction.bidders.iter().map(row).collect()
}

// ---- the writer

/// "The heading `BAT KT   WORTH       GAIN` and byte 10 stand before each 40 batches,
/// and form feed (byte 12) before each heading but the first. An empty board gives
/// the heading alone."
pub fn write(rows: &[Row]) -> Vec<u8> {
    let heading = "BAT KT   WORTH       GAIN\n";
    let mut page = String::from(heading);
    for (before, row) in rows.iter().enumerate() {
        if before > 0 && before % 40 == 0 {
            page.push('\x0c');
            page.push_str(heading);
        }
        page.push_str(&line(before + 1, row));
    }
    page.into_bytes()
}

/// "Each line has batch (3 columns), kettle (2, or `--`), worth (7, 0 if unplaced) and
/// gain (10, 0 if unplaced), right-justified, without leading zeros, single blanks
/// between, 25 columns and byte 10."
fn line(bidder: usize, row: &Row) -> String {
    let item = match row.item {
        0 => "--".to_string(),
        item => item.to_string(),
    };
    format!("{bidder:>3} {item:>2} {:>7} {:>10}\n", row.weight, row.gain)
}

// ---- the reader

/// "a text not of this form is 14 at its first bad line (the one after the last, if it
/// stops short), after 15"
pub fn read(text: &[u8]) -> Result<Vec<Row>, Refusal> {
    if text.len() > MAX_TEXT {
        return refuse(LONG, 0);
    }
    let (mut rows, mut headings, mut lines) = (Vec::new(), 0, 0);
    for line in text.split_inclusive(|&byte| byte == 10) {
        lines += 1;
        let bad = Refusal { number: LINE, place: lines };
        if rows.len() == 40 * headings {
            is_heading(line, headings).then_some(()).ok_or(bad)?;
            headings += 1;
        } else {
            rows.push(row_of(line, rows.len() as u64 + 1).ok_or(bad)?);
        }
    }
    // Only the first heading may stand alone.
    match headings {
        0 => refuse(LINE, lines + 1),
        2.. if rows.len() == 40 * (headings - 1) => refuse(LINE, lines + 1),
        _ => Ok(rows),
    }
}

fn is_heading(line: &[u8], before: usize) -> bool {
    let words = match line {
        [12, words @ ..] if before > 0 => words,
        words if before == 0 => words,
        _ => return false,
    };
    words == b"BAT KT   WORTH       GAIN\x0a"
}

/// The columns from left to right. "batches running from 1 to at most 128 without a
/// gap"; "a page read may name a kettle more than once".
fn row_of(line: &[u8], due: u64) -> Option<Row> {
    let columns = line.strip_suffix(&[10]).filter(|columns| columns.len() == 25)?;
    let parted = [3, 6, 14].iter().all(|&column| columns[column] == b' ');
    let bidder = number(&columns[..3])?;
    let item = match &columns[4..6] {
        b"--" => 0,
        cell => number(cell).filter(|&item| item != 0)?,
    };
    let row = Row { item, weight: number(&columns[7..14])?, gain: number(&columns[15..])? };
    let in_turn = bidder == due && bidder <= MAX_BIDDERS as u64;
    (parted && in_turn && row.is_within()).then_some(row)
}

/// "right-justified, without leading zeros"
fn number(columns: &[u8]) -> Option<u64> {
    let blanks = columns.iter().take_while(|&&byte| byte == b' ').count();
    match &columns[blanks..] {
        [] => None,
        [b'0', _, ..] => None,
        digits => digits.iter().try_fold(0, |number, &digit| {
            digit.is_ascii_digit().then(|| 10 * number + (digit - b'0') as u64)
        }),
    }
}

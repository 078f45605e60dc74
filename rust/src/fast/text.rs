//! The text, read in one pass, and the printing.

use super::auction::{Auction, PLACES};
use super::exact::greatest_weight;
use std::io::Write;

pub const MAX_TEXT: usize = 65_536;
const MAX_DIGITS: usize = 7;

/// A refusal's number, at the line that the reader has reached.
pub type Number = u32;

struct Reader<'a> {
    text: &'a [u8],
    at: usize,
    line: usize,
}

impl Reader<'_> {
    fn byte(&mut self) -> Option<u8> {
        let byte = *self.text.get(self.at)?;
        self.at += 1;
        Some(byte)
    }

    /// The letter and the numbers of the next line, if it has the form of one.
    fn record(&mut self, numbers: &mut Vec<u32>) -> Option<u8> {
        self.line += 1;
        numbers.clear();
        let letter = self.byte()?;
        loop {
            match self.byte()? {
                b'\t' => numbers.push(self.number()?),
                b'\n' => return Some(letter),
                _ => return None,
            }
        }
    }

    fn number(&mut self) -> Option<u32> {
        let start = self.at;
        let mut value = 0;
        while let Some(digit) = self.text.get(self.at).filter(|b| b.is_ascii_digit()) {
            if self.at - start == MAX_DIGITS {
                return None;
            }
            value = value * 10 + (digit - b'0') as u32;
            self.at += 1;
        }
        let digits = self.at - start;
        let leading = digits > 1 && self.text[start] == b'0';
        (digits > 0 && !leading).then_some(value)
    }
}

/// What the program prints for this text.
pub fn sheet(text: &[u8]) -> Vec<u8> {
    let mut out = Vec::with_capacity(8_192);
    let mut reader = Reader { text, at: 0, line: 0 };
    match replay(&mut reader) {
        Ok((auction, bids)) => report(&auction, bids, &mut out),
        Err(number) => writeln!(out, "R\t{number}\t{}", reader.line),
    }
    .expect("a vector takes every byte");
    out
}

/// The auction at the text's end and all bids, or the number of a refusal.
pub fn replay_text(text: &[u8]) -> Result<(Box<Auction>, u64), Number> {
    replay(&mut Reader { text, at: 0, line: 0 })
}

fn replay(reader: &mut Reader) -> Result<(Box<Auction>, u64), Number> {
    if reader.text.len() > MAX_TEXT {
        return Err(15);
    }
    let mut numbers = Vec::with_capacity(128);
    let mut auction = match (reader.record(&mut numbers), numbers.as_slice()) {
        (Some(b'K'), &[items, p, q]) => Box::new(Auction::open(items, p, q)?),
        _ => return Err(14),
    };
    let mut bids = 0;
    // The item of the `P` line before, as long as one may stand here.
    let mut named = Some(0);
    while reader.at < reader.text.len() {
        match (reader.record(&mut numbers), numbers.as_slice(), named) {
            (Some(b'P'), &[item, count], Some(before)) => {
                auction.set_places(item, count, before)?;
                if auction.places() > PLACES {
                    reader.line = 1;
                    return Err(16);
                }
                named = Some(item);
                continue;
            }
            (Some(b'A'), pairs, _) if pairs.len() % 2 == 0 => bids += auction.arrive(pairs)?,
            (Some(b'W'), items, _) if !items.is_empty() => bids += auction.withdraw(items)?,
            _ => return Err(14),
        }
        named = None;
    }
    Ok((auction, bids))
}

fn report(auction: &Auction, bids: u64, out: &mut Vec<u8>) -> std::io::Result<()> {
    let matching = auction.matching();
    let rows = matching.iter().zip(&auction.gain).take(auction.arrived);
    for (bidder, (item, gain)) in rows.enumerate() {
        writeln!(out, "P\t{}\t{item}\t{gain}", bidder + 1)?;
    }
    for item in (0..auction.items).filter(|&i| !auction.is_gone(i)) {
        writeln!(out, "Y\t{}\t{}", item + 1, auction.least_price(item))?;
    }
    writeln!(out, "T\t{}\t{}\t{bids}", auction.weight(), auction.sum())?;
    writeln!(out, "E\t{}", greatest_weight(auction))
}

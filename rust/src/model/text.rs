//! The history text and the sheet program's output, bytes to bytes.

use super::auction::*;
use super::hungarian;
use super::refusal::*;
use crate::page;

pub const MAX_TEXT: usize = 65_536;
pub const MAX_DIGITS: usize = 7;

enum Line {
    Open(u64, Slack),
    Places(u64, u64),
    Arrive(Vec<Edge>),
    Withdraw(Vec<u64>),
}

/// What the program prints for this text.
pub fn sheet(text: &[u8]) -> Vec<u8> {
    let mut out = Vec::new();
    match replay(text) {
        Ok((auction, bids)) => report(&auction, bids, &mut out),
        Err(refusal) => put_line(&mut out, b'R', &[refusal.number, refusal.place]),
    }
    out
}

/// What the program prints for this text where a page is wanted: that of the board
/// it comes to, or its refusal as above.
pub fn page_of(text: &[u8]) -> Vec<u8> {
    let mut out = Vec::new();
    match replay(text) {
        Ok((auction, _)) => out = page::write(&page::rows(&auction)),
        Err(refusal) => put_line(&mut out, b'R', &[refusal.number, refusal.place]),
    }
    out
}

/// How far a text came: the auction, if one was opened, the bids in all, and
/// the refusal at its line, if there was one.
pub struct Replayed {
    pub auction: Option<Auction>,
    pub bids: u64,
    pub refusal: Option<Refusal>,
}

/// The auction at the text's end and all bids; else a refusal at its line.
pub fn replay(text: &[u8]) -> Result<(Auction, u64), Refusal> {
    match replay_as_far(text) {
        Replayed { auction: Some(auction), bids, refusal: None } => Ok((auction, bids)),
        Replayed { refusal, .. } => Err(refusal.expect("a text without auction is refused")),
    }
}

/// The replay up to the end or to the first line that is refused. A `P` line after which there
/// are too many places is told at line 1, but leaves the auction before it.
pub fn replay_as_far(text: &[u8]) -> Replayed {
    if text.len() > MAX_TEXT {
        return Replayed { auction: None, bids: 0, refusal: refuse::<()>(LONG, 0).err() };
    }
    let mut lines = text.split_inclusive(|&b| b == b'\n');
    let mut reached = match opening(lines.next().unwrap_or_default()) {
        Ok(auction) => Reached { auction, bids: 0, named: Some(0) },
        Err(met) => return refused_at(1, met, None),
    };
    for (index, line) in lines.enumerate() {
        if let Err(met) = reached.carry_out(line) {
            let line = if met == TOO_MANY { 1 } else { index as u64 + 2 };
            return refused_at(line, met, Some(reached));
        }
    }
    Replayed { auction: Some(reached.auction), bids: reached.bids, refusal: None }
}

fn refused_at(line: u64, met: Refusal, reached: Option<Reached>) -> Replayed {
    let bids = reached.as_ref().map_or(0, |reached| reached.bids);
    let auction = reached.map(|reached| reached.auction);
    Replayed { auction, bids, refusal: Some(Refusal { place: line, ..met }) }
}

/// "over 64 in all at place 0 (line 1 of a text, tested after each `P` line, unnamed kettles
/// counting one)".
const TOO_MANY: Refusal = Refusal { number: PLACES, place: 0 };

fn opening(line: &[u8]) -> Result<Auction, Refusal> {
    match parse(line) {
        Some(Line::Open(items, slack)) => Auction::open(items, slack),
        _ => refuse(LINE, 0),
    }
}

/// What the lines carried out so far come to.
struct Reached {
    auction: Auction,
    bids: u64,
    /// The item of the `P` line before, 0 for none, as long as one may stand here.
    named: Option<u64>,
}

impl Reached {
    fn carry_out(&mut self, line: &[u8]) -> Result<(), Refusal> {
        match (parse(line), self.named) {
            (Some(Line::Places(item, count)), Some(before)) => {
                return self.set_places(item, count, before)
            }
            (Some(Line::Arrive(edges)), _) => self.bids += self.auction.arrive(&edges)?,
            (Some(Line::Withdraw(items)), _) => self.bids += self.auction.withdraw(&items)?,
            _ => return refuse(LINE, 0),
        }
        self.named = None;
        Ok(())
    }

    /// "A `P` line's kettle can meet 4, then 7, before 16".
    fn set_places(&mut self, item: u64, count: u64, before: u64) -> Result<(), Refusal> {
        let mut counts = self.auction.counts();
        if item < 1 || item > counts.len() as u64 {
            return refuse(UNKNOWN, 1);
        }
        if item <= before {
            return refuse(ORDER, 1);
        }
        counts[item as usize - 1] = count;
        self.auction = Auction::open_places(counts.len() as u64, self.auction.slack, &counts)?;
        self.named = Some(item);
        Ok(())
    }
}

/// A line with its byte 10, if it has the form of one of the four records. A list of no
/// items "is badly formed as a line" (document 02, R-3).
fn parse(line: &[u8]) -> Option<Line> {
    let mut fields = line.strip_suffix(b"\n")?.split(|&b| b == b'\t');
    let letter = fields.next()?;
    let numbers = fields.map(number).collect::<Option<Vec<u64>>>()?;
    match (letter, numbers.as_slice()) {
        (b"K", &[items, p, q]) => Some(Line::Open(items, Slack { p, q })),
        (b"P", &[item, count]) => Some(Line::Places(item, count)),
        (b"W", items) if !items.is_empty() => Some(Line::Withdraw(items.to_vec())),
        (b"A", pairs) if pairs.len() % 2 == 0 => {
            let edge = |pair: &[u64]| Edge { item: pair[0], weight: pair[1] };
            Some(Line::Arrive(pairs.chunks(2).map(edge).collect()))
        }
        _ => None,
    }
}

/// 1 to 7 digits, without a leading zero but in 0 itself.
fn number(field: &[u8]) -> Option<u64> {
    let formed = (1..=MAX_DIGITS).contains(&field.len())
        && field.iter().all(u8::is_ascii_digit)
        && (field[0] != b'0' || field.len() == 1);
    formed.then(|| field.iter().fold(0, |n, &b| n * 10 + (b - b'0') as u64))
}

fn report(auction: &Auction, bids: u64, out: &mut Vec<u8>) {
    for (index, bidder) in auction.bidders.iter().enumerate() {
        put_line(out, b'P', &[index as u64 + 1, bidder.item(), bidder.gain]);
    }
    for (index, item) in auction.items.iter().enumerate() {
        if !item.withdrawn {
            put_line(out, b'Y', &[index as u64 + 1, item.price()]);
        }
    }
    put_line(out, b'T', &[auction.weight(), auction.sum(), bids]);
    let exact = hungarian::solve(&auction.live_weights(), &auction.counts());
    put_line(out, b'E', &[exact.weight]);
}

pub fn put_line(out: &mut Vec<u8>, letter: u8, numbers: &[u64]) {
    out.push(letter);
    for number in numbers {
        out.push(b'\t');
        out.extend_from_slice(number.to_string().as_bytes());
    }
    out.push(b'\n');
}

//! Whether a reader's answer is the right one, by what it means. A text is a page
//! where some rows within limits are written so. A line is the first bad one where
//! the lines before it begin some page, and together with it they begin none. That
//! lines begin a page is shown by such a page, written out; that they begin none, by
//! a line that no page has at its place. Neither asks the reader.

use super::{write, Row, UNPLACED};
use crate::laws::{require, Law};
use crate::model::auction::MAX_BIDDERS;
use crate::model::refusal::*;
use crate::model::text::MAX_TEXT;

/// The answer is right, or why it is not.
pub fn is_right(text: &[u8], answer: &Result<Vec<Row>, Refusal>) -> Law {
    let long = text.len() > MAX_TEXT;
    match answer {
        Ok(rows) => {
            require(!long, || "it is too long".into())?;
            require(is_within(rows), || "a row is not within limits".into())?;
            require(write(rows) == text, || "its rows are written otherwise".into())
        }
        Err(Refusal { number: LONG, place: 0 }) => require(long, || "it is not long".into()),
        Err(Refusal { number: LINE, place }) => {
            require(!long, || "it is too long".into())?;
            is_first_bad(text, *place as usize)
        }
        Err(refusal) => Err(format!("{refusal:?} is no answer of a reader")),
    }
}

fn is_within(rows: &[Row]) -> bool {
    rows.len() <= MAX_BIDDERS && rows.iter().all(|row| row.is_within())
}

/// "its first bad line (the one after the last, if it stops short)"
fn is_first_bad(text: &[u8], place: usize) -> Law {
    let lines: Vec<&[u8]> = text.split_inclusive(|&byte| byte == b'\n').collect();
    require((1..=lines.len() + 1).contains(&place), || format!("there is no line {place}"))?;
    let before = &lines[..place - 1];
    require(begin_a_page(before), || format!("no page found for the lines before {place}"))?;
    match lines.get(place - 1) {
        Some(line) => require(!can_stand(line, place), || format!("line {place} can stand there")),
        None => require(stops_short(text), || "it does not stop short".into()),
    }
}

/// What the lines hold, as far as it can be guessed, written out: with no further
/// row, and with one.
fn begin_a_page(lines: &[&[u8]]) -> bool {
    let guessed: Option<Vec<Row>> =
        lines.iter().filter(|line| !line.contains(&b'B')).map(|line| guess(line)).collect();
    let Some(rows) = guessed else {
        return false;
    };
    let further = [&rows[..], &[UNPLACED]].concat();
    let closed = lines.iter().all(|line| line.ends_with(b"\n"));
    let begins = |rows: &[Row]| is_within(rows) && write(rows).starts_with(&lines.concat());
    closed && (begins(&rows) || begins(&further))
}

/// Whatever looks like the four fields of a line, wherever they stand.
fn guess(line: &[u8]) -> Option<Row> {
    let text = String::from_utf8_lossy(line).replace("--", "0");
    let mut numbers = text.split_whitespace().skip(1).map(|word| word.parse().ok());
    Some(Row { item: numbers.next()??, weight: numbers.next()??, gain: numbers.next()?? })
}

/// A page is the heading alone, or ends with a bidder's line.
fn stops_short(text: &[u8]) -> bool {
    text.is_empty() || text.ends_with(b"\x0cBAT KT   WORTH       GAIN\n")
}

/// Whether some page has this line at this place. Four headings and 128 bidders make
/// 132 lines.
fn can_stand(line: &[u8], place: usize) -> bool {
    let bidder = match place {
        1 => return line == b"BAT KT   WORTH       GAIN\n",
        42 | 83 | 124 => return line == b"\x0cBAT KT   WORTH       GAIN\n",
        2..=41 => place - 1,
        43..=82 => place - 2,
        84..=123 => place - 3,
        125..=132 => place - 4,
        _ => return false,
    };
    match line.strip_prefix(format!("{bidder:>3} ").as_bytes()) {
        Some(b"--       0          0\n") => true,
        Some(rest) => is_placed(rest),
        None => false,
    }
}

/// Item, weight and gain of a placed bidder. Each is compared with its limits as it
/// stands: of numbers in equally many columns, the greater is the later in the order
/// of bytes, as a blank comes before the digits.
fn is_placed(rest: &[u8]) -> bool {
    let &[i1, i2, b' ', w1, w2, w3, w4, w5, w6, w7, b' ', ref gain @ .., b'\n'] = rest else {
        return false;
    };
    let weight = [w1, w2, w3, w4, w5, w6, w7];
    is_between(&[i1, i2], b" 1", b"64")
        && is_between(&weight, b"      1", b"1000000")
        && is_between(gain, b"         0", b"2000000000")
}

/// Blanks, then digits, the first of them not 0 unless it is the last.
fn is_between(field: &[u8], least: &[u8], most: &[u8]) -> bool {
    let first = field.iter().position(|&byte| byte != b' ').unwrap_or(field.len());
    let digits = &field[first..];
    let formed = digits.iter().all(|byte| (b'0'..=b'9').contains(byte));
    let leading = digits.len() > 1 && digits[0] == b'0';
    formed && !leading && field.len() == least.len() && least <= field && field <= most
}

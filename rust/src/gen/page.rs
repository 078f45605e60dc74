//! Pages: of rows that no board need have, and damaged ones.

use crate::model::auction::{MAX_ITEMS, MAX_WEIGHT};
use crate::page::{Row, MAX_GAIN, UNPLACED};
use crate::rng::Rng;

/// Rows within limits: any item any number of times, numbers of every length.
pub fn rows(rng: &mut Rng, count: usize) -> Vec<Row> {
    let unplaced = rng.pick(&[0, 1, 3]);
    let mut row = || match rng.chance(unplaced, 4) {
        true => UNPLACED,
        false => Row {
            item: rng.range(1, MAX_ITEMS as u64),
            weight: up_to(rng, MAX_WEIGHT).max(1),
            gain: up_to(rng, MAX_GAIN),
        },
    };
    (0..count).map(|_| row()).collect()
}

/// A number of any length, often one next to a power of ten or the greatest.
fn up_to(rng: &mut Rng, most: u64) -> u64 {
    let power = 10_u64.pow(rng.below(10) as u32).min(most);
    match rng.below(6) {
        0 => most,
        1 => power,
        2 => power - 1,
        _ => rng.range(0, power),
    }
}

/// The lines of a text, each with its byte 10.
pub fn lines(text: &[u8]) -> Vec<Vec<u8>> {
    text.split_inclusive(|&byte| byte == b'\n').map(<[u8]>::to_vec).collect()
}

/// Bytes that stand in pages, and some that do not.
pub const BYTES: &[u8] = b"  0123456789--\n\n\x0c\x0cBATKWORHGIN\r\t\0\x0bbx+.,\x7f\x80\xff";

/// Where a field begins, and what is put there; some of it may stand there.
const FIELDS: [(usize, &str); 4] = [
    (0, "  1|  2|001|1  | 1 | 01|  0|128|129| 40| 41|   "),
    (4, "--| 1|64|65|00| 0|01|1 |- | -|-1|  |-0|99"),
    (7, "1000000|1000001|      0|      1|1      |0000001|9999999|     -1|     --|       |   1 23"),
    (15, "2000000000|2000000001|1999999999|         0|         1|        01|0000000000|9999999999"),
];

/// One damage, or two; the text may be a page all the same.
pub fn damage(rng: &mut Rng, page: &[u8]) -> Vec<u8> {
    let mut text = page.to_vec();
    for _ in 0..rng.pick(&[1, 1, 1, 2]) {
        match rng.below(8) {
            0 | 1 => change_byte(rng, &mut text),
            2 => change_lines(rng, &mut text),
            3 => change_ends(rng, &mut text),
            4 => text.truncate(rng.index(text.len() + 1)),
            _ => change_field(rng, &mut text),
        }
    }
    text
}

/// A byte changed, dropped or added.
fn change_byte(rng: &mut Rng, text: &mut Vec<u8>) {
    let (at, byte) = (rng.index(text.len() + 1), rng.pick(BYTES));
    match rng.below(4) {
        0 => text.insert(at, byte),
        _ if at == text.len() => text.push(byte),
        1 => drop(text.remove(at)),
        2 => text[at] ^= 1 << rng.below(8),
        _ => text[at] = byte,
    }
}

/// Two lines swapped, one doubled, left out, or moved to the end.
fn change_lines(rng: &mut Rng, text: &mut Vec<u8>) {
    let mut lines = lines(text);
    if lines.is_empty() {
        return;
    }
    let (at, other) = (rng.index(lines.len()), rng.index(lines.len()));
    match rng.below(4) {
        0 => lines.swap(at, other),
        1 => lines.insert(at, lines[other].clone()),
        2 => drop(lines.remove(at)),
        _ => {
            let line = lines.remove(at);
            lines.push(line);
        }
    }
    *text = lines.concat();
}

/// Other line ends, of a line or of all; a form feed before a line, or none anywhere.
fn change_ends(rng: &mut Rng, text: &mut Vec<u8>) {
    let mut lines = lines(text);
    if lines.is_empty() {
        return;
    }
    let at = rng.index(lines.len());
    let windows = |line: &mut Vec<u8>| line.insert(line.len() - 1, b'\r');
    match rng.below(4) {
        0 => windows(&mut lines[at]),
        1 => lines.iter_mut().for_each(windows),
        2 => lines[at].insert(0, 12),
        _ => lines.iter_mut().for_each(|line| line.retain(|&byte| byte != 12)),
    }
    *text = lines.concat();
}

/// Another field in the place of one that stands there.
fn change_field(rng: &mut Rng, text: &mut Vec<u8>) {
    let mut lines = lines(text);
    let at = rng.index(lines.len().max(1));
    let (from, fields) = rng.pick(&FIELDS);
    let field = rng.pick(&fields.split('|').collect::<Vec<&str>>());
    let columns = lines.get_mut(at).and_then(|line| line.get_mut(from..from + field.len()));
    if let Some(columns) = columns {
        columns.copy_from_slice(field.as_bytes());
    }
    *text = lines.concat();
}

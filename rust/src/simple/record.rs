//! One line of a text.

const MAX_DIGITS: usize = 7;

/// An edge of a bidder: an item, from 1, and a weight.
#[derive(Clone, Debug)]
pub struct Edge {
    pub item: usize,
    pub weight: i64,
}

pub enum Record {
    Open { items: usize, p: i64, q: i64 },
    Places { item: usize, count: usize },
    Arrive(Vec<Edge>),
    Withdraw(Vec<usize>),
}

impl Record {
    /// The record of a line with its byte 10, if it has the form of one.
    pub fn parse(line: &[u8]) -> Option<Record> {
        let line = std::str::from_utf8(line).ok()?.strip_suffix('\n')?;
        let mut fields = line.split('\t');
        let letter = fields.next()?;
        let numbers: Vec<usize> = fields.map(number).collect::<Option<_>>()?;
        match (letter, numbers.as_slice()) {
            ("K", &[items, p, q]) => Some(Record::Open { items, p: p as i64, q: q as i64 }),
            ("P", &[item, count]) => Some(Record::Places { item, count }),
            ("A", pairs) if pairs.len() % 2 == 0 => {
                let edge = |pair: &[usize]| Edge { item: pair[0], weight: pair[1] as i64 };
                Some(Record::Arrive(pairs.chunks(2).map(edge).collect()))
            }
            ("W", [_, ..]) => Some(Record::Withdraw(numbers)),
            _ => None,
        }
    }
}

/// 1 to 7 digits, no leading zero but in 0 itself.
fn number(field: &str) -> Option<usize> {
    let digits = field.bytes().all(|byte| byte.is_ascii_digit());
    let leading = field.len() > 1 && field.starts_with('0');
    if !digits || leading || field.len() > MAX_DIGITS {
        return None;
    }
    field.parse().ok()
}

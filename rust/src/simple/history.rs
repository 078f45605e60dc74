//! A text, line by line: each is tested and carried out before the next.

use super::board::{Board, MAX_ITEMS, MAX_PLACES};
use super::record::Record;

pub const MAX_TEXT: usize = 65_536;
const MAX_Q: i64 = 1_000;
const MAX_COUNT: usize = 8;

pub struct Refusal {
    pub number: u32,
    pub line: usize,
}

fn refused<T>(number: u32, line: usize) -> Result<T, Refusal> {
    Err(Refusal { number, line })
}

/// The board at the text's end and the bids in all.
pub fn replay(text: &[u8]) -> Result<(Board, u64), Refusal> {
    if text.len() > MAX_TEXT {
        return refused(15, 0);
    }
    let records = text.split_inclusive(|&byte| byte == b'\n').map(Record::parse);
    let mut lines = (1..).zip(records).peekable();
    let Some((_, Some(Record::Open { items, p, q }))) = lines.next() else {
        return refused(14, 1);
    };
    check_opening(items, p, q)?;
    let mut counts = vec![1; items];
    let mut before = 0;
    while let Some(&(line, Some(Record::Places { item, count }))) = lines.peek() {
        check_places(items, before, item, count, line)?;
        counts[item - 1] = count;
        if counts.iter().sum::<usize>() > MAX_PLACES {
            return refused(16, 1);
        }
        before = item;
        lines.next();
    }
    let mut board = Board::new(&counts, p, q);
    let mut bids = 0;
    for (line, record) in lines {
        let made = match record {
            Some(Record::Arrive(edges)) => board.arrive(edges),
            Some(Record::Withdraw(items)) => board.withdraw(&items),
            _ => Err(14),
        };
        bids += made.map_err(|number| Refusal { number, line })?;
    }
    Ok((board, bids))
}

fn check_opening(items: usize, p: i64, q: i64) -> Result<(), Refusal> {
    if !(1..=MAX_ITEMS).contains(&items) {
        return refused(1, 1);
    }
    if p < 1 || p >= q || q > MAX_Q {
        return refused(2, 1);
    }
    Ok(())
}

/// A `P` line; the item of the one before is `before`, 0 for none.
fn check_places(
    items: usize,
    before: usize,
    item: usize,
    count: usize,
    line: usize,
) -> Result<(), Refusal> {
    if !(1..=items).contains(&item) {
        return refused(4, line);
    }
    if item <= before {
        return refused(7, line);
    }
    if !(1..=MAX_COUNT).contains(&count) {
        return refused(16, line);
    }
    Ok(())
}

//! The calls of R-2 on both sides: a page written, read, and printed of a text.

use super::{equal, fit, marked, page, page_with, shown, told, Both, Lists, Same, Tally};
use crate::ffi;
use crate::model::auction::MAX_ITEMS;
use crate::model::calls::{read_page, write_page_record};
use crate::model::refusal::Refusal;
use crate::page::{judge, read};
use std::hint::black_box;

impl Both<'_> {
    /// The board's page in a list of so many cells.
    pub fn write_page(&mut self, room: usize) -> Same<Result<Vec<u8>, Refusal>> {
        let (mut ours, mut theirs) = (page(room), page(room));
        let answer = ffi::write_page(self.ours, &mut ours);
        let expected = write_page_record(&self.model, &mut theirs);
        self.seen.note("write page", &expected);
        equal("write page", answer, told(expected))?;
        equal("write page, the list", &ours, &theirs)?;
        Ok(expected.map(|bytes| ours[..bytes as usize].to_vec()))
    }
}

/// A text read as a page into lists of these lengths. The model's answer is one that
/// the judge finds right.
pub fn equal_reads(
    text: &[u8],
    rooms: [usize; 3],
    seen: &mut Tally,
) -> Same<Result<Lists, Refusal>> {
    judge::is_right(text, &read(text)).map_err(|why| format!("the model's reader: {why}"))?;
    let lent = text.to_vec();
    let (mut ours, mut theirs) = (marked(rooms), marked(rooms));
    let [m, w, g] = &mut ours;
    let answer = ffi::read_page(&lent, m, w, g);
    let [m, w, g] = &mut theirs;
    let expected = read_page(text, m, w, g);
    seen.note("read page", &expected);
    equal("read page", answer, told(expected))?;
    equal("read page, the lists", &ours, &theirs)?;
    let kept = expected.is_ok() || ours == marked(rooms);
    equal("read page, the lists of a refusal kept", kept, true)?;
    equal("read page, the text kept", &black_box(lent)[..], text)?;
    Ok(expected.map(|_| ours))
}

/// The same, but how many bidders were read: so many cells of the first list were
/// written. The two sides must agree.
pub fn read_count(text: &[u8], rooms: [usize; 3], seen: &mut Tally) -> Result<usize, Refusal> {
    let answer = equal_reads(text, rooms, seen);
    let answer = answer.unwrap_or_else(|found| panic!("{found}\n{:?}", shown(text)));
    answer.map(|[plan, ..]| plan.iter().filter(|&&cell| cell <= MAX_ITEMS as u64).count())
}

/// What the program prints as a page of a text, in a list of so many cells.
pub fn equal_page_texts(text: &[u8], printed: &[u8], room: usize, seen: &mut Tally) -> Same<()> {
    let expected = fit(printed, room);
    seen.note("page of a text", &expected);
    let mut out = page(room);
    let answer = ffi::page_text(text, &mut out);
    equal("page of a text", answer, told(expected))?;
    equal("page of a text, the list", out, page_with(printed, room, expected))
}

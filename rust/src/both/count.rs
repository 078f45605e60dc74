//! The slow count on both sides (document 02, R-9).

use super::{equal, told, Both, Same};
use crate::every_list;
use crate::ffi::{self, Told};
use crate::gen::plan::Ground;
use crate::model::auction::{MAX_BIDDERS, MAX_ITEMS};
use crate::model::calls::count_record;
use crate::model::refusal::Refusal;
use std::hint::black_box;

/// What the exact level tells of a board, without its lists.
pub fn exact_told(board: ffi::Board) -> Told {
    let (mut plan, mut prices, mut gains) = ([0; MAX_BIDDERS], [0; MAX_ITEMS], [0; MAX_BIDDERS]);
    ffi::exact(board, &mut plan, &mut prices, &mut gains)
}

impl Both<'_> {
    /// The board that was handed in is kept.
    pub fn count(&mut self) -> Same<Result<u64, Refusal>> {
        let lent = self.ours;
        let answer = ffi::count(lent);
        equal("count, the board kept", black_box(lent) == self.ours, true)?;
        let expected = count_record(&self.model);
        self.seen.note("count", &expected);
        equal("count", answer, told(expected))?;
        Ok(expected)
    }

    /// The count of a board that is not refused: it is every list's too, and "equal to the
    /// exact level's".
    pub fn counted(&mut self) -> Same<u64> {
        let value = self.count()?.map_err(|refusal| format!("count: {refusal:?}"))?;
        let greatest = every_list::greatest(&Ground::of(&self.model));
        equal("count, by every list", value, greatest)?;
        equal("count, the exact level", exact_told(self.ours), told(Ok(value)))?;
        Ok(value)
    }
}

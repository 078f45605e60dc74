//! Two plans compared on both sides (document 02, R-4).

use super::{equal, marked, told, Both, Same};
use crate::ffi::{self, Told};
use crate::model::calls::compare_record;
use crate::model::compare::Comparison;
use crate::model::refusal::Refusal;
use std::cmp::Ordering;
use std::hint::black_box;

/// Cells on either side of a plan that is lent.
const BESIDE: usize = 3;

/// A plan among marks, so that a cell read or written beside it is noticed.
fn among_marks(plan: &[u64]) -> Vec<u64> {
    let [before, after, _] = marked([BESIDE, BESIDE, 0]);
    [&before, plan, &after].concat()
}

fn within(list: &[u64]) -> &[u64] {
    &list[BESIDE..list.len() - BESIDE]
}

/// The numbers of an answer: a served call has number and place 0, a refused one
/// difference and order 0.
pub fn comparison(answer: Result<Comparison, Refusal>) -> ffi::Comparison {
    let Told { number, place, .. } = told(answer.map(|_| 0));
    let (difference, order) = answer.map_or((0, 0), |it| (it.difference, order_of(it.order)));
    ffi::Comparison { number, place, difference, order }
}

pub fn order_of(order: Ordering) -> u64 {
    match order {
        Ordering::Less => ffi::EARLIER,
        Ordering::Equal => ffi::SAME,
        Ordering::Greater => ffi::LATER,
    }
}

impl Both<'_> {
    pub fn compare(&mut self, first: &[u64], second: &[u64]) -> Same<Result<Comparison, Refusal>> {
        let lent = [first, second].map(among_marks);
        let answer = ffi::compare(self.ours, within(&lent[0]), within(&lent[1]));
        equal("compare, the lists kept", black_box(lent), [first, second].map(among_marks))?;
        let expected = compare_record(&self.model, first, second);
        self.seen.note("compare", &expected);
        equal("compare", answer, comparison(expected))?;
        Ok(expected)
    }
}

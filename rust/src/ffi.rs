//! The proved calls, from the static library.
//!
//! Records and declarations stand here as the crate `exports` has them: nothing
//! checks the one against the other. A slice crosses as a pointer and a length.
//! No call asks anything of its caller, so each wrapper is safe for all it takes.

use std::mem::{offset_of, size_of};
use std::ops::Range;

pub const MAX_ITEMS: usize = 64;
/// Of all items.
pub const MAX_PLACES: usize = 64;
pub const MAX_BIDDERS: usize = 128;
pub const MAX_CELLS: usize = MAX_PLACES * MAX_BIDDERS;
/// One more edge than there are items.
pub const MAX_EDGES: usize = MAX_ITEMS + 1;
/// No output of a text is longer.
pub const MAX_OUTPUT: usize = 12_610;
/// No page is longer: a line of 26 bytes for each bidder, a heading of as many, and
/// three headings after a form feed.
pub const MAX_PAGE: usize = 3_435;
/// Where the first of two plans stands beside the second.
pub const EARLIER: u64 = 1;
pub const SAME: u64 = 2;
pub const LATER: u64 = 3;

/// q-ths of a penny.
#[repr(C)]
#[derive(Clone, Copy, Debug, PartialEq, Eq)]
pub struct Scaled(pub u64);

#[repr(C)]
#[derive(Clone, Copy, Debug, PartialEq, Eq)]
pub struct Slack {
    pub p: u64,
    pub q: u64,
}

#[repr(C)]
#[derive(Clone, Copy, Debug, PartialEq, Eq)]
pub struct Edge {
    pub item: u64,
    pub weight: u64,
}

#[repr(C)]
#[derive(Clone, Copy, Debug, PartialEq, Eq)]
pub struct EdgeBuffer {
    pub items: [u64; MAX_EDGES],
    pub weights: [u64; MAX_EDGES],
    pub count: u64,
}

/// How many items there are, and how many places each has.
#[repr(C)]
#[derive(Clone, Copy, Debug, PartialEq, Eq)]
pub struct Items {
    pub count: u64,
    pub places: [u8; MAX_ITEMS],
}

/// Places are numbered through in item order, those of an item side by side.
#[repr(C)]
#[derive(Clone, Copy, Debug, PartialEq, Eq)]
pub struct Board {
    pub items: Items,
    /// How many places there are in all.
    pub places: u64,
    pub slack: Slack,
    pub arrived: u64,
    /// 1 for a place of an item that is withdrawn, 0 for one of an item that is not.
    pub withdrawn: [u8; MAX_PLACES],
    pub price: [Scaled; MAX_PLACES],
    /// The number of the bidder that holds each place, 0 where nobody does.
    pub holder: [u8; MAX_PLACES],
    pub gain: [Scaled; MAX_BIDDERS],
    /// Bidder i + 1's edge at place k + 1 is cell 64 × i + k, 0 where there is none.
    pub weights: [u32; MAX_CELLS],
}

/// Number 0 says that the call served; any other is the refusal's.
#[repr(C)]
#[derive(Clone, Copy, Debug, PartialEq, Eq)]
pub struct Told {
    pub number: u64,
    pub place: u64,
    pub value: u64,
}

/// The same beside a board.
#[repr(C)]
#[derive(Clone, Copy, Debug, PartialEq, Eq)]
pub struct Answer {
    pub board: Board,
    pub number: u64,
    pub place: u64,
    pub value: u64,
}

/// The check's answer: the matching's weight, and the sum of gains and of prices, an item's
/// once per place.
#[repr(C)]
#[derive(Clone, Copy, Debug, PartialEq, Eq)]
pub struct Totals {
    pub number: u64,
    pub place: u64,
    pub weight: u64,
    pub total: u64,
}

/// The answer of a comparison: the first plan's weight less the second's, and where the
/// first stands.
#[repr(C)]
#[derive(Clone, Copy, Debug, PartialEq, Eq)]
pub struct Comparison {
    pub number: u64,
    pub place: u64,
    pub difference: i64,
    pub order: u64,
}

/// The sizes that include/noughtelm.h asserts.
const _: () = assert!(size_of::<Items>() == 72);
const _: () = assert!(size_of::<Board>() == 34_536);
const _: () = assert!(size_of::<Answer>() == 34_560);
const _: () = assert!(offset_of!(Board, places) == 72);
const _: () = assert!(offset_of!(Board, price) == 168);
const _: () = assert!(offset_of!(Board, weights) == 1_768);

impl EdgeBuffer {
    /// The first 65 edges, and how many there are in all.
    pub fn new(edges: &[Edge]) -> Self {
        let mut buffer = EdgeBuffer {
            items: [0; MAX_EDGES],
            weights: [0; MAX_EDGES],
            count: edges.len() as u64,
        };
        for (i, edge) in edges.iter().take(MAX_EDGES).enumerate() {
            buffer.items[i] = edge.item;
            buffer.weights[i] = edge.weight;
        }
        buffer
    }
}

impl Board {
    /// The places of an item, from 0, where the counts add up to the places.
    pub fn places_of(&self, item: usize) -> Range<usize> {
        let before: usize = self.items.places[..item].iter().map(|&count| count as usize).sum();
        before..before + self.items.places[item] as usize
    }
}

impl Answer {
    /// The answer without its board.
    pub fn told(&self) -> Told {
        Told { number: self.number, place: self.place, value: self.value }
    }
}

mod raw {
    use super::{Answer, Board, Comparison, Edge, EdgeBuffer, Told, Totals};

    extern "C" {
        pub fn noughtelm_open(
            items: u64,
            p: u64,
            q: u64,
            counts: *const u64,
            counts_len: usize,
        ) -> Answer;
        pub fn noughtelm_arrive(board: Board, edges: *const Edge, len: usize) -> Answer;
        pub fn noughtelm_arrive_buffer(board: Board, buffer: EdgeBuffer) -> Answer;
        pub fn noughtelm_withdraw(board: Board, items: *const u64, len: usize) -> Answer;
        pub fn noughtelm_is_sound(board: Board) -> bool;
        pub fn noughtelm_read_out(
            board: Board,
            plan: *mut u64,
            plan_len: usize,
            prices: *mut u64,
            prices_len: usize,
            gains: *mut u64,
            gains_len: usize,
        ) -> Told;
        pub fn noughtelm_exact(
            board: Board,
            plan: *mut u64,
            plan_len: usize,
            prices: *mut u64,
            prices_len: usize,
            gains: *mut u64,
            gains_len: usize,
        ) -> Told;
        pub fn noughtelm_count(board: Board) -> Told;
        pub fn noughtelm_check(
            board: Board,
            plan: *const u64,
            plan_len: usize,
            prices: *const u64,
            prices_len: usize,
            gains: *const u64,
            gains_len: usize,
            p: u64,
            q: u64,
        ) -> Totals;
        pub fn noughtelm_compare(
            board: Board,
            first: *const u64,
            first_len: usize,
            second: *const u64,
            second_len: usize,
        ) -> Comparison;
        pub fn noughtelm_replay(text: *const u8, len: usize) -> Answer;
        pub fn noughtelm_plan_text(
            text: *const u8,
            len: usize,
            out: *mut u8,
            out_len: usize,
        ) -> Told;
        pub fn noughtelm_refusal_line(number: u64, line: u64, out: *mut u8, out_len: usize)
            -> Told;
        pub fn noughtelm_sheet_text(
            text: *const u8,
            len: usize,
            out: *mut u8,
            out_len: usize,
        ) -> Told;
        pub fn noughtelm_write_page(board: Board, page: *mut u8, page_len: usize) -> Told;
        pub fn noughtelm_read_page(
            text: *const u8,
            len: usize,
            plan: *mut u64,
            plan_len: usize,
            weights: *mut u64,
            weights_len: usize,
            gains: *mut u64,
            gains_len: usize,
        ) -> Told;
        pub fn noughtelm_page_text(
            text: *const u8,
            len: usize,
            out: *mut u8,
            out_len: usize,
        ) -> Told;
    }
}

/// Opens a board of items with one place each.
pub fn open(items: u64, p: u64, q: u64) -> Answer {
    open_places(items, p, q, &[1; MAX_ITEMS][..items.min(MAX_ITEMS as u64) as usize])
}

/// Opens a board of items with so many places each.
pub fn open_places(items: u64, p: u64, q: u64, counts: &[u64]) -> Answer {
    unsafe { raw::noughtelm_open(items, p, q, counts.as_ptr(), counts.len()) }
}

/// A new bidder arrives with a list of edges of any length; the value is the number of bids.
pub fn arrive(board: Board, edges: &[Edge]) -> Answer {
    unsafe { raw::noughtelm_arrive(board, edges.as_ptr(), edges.len()) }
}

/// A new bidder arrives with the edges of a buffer; the value is the number of bids.
pub fn arrive_buffer(board: Board, buffer: EdgeBuffer) -> Answer {
    unsafe { raw::noughtelm_arrive_buffer(board, buffer) }
}

/// A list of items of any length is withdrawn; the value is the number of bids.
pub fn withdraw(board: Board, items: &[u64]) -> Answer {
    unsafe { raw::noughtelm_withdraw(board, items.as_ptr(), items.len()) }
}

/// Whether a board is sound.
pub fn is_sound(board: Board) -> bool {
    unsafe { raw::noughtelm_is_sound(board) }
}

/// Writes the matching, the prices, an item's least, and the gains.
pub fn read_out(board: Board, plan: &mut [u64], prices: &mut [u64], gains: &mut [u64]) -> Told {
    unsafe {
        raw::noughtelm_read_out(
            board,
            plan.as_mut_ptr(),
            plan.len(),
            prices.as_mut_ptr(),
            prices.len(),
            gains.as_mut_ptr(),
            gains.len(),
        )
    }
}

/// Writes an exact matching, prices and gains; the value is the greatest weight.
pub fn exact(board: Board, plan: &mut [u64], prices: &mut [u64], gains: &mut [u64]) -> Told {
    unsafe {
        raw::noughtelm_exact(
            board,
            plan.as_mut_ptr(),
            plan.len(),
            prices.as_mut_ptr(),
            prices.len(),
            gains.as_mut_ptr(),
            gains.len(),
        )
    }
}

/// The slow count, on boards of up to 6 bidders and 6 places; the value is the greatest weight.
pub fn count(board: Board) -> Told {
    unsafe { raw::noughtelm_count(board) }
}

/// Checks a matching, prices and gains at a slack p/q.
pub fn check(board: Board, plan: &[u64], prices: &[u64], gains: &[u64], p: u64, q: u64) -> Totals {
    unsafe {
        raw::noughtelm_check(
            board,
            plan.as_ptr(),
            plan.len(),
            prices.as_ptr(),
            prices.len(),
            gains.as_ptr(),
            gains.len(),
            p,
            q,
        )
    }
}

/// Compares two plans.
pub fn compare(board: Board, first: &[u64], second: &[u64]) -> Comparison {
    unsafe {
        raw::noughtelm_compare(board, first.as_ptr(), first.len(), second.as_ptr(), second.len())
    }
}

/// Replays a text; the place is the refused line, the value the bids in all.
pub fn replay(text: &[u8]) -> Answer {
    unsafe { raw::noughtelm_replay(text.as_ptr(), text.len()) }
}

/// Replays a text and writes its plan; the place is the refused line, the value the bytes.
pub fn plan_text(text: &[u8], out: &mut [u8]) -> Told {
    unsafe { raw::noughtelm_plan_text(text.as_ptr(), text.len(), out.as_mut_ptr(), out.len()) }
}

/// Writes the line that a refused text prints; the value is the bytes.
pub fn refusal_line(number: u64, line: u64, out: &mut [u8]) -> Told {
    unsafe { raw::noughtelm_refusal_line(number, line, out.as_mut_ptr(), out.len()) }
}

/// Writes what the program prints, a plan or a refusal; the value is the bytes.
pub fn sheet_text(text: &[u8], out: &mut [u8]) -> Told {
    unsafe { raw::noughtelm_sheet_text(text.as_ptr(), text.len(), out.as_mut_ptr(), out.len()) }
}

/// Writes the board's page; the value is the bytes.
pub fn write_page(board: Board, page: &mut [u8]) -> Told {
    unsafe { raw::noughtelm_write_page(board, page.as_mut_ptr(), page.len()) }
}

/// Reads a page and writes its matching, weights and gains; the place is the bad line,
/// the value the bidders.
pub fn read_page(text: &[u8], plan: &mut [u64], weights: &mut [u64], gains: &mut [u64]) -> Told {
    unsafe {
        raw::noughtelm_read_page(
            text.as_ptr(),
            text.len(),
            plan.as_mut_ptr(),
            plan.len(),
            weights.as_mut_ptr(),
            weights.len(),
            gains.as_mut_ptr(),
            gains.len(),
        )
    }
}

/// Replays a text and writes its page, or the line of its refusal; the value is the bytes.
pub fn page_text(text: &[u8], out: &mut [u8]) -> Told {
    unsafe { raw::noughtelm_page_text(text.as_ptr(), text.len(), out.as_mut_ptr(), out.len()) }
}

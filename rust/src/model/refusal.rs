//! Refusals, by the words of document 01's table and of in document 02.

#[derive(Clone, Copy, Debug, PartialEq, Eq)]
pub struct Refusal {
    pub number: u64,
    pub place: u64,
}

pub const COUNT: u64 = 1;
pub const SLACK: u64 = 2;
pub const FULL: u64 = 3;
pub const UNKNOWN: u64 = 4;
pub const GONE: u64 = 5;
pub const WORTH: u64 = 6;
pub const ORDER: u64 = 7;
pub const SHORT: u64 = 8;
pub const UNEVEN: u64 = 9;
pub const CLASH: u64 = 10;
pub const PRICE: u64 = 11;
pub const BARE: u64 = 12;
pub const SPOILT: u64 = 13;
pub const LINE: u64 = 14;
pub const LONG: u64 = 15;
pub const PLACES: u64 = 16;
pub const LARGE: u64 = 17;

pub fn refuse<T>(number: u64, place: u64) -> Result<T, Refusal> {
    Err(Refusal { number, place })
}

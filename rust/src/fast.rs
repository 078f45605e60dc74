//! A plain Rust program for the history text: fixed arrays, changed in place.
//! It is the yardstick for speed, and must print what the model prints.

pub mod auction;
pub mod exact;
pub mod text;

//! A second implementation of document 01 and of of document 02, for
//! comparison with the proved one.
//!
//! `model` says what every call answers, simply and slowly; `page` writes and
//! reads the page of R-2; `fast` is a plain Rust program for the same text, the
//! yardstick for speed; `simple` is a straightforward one, the yardstick of R-10; `gen` makes cases; `ffi` calls the proved one; `both` calls
//! the proved one and the model and compares; `laws` are those of every sound
//! board; `ties` bids one by one and counts what stood equal; `orders` withdraws
//! so, in R-3's order and in others; `raises` is what such a bid comes to, as R-7 has it
//! and otherwise; `wars` are histories on which bids are counted, before R-7 and since;
//! `plans` says what R-4 asks of two plans otherwise than the model; `slides` bids in the
//! steps of R-5; `before` is the auction without the places of R-6; `every_list` finds what
//! R-9 counts otherwise than the model, and `miscounts` are counts that R-9 does not mean;
//! `program` runs the built program; `trial` runs the command ./plan.

pub mod before;
pub mod both;
pub mod every_list;
pub mod fast;
pub mod ffi;
pub mod gen;
pub mod laws;
pub mod miscounts;
pub mod model;
pub mod orders;
pub mod page;
pub mod plans;
pub mod program;
pub mod raises;
pub mod rng;
pub mod simple;
pub mod slides;
pub mod ties;
pub mod trial;
pub mod wars;

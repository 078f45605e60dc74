//! Makers of cases: counts of places, histories, texts, sound and spoilt records, claims,
//! pages, plans, sheets of small weights, boards for the slow count.

pub mod board;
pub mod claim;
pub mod counted;
pub mod history;
pub mod items;
pub mod list;
pub mod page;
pub mod places;
pub mod plan;
pub mod sheet;
pub mod small;
pub mod text;

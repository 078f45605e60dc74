//! The history text in straightforward Rust, as the documents tell it and without a thought of
//! speed: lists of structs, lines split at tabs, a bid that looks at every edge, the Hungarian
//! method as textbooks have it. R-10 of document 02 measures the program by this one.

pub mod board;
pub mod exact;
pub mod history;
pub mod print;
pub mod record;

/// What the program prints for this text.
pub fn sheet(text: &[u8]) -> String {
    match history::replay(text) {
        Ok((board, bids)) => print::plan(&board, bids),
        Err(refusal) => format!("R\t{}\t{}\n", refusal.number, refusal.line),
    }
}

//! The straightforward Rust program: a history text from standard input to its sheet.

use noughtelm_tests::simple::{history::MAX_TEXT, sheet};
use std::io::{self, Read, Write};

fn main() -> io::Result<()> {
    let mut text = Vec::new();
    // One byte more than is allowed tells a text that is too long.
    io::stdin().take(MAX_TEXT as u64 + 1).read_to_end(&mut text)?;
    io::stdout().write_all(sheet(&text).as_bytes())
}

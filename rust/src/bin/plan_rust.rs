//! The plain Rust program: a history text from standard input to its sheet.

use noughtelm_tests::fast::text::{sheet, MAX_TEXT};
use std::io::{self, Read, Write};

fn main() -> io::Result<()> {
    // One byte more than is allowed tells a text that is too long.
    let limit = MAX_TEXT + 1;
    let mut text = Vec::with_capacity(limit);
    io::stdin().lock().take(limit as u64).read_to_end(&mut text)?;
    io::stdout().lock().write_all(&sheet(&text))
}

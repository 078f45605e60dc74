//! Prints the dense text: 64 items, 128 bidders with every edge, slack 1/100. With the
//! argument `places`: 16 items of 4 places each. With two numbers: so many bidders and items.

use noughtelm_tests::gen::text::{dense, dense_of, dense_places};
use std::env;
use std::io::{self, Write};
use std::process::exit;

/// The text that these arguments ask for.
fn asked(arguments: &[String]) -> Option<Vec<u8>> {
    match arguments {
        [] => Some(dense()),
        [word] if word == "places" => Some(dense_places()),
        [bidders, items] => {
            let bidders = bidders.parse().ok().filter(|&n| n <= 128)?;
            let items = items.parse().ok().filter(|n| (1..=64).contains(n))?;
            Some(dense_of(bidders, items))
        }
        _ => None,
    }
}

fn main() -> io::Result<()> {
    let arguments: Vec<String> = env::args().skip(1).collect();
    let Some(text) = asked(&arguments) else {
        eprintln!("dense_text: no argument, or `places`, or BIDDERS ITEMS");
        exit(2);
    };
    io::stdout().lock().write_all(&text)
}

//! The stored texts: what the model and the plain program print for NAME.in
//! is NAME.out, byte for byte.

use noughtelm_tests::{fast, model};
use std::collections::BTreeSet;
use std::fs;
use std::path::{Path, PathBuf};

fn folder() -> PathBuf {
    Path::new(env!("CARGO_MANIFEST_DIR")).join("../tests/texts")
}

/// The names of the stored files that end so.
fn names(ending: &str) -> BTreeSet<String> {
    let files = fs::read_dir(folder()).expect("the folder of texts");
    let files = files.map(|f| f.unwrap().file_name().into_string().unwrap());
    files.filter_map(|f| f.strip_suffix(ending).map(str::to_string)).collect()
}

fn compare(sheet: fn(&[u8]) -> Vec<u8>) {
    let mut equal = 0;
    let mut wrong = Vec::new();
    for name in names(".in") {
        let text = fs::read(folder().join(format!("{name}.in"))).unwrap();
        let expected = fs::read(folder().join(format!("{name}.out"))).unwrap();
        if sheet(&text) == expected {
            equal += 1;
        } else {
            wrong.push(name);
        }
    }
    println!("{equal} texts equal, {} not", wrong.len());
    assert!(wrong.is_empty(), "not equal: {wrong:?}");
    assert!(equal > 0, "no text was tried");
}

#[test]
fn every_text_has_its_output() {
    let texts = names(".in");
    assert!(!texts.is_empty(), "no text is stored");
    assert_eq!(texts, names(".out"));
}

#[test]
fn model_prints_every_output() {
    compare(model::text::sheet);
}

#[test]
fn plain_program_prints_every_output() {
    compare(fast::text::sheet);
}

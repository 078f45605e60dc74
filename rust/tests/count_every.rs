//! The slow count (document 02, R-9) on every board of up to 3 bidders and 3 places over the
//! weights 0 to 2, where 0 is no edge: each is reached by calls of the library, and counted by
//! it, by the model, by every list of cells and by the exact level.
//!
//! Every way to lay 1, 2 or 3 places on items is there: 1 item of 1, 2 or 3, 2 items of 1 + 1,
//! 1 + 2 and 2 + 1, and 3 items. From each of these boards every choice of items is withdrawn
//! by a call too, and the board that this leaves is counted likewise.

use noughtelm_tests::both::{record, Both, Tally};
use noughtelm_tests::ffi::{self, Edge};
use noughtelm_tests::gen::counted::{every_choice, every_way};

/// Every list of edges at so many items, with weights of 1 and 2.
fn lists(items: u64) -> Vec<Vec<Edge>> {
    let mut lists = vec![Vec::new()];
    for item in 1..=items {
        let longer = |list: &Vec<Edge>| {
            let with = |weight: u64| [&list[..], &[Edge { item, weight }]].concat();
            [list.clone(), with(1), with(2)]
        };
        lists = lists.iter().flat_map(longer).collect();
    }
    lists
}

/// A board, and every one that up to so many more bidders make of it.
fn visit(ours: ffi::Board, lists: &[Vec<Edge>], bidders: u64, look: &mut impl FnMut(ffi::Board)) {
    look(ours);
    for list in lists.iter().take_while(|_| bidders > 0) {
        let after = ffi::arrive(ours, list);
        assert_eq!((after.number, after.place), (0, 0), "{list:?}");
        visit(after.board, lists, bidders - 1, look);
    }
}

/// Every board of up to 3 bidders at items of so many places.
fn visit_all(counts: &[u64], look: &mut impl FnMut(ffi::Board)) {
    let opened = ffi::open_places(counts.len() as u64, 1, 10, counts);
    assert_eq!(opened.number, 0);
    visit(opened.board, &lists(counts.len() as u64), 3, look);
}

/// The count of a board, by all four.
fn assert_counted(ours: ffi::Board, seen: &mut Tally) {
    let mut both = Both { ours, model: record(&ours), seen };
    match both.counted() {
        Ok(value) => both.seen.count("value", value),
        Err(found) => panic!("{found}\n{:?}", both.model),
    }
}

/// 3^n lists of edges at n items: 1 + 27 + 27² + 27³ boards of 3 items, 1 + 9 + 9² + 9³ of 2 in
/// each of three ways, 1 + 3 + 3² + 3³ of 1 in each of three.
#[test]
fn every_board() {
    let mut seen = Tally::default();
    for counts in (1..=3).flat_map(every_way) {
        visit_all(&counts, &mut |ours| assert_counted(ours, &mut seen));
    }
    println!("{seen:?}");
    assert_eq!(seen.of("count", 0), 20_440 + 3 * 820 + 3 * 40);
    // Nobody has an edge where 0 to 3 bidders came to one of the seven ways without any.
    assert_eq!(seen.of("value", 0), 7 * 4);
    seen.assert_seen("value", &[0, 1, 2, 3, 4, 5, 6], 28);
}

/// The count after every choice of items is withdrawn, the empty one left out.
fn assert_withdrawn(ours: ffi::Board, seen: &mut Tally) {
    for gone in every_choice(ours.items.count).skip(1) {
        let after = ffi::withdraw(ours, &gone);
        assert_eq!((after.number, after.place), (0, 0), "{gone:?}");
        assert_counted(after.board, seen);
    }
}

/// 1 choice at 1 item, 3 at 2.
#[test]
fn every_withdrawal_of_one_or_two_items() {
    let mut seen = Tally::default();
    for counts in (1..=3).flat_map(every_way).filter(|counts| counts.len() < 3) {
        visit_all(&counts, &mut |ours| assert_withdrawn(ours, &mut seen));
    }
    println!("{seen:?}");
    assert_eq!(seen.of("count", 0), 3 * 3 * 820 + 3 * 40);
    seen.assert_seen("value", &[0, 1, 2, 3, 4], 50);
}

/// 7 choices at 3 items. Where all have left the value is 0, once for each board.
#[test]
fn every_withdrawal_of_up_to_three_items() {
    let mut seen = Tally::default();
    visit_all(&[1; 3], &mut |ours| assert_withdrawn(ours, &mut seen));
    println!("{seen:?}");
    assert_eq!(seen.of("count", 0), 7 * 20_440);
    seen.assert_seen("value", &[0, 1, 2, 3, 4], 7_000);
    assert!(seen.of("value", 0) > 20_440);
}

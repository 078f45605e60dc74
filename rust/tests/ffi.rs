//! The proved calls, from the static library, on the first cases of document 01, as they
//! come out by the bid of R-7 in document 02, on the example of R-1, and on cases of R-3,
//!

use noughtelm_tests::both::compare::order_of;
use noughtelm_tests::ffi::{
    self, Answer, Board, Comparison, Edge, EdgeBuffer, Scaled, Told, Totals, MAX_OUTPUT,
};

const TEXT: &[u8] = b"K\t2\t1\t10\nA\t1\t100\t2\t60\nA\t1\t90\n";
const PRINTED: &[u8] = b"P\t1\t2\t0\nP\t2\t1\t0\nY\t1\t990\nY\t2\t660\nT\t150\t1650\t3\nE\t150\n";
const FIRST: [Edge; 2] = [Edge { item: 1, weight: 100 }, Edge { item: 2, weight: 60 }];
const SECOND: [Edge; 1] = [Edge { item: 1, weight: 90 }];

fn served(value: u64) -> Told {
    Told { number: 0, place: 0, value }
}

fn refused(number: u64, place: u64) -> Told {
    Told { number, place, value: 0 }
}

fn case_1() -> Answer {
    let opened = ffi::open(2, 1, 10);
    assert_eq!(opened.told(), served(0));
    let first = ffi::arrive(opened.board, &FIRST);
    assert_eq!(first.told(), served(1));
    let second = ffi::arrive(first.board, &SECOND);
    assert_eq!(second.told(), served(2));
    second
}

#[test]
fn case_1_by_calls() {
    let board = case_1().board;
    assert!(ffi::is_sound(board));
    assert_eq!((board.items.count, &board.items.places[..3]), (2, &[1, 1, 0][..]));
    assert_eq!((board.places, board.arrived, board.slack.p, board.slack.q), (2, 2, 1, 10));
    let (mut plan, mut prices, mut gains) = ([9; 3], [9; 3], [9; 3]);
    let told = ffi::read_out(board, &mut plan, &mut prices, &mut gains);
    assert_eq!((told, plan, prices, gains), (served(0), [2, 1, 9], [990, 660, 9], [0, 0, 9]));
}

#[test]
fn case_1_by_text() {
    let replayed = ffi::replay(TEXT);
    assert_eq!(replayed.told(), served(3));
    assert_eq!(replayed.board, case_1().board);
    let mut out = [7; 100];
    assert_eq!(ffi::plan_text(TEXT, &mut out), served(PRINTED.len() as u64));
    assert_eq!(&out[..PRINTED.len()], PRINTED);
    let mut short = [7; 10];
    assert_eq!((ffi::plan_text(TEXT, &mut short), short), (refused(8, 0), [7; 10]));
}

#[test]
fn a_refused_text() {
    let mut text = TEXT.to_vec();
    text.extend_from_slice(b"W\t3\n");
    let replayed = ffi::replay(&text);
    assert_eq!(replayed.told(), Told { number: 4, place: 4, value: 3 });
    assert_eq!(replayed.board, case_1().board);
    let mut out = [7; 100];
    assert_eq!((ffi::plan_text(&text, &mut out), out), (refused(4, 4), [7; 100]));
    assert_eq!(ffi::refusal_line(4, 4, &mut out), served(6));
    assert_eq!(&out[..7], b"R\t4\t4\n\x07");
}

/// What a text prints, in lists with room for it exactly, for more, for a byte less and for nothing.
fn try_sheet(text: &[u8], printed: &[u8]) {
    let length = printed.len();
    for room in [length, length + 1, length + 100, MAX_OUTPUT, MAX_OUTPUT + 1] {
        let mut out = vec![7; room];
        assert_eq!(ffi::sheet_text(text, &mut out), served(length as u64));
        assert_eq!(&out[..length], printed);
        assert_eq!(out[length..], vec![7; room - length]);
    }
    for room in [length - 1, length / 2, 1, 0] {
        let mut out = vec![7; room];
        assert_eq!((ffi::sheet_text(text, &mut out), out), (refused(8, 0), vec![7; room]));
    }
}

#[test]
fn sheets_in_lists_of_any_length() {
    try_sheet(TEXT, PRINTED);
    try_sheet(b"", b"R\t14\t1\n");
    try_sheet(&[TEXT, b"W\t3\n"].concat(), b"R\t4\t4\n");
    try_sheet(&TEXT[..TEXT.len() - 1], b"R\t14\t3\n");
    try_sheet(&TEXT.repeat(3_000), b"R\t15\t0\n");
}

#[test]
fn withdrawals() {
    let board = case_1().board;
    let gone = ffi::withdraw(board, &[1]);
    assert_eq!(gone.told(), served(0));
    let again = ffi::withdraw(gone.board, &[1]);
    assert_eq!((again.told(), again.board), (refused(5, 1), gone.board));
    let (mut plan, mut prices, mut gains) = ([0; 2], [0; 2], [0; 2]);
    ffi::read_out(gone.board, &mut plan, &mut prices, &mut gains);
    assert_eq!((plan, prices, gains), ([2, 0], [0, 660], [0, 0]));
}

/// Document 02, R-3: bidders 1 and 2 hold items 2 and 1, and want item 3.
#[test]
fn lists_of_items() {
    let board = arrived(ffi::open(3, 1, 2).board, &[(2, 100), (3, 50)], 1);
    let board = arrived(board, &[(1, 100), (3, 50)], 1);
    for (items, number, place) in [
        (vec![0], 4, 1),
        (vec![1, 4], 4, 2),
        (vec![1, 1], 7, 2),
        (vec![1, 3, 2], 7, 3),
        (vec![1, u64::MAX, 1], 4, 2),
    ] {
        let (lent, answer) = (items.clone(), ffi::withdraw(board, &items));
        assert_eq!((answer.told(), answer.board), (refused(number, place), board), "{items:?}");
        assert_eq!(items, lent);
    }
    let empty = ffi::withdraw(board, &[]);
    assert_eq!((empty.told(), empty.board), (served(0), board));
    let gone = ffi::withdraw(board, &[1, 2]);
    assert_eq!((gone.told(), ffi::is_sound(gone.board)), (served(1), true));
    assert_lists(gone.board, [3, 0], [0, 0, 150], [0, 0]);
    assert_eq!(ffi::withdraw(gone.board, &[3, 1]).told(), refused(5, 2));
    assert_eq!(ffi::withdraw(gone.board, &[3]).told(), served(0));
}

/// One more bidder, who makes so many bids.
fn arrived(board: Board, edges: &[(u64, u64)], bids: u64) -> Board {
    let edges: Vec<Edge> = edges.iter().map(|&(item, weight)| Edge { item, weight }).collect();
    let after = ffi::arrive(board, &edges);
    assert_eq!(after.told(), served(bids), "{edges:?}");
    after.board
}

fn assert_lists<const B: usize, const I: usize>(
    board: Board,
    plan: [u64; B],
    prices: [u64; I],
    gains: [u64; B],
) {
    let (mut m, mut y, mut g) = ([9; B], [9; I], [9; B]);
    assert_eq!(ffi::read_out(board, &mut m, &mut y, &mut g), served(0));
    assert_eq!((m, y, g), (plan, prices, gains));
}

#[test]
fn case_5_stands() {
    let board = arrived(ffi::open(2, 1, 10).board, &[(1, 50), (2, 50)], 1);
    assert_lists(board, [1], [50, 0], [500]);
}

/// Document 02, R-1: "at 1/10 with kettle 1 priced 0 and worth 50, and kettle 2
/// priced 100 and worth 60, kettle 2 is now taken". Item 2 is priced 100 by a bidder whom
/// item 3 serves as well; it finds 840 there then, and 1,000 at item 3.
#[test]
fn equal_utility_goes_to_the_larger_weight() {
    let board = arrived(ffi::open(3, 1, 10).board, &[(2, 100), (3, 100)], 1);
    assert_lists(board, [2], [0, 100, 0], [1_000]);
    let board = arrived(board, &[(1, 50), (2, 60)], 2);
    assert_lists(board, [3, 2], [0, 160, 260], [840, 500]);
}

/// The same, but the holder of item 2 has no open edge left: after a history in which item 3
/// is priced 880, and on a sound board that no history need reach.
#[test]
fn larger_weight_is_kept() {
    let board = arrived(ffi::open(3, 1, 10).board, &[(2, 10), (3, 1)], 1);
    let board = arrived(board, &[(3, 80)], 1);
    assert_lists(board, [2, 3], [0, 100, 880], [10, 0]);
    let board = arrived(board, &[(1, 50), (2, 60)], 1);
    assert_lists(board, [0, 3, 2], [0, 160, 880], [0, 0, 500]);

    let mut board = arrived(ffi::open(2, 1, 10).board, &[(2, 10)], 1);
    (board.price[1], board.gain[0]) = (Scaled(100), Scaled(10));
    assert!(ffi::is_sound(board));
    let board = arrived(board, &[(1, 50), (2, 60)], 1);
    assert_lists(board, [0, 2], [0, 160], [0, 500]);
}

/// Item 2 has equal utility and the larger weight, but "equality is not open": it is neither
/// taken nor the second.
#[test]
fn larger_weight_must_be_open() {
    let board = arrived(ffi::open(3, 1, 2).board, &[(2, 100), (3, 100)], 1);
    assert_lists(board, [2], [0, 100, 0], [200]);
    let board = arrived(board, &[(1, 50), (2, 100)], 1);
    assert_lists(board, [2, 1], [150, 100, 0], [200, 0]);
}

#[test]
fn exact_and_check() {
    let board = case_1().board;
    let (mut plan, mut prices, mut gains) = ([0; 2], [0; 2], [0; 2]);
    assert_eq!(ffi::exact(board, &mut plan, &mut prices, &mut gains), served(150));
    let totals = Totals { number: 0, place: 0, weight: 150, total: 150 };
    assert_eq!(ffi::check(board, &plan, &prices, &gains, 0, 1), totals);
    assert_eq!(ffi::check(board, &[2, 1], &[40, 0], &[60, 50], 0, 1), totals);
    let bare = Totals { number: 12, place: 1, weight: 0, total: 0 };
    assert_eq!(ffi::check(board, &[2, 1], &[39, 0], &[60, 50], 0, 1), bare);
    assert_eq!(ffi::exact(board, &mut [], &mut prices, &mut gains), refused(8, 0));
}

/// Document 02, R-7: "Refusal 11's limit of 1,000,000,000 becomes 2,000,000,000". Items 1 and
/// 2 are places 1 and 2 of the refusal, the gains of bidders 1 and 2 places 3 and 4.
#[test]
fn prices_and_gains_at_the_limit() {
    let board = case_1().board;
    let with = |cell: usize, number: u64| {
        let mut lists = [100, 60, 100, 90];
        lists[cell] = number;
        let rest = 350 - [100, 60, 100, 90][cell];
        (ffi::check(board, &[2, 1], &lists[..2], &lists[2..], 0, 1), rest)
    };
    for cell in 0..4 {
        for number in [1_000_000_000, 1_000_000_001, 2_000_000_000] {
            let (totals, rest) = with(cell, number);
            let total = rest + number;
            assert_eq!(totals, Totals { number: 0, place: 0, weight: 150, total });
        }
        for number in [2_000_000_001, 1 << 32, u64::MAX] {
            let place = cell as u64 + 1;
            let refused = Totals { number: 11, place, weight: 0, total: 0 };
            assert_eq!(with(cell, number).0, refused);
        }
    }
}

/// These plans, of these weights, stand in order: every pair of them.
fn assert_order(board: Board, plans: &[([u64; 2], i64)]) {
    for (i, (first, one)) in plans.iter().enumerate() {
        for (j, (second, other)) in plans.iter().enumerate() {
            let (difference, order) = (one - other, order_of(i.cmp(&j)));
            let expected = Comparison { number: 0, place: 0, difference, order };
            assert_eq!(ffi::compare(board, first, second), expected, "{first:?} {second:?}");
        }
    }
}

/// Document 02, R-4: "the greater worth first, then by the plan's cells, the first smaller
/// cell making the earlier plan".
#[test]
fn plans_in_order() {
    let plans = [([2, 1], 150), ([1, 0], 100), ([0, 1], 90), ([2, 0], 60), ([0, 0], 0)];
    assert_order(case_1().board, &plans);
    let both = [(1, 50), (2, 50)];
    let board = arrived(arrived(ffi::open(2, 1, 10).board, &both, 1), &both, 1);
    let pairs = [([1, 2], 100), ([2, 1], 100)];
    let ones = [([0, 1], 50), ([0, 2], 50), ([1, 0], 50), ([2, 0], 50), ([0, 0], 0)];
    assert_order(board, &[&pairs[..], &ones].concat());
}

/// "13, then 9 and 10 for the first plan, then 9 and 10 for the second". Bidders 1 and 3
/// want item 2, and item 1 is gone.
#[test]
fn plans_refused() {
    let third = ffi::arrive(case_1().board, &FIRST);
    let board = ffi::withdraw(third.board, &[1]).board;
    let cases: [(&[u64], &[u64], u64, u64); 10] = [
        (&[2, 0], &[2, 0, 0], 9, 0),
        (&[2, 0, 0, 0], &[1, 0], 9, 0),
        (&[1, 0, 0], &[2, 0], 10, 1),
        (&[2, 2, 0], &[3, 0, 0], 10, 2),
        (&[0, 0, 3], &[], 10, 3),
        (&[2, 0, 2], &[2, 0, 0], 10, 3),
        (&[2, 0, 0], &[], 9, 0),
        (&[2, 0, 0], &[0, 1, 0], 10, 2),
        (&[2, 0, 0], &[2, 0, u64::MAX], 10, 3),
        (&[0, 0, 2], &[2, 1, 2], 10, 2),
    ];
    let mut spoilt = board;
    spoilt.slack.p = 0;
    for (first, second, number, place) in cases {
        let expected = Comparison { number, place, difference: 0, order: 0 };
        assert_eq!(ffi::compare(board, first, second), expected, "{first:?} {second:?}");
        let expected = Comparison { number: 13, place: 0, ..expected };
        assert_eq!(ffi::compare(spoilt, first, second), expected, "{first:?} {second:?}");
    }
}

#[test]
fn refusals_keep_the_board() {
    assert_eq!(ffi::open(0, 1, 10).told(), refused(1, 0));
    assert_eq!(ffi::open(1, 5, 5).told(), refused(2, 0));
    let board = case_1().board;
    let edges = [Edge { item: 1, weight: 5 }, Edge { item: 1, weight: 5 }];
    let order = ffi::arrive(board, &edges);
    assert_eq!((order.told(), order.board), (refused(7, 2), board));
    let mut spoilt = board;
    spoilt.withdrawn[0] = 1;
    assert!(!ffi::is_sound(spoilt));
    let answer = ffi::arrive_buffer(spoilt, EdgeBuffer::new(&SECOND));
    assert_eq!((answer.told(), answer.board), (refused(13, 0), spoilt));
}

/// A board of two items that is sound but for one flag, of an item or of the
/// last cell: every call that takes it answers 13 and keeps every byte.
#[test]
fn a_flag_is_0_or_1() {
    let board = ffi::withdraw(case_1().board, &[1]).board;
    assert_eq!((ffi::is_sound(board), board.withdrawn[0], board.withdrawn[1]), (true, 1, 0));
    for (item, flag) in [(0, 2), (0, 255), (63, 1), (63, 2), (63, 255)] {
        let mut spoilt = board;
        spoilt.withdrawn[item] = flag;
        assert!(!ffi::is_sound(spoilt));
        let edges = [Edge { item: 2, weight: 90 }];
        let by_buffer = ffi::arrive_buffer(spoilt, EdgeBuffer::new(&edges));
        for after in [ffi::arrive(spoilt, &edges), by_buffer, ffi::withdraw(spoilt, &[2])] {
            assert_eq!((after.told(), after.board), (refused(13, 0), spoilt));
        }
        let (mut plan, mut prices, mut gains) = ([7; 2], [8; 2], [9; 2]);
        let told = ffi::read_out(spoilt, &mut plan, &mut prices, &mut gains);
        assert_eq!(told, refused(13, 0));
        assert_eq!(ffi::exact(spoilt, &mut plan, &mut prices, &mut gains), refused(13, 0));
        assert_eq!(ffi::count(spoilt), refused(13, 0));
        let totals = Totals { number: 13, place: 0, weight: 0, total: 0 };
        assert_eq!(ffi::check(spoilt, &plan, &prices, &gains, 1, 10), totals);
        let comparison = Comparison { number: 13, place: 0, difference: 0, order: 0 };
        assert_eq!(ffi::compare(spoilt, &[2, 0], &[0, 0]), comparison);
        assert_eq!((plan, prices, gains), ([7; 2], [8; 2], [9; 2]));
    }
}

/// Document 02, R-6: 1, 2, 9, then 16 at the first count that is not 1 to 8, then at 0; the
/// board is all zeros, and the counts are kept.
#[test]
fn counts_at_opening() {
    let zeros = ffi::open(0, 1, 10).board;
    let cases: [(u64, u64, &[u64], u64, u64); 8] = [
        (0, 10, &[9; 9], 1, 0),
        (9, 1, &[9; 8], 2, 0),
        (9, 10, &[9; 8], 9, 0),
        (2, 10, &[], 9, 0),
        (3, 10, &[1, 9, 0], 16, 2),
        (3, 10, &[1, 8, 0], 16, 3),
        (3, 10, &[1 << 32, 8, 0], 16, 1),
        (9, 10, &[8; 9], 16, 0),
    ];
    for (items, q, counts, number, place) in cases {
        let (lent, answer) = (counts.to_vec(), ffi::open_places(items, 1, q, counts));
        assert_eq!((answer.told(), answer.board), (refused(number, place), zeros), "{counts:?}");
        assert_eq!(counts, lent);
    }
    let opened = ffi::open_places(8, 1, 10, &[8; 8]);
    assert_eq!((opened.told(), opened.board.places), (served(0), 64));
    assert_eq!((opened.board.items.count, opened.board.items.places[7]), (8, 8));
    assert!(ffi::is_sound(opened.board));
}

/// Document 02, R-6: an item of two places, which are taken one after the other. The second
/// bidder finds 900 at the second place, and 900 - 100 at the first.
#[test]
fn a_double_kettle() {
    let board = arrived(ffi::open_places(2, 1, 10, &[2, 1]).board, &[(1, 100), (2, 60)], 1);
    let board = arrived(board, &[(1, 90)], 1);
    assert_eq!((board.price[0], board.price[1]), (Scaled(100), Scaled(190)));
    assert_lists(board, [1, 1], [100, 0], [1_000, 800]);
    let totals = Totals { number: 0, place: 0, weight: 190, total: 2 * 100 + 1_800 };
    assert_eq!(ffi::check(board, &[1, 1], &[100, 0], &[1_000, 800], 1, 10), totals);
    let clash = Totals { number: 10, place: 3, weight: 0, total: 0 };
    let third = ffi::arrive(board, &[Edge { item: 1, weight: 10 }]);
    assert_eq!(third.told(), served(0));
    assert_eq!(ffi::check(third.board, &[1, 1, 1], &[100, 0], &[1_000, 800, 0], 1, 10), clash);
    let (mut plan, mut prices, mut gains) = ([0; 3], [0; 2], [0; 3]);
    assert_eq!(ffi::exact(third.board, &mut plan, &mut prices, &mut gains), served(190));
    assert_eq!(plan, [1, 1, 0]);
    let totals = Totals { number: 0, place: 0, weight: 190, total: 190 };
    assert_eq!(ffi::check(third.board, &plan, &prices, &gains, 0, 1), totals);
    let gone = ffi::withdraw(third.board, &[1]);
    assert_eq!((gone.told(), ffi::is_sound(gone.board)), (served(1), true));
    assert_eq!(gone.board.withdrawn[..4], [1, 1, 0, 0]);
    assert_lists(gone.board, [2, 0, 0], [0, 660], [0, 0, 0]);
}

/// `P` lines open the board that the call does.
#[test]
fn a_text_with_places() {
    let text = b"K\t2\t1\t10\nP\t1\t2\nA\t1\t100\t2\t60\nA\t1\t90\n";
    let board = arrived(ffi::open_places(2, 1, 10, &[2, 1]).board, &[(1, 100), (2, 60)], 1);
    let replayed = ffi::replay(text);
    assert_eq!(replayed.told(), served(2));
    assert_eq!(replayed.board, arrived(board, &[(1, 90)], 1));
    try_sheet(text, b"P\t1\t1\t1000\nP\t2\t1\t800\nY\t1\t100\nY\t2\t0\nT\t190\t2090\t2\nE\t190\n");
    try_sheet(b"K\t2\t1\t10\nP\t1\t9\n", b"R\t16\t2\n");
    try_sheet(b"K\t64\t1\t10\nP\t1\t2\n", b"R\t16\t1\n");
}

/// Document 02, R-9: "For up to 6 batches and 6 places it tries every free kettle and none for
/// the first batch, then does likewise for the rest." Then "17 "large", over 6 of either,
/// withdrawn kettles' places counted, after 13".
#[test]
fn the_slow_count() {
    assert_eq!(ffi::count(case_1().board), served(150));
    assert_eq!(ffi::count(ffi::withdraw(case_1().board, &[1]).board), served(60));
    assert_eq!(ffi::count(ffi::withdraw(case_1().board, &[1, 2]).board), served(0));
    // Item 1 has two places. The heaviest edge, of 100, is not in the heaviest plan.
    let mut board = arrived(ffi::open_places(2, 1, 10, &[2, 1]).board, &[(1, 100), (2, 90)], 1);
    for (item, weight) in [(1, 80), (1, 70), (2, 25)] {
        board = ffi::arrive(board, &[Edge { item, weight }]).board;
    }
    assert_eq!(ffi::count(board), served(90 + 80 + 70));
    for (places, told) in [(6, served(0)), (7, refused(17, 0))] {
        assert_eq!(ffi::count(ffi::open(places, 1, 10).board), told);
        let one = ffi::open_places(1, 1, 10, &[places]).board;
        assert_eq!(ffi::count(one), told);
        assert_eq!(ffi::count(ffi::withdraw(one, &[1]).board), told);
    }
    let mut board = ffi::open(1, 1, 10).board;
    for bidder in 1..=7 {
        board = arrived(board, &[], 0);
        assert_eq!(ffi::count(board), if bidder <= 6 { served(0) } else { refused(17, 0) });
    }
    board.gain[0] = Scaled(1);
    assert_eq!(ffi::count(board), refused(13, 0));
}

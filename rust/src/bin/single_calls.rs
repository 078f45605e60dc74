//! Makes a full board and then each call on it once, the slow count on the largest board that it takes, and
//! the calls on the dense text: what a call costs by itself is read off the symbols `noughtelm_*` of a run
//! that counts instructions.

use noughtelm_tests::both::board as board_of;
use noughtelm_tests::ffi::*;
use noughtelm_tests::gen::sheet::{self, sheet, Pattern};
use noughtelm_tests::gen::text::dense;
use noughtelm_tests::model::auction::ones;
use noughtelm_tests::model::count::greatest;
use noughtelm_tests::model::sound::Record;
use noughtelm_tests::rng::Rng;
use std::hint::black_box;

/// 127 bidders with an edge at each of 64 items, weights to 9,999, slack 1/100.
fn full_board() -> Board {
    let mut board = open(64, 1, 100).board;
    let mut x: u64 = 1;
    for _ in 0..MAX_BIDDERS - 1 {
        let mut edge = |k: usize| {
            x = x * 16_807 % 2_147_483_647;
            Edge { item: k as u64 + 1, weight: 1 + x % 9_999 }
        };
        let edges: Vec<Edge> = (0..MAX_ITEMS).map(&mut edge).collect();
        board = arrive(board, &edges).board;
    }
    board
}

/// 6 bidders with an edge at each of 6 items, weights to 9,999: the slow count tries nothing
/// larger. It is the model's board, so that no call of the library goes into it.
fn most_counted() -> Record {
    let rng = &mut Rng::new(6);
    let rows = sheet(rng, Pattern::UpTo(9_999), 6, 6, 8);
    sheet::board(rng, rows, 6, 0)
}

/// The same count in plain Rust, of the weights alone.
#[inline(never)]
fn plain_count(weights: &[Vec<u64>]) -> u64 {
    greatest(weights, &ones(6))
}

/// A withdrawal, refused or of one item or of half of them: each by a symbol of its own.
#[inline(never)]
fn withdraw_refused(board: Board) -> Answer {
    withdraw(board, &[0])
}

#[inline(never)]
fn withdraw_one(board: Board) -> Answer {
    withdraw(board, &[32])
}

#[inline(never)]
fn withdraw_half(board: Board) -> Answer {
    let items: Vec<u64> = (1..=32).collect();
    withdraw(board, &items)
}

/// The board's own plan, without a call that reads it out.
fn plan_of(board: &Board) -> Vec<u64> {
    let mut plan = vec![0; board.arrived as usize];
    for item in 0..board.items.count as usize {
        for &holder in board.holder[board.places_of(item)].iter().filter(|&&holder| holder != 0) {
            plan[holder as usize - 1] = item as u64 + 1;
        }
    }
    plan
}

fn main() {
    let board = full_board();
    let mut plan = [0; MAX_BIDDERS];
    let mut prices = [0; MAX_ITEMS];
    let mut gains = [0; MAX_BIDDERS];
    println!("arrived {}", board.arrived);
    println!("sound {}", is_sound(black_box(board)));
    println!("read out {}", read_out(black_box(board), &mut plan, &mut prices, &mut gains).number);
    println!("withdraw item 0 {}", withdraw_refused(black_box(board)).number);
    println!("withdraw item 32, bids {}", withdraw_one(black_box(board)).value);
    println!("withdraw items 1 to 32, bids {}", withdraw_half(black_box(board)).value);
    // By another symbol than the arrivals above, so that it is counted by itself.
    let none = EdgeBuffer::new(&[]);
    println!("arrive without edges {}", arrive_buffer(black_box(board), none).number);
    let counted = most_counted();
    println!("the slow count of 6 by 6 {}", count(black_box(board_of(&counted))).value);
    println!("the same in plain Rust {}", plain_count(black_box(&sheet::live(&counted))));
    let text = dense();
    let mut page = vec![0; MAX_OUTPUT];
    let replayed = replay(black_box(&text));
    println!("replay {}", replayed.value);
    // All 128 bidders with every edge, and one plan twice, so that every cell is compared.
    let own = plan_of(&replayed.board);
    println!("its plan beside itself {}", compare(black_box(replayed.board), &own, &own).order);
    println!("plan of the text {}", plan_text(black_box(&text), &mut page).value);
    println!("what is printed of it {}", sheet_text(black_box(&text), &mut page).value);
    println!("its page {}", page_text(black_box(&text), &mut page).value);
    let written = write_page(black_box(board), &mut page).value as usize;
    println!("the board's page {written}");
    let mut weights = [0; MAX_BIDDERS];
    let read = read_page(black_box(&page[..written]), &mut plan, &mut weights, &mut gains);
    println!("the page read back {}", read.value);
}

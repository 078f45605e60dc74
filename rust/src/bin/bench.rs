//! Speed, side by side in one run: the proved library and the plain Rust
//! program, and for whole texts the straightforward one too. Every figure is a
//! median over repeated runs.

use noughtelm_tests::fast::{self, exact::greatest_weight};
use noughtelm_tests::ffi::{self, MAX_OUTPUT};
use noughtelm_tests::gen::history::{Call, History};
use noughtelm_tests::gen::sheet::{edges, sheet, Pattern};
use noughtelm_tests::gen::text::{dense_of, dense_places, write};
use noughtelm_tests::model::auction::{Edge, Slack};
use noughtelm_tests::rng::Rng;
use noughtelm_tests::simple;
use std::hint::black_box;
use std::time::{Duration, Instant};

const RUNS: usize = 101;

/// A history as each side takes it.
struct Case {
    items: u64,
    slack: Slack,
    ours: Vec<Vec<ffi::Edge>>,
    plain: Vec<Vec<u32>>,
    text: Vec<u8>,
}

/// Every bidder with an edge at every item.
fn case(pattern: Pattern, bidders: u64, items: u64, slack: Slack) -> Case {
    let rows = sheet(&mut Rng::new(2024), pattern, bidders, items, 8);
    let lists: Vec<_> = rows.iter().map(|row| edges(row)).collect();
    let ours = lists.iter().map(|list| list.iter().map(lent).collect()).collect();
    let pair = |edge: &Edge| [edge.item as u32, edge.weight as u32];
    let plain = lists.iter().map(|list| list.iter().flat_map(pair).collect()).collect();
    let calls = lists.into_iter().map(Call::Arrive).collect();
    let text = write(&History::of_ones(items, slack, calls));
    Case { items, slack, ours, plain, text }
}

fn lent(edge: &Edge) -> ffi::Edge {
    ffi::Edge { item: edge.item, weight: edge.weight }
}

/// The work is done for its time alone.
fn keep<T>(value: T) {
    black_box(value);
}

/// The median time of each of some pieces of work, run in turn.
fn medians<const N: usize>(runs: usize, mut work: [&mut dyn FnMut(); N]) -> [Duration; N] {
    let mut times = [(); N].map(|_| Vec::with_capacity(runs));
    for _ in 0..runs {
        for (task, times) in work.iter_mut().zip(&mut times) {
            let start = Instant::now();
            task();
            times.push(start.elapsed());
        }
    }
    times.map(|mut list| {
        list.sort();
        list[runs / 2]
    })
}

fn ours_by_calls(case: &Case) -> (ffi::Board, u64) {
    let mut board = ffi::open(case.items, case.slack.p, case.slack.q).board;
    let mut bids = 0;
    for list in &case.ours {
        let answer = ffi::arrive(board, list);
        board = answer.board;
        bids += answer.value;
    }
    (board, bids)
}

fn plain_by_calls(case: &Case) -> (Box<fast::auction::Auction>, u64) {
    let Slack { p, q } = case.slack;
    let opened = fast::auction::Auction::open(case.items as u32, p as u32, q as u32);
    let mut auction = Box::new(opened.expect("it opens"));
    let arrive = |list: &Vec<u32>| auction.arrive(list).expect("a good list");
    let bids = case.plain.iter().map(arrive).sum();
    (auction, bids)
}

/// Calls and replay of both sides, and the bids that all four make.
fn bids(case: &Case, runs: usize) -> (u64, [Duration; 4]) {
    let made = ours_by_calls(case).1;
    assert_eq!(ffi::replay(&case.text).value, made);
    assert_eq!(plain_by_calls(case).1, made);
    let text = &case.text;
    let times = medians(
        runs,
        [
            &mut || keep(ours_by_calls(black_box(case))),
            &mut || keep(plain_by_calls(black_box(case))),
            &mut || keep(ffi::replay(black_box(text))),
            &mut || keep(fast::text::replay_text(black_box(text))),
        ],
    );
    (made, times)
}

fn per_second(bids: u64, time: Duration) -> String {
    format!("{:.2} M/s", bids as f64 / time.as_secs_f64() / 1e6)
}

fn micros(time: Duration) -> String {
    format!("{:.0} us", time.as_secs_f64() * 1e6)
}

fn row(what: &str, ours: String, plain: String, ratio: f64) {
    println!("{what:<46}{ours:>14}{plain:>14}{ratio:>8.2}");
}

fn head(title: &str, columns: &str) {
    println!("\n{title:<46}{columns}");
}

fn ratio(ours: Duration, plain: Duration) -> f64 {
    ours.as_secs_f64() / plain.as_secs_f64()
}

fn speed_of_bids() {
    head("bids per second", "          ours    plain Rust   ratio");
    for (p, q) in [(1, 10), (1, 100), (1, 1_000)] {
        let case = case(Pattern::UpTo(9_999), 128, 64, Slack { p, q });
        let (made, [calls, plain_calls, replay, plain_replay]) = bids(&case, RUNS);
        let name = format!("slack {p}/{q}, {made} bids, by arrive calls");
        let sides = (per_second(made, calls), per_second(made, plain_calls));
        row(&name, sides.0, sides.1, ratio(calls, plain_calls));
        let name = format!("slack {p}/{q}, {made} bids, by replay of a text");
        let sides = (per_second(made, replay), per_second(made, plain_replay));
        row(&name, sides.0, sides.1, ratio(replay, plain_replay));
    }
}

fn whole_texts() {
    let columns = "          ours    plain Rust   ratio   simple Rust   ratio";
    head("the whole text, to the printed bytes", columns);
    for (bidders, items) in [(4, 4), (8, 8), (16, 16), (32, 16), (128, 64)] {
        whole_text(&format!("{bidders} bidders, {items} items"), &dense_of(bidders, items));
    }
    whole_text("128 bidders, 16 items of 4 places", &dense_places());
}

fn whole_text(name: &str, text: &[u8]) {
    let mut out = Box::new([0; MAX_OUTPUT]);
    let told = ffi::sheet_text(text, &mut out[..]);
    assert_eq!((told.number, &out[..told.value as usize]), (0, &fast::text::sheet(text)[..]));
    assert_eq!(fast::text::sheet(text), simple::sheet(text).into_bytes());
    let [ours, plain, simple] = medians(
        RUNS,
        [
            &mut || keep(ffi::sheet_text(black_box(text), &mut out[..])),
            &mut || keep(fast::text::sheet(black_box(text))),
            &mut || keep(simple::sheet(black_box(text))),
        ],
    );
    let name = format!("{name}, {} bytes", text.len());
    let (beside_plain, beside_simple) = (ratio(ours, plain), ratio(ours, simple));
    print!("{name:<46}{:>14}{:>14}{beside_plain:>8.2}", micros(ours), micros(plain));
    println!("{:>14}{beside_simple:>8.2}", micros(simple));
}

fn exact_level() {
    head("the exact level, 128 bidders, 64 items", "          ours    plain Rust   ratio");
    let patterns = [
        Pattern::UpTo(10),
        Pattern::UpTo(9_999),
        Pattern::Close,
        Pattern::Product,
        Pattern::Diagonal,
    ];
    for pattern in patterns {
        let case = case(pattern, 128, 64, Slack { p: 1, q: 2 });
        let (board, _) = ours_by_calls(&case);
        let (auction, _) = plain_by_calls(&case);
        let (mut m, mut y, mut g) = ([0; 128], [0; 64], [0; 128]);
        let mut exact = || ffi::exact(black_box(board), &mut m, &mut y, &mut g).value;
        assert_eq!(exact(), greatest_weight(&auction));
        let [ours, plain] = medians(
            RUNS,
            [&mut || keep(exact()), &mut || keep(greatest_weight(black_box(&auction)))],
        );
        row(&format!("weights {pattern:?}"), micros(ours), micros(plain), ratio(ours, plain));
    }
}

fn growth() {
    let columns = "    calls: ours    plain   replay: ours    plain   text: ours    plain";
    println!("\n{:<34}{:>8}{columns}", "how cost grows, in us", "bids");
    for bidders in [16, 32, 64, 128] {
        grown(&format!("{bidders} bidders, 64 items, 1/100"), bidders, 64, 100);
    }
    for items in [8, 16, 32, 64] {
        grown(&format!("128 bidders, {items} items, 1/100"), 128, items, 100);
    }
    for q in [10, 100, 1_000] {
        grown(&format!("128 bidders, 64 items, 1/{q}"), 128, 64, q);
    }
}

fn grown(name: &str, bidders: u64, items: u64, q: u64) {
    let case = case(Pattern::UpTo(9_999), bidders, items, Slack { p: 1, q });
    let (made, times) = bids(&case, RUNS);
    let mut out = Box::new([0; MAX_OUTPUT]);
    let text = &case.text;
    let texts = medians(
        RUNS,
        [&mut || keep(ffi::sheet_text(black_box(text), &mut out[..])), &mut || {
            keep(fast::text::sheet(black_box(text)))
        }],
    );
    let us = |time: Duration| (time.as_secs_f64() * 1e6).round() as u64;
    let [calls, plain_calls, replay, plain_replay] = times.map(us);
    let [whole, plain_whole] = texts.map(us);
    print!("{name:<34}{made:>8}{calls:>15}{plain_calls:>9}");
    println!("{replay:>15}{plain_replay:>9}{whole:>13}{plain_whole:>9}");
}

fn main() {
    println!("medians of {RUNS} runs; a ratio is our time over that of the program before it");
    speed_of_bids();
    whole_texts();
    exact_level();
    growth();
}

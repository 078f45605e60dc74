//! Sound boards that no history reaches, on both sides: a random matching, each
//! pair's (q + p) times its weight split at random, uncovered edges lowered.

use noughtelm_tests::both::{rooms, wide, Both, Same, Tally};
use noughtelm_tests::ffi::MAX_PAGE;
use noughtelm_tests::gen::{board, claim, items, list, plan};
use noughtelm_tests::laws::on_board;
use noughtelm_tests::model::auction::*;
use noughtelm_tests::model::check::Claim;
use noughtelm_tests::model::refusal::*;
use noughtelm_tests::model::sound::{from_record, Record};
use noughtelm_tests::rng::Rng;

fn live_arrival(rng: &mut Rng, r: &Record) -> Vec<Edge> {
    let density = rng.range(0, 3);
    let mut edges = Vec::new();
    for item in (0..r.items).filter(|&i| !r.is_gone(i as usize)) {
        if rng.chance(density, 3) {
            let weight = rng.pick(&[1, 50, 9_999, MAX_WEIGHT]);
            edges.push(Edge { item: item + 1, weight: rng.range(1, weight) });
        }
    }
    edges
}

fn bad_arrival(rng: &mut Rng, r: &Record) -> Vec<Edge> {
    let mut edges = live_arrival(rng, r);
    edges.push(Edge { item: 1, weight: 1 });
    let gone = (0..r.items).find(|&i| r.is_gone(i as usize)).map_or(0, |item| item + 1);
    let number = rng.pick(&[UNKNOWN, GONE, WORTH, ORDER]);
    let place = edges.len();
    list::spoil(rng, &mut edges, place, number, gone);
    edges
}

/// Every call that leaves the board as it is.
fn look(both: &mut Both, rng: &mut Rng) -> Same<()> {
    assert!(both.is_sound()?);
    on_board(&both.ours)?;
    let room = rooms(rng, &both.model);
    both.read_out(room)?.ok();
    both.write_page(MAX_PAGE)?.expect("a sound board and room");
    let exact = both.exact(wide())?.expect("a sound board and room");
    both.count()?.ok();
    let auction = from_record(&both.model).expect("a sound board");
    both.check(&claim::own(&auction))?.ok();
    both.compare(&auction.matching(), &exact.matching)?.expect("two plans");
    let [first, second] =
        [&auction.matching(), &exact.matching].map(|list| plan::damaged(rng, &both.model, list));
    both.compare(&first, &second)?.ok();
    both.check(&Claim { slack: auction.slack, ..exact.clone() })?.ok();
    both.check(&Claim { matching: auction.matching(), ..exact })?.ok();
    both.check(&claim::damaged(rng, &auction))?.ok();
    Ok(())
}

/// Every call that may change it, three times.
fn change(both: &mut Both, rng: &mut Rng) -> Same<()> {
    for _ in 0..3 {
        let bad = bad_arrival(rng, &both.model);
        both.arrive(&bad)?.ok();
        let good = live_arrival(rng, &both.model);
        both.arrive(&good)?.ok();
        let any = items::any(rng, &both.model, 4);
        both.withdraw(&any)?.ok();
    }
    Ok(())
}

fn try_boards(seeds: std::ops::Range<u64>) -> (Tally, u64, u64) {
    let mut seen = Tally::default();
    let (mut unreached, mut high) = (0, 0);
    for seed in seeds {
        let rng = &mut Rng::new(seed);
        let record = board::sound(rng);
        unreached += board::is_unreached(&record) as u64;
        high += record.price.iter().any(|&y| y > 1_000_000_000) as u64;
        let mut both = Both::on(record.clone(), &mut seen);
        let found = look(&mut both, rng).and_then(|_| change(&mut both, rng));
        if let Err(found) = found.and_then(|_| look(&mut both, rng)) {
            panic!("seed {seed}: {found}\n{record:?}");
        }
    }
    (seen, unreached, high)
}

fn assert_all_seen(boards: u64, (seen, unreached, high): (Tally, u64, u64)) {
    println!(
        "{unreached} of {boards} unreached, {high} with a price above 1,000,000,000: {seen:?}"
    );
    assert!(unreached * 2 > boards && high * 20 > boards);
    seen.assert_seen("sound", &[0], boards);
    seen.assert_seen("arrive", &[0, FULL, UNKNOWN, GONE, WORTH, ORDER], 20);
    seen.assert_seen("withdraw", &[0, UNKNOWN, GONE, ORDER], 100);
    seen.assert_seen("read out", &[0, SHORT], 100);
    seen.assert_seen("exact", &[0], 100);
    seen.assert_seen("count", &[0, LARGE], 500);
    seen.assert_seen("check", &[0, SLACK, UNEVEN, CLASH, PRICE, BARE], 50);
    seen.assert_seen("compare", &[0, UNEVEN, CLASH], 1_000);
}

#[test]
fn first_boards() {
    assert_all_seen(4_000, try_boards(20_000..24_000));
}

#[test]
fn further_boards() {
    assert_all_seen(4_000, try_boards(24_000..28_000));
}

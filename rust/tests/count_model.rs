//! The slow count (document 02, R-9) by the model alone: beside every list of cells, every plan
//! and the solver; and counts that R-9 does not mean, which come to other answers.

use noughtelm_tests::every_list::{by_weight, greatest};
use noughtelm_tests::gen::board::SPOILS;
use noughtelm_tests::gen::counted::{any_way, every_way, made, made_of_size, of_size, small};
use noughtelm_tests::gen::history::level_of;
use noughtelm_tests::gen::plan::{all, Ground};
use noughtelm_tests::miscounts::Miscount;
use noughtelm_tests::model::auction::*;
use noughtelm_tests::model::calls::count_record;
use noughtelm_tests::model::hungarian::solve;
use noughtelm_tests::model::refusal::*;
use noughtelm_tests::model::sound::{to_record, Record};
use noughtelm_tests::plans::weight_of;
use noughtelm_tests::rng::Rng;

// ---- beside every plan

/// A board that a history reaches, or one that none need reach.
fn counted(seed: u64) -> Record {
    let rng = &mut Rng::new(seed);
    match seed % 2 {
        0 => to_record(&small(rng).auction()),
        _ => made(rng),
    }
}

/// The plans among all lists are those that are made bidder by bidder, and the count is the
/// weight of the heaviest.
#[test]
fn every_list_every_plan_and_the_count() {
    let (mut plans, mut alike, mut weighty) = (0, 0, 0);
    for seed in 1_000_000..1_002_500 {
        let record = counted(seed);
        let ground = Ground::of(&record);
        let weights = by_weight(&ground);
        let every = all(&ground);
        assert_eq!(weights.iter().map(|(_, plans)| plans).sum::<u64>(), every.len() as u64);
        let heaviest = every.iter().map(|plan| weight_of(&ground.live, plan)).max();
        let (best, bests) = *weights.last().expect("the empty plan");
        assert_eq!(heaviest, Some(best), "seed {seed}\n{record:?}");
        assert_eq!(greatest(&ground), best, "seed {seed}\n{record:?}");
        assert_eq!(count_record(&record), Ok(best), "seed {seed}\n{record:?}");
        assert_eq!(solve(&ground.live, &ground.counts).weight, best, "seed {seed}\n{record:?}");
        plans += every.len();
        alike += (bests > 1) as u64;
        weighty += (best > 0) as u64;
    }
    println!("{plans} plans, {alike} boards with several best ones, {weighty} weigh anything");
    assert!(plans > 300_000 && alike > 400 && weighty > 1_500);
}

/// So many of so many.
fn choose(of: u64, count: u64) -> u64 {
    (0..count).fold(1, |ways, n| ways * (of - n) / (n + 1))
}

/// Six bidders with every edge, of weight 777. At six items k of them take k places in one of
/// C(6, k)² × k! ways, at one item in one of C(6, k).
#[test]
fn plans_of_the_largest_boards() {
    let ground = |counts: Vec<u64>| Ground::of(&to_record(&level_of(counts, 6).auction()));
    let ways = |k: u64| choose(6, k) * choose(6, k) * (1..=k).product::<u64>();
    let expected: Vec<(u64, u64)> = (0..=6).map(|k| (777 * k, ways(k))).collect();
    assert_eq!(expected.iter().map(|(_, plans)| plans).sum::<u64>(), 13_327);
    assert_eq!(by_weight(&ground(ones(6))), expected);
    let expected: Vec<(u64, u64)> = (0..=6).map(|k| (777 * k, choose(6, k))).collect();
    assert_eq!(by_weight(&ground(vec![6])), expected);
}

/// "For up to 6 batches and 6 places", "over 6 of either": every number up to 8 of both, and
/// every way to lay the places.
#[test]
fn up_to_6_of_either() {
    for (bidders, places) in (0..=8).flat_map(|b| (1..=8).map(move |p| (b, p))) {
        for counts in every_way(places) {
            let record = to_record(&level_of(counts, bidders as usize).auction());
            let expected = match bidders <= 6 && places <= 6 {
                true => Ok(777 * bidders.min(places)),
                false => refuse(LARGE, 0),
            };
            assert_eq!(count_record(&record), expected, "{bidders} bidders\n{record:?}");
        }
    }
}

// ---- other counts

/// Most are within the limits, some just past one or both, some not sound.
fn near_the_limits(seed: u64) -> Record {
    let rng = &mut Rng::new(seed);
    let (bidders, places) = (rng.range(5, 8), rng.range(5, 8));
    match seed % 4 {
        0 => {
            let counts = any_way(rng, places);
            to_record(&of_size(rng, bidders, counts).auction())
        }
        1 => {
            let mut record = made_of_size(rng, bidders, places);
            let (_, spoil) = rng.pick(&SPOILS);
            spoil(rng, &mut record);
            record
        }
        _ => counted(seed),
    }
}

#[test]
fn other_counts_come_to_other_answers() {
    let mut apart = [0; Miscount::ALL.len()];
    let mut answers = [0; 3];
    for seed in 1_010_000..1_018_000 {
        let record = near_the_limits(seed);
        let right = count_record(&record);
        answers[match right {
            Ok(_) => 0,
            Err(refusal) if refusal.number == LARGE => 1,
            Err(_) => 2,
        }] += 1;
        for (apart, other) in apart.iter_mut().zip(Miscount::ALL) {
            *apart += (other.of(&record) != right) as u64;
        }
    }
    println!("served, 17, 13: {answers:?}");
    Miscount::ALL.iter().zip(apart).for_each(|(other, apart)| println!("{apart:>6} {other:?}"));
    assert!(answers.iter().all(|&boards| boards > 500));
    assert!(apart.iter().all(|&boards| boards > 100));
}

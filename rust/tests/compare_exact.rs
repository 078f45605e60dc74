//! Two plans side by side (document 02, R-4), one of them the exact level's.

use noughtelm_tests::both::{record, wide, Both, Tally};
use noughtelm_tests::ffi::{self, MAX_OUTPUT};
use noughtelm_tests::gen::history::{history, Kind};
use noughtelm_tests::gen::plan::{any_board, several};
use noughtelm_tests::gen::sheet::live;
use noughtelm_tests::gen::text::write;
use noughtelm_tests::model::check::Claim;
use noughtelm_tests::model::sound::from_record;
use noughtelm_tests::plans::weight_of;
use noughtelm_tests::rng::Rng;

/// No plan is worth more than the exact level's. One is worth as much exactly where the
/// check finds its worth equal to the sum of the exact level's prices and gains.
#[test]
fn no_plan_is_worth_more_than_the_exact_one() {
    let mut seen = Tally::default();
    for seed in 610_000..610_800 {
        let rng = &mut Rng::new(seed);
        let record = any_board(rng);
        let plans = several(rng, &from_record(&record).expect("a sound board"), 8);
        let mut both = Both::on(record.clone(), &mut seen);
        let exact = both.exact(wide()).expect("both agree").expect("room");
        let greatest = weight_of(&live(&record), &exact.matching);
        for plan in plans {
            let answer = both.compare(&plan, &exact.matching).expect("both agree");
            let difference = answer.expect("two plans").difference;
            let claim = Claim { matching: plan.clone(), ..exact.clone() };
            let totals = both.check(&claim).expect("both agree").expect("a good claim");
            let less = totals.weight as i64 - totals.sum as i64;
            assert_eq!(difference, less, "seed {seed}, {plan:?}\n{record:?}");
            assert_eq!(difference, weight_of(&live(&record), &plan) as i64 - greatest as i64);
            assert!(difference <= 0, "seed {seed}, {plan:?}\n{record:?}");
            both.seen.count("worth less", (difference < 0) as u64);
            both.seen.count("another", (difference == 0 && plan != exact.matching) as u64);
        }
    }
    println!("{seen:?}");
    seen.assert_seen("worth less", &[0, 1], 1_000);
    seen.assert_seen("another", &[0, 1], 300);
}

/// The first number of the line of this letter.
fn field(printed: &str, letter: char) -> i64 {
    let line = printed.lines().find(|line| line.starts_with(letter)).expect("such a line");
    line.split('\t').nth(1).expect("a field").parse().expect("a number")
}

/// The plan read out beside the exact one: the worth in line `T` less that in line `E`.
#[test]
fn the_quick_plan_beside_the_exact_one() {
    let mut seen = Tally::default();
    for seed in 611_000..611_600 {
        let rng = &mut Rng::new(seed);
        let kind = rng.pick(&[Kind::Small, Kind::Sparse, Kind::Dense, Kind::Ties, Kind::Lists]);
        let text = write(&history(rng, kind));
        let mut out = vec![0; MAX_OUTPUT];
        let bytes = ffi::plan_text(&text, &mut out).value as usize;
        let printed = std::str::from_utf8(&out[..bytes]).expect("text");
        let mut both = Both::on(record(&ffi::replay(&text).board), &mut seen);
        let [quick, ..] = both.read_out(wide()).expect("both agree").expect("room");
        let exact = both.exact(wide()).expect("both agree").expect("room");
        let quick = &quick[..exact.matching.len()];
        let answer = both.compare(quick, &exact.matching).expect("both agree");
        let difference = answer.expect("two plans").difference;
        assert_eq!(difference, field(printed, 'T') - field(printed, 'E'), "seed {seed}\n{printed}");
        seen.count("worth less", (difference < 0) as u64);
    }
    println!("{seen:?}");
    seen.assert_seen("worth less", &[0, 1], 50);
}

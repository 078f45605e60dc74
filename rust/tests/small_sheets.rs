//! Small sheets come out exact (document 02, R-8): "Where 2 × p times the greatest worth of a plan
//! on the live sheet, line `E`, is below q + p, the quick plan must be shown to have greatest
//! worth." On boards that histories reach, in what is printed, and on sound boards that none
//! reaches; at equality and past it, where the plan can be worth less; and as a planner is told,
//! for greatest worths up to half of q at a slack of 1/q. The greatest weight is the model's.

use noughtelm_tests::both::{board, equal, equal_boards, equal_sheets, shown, wide};
use noughtelm_tests::both::{Both, Same, Tally};
use noughtelm_tests::ffi::{self, MAX_OUTPUT};
use noughtelm_tests::gen::board::is_unreached;
use noughtelm_tests::gen::history::{Call, History};
use noughtelm_tests::gen::plan::{Ground, Plan};
use noughtelm_tests::gen::small::{
    first_come, heaviest_first, large, made, most_below, small, stands, up_to, Small,
};
use noughtelm_tests::gen::text::{mutate, random, write};
use noughtelm_tests::model::auction::*;
use noughtelm_tests::model::count;
use noughtelm_tests::model::hungarian::solve;
use noughtelm_tests::model::sound::{to_record, Record};
use noughtelm_tests::model::text::sheet;
use noughtelm_tests::plans::weight_of;
use noughtelm_tests::rng::Rng;
use noughtelm_tests::slides::beside::call_ours;
use std::cmp::Ordering;
use std::collections::BTreeSet;

// ---- a board looked at

/// What a board's plan weighs beside the greatest weight.
struct Looked {
    ground: Ground,
    plan: Plan,
    weight: u64,
    greatest: u64,
}

impl Looked {
    /// Whether a bidder is unplaced though it has a live edge.
    fn leaves_out(&self) -> bool {
        let mut rows = self.plan.iter().zip(&self.ground.live);
        rows.any(|(&cell, row)| cell == 0 && row.iter().any(|&weight| weight != 0))
    }

    /// Whether the plan of a rule without prices weighs less than the greatest.
    fn beats(&self, rule: fn(&Ground) -> Plan) -> bool {
        weight_of(&self.ground.live, &rule(&self.ground)) < self.greatest
    }
}

/// The plan that is read out, beside the exact level's. The greatest weight is that of the model's
/// solver, and of trying everything where there are few bidders.
fn look(record: &Record, seen: &mut Tally) -> Same<Looked> {
    let ground = Ground::of(record);
    let greatest = solve(&ground.live, &ground.counts).weight;
    if record.arrived <= 5 {
        seen.count("everything tried", 1);
        equal("the greatest weight", greatest, count::greatest(&ground.live, &ground.counts))?;
    }
    let mut both = Both::on(record.clone(), seen);
    let [mut plan, ..] = both.read_out(wide())?.expect("a sound board and room");
    plan.truncate(record.arrived as usize);
    let exact = both.exact(wide())?.expect("a sound board and room");
    equal("the exact level", weight_of(&ground.live, &exact.matching), greatest)?;
    let weight = weight_of(&ground.live, &plan);
    let less = both.compare(&plan, &exact.matching)?.expect("two plans").difference;
    equal("the difference", less, weight as i64 - greatest as i64)?;
    Ok(Looked { ground, plan, weight, greatest })
}

/// What the calls of a history met.
#[derive(Default)]
struct Met {
    /// An arrival displaced a bidder.
    displaced: bool,
    /// An item left that was held.
    left: bool,
}

impl Met {
    fn note(&mut self, call: &Call, before: &ffi::Board, after: &ffi::Answer) {
        let held = |board: &ffi::Board| board.holder.iter().filter(|&&h| h != 0).count();
        let kept = held(before) == held(&after.board);
        let gone = |place: usize| before.withdrawn[place] < after.board.withdrawn[place];
        match call {
            Call::Arrive(_) => self.displaced |= after.value > 1 || after.value == 1 && kept,
            Call::Withdraw(_) => {
                self.left |= (0..MAX_PLACES).any(|i| before.holder[i] != 0 && gone(i))
            }
        }
    }
}

/// A history on both sides, which come to one board.
fn run(history: &History) -> Same<(Record, Met)> {
    let Slack { p, q } = history.slack;
    let mut ours = ffi::open_places(history.items(), p, q, &history.counts).board;
    let mut met = Met::default();
    for call in &history.calls {
        let after = call_ours(ours, call);
        equal("a good call", after.number, 0)?;
        met.note(call, &ours, &after);
        ours = after.board;
    }
    let record = to_record(&history.auction());
    equal_boards("the board", &ours, &record)?;
    Ok((record, met))
}

/// The board that a small sheet comes to.
fn tried(seed: u64, it: &Small, seen: &mut Tally) -> (Looked, Met) {
    let found = run(&it.history).and_then(|(record, met)| Ok((look(&record, seen)?, met)));
    let (looked, met) = found.unwrap_or_else(|found| panic!("seed {seed}: {found}\n{it:?}"));
    assert_eq!(looked.greatest, it.greatest, "seed {seed}\n{it:?}");
    (looked, met)
}

/// The same, where its plan is worth the greatest worth.
fn tried_exact(seed: u64, it: &Small, seen: &mut Tally) -> (Looked, Met) {
    let (looked, met) = tried(seed, it, seen);
    assert_eq!(looked.weight, it.greatest, "seed {seed}\n{it:?}");
    (looked, met)
}

/// Whether a sheet of this greatest weight is one of those that a test is about.
type Side = fn(Slack, u64) -> bool;

fn below(slack: Slack, greatest: u64) -> bool {
    stands(slack, greatest) == Ordering::Less
}

/// So many small sheets on this side, by seeds from the first on.
fn drawn(first: u64, side: Side, count: usize) -> impl Iterator<Item = (u64, Small)> {
    let sheets = (first..).map(|seed| (seed, small(&mut Rng::new(seed))));
    sheets.filter(move |(_, it)| side(it.history.slack, it.greatest)).take(count)
}

/// So often at least each of these was met.
fn assert_met(met: &Tally, least: &[(&'static str, u64)]) {
    println!("{met:?}");
    for &(name, least) in least {
        let times = met.of(name, 1);
        assert!(times >= least, "{name}: {times} times of {least}");
    }
}

// ---- below

fn note(it: &Small, looked: &Looked, met: &Met, noted: &mut Tally) {
    let History { counts, slack, calls } = &it.history;
    let close = !below(*slack, it.greatest + 1);
    let late = looked.beats(first_come);
    for (name, is_met) in [
        ("weighs anything", it.greatest > 0),
        ("leaves a bidder out", looked.leaves_out()),
        ("displaces a bidder", met.displaced),
        ("items leave", calls.iter().any(|call| matches!(call, Call::Withdraw(_)))),
        ("a held item leaves", met.left),
        ("several places", counts.iter().any(|&count| count > 1)),
        ("1/1,000", *slack == Slack { p: 1, q: 1_000 }),
        ("p above 1", slack.p > 1),
        ("first come is less", late),
        ("heaviest first is less", looked.beats(heaviest_first)),
        ("close", close),
        ("close, displaces a bidder, first come is less", close && met.displaced && late),
        ("close, p above 1, weighs 2 or more", close && slack.p > 1 && it.greatest > 1),
    ] {
        noted.count(name, is_met as u64);
    }
}

const OF_TEN_THOUSAND: [(&str, u64); 13] = [
    ("weighs anything", 8_000),
    ("leaves a bidder out", 4_000),
    ("displaces a bidder", 3_500),
    ("items leave", 2_000),
    ("a held item leaves", 1_000),
    ("several places", 2_000),
    ("1/1,000", 1_000),
    ("p above 1", 1_500),
    ("first come is less", 2_500),
    ("heaviest first is less", 500),
    ("close", 2_500),
    ("close, displaces a bidder, first come is less", 1_000),
    ("close, p above 1, weighs 2 or more", 800),
];

#[test]
fn ten_thousand_small_sheets() {
    let (mut seen, mut noted) = (Tally::default(), Tally::default());
    let (mut sheets, mut slacks) = (0, BTreeSet::new());
    for (seed, it) in drawn(2_000_000, below, 10_000) {
        let (looked, met) = tried_exact(seed, &it, &mut seen);
        note(&it, &looked, &met, &mut noted);
        slacks.insert((it.history.slack.p, it.history.slack.q));
        sheets += 1;
    }
    println!("{} slacks", slacks.len());
    assert!(sheets == 10_000 && slacks.len() > 1_000);
    assert_met(&noted, &OF_TEN_THOUSAND);
    assert_met(&seen, &[("everything tried", 2_500)]);
    seen.assert_seen("exact", &[0], 10_000);
    seen.assert_seen("read out", &[0], 10_000);
}

/// Up to 128 bidders and 64 places, at the greatest slack 1/q that the greatest weight allows.
#[test]
fn large_sheets_of_small_weights() {
    let (mut seen, mut contested) = (Tally::default(), 0);
    for seed in 2_200_000..2_200_060 {
        let it = large(&mut Rng::new(seed));
        let slack = it.history.slack;
        assert!(below(slack, it.greatest) && !below(slack, it.greatest + 1), "seed {seed}\n{it:?}");
        let (looked, met) = tried_exact(seed, &it, &mut seen);
        contested += (met.displaced && looked.beats(first_come)) as u64;
    }
    println!("{contested} contested");
    assert!(contested > 25);
}

// ---- what is printed

/// The numbers of the first line of this letter, if there is one.
fn numbers(text: &[u8], letter: &[u8]) -> Option<Vec<u64>> {
    let mut lines = text.split(|&byte| byte == b'\n').map(|line| line.split(|&byte| byte == b'\t'));
    let fields = lines.find_map(|mut line| (line.next() == Some(letter)).then_some(line))?;
    Some(fields.map(|field| shown(field).parse().expect("a number")).collect())
}

/// What the library prints of a text, byte by byte as the model does: where its line `E` stands
/// below, the first number of `T` is the same. Whether the text is served.
fn print(text: &[u8], met: &mut Tally) -> Same<bool> {
    let printed = sheet(text);
    equal_sheets(text, &printed, MAX_OUTPUT, met)?;
    let (Some(total), Some(exact)) = (numbers(&printed, b"T"), numbers(&printed, b"E")) else {
        return Ok(false);
    };
    let opened = numbers(text, b"K").expect("a served text");
    let small = below(Slack { p: opened[1], q: opened[2] }, exact[0]);
    if small {
        equal("`T`, where `E` stands below", total[0], exact[0])?;
    }
    met.count("below", small as u64);
    met.count("below, weighs anything", (small && exact[0] > 0) as u64);
    met.count("not below, less", (!small && total[0] < exact[0]) as u64);
    Ok(true)
}

/// Every beginning of a text that ends with a line, as long as it is served.
fn print_beginnings(seed: u64, text: &[u8], met: &mut Tally) {
    for end in (1..=text.len()).filter(|&end| text[end - 1] == b'\n') {
        let told = |found| panic!("seed {seed}: {found}\n{}", shown(&text[..end]));
        if !print(&text[..end], met).unwrap_or_else(told) {
            return;
        }
    }
}

/// After every line: of texts of small sheets, of damaged and of random ones.
#[test]
fn what_is_printed() {
    let (mut told, mut others) = (Tally::default(), Tally::default());
    for seed in 2_300_000..2_301_500 {
        let rng = &mut Rng::new(seed);
        let text = write(&small(rng).history);
        print_beginnings(seed, &text, &mut told);
        let other = if rng.chance(1, 2) { random(rng) } else { mutate(rng, &text) };
        print_beginnings(seed, &other, &mut others);
    }
    let least = [("below", 5_000), ("below, weighs anything", 3_500), ("not below, less", 50)];
    assert_met(&told, &least);
    assert_met(&others, &[("below", 1_500), ("below, weighs anything", 500)]);
}

// ---- boards that no history reaches

/// Sound boards that are made: a random matching, each pair's (q + p) times its weight split at
/// random, and some edges as heavy as that allows.
#[test]
fn boards_no_history_reaches() {
    let (mut seen, mut met) = (Tally::default(), Tally::default());
    for seed in 2_400_000..2_412_000 {
        let record = made(&mut Rng::new(seed));
        let looked = look(&record, &mut seen);
        let looked = looked.unwrap_or_else(|found| panic!("seed {seed}: {found}\n{record:?}"));
        let (weight, greatest) = (looked.weight, looked.greatest);
        if !below(record.slack, greatest) {
            met.count("not below, less", (weight < greatest) as u64);
            continue;
        }
        assert_eq!(weight, greatest, "seed {seed}\n{record:?}");
        let contested = looked.leaves_out() && looked.beats(first_come);
        met.count("below, weighs anything", (greatest > 0) as u64);
        met.count("below, unreached", is_unreached(&record) as u64);
        met.count("below, contested", contested as u64);
        met.count("close", !below(record.slack, greatest + 1) as u64);
        met.count("heaviest first is less", looked.beats(heaviest_first) as u64);
    }
    let least = [
        ("below, weighs anything", 4_000),
        ("below, unreached", 900),
        ("below, contested", 450),
        ("close", 500),
        ("heaviest first is less", 250),
        ("not below, less", 1_000),
    ];
    assert_met(&met, &least);
}

// ---- at equality, and past it

/// Slack 1/3, one item at price 4 held by a bidder of weight 1 with gain 0, and an unplaced bidder
/// of weight 2. Its edge is covered: (3 - 1) × 2 is 4.
fn at_equality() -> Record {
    let mut r = Record::of_counts(&[1]);
    r.slack = Slack { p: 1, q: 3 };
    r.arrived = 2;
    (r.price[0], r.holder[0]) = (4, 1);
    (r.rows[0][0], r.rows[1][0]) = (1, 2);
    r
}

/// 2 × 1 × 2 is 3 + 1. The first bidder finds 3 - 0 and nothing else: the price rises by 3 and by
/// 1. The second finds 6 - 4, which is not above 1 × 2: "equality is not open".
#[test]
fn at_equality_it_can_fail() {
    let (mut seen, record) = (Tally::default(), at_equality());
    assert_eq!(stands(record.slack, 2), Ordering::Equal);
    let looked = look(&record, &mut seen).expect("both agree");
    assert_eq!((looked.plan, looked.weight, looked.greatest), (vec![1, 0], 1, 2));
    let text = b"K\t1\t1\t3\nA\t1\t1\nA\t1\t2\n";
    let after = ffi::replay(text);
    assert!(after.board == board(&record) && ffi::is_sound(after.board));
    assert_eq!((after.number, after.value), (0, 1));
    let printed = "P\t1\t1\t0\nP\t2\t0\t0\nY\t1\t4\nT\t1\t4\t1\nE\t2\n";
    equal_sheets(text, printed.as_bytes(), MAX_OUTPUT, &mut seen).expect("as by hand");
}

/// The same at 1/4, where 2 × 1 × 2 is below 4 + 1. The first bidder has the item for 4 and 1; the
/// second finds 8 - 5, above 2, and the price rises by 3 and by 2; the first finds nothing.
#[test]
fn just_below_it_does_not() {
    let mut seen = Tally::default();
    let text = b"K\t1\t1\t4\nA\t1\t1\nA\t1\t2\n";
    let printed = "P\t1\t0\t0\nP\t2\t1\t0\nY\t1\t10\nT\t2\t10\t2\nE\t2\n";
    equal_sheets(text, printed.as_bytes(), MAX_OUTPUT, &mut seen).expect("as by hand");
}

/// By how much the plans of so many sheets on this side fall short of the greatest weight: q + p
/// times that is at most 2 × p times the greatest weight.
fn shortfalls(first: u64, side: Side, count: usize) -> Tally {
    let (mut seen, mut found) = (Tally::default(), Tally::default());
    for (seed, it) in drawn(first, side, count) {
        let (looked, _) = tried(seed, &it, &mut seen);
        let (Slack { p, q }, short) = (it.history.slack, it.greatest - looked.weight);
        assert!((q + p) * short <= 2 * p * it.greatest, "seed {seed}\n{it:?}");
        found.count("short by", short);
        found.count("short", (short > 0) as u64);
        found.count("short, p above 1", (short > 0 && p > 1) as u64);
    }
    found
}

/// Twice p times the greatest weight is q + p here, so that none is short by more than 1.
#[test]
fn sheets_at_equality() {
    let equal = |slack, greatest| stands(slack, greatest) == Ordering::Equal;
    let found = shortfalls(2_500_000, equal, 3_000);
    found.assert_seen("short by", &[0, 1], 50);
    assert_met(&found, &[("short", 50), ("short, p above 1", 15)]);
}

/// Past it, where one penny less would be below.
#[test]
fn just_past_the_edge() {
    let past: Side = |slack, greatest| {
        stands(slack, greatest) == Ordering::Greater && below(slack, greatest - 1)
    };
    let found = shortfalls(2_600_000, past, 3_000);
    assert_met(&found, &[("short", 60), ("short, p above 1", 30)]);
}

// ---- the limit at every slack

/// The weight of the plan where a bidder of this weight comes for a single item after one of a
/// penny less.
fn penny_more(slack: Slack, weight: u64) -> u64 {
    let calls = [weight - 1, weight].map(|weight| Call::Arrive(vec![Edge { item: 1, weight }]));
    let (record, _) = run(&History::of_ones(1, slack, calls.to_vec())).expect("both agree");
    record.pairs().map(|(bidder, place)| record.rows[bidder][place] as u64).sum()
}

/// The second of two bidders has the item where its weight stands below, and nowhere else: nothing
/// above q + p would do in its stead.
fn is_sharp(slack: Slack) {
    let most = most_below(slack);
    assert!(below(slack, most) && !below(slack, most + 1), "{slack:?}");
    assert_eq!(penny_more(slack, most + 1), most, "{slack:?}");
    if most > 1 {
        assert_eq!(penny_more(slack, most), most, "{slack:?}");
    }
}

#[test]
fn the_limit_is_sharp() {
    (2..=MAX_Q).for_each(|q| is_sharp(Slack { p: 1, q }));
    let rng = &mut Rng::new(2_700_000);
    for _ in 0..3_000 {
        let q = rng.range(3, MAX_Q);
        let most = rng.pick(&[30, q - 1]).min(q - 1);
        is_sharp(Slack { p: rng.range(2, most), q });
    }
}

// ---- as a planner is told

/// Sheets at 1/q whose greatest worth is from 1 to q/2, in one of two all of q/2.
fn try_halves(first: u64, q: u64, count: u64, met: &mut Tally) {
    for seed in (0..count).map(|n| first + 1_000 * q + n) {
        let it = up_to(&mut Rng::new(seed), q / 2, q);
        assert!(0 < it.greatest && 2 * it.greatest <= q);
        let (looked, run) = tried_exact(seed, &it, &mut Tally::default());
        met.count("all of q/2", (it.greatest == q / 2) as u64);
        met.count("displaces a bidder", run.displaced as u64);
        met.count("first come is less", looked.beats(first_come) as u64);
    }
}

/// "at most q/2" says the same as R-8's limit where p is 1.
#[test]
fn half_of_q_comes_out_exact() {
    let mut met = Tally::default();
    for q in 2..=MAX_Q {
        let slack = Slack { p: 1, q };
        assert!((0..=q).all(|greatest| below(slack, greatest) == (2 * greatest <= q)));
        try_halves(3_000_000, q, 3, &mut met);
    }
    let least =
        [("all of q/2", 1_000), ("displaces a bidder", 1_000), ("first come is less", 1_000)];
    assert_met(&met, &least);
}

#[test]
fn five_hundred_at_a_thousandth() {
    let mut met = Tally::default();
    try_halves(5_000_000, 1_000, 300, &mut met);
    let least = [("all of q/2", 100), ("displaces a bidder", 100), ("first come is less", 100)];
    assert_met(&met, &least);
}

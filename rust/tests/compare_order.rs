//! The order of plans (document 02, R-4), on both sides: "The order must be total, and
//! equal means the same cells." Its laws on any three plans, lists sorted by the call, and
//! all plans of small boards.

use noughtelm_tests::both::compare::order_of;
use noughtelm_tests::both::{Both, Same, Tally};
use noughtelm_tests::gen::plan::{all, any_board, pairs, several, Ground, Plan};
use noughtelm_tests::gen::sheet::{edges, live, Sheet};
use noughtelm_tests::laws::{require, Law};
use noughtelm_tests::model::auction::*;
use noughtelm_tests::model::compare::Comparison;
use noughtelm_tests::model::sound::{from_record, to_record, Record};
use noughtelm_tests::plans::{expected, key, weight_of};
use noughtelm_tests::rng::Rng;
use std::cmp::Ordering::{Equal, Greater, Less};
use std::ops::RangeInclusive;

/// A row for each plan: how it compares with each.
type Table = Vec<Vec<Comparison>>;

fn table(both: &mut Both, plans: &[Plan]) -> Same<Table> {
    let mut rows = Vec::new();
    for one in plans {
        let answers: Same<Vec<_>> = plans.iter().map(|other| both.compare(one, other)).collect();
        rows.push(answers?.into_iter().map(|answer| answer.expect("two plans")).collect());
    }
    Ok(rows)
}

// ---- laws

/// The swapped pair, "the greater worth first", and "equal means the same cells".
fn pair_holds(table: &Table, plans: &[Plan], weights: &[u64], (i, j): (usize, usize)) -> Law {
    let Comparison { difference, order } = table[i][j];
    let told = |law: &str| format!("{law}: {:?} {:?}, {difference}, {order:?}", plans[i], plans[j]);
    let swapped = Comparison { difference: -difference, order: order.reverse() };
    require(table[j][i] == swapped, || told("swapped"))?;
    require(difference == weights[i] as i64 - weights[j] as i64, || told("difference"))?;
    let by_weight = match difference {
        0 => order,
        more if more > 0 => Less,
        _ => Greater,
    };
    require(order == by_weight, || told("the greater worth first"))?;
    let differing = (0..plans[i].len()).find(|&cell| plans[i][cell] != plans[j][cell]);
    let same = differing.is_none();
    require((order == Equal) == same, || told("equal means the same cells"))?;
    let smaller = differing.is_none_or(|cell| (order == Less) == (plans[i][cell] < plans[j][cell]));
    require(difference != 0 || smaller, || told("the first smaller cell"))
}

/// Differences add up, and the order is transitive.
fn triple_holds(table: &Table, plans: &[Plan], [i, j, k]: [usize; 3]) -> Law {
    let (one, two, both) = (table[i][j], table[j][k], table[i][k]);
    let told = || format!("{:?} {:?} {:?}: {one:?} {two:?} {both:?}", plans[i], plans[j], plans[k]);
    require(one.difference + two.difference == both.difference, told)?;
    let follows = match (one.order, two.order) {
        (Equal, order) | (order, Equal) => both.order == order,
        (Less, Less) => both.order == Less,
        (Greater, Greater) => both.order == Greater,
        _ => true,
    };
    require(follows, told)
}

fn laws_hold(both: &mut Both, plans: &[Plan]) -> Law {
    let table = table(both, plans)?;
    let live = live(&both.model);
    let weights: Vec<u64> = plans.iter().map(|plan| weight_of(&live, plan)).collect();
    let count = plans.len();
    for (i, j) in (0..count).flat_map(|i| (0..count).map(move |j| (i, j))) {
        pair_holds(&table, plans, &weights, (i, j))?;
        (0..count).try_for_each(|k| triple_holds(&table, plans, [i, j, k]))?;
        let equal = weights[i] == weights[j];
        both.seen.count("equal weight", (equal && plans[i] != plans[j]) as u64);
        both.seen.count("order", order_of(table[i][j].order));
    }
    Ok(())
}

#[test]
fn any_three_plans() {
    let mut seen = Tally::default();
    for seed in 630_000..630_400 {
        let rng = &mut Rng::new(seed);
        let record = any_board(rng);
        let plans = several(rng, &from_record(&record).expect("a sound board"), 10);
        if let Err(found) = laws_hold(&mut Both::on(record.clone(), &mut seen), &plans) {
            panic!("seed {seed}: {found}\n{record:?}");
        }
    }
    println!("{seen:?}");
    seen.assert_seen("equal weight", &[0, 1], 3_000);
    seen.assert_seen("order", &[1, 2, 3], 4_000);
}

// ---- sorted lists

fn sort(both: &mut Both, plans: &mut [Plan]) {
    plans.sort_by(|one, other| {
        let answer = both.compare(one, other).unwrap_or_else(|found| panic!("{found}"));
        answer.expect("two plans").order
    });
}

/// A list of plans, however shuffled, is sorted by the call to the one list that is sorted
/// by worths and cells.
#[test]
fn sorted_by_the_call() {
    let (mut seen, mut ties) = (Tally::default(), 0);
    for seed in 631_000..631_150 {
        let rng = &mut Rng::new(seed);
        let record = any_board(rng);
        let live = live(&record);
        let mut plans = several(rng, &from_record(&record).expect("a sound board"), 30);
        let mut sorted = plans.clone();
        sorted.sort_by(|one, other| key(&live, one).cmp(&key(&live, other)));
        let mut both = Both::on(record.clone(), &mut seen);
        for _ in 0..2 {
            rng.shuffle(&mut plans);
            sort(&mut both, &mut plans);
            assert_eq!(plans, sorted, "seed {seed}\n{record:?}");
        }
        let equal = |two: &[Plan]| weight_of(&live, &two[0]) == weight_of(&live, &two[1]);
        ties += sorted.windows(2).filter(|two| equal(two) && two[0] != two[1]).count();
    }
    println!("{ties} neighbours of equal weight, {seen:?}");
    assert!(ties > 500);
}

// ---- all plans of small boards

/// A board of these weights at slack 1/2 on items with so many places, and without these
/// items then.
fn small_board(sheet: &Sheet, counts: &[u64], gone: &[u64]) -> Record {
    let opened = Auction::open_places(counts.len() as u64, Slack { p: 1, q: 2 }, counts);
    let mut auction = opened.expect("it opens");
    for row in sheet {
        auction.arrive(&edges(row)).expect("a row is a list of edges");
    }
    auction.withdraw(gone).expect("they are there");
    to_record(&auction)
}

/// Every sheet of so many bidders and items with weights of this range, 0 for no edge.
fn sheets(bidders: usize, items: usize, weights: RangeInclusive<u64>) -> Vec<Sheet> {
    let mut sheets = vec![Vec::new()];
    for _ in 0..bidders * items {
        let longer = |cells: Vec<u64>| weights.clone().map(move |w| [&cells[..], &[w]].concat());
        sheets = sheets.into_iter().flat_map(longer).collect();
    }
    let rows = |cells: Vec<u64>| cells.chunks(items).map(|row| row.to_vec()).collect();
    sheets.into_iter().map(rows).collect()
}

/// All plans of a board, beside each other; how many there are.
fn all_pairs(record: &Record, seen: &mut Tally) -> Same<usize> {
    let plans = all(&Ground::of(record));
    let mut both = Both::on(record.clone(), seen);
    for (one, other) in pairs(&plans) {
        let answer = both.compare(one, other)?;
        assert_eq!(answer, expected(record, one, other), "{one:?} {other:?}\n{record:?}");
        both.seen.count("order", order_of(answer.expect("two plans").order));
    }
    Ok(plans.len())
}

/// All pairs of plans on each of these sheets, of items with one place; how many plans the
/// largest has.
fn all_plans(sheets: &[Sheet]) -> usize {
    let items = sheets[0].first().map_or(1, |row| row.len() as u64);
    all_plans_of(sheets, &ones(items))
}

/// The same of items with so many places.
fn all_plans_of(sheets: &[Sheet], counts: &[u64]) -> usize {
    let (mut seen, mut most) = (Tally::default(), 0);
    for sheet in sheets {
        let found = all_pairs(&small_board(sheet, counts, &[]), &mut seen);
        most = most.max(found.unwrap_or_else(|found| panic!("{found}\n{sheet:?}")));
    }
    println!("{} sheets: {seen:?}", sheets.len());
    most
}

#[test]
fn all_plans_up_to_2_by_3_and_3_by_2() {
    let sizes = [(0, 1), (1, 1), (1, 2), (1, 3), (2, 1), (2, 2), (2, 3), (3, 1), (3, 2)];
    let sheets = sizes.map(|(bidders, items)| sheets(bidders, items, 0..=2));
    let counts = sheets.each_ref().map(|sheets| sheets.len());
    assert_eq!(counts, [1, 3, 9, 27, 9, 81, 729, 27, 729]);
    let most = sheets.map(|sheets| all_plans(&sheets));
    assert_eq!(most, [1, 2, 3, 4, 3, 7, 13, 4, 13]);
}

/// With weights to 1 every sheet, with weights to 2 some of the 19,683.
#[test]
fn all_plans_of_3_by_3() {
    assert_eq!(all_plans(&sheets(3, 3, 0..=1)), 34);
    let some: Vec<Sheet> = sheets(3, 3, 0..=2).into_iter().step_by(97).collect();
    assert_eq!((some.len(), all_plans(&some)), (203, 34));
}

/// "A plan may name a kettle once per place" (document 02, R-6): three bidders at one item, and
/// at two, with weights to 1 and some with weights to 2.
#[test]
fn all_plans_of_items_with_places() {
    let (one, two) = (sheets(3, 1, 0..=2), sheets(3, 2, 0..=1));
    let some: Vec<Sheet> = sheets(3, 2, 0..=2).into_iter().rev().step_by(7).collect();
    // At one item: none, one, two or three bidders. At two: 27 lists of cells less those that
    // name an item too often.
    for (sheets, counts, most) in [
        (&one, &[1][..], 4),
        (&one, &[2], 7),
        (&one, &[3], 8),
        (&two, &[2, 1], 19),
        (&two, &[1, 2], 19),
        (&two, &[2, 2], 25),
        (&two, &[3, 1], 20),
        (&two, &[3, 3], 27),
        (&some, &[2, 3], 26),
    ] {
        assert_eq!(all_plans_of(sheets, counts), most, "{counts:?}");
    }
}

/// Every set of items withdrawn: the plans are those of the items that are left.
#[test]
fn all_plans_without_some_items() {
    let (mut seen, mut plans) = (Tally::default(), [0; 4]);
    for sheet in sheets(2, 2, 0..=2) {
        for (gone, plans) in [&[][..], &[1], &[2], &[1, 2]].iter().zip(&mut plans) {
            let found = all_pairs(&small_board(&sheet, &[1, 1], gone), &mut seen);
            *plans += found.unwrap_or_else(|found| panic!("{found}\n{sheet:?} {gone:?}"));
        }
    }
    // Of a sheet: 1, an edge with 2 of 3, two edges with 4 of 9.
    assert_eq!(plans, [81 + 4 * 54 + 2 * 36, 81 + 2 * 54, 81 + 2 * 54, 81]);
}

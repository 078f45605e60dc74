//! Items of several places (document 02, R-6) by the model alone: openings, boards worked by
//! hand, histories beside the auction of before in which every place is an item, and the
//! share, the exact level, the check, two plans and the page beside every plan that there is.

use noughtelm_tests::before::{spread, spread_call, Before};
use noughtelm_tests::gen::claim;
use noughtelm_tests::gen::history::{history, tiny_places, Call, History, Kind};
use noughtelm_tests::gen::plan::{all, pairs, times, Ground};
use noughtelm_tests::model::auction::*;
use noughtelm_tests::model::calls::*;
use noughtelm_tests::model::check::{check, Claim, Totals};
use noughtelm_tests::model::compare::compare;
use noughtelm_tests::model::hungarian::solve;
use noughtelm_tests::model::refusal::*;
use noughtelm_tests::model::sound::{is_sound, to_record};
use noughtelm_tests::orders::Order;
use noughtelm_tests::page;
use noughtelm_tests::plans::{key, weight_of};
use noughtelm_tests::rng::Rng;
use noughtelm_tests::ties::{by_pairs, Walk};

const SLACK: Slack = Slack { p: 1, q: 2 };

fn open(counts: &[u64]) -> Result<Auction, Refusal> {
    Auction::open_places(counts.len() as u64, SLACK, counts)
}

fn arrive(auction: &mut Auction, edges: &[(u64, u64)]) -> u64 {
    let edges: Vec<Edge> = edges.iter().map(|&(item, weight)| Edge { item, weight }).collect();
    auction.arrive(&edges).expect("a good list")
}

fn refused<T>(answer: Result<T, Refusal>, number: u64, place: u64) {
    assert_eq!(answer.err(), Some(Refusal { number, place }));
}

// ---- openings

#[test]
fn counts_of_1_to_8() {
    for count in 0..=20 {
        match count {
            1..=8 => assert_eq!(open(&[1, count]).expect("it opens").counts(), [1, count]),
            _ => refused(open(&[1, count]), 16, 2),
        }
    }
    for count in [255, 256, 257, 1 << 32, (1 << 32) + 1, u64::MAX] {
        refused(open(&[count, 1]), 16, 1);
    }
}

#[test]
fn totals_of_63_64_and_65() {
    for (ones, eights, total) in [(55, 1, 63), (56, 1, 64), (57, 1, 65), (0, 8, 64), (1, 8, 65)] {
        let counts = [vec![1; ones], vec![8; eights]].concat();
        assert_eq!(counts.iter().sum::<u64>(), total);
        match total {
            65 => refused(open(&counts), 16, 0),
            _ => assert_eq!(to_record(&open(&counts).expect("it opens")).places, total),
        }
    }
    refused(open(&[8; 64]), 16, 0);
    assert!(open(&[1; 64]).is_ok());
}

/// 1, 2, then 9, then 16 at the first count that is bad, then 16 at place 0.
#[test]
fn refusals_of_an_opening_in_order() {
    let bad = Slack { p: 5, q: 5 };
    let nine = vec![9; 70];
    refused(Auction::open_places(0, bad, &nine), 1, 0);
    refused(Auction::open_places(65, bad, &nine[..65]), 1, 0);
    refused(Auction::open_places(64, bad, &nine), 2, 0);
    for length in (0..=70).filter(|&length| length != 3) {
        refused(Auction::open_places(3, SLACK, &nine[..length]), 9, 0);
        refused(Auction::open_places(3, SLACK, &[1; 70][..length]), 9, 0);
    }
    refused(open(&[8, 8, 0, 9]), 16, 3);
    refused(open(&[8, 8, 8, 8, 8, 8, 8, 8, 8, 0]), 16, 10);
    refused(open(&[8; 9]), 16, 0);
}

/// All of them are free, and the record has them side by side.
#[test]
fn an_opened_board() {
    let auction = open(&[2, 1, 3]).expect("it opens");
    let record = to_record(&auction);
    assert_eq!((record.items, record.places, &record.counts[..4]), (3, 6, &[2, 1, 3, 0][..]));
    assert_eq!([0, 1, 2].map(|item| record.places_of(item)), [0..2, 2..3, 3..6]);
    assert_eq!((record.price, record.holder, record.withdrawn), ([0; 64], [0; 64], [0; 64]));
    assert!(is_sound(&record));
}

// ---- by hand

/// The prices of every place.
fn by_place(auction: &Auction) -> Vec<Vec<u64>> {
    auction.items.iter().map(|item| item.prices.clone()).collect()
}

/// One item of two places at 1/2, and worths of 100, 120 and 150. The first has the first place
/// without lead. The second finds 240 at the second place and 140 at the first; the third finds
/// 200 at the first, above 150, and 80 at the second, which is not open.
fn double() -> Auction {
    let mut auction = open(&[2]).expect("it opens");
    assert_eq!(arrive(&mut auction, &[(1, 100)]), 1);
    assert_eq!((by_place(&auction), auction.gains()), (vec![vec![100, 0]], vec![200]));
    assert_eq!(arrive(&mut auction, &[(1, 120)]), 1);
    assert_eq!((by_place(&auction), auction.gains()), (vec![vec![100, 220]], vec![200, 140]));
    assert_eq!(arrive(&mut auction, &[(1, 150)]), 1);
    auction
}

/// "Read-out gives a kettle's least price"; "The board's own sum, in line `T`, counts every
/// place's price, so a check of read-out prices may total less than q + p times the worth".
#[test]
fn a_double_kettle() {
    let auction = double();
    assert_eq!((auction.matching(), by_place(&auction)), (vec![0, 1, 1], vec![vec![450, 220]]));
    assert_eq!((auction.prices(), auction.gains()), (vec![220], vec![0, 140, 0]));
    assert_eq!((auction.weight(), auction.sum()), (270, 3 * 270));
    let totals = check(&auction, &claim::own(&auction));
    assert_eq!(totals, Ok(Totals { weight: 270, sum: 2 * 220 + 140 }));
    assert_eq!(solve(&auction.live_weights(), &[2]).weight, 270);
}

/// "A withdrawal removes all places".
#[test]
fn a_double_kettle_withdrawn() {
    let mut auction = double();
    assert_eq!(auction.withdraw(&[1]), Ok(0));
    assert_eq!((auction.matching(), by_place(&auction)), (vec![0, 0, 0], vec![vec![0, 0]]));
    assert_eq!((auction.weight(), auction.sum()), (0, 0));
    refused(auction.withdraw(&[1]), 5, 1);
    refused(auction.arrive(&[Edge { item: 1, weight: 5 }]), 5, 1);
}

/// Of equal ones the first item's places are taken one after the other, then the next item's.
#[test]
fn ties_between_places() {
    let mut auction = open(&[2, 1, 3]).expect("it opens");
    let all = [(1, 50), (2, 50), (3, 50)];
    let held = |auction: &Auction| auction.bidders.last().and_then(|bidder| bidder.held);
    for (item, number) in [(1, 1), (1, 2), (2, 1), (3, 1), (3, 2), (3, 3)] {
        assert_eq!(arrive(&mut auction, &all), 1);
        assert_eq!(held(&auction), Some(Place { item, number }));
    }
    assert_eq!(arrive(&mut auction, &all), 0);
    assert_eq!(auction.matching(), [1, 1, 2, 3, 3, 3, 0]);
}

/// At 1/10 places of 1,000 and 0 at item 1, of 100 at item 2: 50 at item 1 has the utility of
/// 60 at item 2, whose larger worth is taken, without lead; its holder goes to item 3.
#[test]
fn the_larger_worth_comes_before_the_lower_place() {
    let slack = Slack { p: 1, q: 10 };
    let mut auction = Auction::open_places(3, slack, &[2, 1, 1]).expect("it opens");
    assert_eq!(arrive(&mut auction, &[(1, 1_000)]), 1);
    assert_eq!(arrive(&mut auction, &[(2, 10), (3, 1)]), 1);
    assert_eq!(by_place(&auction), [vec![1_000, 0], vec![100], vec![0]]);
    assert_eq!(arrive(&mut auction, &[(1, 50), (2, 60)]), 2);
    assert_eq!(
        (auction.matching(), by_place(&auction)),
        (vec![1, 3, 2], vec![vec![1_000, 0], vec![160], vec![11]])
    );
    assert_eq!(auction.gains(), [10_000, 0, 500]);
}

/// A batch compares places: the cheaper is taken though it is the higher, and the other is the
/// second. The third of the places has 160 for it, which is not above 200.
#[test]
fn the_cheapest_place() {
    let mut auction = open(&[3]).expect("it opens");
    for weight in [100, 90, 80] {
        assert_eq!(arrive(&mut auction, &[(1, weight)]), 1);
    }
    assert_eq!(by_place(&auction), [[100, 90, 240]]);
    assert_eq!(arrive(&mut auction, &[(1, 200)]), 1);
    assert_eq!(
        (auction.matching(), by_place(&auction)),
        (vec![1, 0, 1, 1], vec![vec![100, 300, 240]])
    );
    assert_eq!(auction.gains(), [200, 0, 0, 300]);
}

/// Bidder 3 has the first place of item 1, from which it displaced bidder 1, and bidder 2 the
/// second; both want item 2 too.
fn crossed() -> Auction {
    let mut auction = open(&[2, 1]).expect("it opens");
    assert_eq!(arrive(&mut auction, &[(1, 20)]), 1);
    assert_eq!(arrive(&mut auction, &[(1, 60), (2, 20)]), 1);
    assert_eq!(arrive(&mut auction, &[(1, 100), (2, 20)]), 1);
    assert_eq!(
        (auction.holders(1), by_place(&auction)),
        (vec![2, 1], vec![vec![180, 80], vec![0]])
    );
    auction
}

/// "with displaced batches in R-3's order": bidder 2 bids first and has item 2, for 60, which is
/// above 40 for bidder 3.
#[test]
fn displaced_in_number_order() {
    let mut auction = crossed();
    assert_eq!(auction.withdraw(&[1]), Ok(1));
    assert_eq!((auction.matching(), auction.gains()), (vec![0, 2, 0], vec![0, 0, 0]));
    assert_eq!((auction.prices(), auction.sum()), (vec![0, 60], 60));
    for (order, matching) in [(Order::Item, [0, 0, 2]), (Order::PlaceByPlace, [0, 2, 0])] {
        let mut walk = Walk::on(crossed(), by_pairs);
        walk.withdraw(&[1], order);
        assert_eq!(walk.auction.matching(), matching, "{order:?}");
    }
}

// ---- every place an item of before

/// Every call of a history beside the auction of before.
fn run_before(history: &History) -> u64 {
    let (mut auction, wide) = (history.opened(), spread(history));
    let Slack { p, q } = history.slack;
    let mut before = Before::open(wide.items(), p, q);
    for (call, spread) in history.calls.iter().zip(&wide.calls) {
        assert_eq!(call.carry_out(&mut auction), Ok(before.call(spread)), "{history:?}");
        let record = to_record(&auction);
        assert!(before.is_record(&record), "{call:?}\n{before:?}\n{record:?}");
    }
    auction.items.iter().filter(|item| item.count() > 1).count() as u64
}

#[test]
fn places_are_items_of_before() {
    for kind in Kind::OF_PLACES {
        let count = if kind.is_large() { 40 } else { 500 };
        let mut wide = 0;
        for seed in (0..count).map(|n| 850_000 + 1_000 * kind as u64 + n) {
            wide += run_before(&history(&mut Rng::new(seed), kind));
        }
        assert!(wide > count, "{kind:?}: {wide} items of several places");
    }
}

/// Where every item has one place all is as before: bids, matching, prices and gains.
#[test]
fn items_of_one_place_are_as_before() {
    let ones = Kind::ALL.into_iter().filter(|kind| kind.is_served());
    for kind in ones.filter(|kind| !Kind::OF_PLACES.contains(kind)) {
        let count = if kind.is_large() { 30 } else { 400 };
        for seed in (0..count).map(|n| 870_000 + 1_000 * kind as u64 + n) {
            assert_eq!(run_before(&history(&mut Rng::new(seed), kind)), 0);
        }
    }
}

/// A board of places that is opened so is the one of its spread history but for the counts,
/// and refuses the same: a call that is spread is served where the call is.
#[test]
fn spread_histories() {
    for seed in 880_000..880_300 {
        let history = history(&mut Rng::new(seed), Kind::Places);
        let (record, wide) =
            (to_record(&history.auction()), to_record(&spread(&history).auction()));
        assert_eq!(
            (record.places, record.price, record.gain),
            (wide.places, wide.price, wide.gain)
        );
        assert_eq!((record.holder, record.withdrawn), (wide.holder, wide.withdrawn));
        assert!(record.rows == wide.rows && wide.items == wide.places, "seed {seed}");
        let calls = history.calls.iter().map(|call| spread_call(&history.counts, call));
        assert_eq!(calls.count(), history.calls.len());
    }
}

// ---- every plan

/// Every board of a tiny history.
fn boards(seed: u64) -> Vec<Auction> {
    let history = tiny_places(&mut Rng::new(seed));
    let mut boards = vec![history.opened()];
    for call in &history.calls {
        let mut next = boards.last().expect("a board").clone();
        call.carry_out(&mut next).expect("a good call");
        boards.push(next);
    }
    boards
}

fn ground(auction: &Auction) -> Ground {
    Ground { live: auction.live_weights(), counts: auction.counts() }
}

/// "worth times q + p is at least q - p times the worth of every plan on the live sheet";
/// the exact level's worth is the greatest of them, and no plan names an item too often.
#[test]
fn the_share_against_every_plan() {
    let (mut tried, mut short, mut twice) = (0, 0, 0);
    for auction in (910_000..913_500).flat_map(boards) {
        let (ground, Slack { p, q }) = (ground(&auction), auction.slack);
        let plans = all(&ground);
        let greatest = plans.iter().map(|plan| weight_of(&ground.live, plan)).max();
        let greatest = greatest.expect("the empty plan");
        assert!((q + p) * auction.weight() >= (q - p) * greatest, "{auction:?}");
        assert_eq!(solve(&ground.live, &ground.counts).weight, greatest, "{auction:?}");
        assert!(plans.contains(&auction.matching()), "{auction:?}");
        short += (auction.weight() < greatest) as u64;
        twice += (1..=auction.items.len() as u64).any(|i| times(&auction.matching(), i) > 1) as u64;
        tried += plans.len();
    }
    println!("{tried} plans, {short} boards below the greatest, {twice} name an item twice");
    assert!(tried > 100_000 && short > 300 && twice > 1_500);
}

/// A plan is one of all plans exactly where the check does not refuse it with 10, at every
/// list of cells; the first refused cell is the one after which no plan begins.
#[test]
fn plans_that_the_check_takes() {
    let (mut taken, mut clashing) = (0, 0);
    for auction in (902_000..902_250).flat_map(boards) {
        let (bidders, items) = (auction.bidders.len(), auction.items.len() as u64);
        if bidders > 4 {
            continue;
        }
        let plans = all(&ground(&auction));
        let begins = |list: &[u64]| plans.iter().any(|plan| plan.starts_with(list));
        let cover = claim::exact(&auction);
        for code in 0..(items + 2).pow(bidders as u32) {
            let cell = |bidder: usize| code / (items + 2).pow(bidder as u32) % (items + 2);
            let matching: Vec<u64> = (0..bidders).map(cell).collect();
            let answer = check(&auction, &Claim { matching: matching.clone(), ..cover.clone() });
            match (1..=bidders).find(|&length| !begins(&matching[..length])) {
                Some(place) => {
                    refused(answer, 10, place as u64);
                    clashing += 1;
                }
                None => {
                    assert!(answer.is_ok(), "{matching:?}\n{auction:?}");
                    taken += 1;
                }
            }
        }
    }
    println!("{taken} plans, {clashing} lists that clash");
    assert!(taken > 4_000 && clashing > 30_000);
}

/// "Two totals are equal exactly when neither can be bettered": covers at random, every plan
/// beside each. "a list's sum counting each kettle's price once per place".
#[test]
fn equal_totals_are_the_best() {
    let (mut equal, mut unequal) = (0, 0);
    for (seed, auction) in
        (903_000..903_400).flat_map(|seed| boards(seed).into_iter().map(move |b| (seed, b)))
    {
        let rng = &mut Rng::new(seed);
        let ground = ground(&auction);
        let greatest = solve(&ground.live, &ground.counts).weight;
        let exact = claim::exact(&auction);
        let mut covers = vec![exact.clone()];
        covers.extend((0..4).map(|_| nearby(rng, &auction, &exact)));
        for plan in all(&ground) {
            for cover in &covers {
                let totals = check(&auction, &Claim { matching: plan.clone(), ..cover.clone() });
                let Totals { weight, sum } = totals.expect("a plan and a cover");
                assert!(weight <= greatest && greatest <= sum, "{auction:?}");
                let best = weight == greatest && sum == greatest;
                assert_eq!(weight == sum, best, "{auction:?}");
                *if best { &mut equal } else { &mut unequal } += 1;
            }
        }
    }
    println!("{equal} pairs of equal totals, {unequal} others");
    assert!(equal > 3_000 && unequal > 50_000);
}

/// A cover near a best one: a price a little higher or lower, and gains that cover the rest.
fn nearby(rng: &mut Rng, auction: &Auction, exact: &Claim) -> Claim {
    let mut cover = exact.clone();
    let item = rng.index(cover.price.len());
    if !auction.items[item].withdrawn {
        let price = cover.price[item];
        cover.price[item] = rng.pick(&[price, price + 1, price.saturating_sub(1), 0]);
    }
    for (gain, row) in cover.gain.iter_mut().zip(auction.live_weights()) {
        let rest =
            row.iter().zip(&cover.price).map(|(weight, price)| weight.saturating_sub(*price));
        *gain = rest.max().unwrap_or(0);
    }
    cover
}

/// The order of all plans that name an item once per place, sorted by worths and cells; and
/// 10 for one more.
#[test]
fn plans_side_by_side() {
    let (mut tried, mut clashing) = (0, 0);
    for auction in (904_000..904_300).flat_map(boards) {
        let ground = ground(&auction);
        let plans = all(&ground);
        for (first, second) in pairs(&plans).step_by(7) {
            let answer = compare(&auction, first, second).expect("two plans");
            let worths = [first, second].map(|plan| weight_of(&ground.live, plan) as i64);
            assert_eq!(answer.difference, worths[0] - worths[1], "{auction:?}");
            assert_eq!(answer.order, key(&ground.live, first).cmp(&key(&ground.live, second)));
            tried += 1;
        }
        for (plan, bidder) in plans.iter().flat_map(|plan| (0..plan.len()).map(move |b| (plan, b)))
        {
            let mut crowded = plan.clone();
            let full =
                |&item: &u64| times(&plan[..bidder], item) == ground.counts[item as usize - 1];
            if let Some(item) = (1..=ground.counts.len() as u64).find(full) {
                crowded[bidder] = item;
                refused(compare(&auction, &crowded, plan), 10, bidder as u64 + 1);
                refused(compare(&auction, plan, &crowded), 10, bidder as u64 + 1);
                clashing += 1;
            }
        }
    }
    println!("{tried} pairs of plans, {clashing} lists with an item once too often");
    assert!(tried > 60_000 && clashing > 5_000);
}

/// A page names an item once per place, and is read back.
#[test]
fn pages_of_places() {
    let mut twice = 0;
    for seed in 905_000..905_300 {
        let auction = history(&mut Rng::new(seed), Kind::Places).auction();
        let rows = page::rows(&auction);
        assert_eq!(page::read(&page::write(&rows)), Ok(rows.clone()), "seed {seed}");
        let items: Vec<u64> = rows.iter().map(|row| row.item).collect();
        assert_eq!(items, auction.matching(), "seed {seed}");
        twice += (1..=auction.items.len() as u64).any(|item| times(&items, item) > 1) as u64;
    }
    assert!(twice > 100, "{twice}");
}

// ---- lists and refusals

/// A withdrawal in another order, or place by place, comes to another board on many.
#[test]
fn other_orders_come_to_other_boards() {
    let (mut withdrawals, mut apart) = (0, [0; 5]);
    for seed in 906_000..907_000 {
        let history = history(&mut Rng::new(seed), Kind::PlacesLists);
        let mut auction = history.opened();
        for call in &history.calls {
            if let Call::Withdraw(items) = call {
                let walked = |order: Order| {
                    let mut walk = Walk::on(auction.clone(), by_pairs);
                    walk.withdraw(items, order);
                    walk
                };
                let right = walked(Order::Number);
                for (apart, order) in apart.iter_mut().zip(Order::OTHERS) {
                    *apart += (walked(order).auction != right.auction) as u64;
                }
                withdrawals += 1;
                assert_eq!(auction.withdraw(items), Ok(right.ties.bids), "seed {seed}");
                assert_eq!(auction, right.auction, "seed {seed}");
            } else {
                call.carry_out(&mut auction).expect("a good call");
            }
        }
    }
    println!("{withdrawals} withdrawals, {apart:?} come to another board");
    assert!(withdrawals > 2_000 && apart.iter().all(|&boards| boards > 60));
}

/// What a record of 13 answers, the counts of an opening kept.
#[test]
fn records_keep_their_counts() {
    for seed in 908_000..908_200 {
        let history = history(&mut Rng::new(seed), Kind::PlacesLists);
        let mut record =
            open_record(history.items(), history.slack, &history.counts).expect("it opens");
        for call in &history.calls {
            match call {
                Call::Arrive(edges) => arrive_record(&mut record, edges),
                Call::Withdraw(items) => withdraw_record(&mut record, items),
            }
            .expect("a good call");
            assert_eq!(record.counts(), history.counts, "seed {seed}");
            assert!(is_sound(&record), "seed {seed}");
        }
    }
}

//! The cases that document 01 prints, worked out afresh by the bid of R-7 in document 02,
//! by calls and by texts, the example of R-1, and cases of; the greatest
//! worths are counted as R-9 has it too.

use noughtelm_tests::model::auction::*;
use noughtelm_tests::model::check::{check, Claim, Totals};
use noughtelm_tests::model::compare::{compare, Comparison};
use noughtelm_tests::model::count::count;
use noughtelm_tests::model::hungarian::solve;
use noughtelm_tests::model::refusal::Refusal;
use noughtelm_tests::model::text::sheet;
use std::cmp::Ordering::{self, Equal, Greater, Less};

fn open(items: u64, p: u64, q: u64) -> Result<Auction, Refusal> {
    Auction::open(items, Slack { p, q })
}

fn arrive(auction: &mut Auction, edges: &[(u64, u64)]) -> Result<u64, Refusal> {
    let edges: Vec<Edge> = edges.iter().map(|&(item, weight)| Edge { item, weight }).collect();
    auction.arrive(&edges)
}

fn refused<T>(answer: Result<T, Refusal>, number: u64, place: u64) {
    assert_eq!(answer.err(), Some(Refusal { number, place }));
}

/// Matching, weight, sum and greatest weight.
fn assert_state(auction: &Auction, matching: &[u64], weight: u64, sum: u64, greatest: u64) {
    assert_eq!(auction.matching(), matching);
    assert_eq!((auction.weight(), auction.sum()), (weight, sum));
    assert_eq!(solve(&auction.live_weights(), &auction.counts()).weight, greatest);
    assert_eq!(count(auction), Ok(greatest));
}

/// The first finds 1,000 and 600: the price rises by the lead of 400 and by 100. The second
/// finds 400 and nothing else, so that it rises by 400 and by 90. The first then finds 10,
/// which is not open, and 600.
fn case_1() -> Auction {
    let mut auction = open(2, 1, 10).unwrap();
    assert_eq!(arrive(&mut auction, &[(1, 100), (2, 60)]), Ok(1));
    assert_eq!((auction.prices(), auction.gains()), (vec![500, 0], vec![600]));
    assert_eq!(arrive(&mut auction, &[(1, 90)]), Ok(2));
    auction
}

#[test]
fn case_1_by_text_and_by_call() {
    let text = b"K\t2\t1\t10\nA\t1\t100\t2\t60\nA\t1\t90\n";
    let printed = b"P\t1\t2\t0\nP\t2\t1\t0\nY\t1\t990\nY\t2\t660\nT\t150\t1650\t3\nE\t150\n";
    assert_eq!(sheet(text), printed);
    let auction = case_1();
    assert_state(&auction, &[2, 1], 150, 1_650, 150);
    assert_eq!((auction.prices(), auction.gains()), (vec![990, 660], vec![0, 0]));
}

#[test]
fn case_2_withdrawal() {
    let mut auction = case_1();
    assert_eq!(auction.withdraw(&[1]), Ok(0));
    assert_state(&auction, &[2, 0], 60, 660, 60);
}

#[test]
fn case_3_wide_slack() {
    let mut auction = open(1, 9, 10).unwrap();
    assert_eq!(arrive(&mut auction, &[(1, 100)]), Ok(1));
    assert_eq!(arrive(&mut auction, &[(1, 500)]), Ok(0));
    assert_state(&auction, &[1, 0], 100, 1_900, 500);
    assert_eq!((auction.prices(), auction.gains()), (vec![1_900], vec![0, 0]));
}

#[test]
fn case_4_equality_is_not_open() {
    let mut auction = open(1, 1, 2).unwrap();
    assert_eq!(arrive(&mut auction, &[(1, 100)]), Ok(1));
    assert_eq!(arrive(&mut auction, &[(1, 100)]), Ok(0));
    assert_state(&auction, &[1, 0], 100, 300, 100);
    assert_eq!((auction.prices(), auction.gains()), (vec![300], vec![0, 0]));
}

#[test]
fn case_5_lowest_item() {
    let mut auction = open(2, 1, 10).unwrap();
    assert_eq!(arrive(&mut auction, &[(1, 50), (2, 50)]), Ok(1));
    assert_eq!(auction.matching(), [1]);
    assert_eq!((auction.prices(), auction.gains()), (vec![50, 0], vec![500]));
}

#[test]
fn case_6_empty_arrival() {
    let mut auction = open(2, 1, 10).unwrap();
    assert_eq!(arrive(&mut auction, &[]), Ok(0));
    assert_eq!(auction.matching(), [0]);
}

#[test]
fn cases_7_and_8_check() {
    let auction = case_1();
    let slack = Slack { p: 0, q: 1 };
    let matching = auction.matching();
    let mut claim = Claim { matching, price: vec![40, 0], gain: vec![60, 50], slack };
    assert_eq!(check(&auction, &claim), Ok(Totals { weight: 150, sum: 150 }));
    claim.price[0] = 39;
    refused(check(&auction, &claim), 12, 1);
}

#[test]
fn cases_9_to_11_opening() {
    refused(open(0, 1, 10), 1, 0);
    assert!(open(64, 1, 10).is_ok());
    refused(open(65, 1, 10), 1, 0);
    refused(open(2, 5, 5), 2, 0);
    assert!(open(2, 1, 1_000).is_ok());
    refused(open(2, 1, 1_001), 2, 0);
    refused(open(0, 5, 5), 1, 0);
}

#[test]
fn case_12_weights() {
    let mut auction = open(1, 1, 10).unwrap();
    assert_eq!(arrive(&mut auction, &[(1, 1_000_000)]), Ok(1));
    refused(arrive(&mut auction, &[(1, 0)]), 6, 1);
    refused(arrive(&mut auction, &[(1, 1_000_001)]), 6, 1);
}

#[test]
fn case_13_full() {
    let mut auction = open(1, 1, 2).unwrap();
    assert!((0..128).all(|_| arrive(&mut auction, &[]).is_ok()));
    refused(arrive(&mut auction, &[(9, 9)]), 3, 0);
}

#[test]
fn case_14_withdrawn_twice() {
    let mut auction = open(2, 1, 10).unwrap();
    assert_eq!(auction.withdraw(&[1]), Ok(0));
    refused(auction.withdraw(&[1]), 5, 1);
    refused(auction.withdraw(&[3]), 4, 1);
    refused(arrive(&mut auction, &[(2, 5), (1, 5)]), 5, 2);
}

/// The first finds 120 and raises the price to 180. That is above 122 for the second, which
/// has item 2 for 90, and leaves 62 for the third, not above 121.
#[test]
fn case_15_true_share() {
    let mut auction = open(2, 1, 2).unwrap();
    assert_eq!(arrive(&mut auction, &[(1, 60)]), Ok(1));
    assert_eq!(arrive(&mut auction, &[(1, 61), (2, 30)]), Ok(1));
    assert_eq!(arrive(&mut auction, &[(1, 121)]), Ok(0));
    assert_state(&auction, &[1, 2, 0], 90, 270, 151);
    assert_eq!((auction.prices(), auction.gains()), (vec![180, 90], vec![0, 0, 0]));
}

/// Document 02, R-1: "at 1/10 with kettle 1 priced 0 and worth 50, and kettle 2
/// priced 100 and worth 60, kettle 2 is now taken". Item 2 is priced 100 by a bidder whom
/// item 3 serves as well; it finds 840 there then, and 1,000 at item 3.
#[test]
fn equal_utility_goes_to_the_larger_weight() {
    let mut auction = open(3, 1, 10).unwrap();
    assert_eq!(arrive(&mut auction, &[(2, 100), (3, 100)]), Ok(1));
    assert_eq!((auction.prices(), auction.gains()), (vec![0, 100, 0], vec![1_000]));
    assert_eq!(arrive(&mut auction, &[(1, 50), (2, 60)]), Ok(2));
    assert_state(&auction, &[3, 2], 160, 1_760, 160);
    assert_eq!((auction.prices(), auction.gains()), (vec![0, 160, 260], vec![840, 500]));
}

/// The same, but the holder of item 2 has no open edge left: item 3 is priced 880.
#[test]
fn larger_weight_is_kept() {
    let mut auction = open(3, 1, 10).unwrap();
    assert_eq!(arrive(&mut auction, &[(2, 10), (3, 1)]), Ok(1));
    assert_eq!(arrive(&mut auction, &[(3, 80)]), Ok(1));
    assert_eq!((auction.prices(), auction.gains()), (vec![0, 100, 880], vec![10, 0]));
    assert_eq!(arrive(&mut auction, &[(1, 50), (2, 60)]), Ok(1));
    assert_state(&auction, &[0, 3, 2], 140, 1_540, 140);
    assert_eq!((auction.prices(), auction.gains()), (vec![0, 160, 880], vec![0, 0, 500]));
}

/// Item 2 has equal utility and the larger weight, but "equality is not open": it is neither
/// taken nor the second.
#[test]
fn larger_weight_must_be_open() {
    let mut auction = open(3, 1, 2).unwrap();
    assert_eq!(arrive(&mut auction, &[(2, 100), (3, 100)]), Ok(1));
    assert_eq!((auction.prices(), auction.gains()), (vec![0, 100, 0], vec![200]));
    assert_eq!(arrive(&mut auction, &[(1, 50), (2, 100)]), Ok(1));
    assert_state(&auction, &[2, 1], 150, 450, 200);
    assert_eq!((auction.prices(), auction.gains()), (vec![150, 100, 0], vec![200, 0]));
}

/// Edge by edge 4, 5, 6, 7: the first bad edge decides.
#[test]
fn refusals_of_an_arrival_in_order() {
    let mut auction = open(3, 1, 10).unwrap();
    auction.withdraw(&[2]).unwrap();
    let before = auction.clone();
    refused(arrive(&mut auction, &[(3, 5), (4, 0), (2, 0)]), 4, 2);
    refused(arrive(&mut auction, &[(2, 0)]), 5, 1);
    refused(arrive(&mut auction, &[(3, 5), (1, 0)]), 6, 2);
    refused(arrive(&mut auction, &[(3, 5), (3, 5)]), 7, 2);
    refused(arrive(&mut auction, &[(0, 5)]), 4, 1);
    assert_eq!(auction, before);
}

/// Bidders 1 and 2 hold items 2 and 1, and want item 3.
fn crossed() -> Auction {
    let mut auction = open(3, 1, 2).unwrap();
    assert_eq!(arrive(&mut auction, &[(2, 100), (3, 50)]), Ok(1));
    assert_eq!(arrive(&mut auction, &[(1, 100), (3, 50)]), Ok(1));
    auction
}

/// Document 02, R-3: "All go first; then the displaced batches bid in number order".
#[test]
fn a_list_of_items() {
    let mut auction = crossed();
    assert_eq!(auction.withdraw(&[1, 2]), Ok(1));
    assert_state(&auction, &[3, 0], 50, 150, 50);
    assert_eq!((auction.prices(), auction.gains()), (vec![0, 0, 150], vec![0, 0]));
    let text = b"K\t3\t1\t2\nA\t2\t100\t3\t50\nA\t1\t100\t3\t50\nW\t1\t2\n";
    assert_eq!(sheet(text), b"P\t1\t3\t0\nP\t2\t0\t0\nY\t3\t150\nT\t50\t150\t3\nE\t50\n");
}

/// "An empty list changes nothing in a call and is badly formed as a line".
#[test]
fn an_empty_list() {
    let mut auction = crossed();
    assert_eq!(auction.withdraw(&[]), Ok(0));
    assert_eq!(auction, crossed());
    assert_eq!(sheet(b"K\t3\t1\t2\nW\n"), b"R\t14\t2\n");
}

/// "Kettle by kettle 4, 5, 7, nothing withdrawn if any fails; 5 is read from the board
/// handed in, so a live kettle named twice is 7".
#[test]
fn refusals_of_a_withdrawal_in_order() {
    let mut auction = crossed();
    auction.withdraw(&[2]).unwrap();
    let before = auction.clone();
    refused(auction.withdraw(&[1, 4]), 4, 2);
    refused(auction.withdraw(&[1, 0]), 4, 2);
    refused(auction.withdraw(&[3, 2]), 5, 2);
    refused(auction.withdraw(&[2, 2]), 5, 1);
    refused(auction.withdraw(&[1, 1]), 7, 2);
    refused(auction.withdraw(&[3, 1, 4]), 7, 2);
    assert_eq!(auction, before);
    assert_eq!(auction.withdraw(&[1, 3]), Ok(0));
    refused(auction.withdraw(&[1, 1]), 5, 1);
}

/// Bidders 1 and 2 want items 1 and 2, at 50 and at 51 pence, and bidder 3 item 1.
fn shared() -> Auction {
    let mut auction = open(3, 1, 10).unwrap();
    for edges in [&[(1, 50), (2, 51), (3, 9)][..], &[(1, 50), (2, 51)], &[(1, 50)]] {
        arrive(&mut auction, edges).unwrap();
    }
    auction.withdraw(&[3]).unwrap();
    auction
}

/// Document 02, R-4: "negative where the first is worth less", "the greater worth first,
/// then by the plan's cells, the first smaller cell making the earlier plan".
#[test]
fn two_plans() {
    let cases: [([u64; 3], [u64; 3], i64, Ordering); 8] = [
        ([1, 2, 0], [1, 2, 0], 0, Equal),
        ([1, 2, 0], [2, 1, 0], 0, Less),
        ([0, 2, 1], [1, 2, 0], 0, Less),
        ([2, 0, 1], [0, 2, 1], 0, Greater),
        ([0, 0, 1], [0, 2, 0], -1, Greater),
        ([2, 0, 0], [1, 0, 0], 1, Less),
        ([0, 0, 0], [2, 0, 1], -101, Greater),
        ([0, 0, 0], [0, 0, 0], 0, Equal),
    ];
    for (first, second, difference, order) in cases {
        let expected = Ok(Comparison { difference, order });
        assert_eq!(compare(&shared(), &first, &second), expected, "{first:?} {second:?}");
    }
}

/// "9 and 10 for the first plan, then 9 and 10 for the second".
#[test]
fn refusals_of_two_plans_in_order() {
    let auction = shared();
    refused(compare(&auction, &[1, 1, 9], &[1, 2]), 10, 2);
    refused(compare(&auction, &[1, 2], &[9, 2, 0]), 9, 0);
    refused(compare(&auction, &[3, 2, 0], &[]), 10, 1);
    refused(compare(&auction, &[1, 2, 0], &[1, 1, 1, 1]), 9, 0);
    refused(compare(&auction, &[1, 2, 0], &[1, 2, 2]), 10, 3);
    refused(compare(&auction, &[1, 2, 0], &[1, 2, 4]), 10, 3);
}

/// Document 02, R-6: an item of two places at 1/10, and one of one. The first takes the first
/// place, without lead; the second finds 900 at the other, and 800 at the first.
fn double() -> Auction {
    let slack = Slack { p: 1, q: 10 };
    let mut auction = Auction::open_places(2, slack, &[2, 1]).unwrap();
    assert_eq!(arrive(&mut auction, &[(1, 100), (2, 60)]), Ok(1));
    assert_eq!(arrive(&mut auction, &[(1, 90)]), Ok(1));
    auction
}

/// "Read-out gives a kettle's least price"; "The board's own sum, in line `T`, counts every
/// place's price, so a check of read-out prices may total less than q + p times the worth,
/// never more".
#[test]
fn a_double_kettle() {
    let auction = double();
    assert_state(&auction, &[1, 1], 190, 11 * 190, 190);
    assert_eq!(auction.items[0].prices, [100, 190]);
    assert_eq!((auction.prices(), auction.gains()), (vec![100, 0], vec![1_000, 800]));
    let (matching, price, gain) = (auction.matching(), auction.prices(), auction.gains());
    let mut claim = Claim { matching, price, gain, slack: auction.slack };
    assert_eq!(check(&auction, &claim), Ok(Totals { weight: 190, sum: 2 * 100 + 1_800 }));
    claim.price[0] += 1;
    assert_eq!(check(&auction, &claim), Ok(Totals { weight: 190, sum: 2 * 101 + 1_800 }));
    let text = b"K\t2\t1\t10\nP\t1\t2\nA\t1\t100\t2\t60\nA\t1\t90\n";
    let printed = b"P\t1\t1\t1000\nP\t2\t1\t800\nY\t1\t100\nY\t2\t0\nT\t190\t2090\t2\nE\t190\n";
    assert_eq!(sheet(text), printed);
}

/// "A plan may name a kettle once per place".
#[test]
fn plans_of_a_double_kettle() {
    let mut auction = double();
    assert_eq!(arrive(&mut auction, &[(1, 10)]), Ok(0));
    let same = Ok(Comparison { difference: 0, order: Equal });
    assert_eq!(compare(&auction, &[1, 1, 0], &[1, 1, 0]), same);
    let more = Ok(Comparison { difference: 30, order: Less });
    assert_eq!(compare(&auction, &[1, 1, 0], &[2, 1, 1]), more);
    refused(compare(&auction, &[1, 1, 1], &[2, 1, 1]), 10, 3);
    refused(compare(&auction, &[1, 1, 0], &[1, 1, 1]), 10, 3);
}

/// "9 for counts of another length, then 16": a count "at that kettle", the total "at place 0".
#[test]
fn counts_at_opening() {
    let open = |counts: &[u64]| Auction::open_places(3, Slack { p: 1, q: 10 }, counts);
    assert!(open(&[1, 8, 3]).is_ok());
    refused(open(&[1, 8]), 9, 0);
    refused(open(&[0, 9, 1, 1]), 9, 0);
    refused(open(&[1, 9, 0]), 16, 2);
    refused(open(&[1, 8, 0]), 16, 3);
    refused(Auction::open_places(9, Slack { p: 1, q: 10 }, &[8; 9]), 16, 0);
    assert!(Auction::open_places(8, Slack { p: 1, q: 10 }, &[8; 8]).is_ok());
}

/// Document 02, R-7: "Refusal 11's limit of 1,000,000,000 becomes 2,000,000,000".
#[test]
fn prices_and_gains_at_the_limit() {
    let (auction, slack) = (case_1(), Slack { p: 0, q: 1 });
    for (list, cell) in [(0, 0), (0, 1), (1, 0), (1, 1)] {
        let with = |number: u64| {
            let mut lists = [vec![100, 60], vec![100, 90]];
            lists[list][cell] = number;
            let [price, gain] = lists;
            check(&auction, &Claim { matching: vec![2, 1], price, gain, slack })
        };
        let sum = 350 - [[100, 60], [100, 90]][list][cell];
        for number in [1_000_000_000, 1_000_000_001, 2_000_000_000] {
            assert_eq!(with(number), Ok(Totals { weight: 150, sum: sum + number }));
        }
        for number in [2_000_000_001, u64::MAX] {
            refused(with(number), 11, 2 * list as u64 + cell as u64 + 1);
        }
    }
}

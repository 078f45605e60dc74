//! The bigger bid (document 02, R-7) on both sides: "the leaf that finds the best place also
//! returns the greatest utility of any other open place of that batch, 0 if none. The gain
//! becomes that second utility, and the price rises by the lead plus p × w." Boards worked by
//! hand, prices at the limit, and the bound.

use noughtelm_tests::both::watched::Watched;
use noughtelm_tests::both::{wide, Both, Tally};
use noughtelm_tests::ffi;
use noughtelm_tests::gen::claim;
use noughtelm_tests::gen::history::{Call, History};
use noughtelm_tests::gen::places::{counts, full};
use noughtelm_tests::gen::sheet::{edges, sheet, Pattern};
use noughtelm_tests::model::auction::*;
use noughtelm_tests::model::check::Totals;
use noughtelm_tests::model::sound::from_record;
use noughtelm_tests::rng::Rng;

// ---- by hand

/// A board, the edges of one bidder after another with the bids that its arrival makes, and
/// what it comes to, place by place and bidder by bidder.
struct Case {
    counts: &'static [u64],
    slack: (u64, u64),
    arrivals: &'static [(&'static [(u64, u64)], u64)],
    prices: &'static [u64],
    holders: &'static [u8],
    gains: &'static [u64],
}

impl Case {
    /// The board on both sides, with the laws after each arrival.
    fn assert(&self) {
        let mut seen = Tally::default();
        self.assert_on(&mut seen);
    }

    fn assert_on<'a>(&self, seen: &'a mut Tally) -> Watched<'a> {
        let (p, q) = self.slack;
        let (counts, slack) = (self.counts.to_vec(), Slack { p, q });
        let opening = History { counts, slack, calls: Vec::new() };
        let mut board = Watched::opened(&opening, seen).expect("both agree");
        for (list, bids) in self.arrivals {
            let edge = |&(item, weight): &(u64, u64)| Edge { item, weight };
            let edges: Vec<Edge> = list.iter().map(edge).collect();
            assert_eq!(board.arrive(&edges), Ok(Ok(*bids)), "{list:?}");
        }
        let ours = board.both.ours;
        let (places, bidders) = (self.prices.len(), self.gains.len());
        assert_eq!(ours.price[..places].iter().map(|y| y.0).collect::<Vec<_>>(), self.prices);
        assert_eq!(ours.holder[..places], *self.holders);
        assert_eq!(ours.gain[..bidders].iter().map(|g| g.0).collect::<Vec<_>>(), self.gains);
        board
    }
}

/// "0 if none": the price rises by all of 1,000 and by 100.
#[test]
fn no_other_place() {
    Case {
        counts: &[1],
        slack: (1, 10),
        arrivals: &[(&[(1, 100)], 1)],
        prices: &[1_100],
        holders: &[1],
        gains: &[0],
    }
    .assert();
}

/// The lead is 200 over the greatest of the others, wherever it stands.
#[test]
fn the_greatest_of_the_others() {
    for (edges, prices) in [
        ([(1, 100), (2, 60), (3, 80)], [300, 0, 0]),
        ([(1, 100), (2, 80), (3, 60)], [300, 0, 0]),
        ([(1, 60), (2, 100), (3, 80)], [0, 300, 0]),
        ([(1, 80), (2, 100), (3, 60)], [0, 300, 0]),
        ([(1, 60), (2, 80), (3, 100)], [0, 0, 300]),
        ([(1, 80), (2, 60), (3, 100)], [0, 0, 300]),
    ] {
        let board = ffi::open(3, 1, 10).board;
        let edges = edges.map(|(item, weight)| ffi::Edge { item, weight });
        let after = ffi::arrive(board, &edges);
        assert_eq!((after.number, after.value), (0, 1));
        assert_eq!([0, 1, 2].map(|place| after.board.price[place].0), prices, "{edges:?}");
        assert_eq!(after.board.gain[0].0, 800, "{edges:?}");
    }
}

/// Another place of the same item counts: the first bidder finds 1,000 there too, not only
/// 600 at item 2; the second finds 900, and 800 at the place of the first.
#[test]
fn a_place_of_the_same_item() {
    Case {
        counts: &[2, 1],
        slack: (1, 10),
        arrivals: &[(&[(1, 100), (2, 60)], 1), (&[(1, 90)], 1)],
        prices: &[100, 190, 0],
        holders: &[1, 2, 0],
        gains: &[1_000, 800],
    }
    .assert();
}

/// Two equal best: the lead is 0. The price rises by 50 alone, also where the equal one has
/// another weight: at item 2, then at 100, 60 has the utility of 50 at item 1.
#[test]
fn two_equal_best() {
    Case {
        counts: &[1, 1],
        slack: (1, 10),
        arrivals: &[(&[(1, 50), (2, 50)], 1)],
        prices: &[50, 0],
        holders: &[1, 0],
        gains: &[500],
    }
    .assert();
    Case {
        counts: &[1, 1, 1],
        slack: (1, 10),
        arrivals: &[(&[(2, 100), (3, 100)], 1), (&[(1, 50), (2, 60)], 2)],
        prices: &[0, 160, 260],
        holders: &[0, 2, 1],
        gains: &[840, 500],
    }
    .assert();
}

/// Four bidders for three places of one item, all of one weight: the leads are 0 and 100 by
/// turns, until bidder 4 finds 100 and 100, which are not open, and nothing at the last place.
#[test]
fn a_war_for_equal_places() {
    const ALL: &[(u64, u64)] = &[(1, 100)];
    Case {
        counts: &[3],
        slack: (1, 10),
        arrivals: &[(ALL, 1), (ALL, 1), (ALL, 1), (ALL, 16)],
        prices: &[900, 900, 1_100],
        holders: &[1, 2, 3],
        gains: &[200, 200, 0, 0],
    }
    .assert();
}

/// An edge that is not open is never the second: not at equality, where item 2, then at 100,
/// leaves 100 of 200 for a weight of 100; nor where it leaves 13,100, more than the place
/// taken, but not above 9/10 of 15,000. With one penny more item 2 is open, and is taken.
#[test]
fn not_open_is_never_the_second() {
    Case {
        counts: &[1, 1, 1],
        slack: (1, 2),
        arrivals: &[(&[(2, 100), (3, 100)], 1), (&[(1, 50), (2, 100)], 1)],
        prices: &[150, 100, 0],
        holders: &[2, 1, 0],
        gains: &[200, 0],
    }
    .assert();
    Case {
        counts: &[1, 1, 1],
        slack: (1, 2),
        arrivals: &[(&[(2, 100), (3, 100)], 1), (&[(1, 50), (2, 101)], 2)],
        prices: &[0, 203, 300],
        holders: &[0, 2, 1],
        gains: &[0, 100],
    }
    .assert();
    Case {
        counts: &[1, 1],
        slack: (9, 10),
        arrivals: &[(&[(1, 100)], 1), (&[(1, 1_500), (2, 10)], 1)],
        prices: &[1_900, 190],
        holders: &[1, 2],
        gains: &[0, 0],
    }
    .assert();
}

/// The place that a bidder was displaced from may be its second: bidder 1 finds 760 there,
/// and 1,000 at item 2. When that leaves, it is back for 760 and finds nothing else.
#[test]
fn the_place_that_was_lost() {
    let mut seen = Tally::default();
    let mut board = Case {
        counts: &[1, 1, 1],
        slack: (1, 10),
        arrivals: &[(&[(1, 100), (2, 100)], 1), (&[(1, 90), (3, 75)], 2)],
        prices: &[240, 340, 0],
        holders: &[2, 1, 0],
        gains: &[760, 750],
    }
    .assert_on(&mut seen);
    assert_eq!(board.withdraw(&[2]), Ok(Ok(2)));
    let [m, y, g] = board.both.read_out([2, 3, 2]).expect("both agree").expect("room");
    assert_eq!((m, y, g), (vec![1, 3], vec![1_100, 0, 825], vec![0, 0]));
}

/// The place of an item that is withdrawn is never the second, though its price is 0.
#[test]
fn withdrawn_is_never_the_second() {
    let mut seen = Tally::default();
    let mut board = Case {
        counts: &[2, 1],
        slack: (1, 10),
        arrivals: &[(&[(1, 100), (2, 60)], 1)],
        prices: &[100, 0, 0],
        holders: &[1, 0, 0],
        gains: &[1_000],
    }
    .assert_on(&mut seen);
    assert_eq!(board.withdraw(&[1]), Ok(Ok(1)));
    let [m, y, g] = board.both.read_out([1, 2, 1]).expect("both agree").expect("room");
    assert_eq!((m, y, g), (vec![2], vec![0, 660], vec![0]));
}

// ---- the limit of prices

/// What is read out is accepted by the check at the board's own slack.
fn check_of_the_read_out(both: &mut Both, told: &str) -> Totals {
    let auction = from_record(&both.model).expect("a sound board");
    let [m, y, g] = both.read_out(wide()).expect("both agree").expect("room");
    let own = claim::own(&auction);
    let (bidders, items) = (auction.bidders.len(), auction.items.len());
    assert_eq!(
        (&m[..bidders], &y[..items], &g[..bidders]),
        (&own.matching[..], &own.price[..], &own.gain[..])
    );
    both.check(&own).expect("both agree").unwrap_or_else(|refusal| panic!("{refusal:?}: {told}"))
}

/// The greatest price there is, (1,000 + 999) × 1,000,000, at every place of a board.
#[test]
fn the_greatest_price() {
    let (mut seen, slack) = (Tally::default(), Slack { p: 999, q: 1_000 });
    let mut both = Both::open(64, slack, &mut seen).unwrap().expect("it opens");
    for item in 1..=64 {
        assert_eq!(both.arrive(&[Edge { item, weight: MAX_WEIGHT }]), Ok(Ok(1)));
        let totals = check_of_the_read_out(&mut both, "the greatest price");
        let (weight, sum) = (item * 1_000_000, item * 1_999_000_000);
        assert_eq!(totals, Totals { weight, sum });
    }
    assert!(both.ours.price.iter().all(|price| price.0 == 1_999_000_000));
}

/// Worths up to 1,000,000 and slack 999/1,000, most of them close to the limits: no price
/// and no gain of a board is above 2,000,000,000, and the check takes what is read out.
#[test]
fn no_price_is_above_the_limit() {
    let (mut seen, mut most, mut over) = (Tally::default(), 0, 0);
    for seed in 1_600_000..1_600_060 {
        let rng = &mut Rng::new(seed);
        let history = heavy(rng);
        let mut board = Watched::opened(&history, &mut seen).expect("both agree");
        for call in &history.calls {
            let answer = board.call(call).unwrap_or_else(|e| panic!("seed {seed}: {e}"));
            answer.expect("a good call");
            check_of_the_read_out(&mut board.both, &format!("seed {seed}"));
            let ours = board.both.ours;
            let highest = ours.price.iter().chain(&ours.gain).map(|cell| cell.0).max();
            let highest = highest.expect("a cell");
            assert!(highest <= 2_000_000_000, "seed {seed}");
            most = most.max(highest);
            over += (highest > 1_000_000_000) as u64;
        }
    }
    println!("{most} at most, {over} boards above 1,000,000,000");
    assert!(most == 1_999_000_000 && over > 500);
    assert_eq!(seen.of("check", 11), 0);
}

/// Half of the items leave at the end.
fn heavy(rng: &mut Rng) -> History {
    let counts = if rng.chance(1, 2) { ones(rng.range(1, 64)) } else { full(rng) };
    let items = counts.len() as u64;
    let (bidders, density) = (rng.range(20, 60), rng.range(1, 8));
    let rows = sheet(rng, Pattern::Ends, bidders, items, density);
    let near = |edge: Edge, less: u64| Edge { weight: edge.weight.max(less + 1) - less, ..edge };
    let mut arrival = |row: &Vec<u64>| {
        let list = edges(row).into_iter();
        Call::Arrive(list.map(|edge| near(edge, rng.pick(&[0, 0, 1, 9]))).collect())
    };
    let mut calls: Vec<Call> = rows.iter().map(&mut arrival).collect();
    calls.push(Call::Withdraw((1..=items / 2).collect()));
    History { counts, slack: Slack { p: 999, q: 1_000 }, calls }
}

// ---- the bound

/// Bids, and how many are allowed: "the bid bound must not loosen", an entry once per place.
fn bounded(history: &History, seen: &mut Tally) -> (u64, u64) {
    let Slack { p, q } = history.slack;
    let mut board = Watched::opened(history, seen).expect("both agree");
    let (mut bids, mut entries) = (0, 0);
    for call in &history.calls {
        let made = board.call(call).unwrap_or_else(|found| panic!("{found}\n{history:?}"));
        bids += made.expect("a good call");
        if let Call::Arrive(edges) = call {
            let counts = edges.iter().map(|edge| history.counts[edge.item as usize - 1]);
            entries += counts.sum::<u64>();
        }
        assert!(bids <= entries * ((q - 1) / p), "{bids} bids, {entries} entries\n{history:?}");
    }
    (bids, entries * ((q - 1) / p))
}

/// Bidders with every edge, of one weight or of nearly one, for fewer places: the wars that
/// the bigger bid leaves long, as most leads are small.
fn even(rng: &mut Rng) -> History {
    let items = rng.range(1, 4);
    let counts = counts(rng, items, 3);
    let bidders = counts.iter().sum::<u64>() + rng.range(1, 3);
    let pattern = rng.pick(&[Pattern::Level, Pattern::Close]);
    let rows = sheet(rng, pattern, bidders, items, 8);
    let calls = rows.iter().map(|row| Call::Arrive(edges(row))).collect();
    let (p, q) = rng.pick(&[(1, 2), (1, 3), (2, 5), (1, 10), (3, 10), (1, 100), (7, 1_000)]);
    History { counts, slack: Slack { p, q }, calls }
}

#[test]
fn the_bound_is_kept() {
    let (mut seen, mut nearest, mut bids) = (Tally::default(), 0, 0);
    for seed in 1_700_000..1_700_400 {
        let (made, most) = bounded(&even(&mut Rng::new(seed)), &mut seen);
        nearest = nearest.max(100 * made / most);
        bids += made;
    }
    println!("{bids} bids, up to {nearest} of 100 that are allowed");
    assert!(bids > 10_000 && nearest >= 40);
}

/// At 1/2 a single edge is bid for once, and that is all that the bound allows.
#[test]
fn the_bound_is_reached() {
    let mut seen = Tally::default();
    for (p, q, most) in [(1, 2, 1), (2, 3, 1), (999, 1_000, 1), (500, 999, 1)] {
        let calls = vec![Call::Arrive(vec![Edge { item: 1, weight: 5 }])];
        let history = History::of_ones(1, Slack { p, q }, calls);
        assert_eq!(bounded(&history, &mut seen), (1, most), "{p}/{q}");
    }
}

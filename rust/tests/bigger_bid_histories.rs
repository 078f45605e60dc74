//! The bigger bid (document 02, R-7) in random histories on both sides: bid by bid, beside
//! other bids, which come to other boards, and counted, as bids were until R-7 and since.

use noughtelm_tests::both::watched::Watched;
use noughtelm_tests::both::{board, record, Both, Same, Tally};
use noughtelm_tests::ffi;
use noughtelm_tests::gen::board::sound;
use noughtelm_tests::gen::history::{history, Call, History, Kind};
use noughtelm_tests::gen::items::{items_of, rising};
use noughtelm_tests::model::auction::*;
use noughtelm_tests::model::sound::{from_record, to_record};
use noughtelm_tests::raises::{walked, Raise};
use noughtelm_tests::rng::Rng;
use noughtelm_tests::slides::beside::call_ours;
use noughtelm_tests::ties::{by_pairs, Walk};
use noughtelm_tests::wars::{wars, Bids};

// ---- histories, bid by bid

/// What the last bids of chains met.
#[derive(Debug, Default)]
struct Met {
    calls: u64,
    bids: u64,
    /// Without another open place.
    alone: u64,
    /// Where the second utility is that of another place of the item, and of no other item.
    own: u64,
    /// Without lead.
    level: u64,
    /// Where an edge that is not open has a utility above the second.
    shut: u64,
}

/// The utilities of a bidder's live places but the one that it holds, those that are open and
/// those that are not, each with its place. Only the place that it holds has changed since
/// its bid, where that was the last one.
fn others(b: &ffi::Board, bidder: usize) -> [Vec<(usize, i64)>; 2] {
    let ffi::Slack { p, q } = b.slack;
    let other = |&place: &usize| b.holder[place] as usize != bidder + 1 && b.withdrawn[place] == 0;
    let (mut open, mut shut) = (Vec::new(), Vec::new());
    for place in (0..b.places as usize).filter(other) {
        let (weight, price) = (b.weights[MAX_PLACES * bidder + place] as u64, b.price[place].0);
        if weight != 0 {
            let utility = (q * weight) as i64 - price as i64;
            let list = if utility > (p * weight) as i64 { &mut open } else { &mut shut };
            list.push((place, utility));
        }
    }
    [open, shut]
}

fn greatest(list: &[(usize, i64)]) -> i64 {
    list.iter().map(|(_, utility)| *utility).max().unwrap_or(0).max(0)
}

/// The gain of the last bidder of a chain is the second utility.
fn last_bid(b: &ffi::Board, bidder: usize, met: &mut Met) {
    let [open, shut] = others(b, bidder);
    let (gain, second) = (b.gain[bidder].0, greatest(&open));
    assert_eq!(gain as i64, second, "bidder {}\n{:?}", bidder + 1, record(b));
    let held = b.holder.iter().position(|&holder| holder as usize == bidder + 1);
    let held = held.expect("the last bidder has a place");
    let weight = b.weights[MAX_PLACES * bidder + held] as u64;
    let own = b.places_of(record(b).item_of(held));
    let elsewhere: Vec<_> = open.iter().copied().filter(|(at, _)| !own.contains(at)).collect();
    met.alone += open.is_empty() as u64;
    met.own += (second > greatest(&elsewhere)) as u64;
    met.level += (b.price[held].0 == b.slack.p * weight) as u64;
    met.shut += (greatest(&shut) > second) as u64;
}

/// Every call on both sides with the laws, among them that of placed pairs and the bound, and
/// bid by bid.
fn run(history: &History, seen: &mut Tally, met: &mut Met) -> Same<()> {
    let mut board = Watched::opened(history, seen)?;
    let mut walk = Walk::open(history, by_pairs);
    for call in &history.calls {
        let bids = board.call(call)?.expect("a good call");
        assert_eq!(walk.call(call), bids, "{call:?}");
        assert_eq!(to_record(&walk.auction), board.both.model, "{call:?}");
        if let Some(&bidder) = walk.bidders.last().filter(|_| bids > 0) {
            last_bid(&board.both.ours, bidder, met);
        }
        met.calls += 1;
        met.bids += bids;
    }
    Ok(())
}

fn run_kind(kind: Kind, count: u64) -> Met {
    let (mut seen, mut met) = (Tally::default(), Met::default());
    for seed in (0..count).map(|n| 1_100_000 + 10_000 * kind as u64 + n) {
        let history = history(&mut Rng::new(seed), kind);
        if let Err(found) = run(&history, &mut seen, &mut met) {
            panic!("seed {seed}, {kind:?}: {found}\n{history:?}");
        }
    }
    println!("{kind:?}: {met:?}");
    met
}

#[test]
fn histories_of_items() {
    for (kind, count) in
        [(Kind::Small, 1_500), (Kind::Ties, 600), (Kind::EqualUtility, 400), (Kind::Lists, 300)]
    {
        let met = run_kind(kind, count);
        assert!(met.alone > 100 && met.level > 20 && met.own == 0 && met.shut > 20);
    }
}

#[test]
fn histories_of_places() {
    for kind in [Kind::Places, Kind::PlacesTies, Kind::PlacesEqualUtility, Kind::PlacesLists] {
        let met = run_kind(kind, 300);
        assert!(met.alone > 100 && met.level > 100 && met.own > 100 && met.shut > 20);
    }
}

/// Without ties to speak of.
#[test]
fn histories_of_many_weights() {
    for kind in [Kind::Sparse, Kind::Dense, Kind::Withdrawals] {
        let met = run_kind(kind, 100);
        assert!(met.alone > 100 && met.shut > 50 && met.bids > 2_000);
    }
}

#[test]
fn histories_at_the_limits() {
    for kind in [Kind::Limits, Kind::PlacesLimits] {
        let met = run_kind(kind, 15);
        assert!(met.calls > 1_500 && met.bids > 1_000);
    }
}

/// Sound boards that no history reaches, on both sides and bid by bid: an arrival at some of
/// the live items, and the items that leave.
#[test]
fn sound_boards_that_no_history_reaches() {
    let (mut seen, mut bids) = (Tally::default(), 0);
    for seed in 1_300_000..1_301_000 {
        let rng = &mut Rng::new(seed);
        let mut both = Both::on(sound(rng), &mut seen);
        for call in calls_on(rng, &both) {
            let mut walk = Walk::on(from_record(&both.model).expect("sound"), by_pairs);
            let answer = match &call {
                Call::Arrive(edges) => both.arrive(edges),
                Call::Withdraw(items) => both.withdraw(items),
            };
            let answer = answer.unwrap_or_else(|found| panic!("seed {seed}: {found}"));
            if let Ok(made) = answer {
                assert_eq!(walk.call(&call), made, "seed {seed}, {call:?}");
                assert_eq!(to_record(&walk.auction), both.model, "seed {seed}, {call:?}");
                bids += made;
            }
        }
    }
    println!("{bids} bids");
    assert!(bids > 3_000);
}

fn calls_on(rng: &mut Rng, both: &Both) -> [Call; 2] {
    let live = items_of(&both.model, false);
    let [some, few] = [rng.index(live.len() + 1), rng.index(4)];
    let (wanted, leaving) = (rising(rng, &live, some), rising(rng, &live, few));
    let most = rng.pick(&[10, 9_999, MAX_WEIGHT]);
    let edge = |item: u64| Edge { item, weight: rng.range(1, most) };
    [Call::Arrive(wanted.into_iter().map(edge).collect()), Call::Withdraw(leaving)]
}

// ---- other bids

/// The library's board at the end of a history.
fn board_of(history: &History) -> ffi::Board {
    let Slack { p, q } = history.slack;
    let opened = ffi::open_places(history.items(), p, q, &history.counts).board;
    history.calls.iter().fold(opened, |board, call| call_ours(board, call).board)
}

/// How many boards of the library are others than those of each other bid, of so many.
fn apart(kind: Kind, count: u64) -> [u64; 5] {
    let mut apart = [0; 5];
    for seed in (0..count).map(|n| 1_400_000 + 10_000 * kind as u64 + n) {
        let history = history(&mut Rng::new(seed), kind);
        let ours = board_of(&history);
        let by = |raise: Raise| board(&to_record(&walked(&history, raise).auction));
        assert!(ours == by(Raise::Lead), "seed {seed}, {kind:?}\n{history:?}");
        for (apart, raise) in apart.iter_mut().zip(Raise::OTHERS) {
            *apart += (ours != by(raise)) as u64;
        }
    }
    println!("{kind:?}: of {count} boards {apart:?} are others by {:?}", Raise::OTHERS);
    apart
}

/// The bid as it was until R-7, a second that is not open, one at another item alone, the
/// utility of the place taken as gain, the lead alone as rise: each comes to other boards.
#[test]
fn other_bids_come_to_other_boards() {
    for kind in [Kind::Ties, Kind::EqualUtility, Kind::Lists] {
        let [until, shut, item, gain, lead] = apart(kind, 400);
        assert!([until, shut, gain, lead].iter().all(|&boards| boards > 40));
        assert_eq!(item, 0, "no item has another place");
    }
    for kind in [Kind::Places, Kind::PlacesTies, Kind::PlacesEqualUtility, Kind::PlacesLists] {
        assert!(apart(kind, 400).iter().all(|&boards| boards > 40));
    }
}

/// The same of case 1, which document 01 prints, by the bid of then.
#[test]
fn case_1_until_then() {
    let edge = |item: u64, weight: u64| Edge { item, weight };
    let calls = [vec![edge(1, 100), edge(2, 60)], vec![edge(1, 90)]].map(Call::Arrive).to_vec();
    let case = History::of_ones(2, Slack { p: 1, q: 10 }, calls);
    let (until, since) = (walked(&case, Raise::Slack), walked(&case, Raise::Lead));
    assert_eq!((until.ties.bids, until.auction.prices()), (7, vec![570, 60]));
    assert_eq!(until.auction.gains(), [600, 420]);
    assert_eq!((since.ties.bids, since.auction.prices()), (3, vec![990, 660]));
    assert_eq!(since.auction.gains(), [0, 0]);
    assert!(board_of(&case) == board(&to_record(&since.auction)));
}

// ---- bids counted

/// The dense texts and twenty histories: as many bids as the library makes, and far fewer
/// than until R-7.
#[test]
fn price_wars_shrink() {
    let (mut until, mut since) = (0, 0);
    for war in wars() {
        let Slack { p, q } = war.history.slack;
        let History { counts, calls, .. } = &war.history;
        let mut board = ffi::open_places(counts.len() as u64, p, q, counts).board;
        let mut made = 0;
        for call in calls {
            let after = call_ours(board, call);
            (board, made) = (after.board, made + after.value);
        }
        let bids: Bids = war.bids();
        assert_eq!(made, bids.since, "{}", war.name);
        until += bids.until;
        since += bids.since;
    }
    println!("{until} bids until R-7, {since} since");
    assert!(2 * since < until);
}

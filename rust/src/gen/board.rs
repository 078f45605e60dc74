//! Records: sound ones that no history need reach, spoilt ones, random ones.

use super::places::counts;
use crate::model::auction::*;
use crate::model::sound::Record;
use crate::rng::Rng;

mod spoil;

pub use spoil::SPOILS;

/// A sound record: a random matching, each pair's (q + p) times its weight
/// split between price and gain, and edges that are not covered lowered.
/// Prices go above 1,000,000,000 where weights and q are great. In one of two
/// some items have several places.
pub fn sound(rng: &mut Rng) -> Record {
    let large = rng.chance(1, 3);
    let items = rng.range(1, if large { 64 } else { 6 });
    let several = rng.chance(1, 2);
    let counts = if several { counts(rng, items, 6) } else { ones(items) };
    let arrived = rng.range(0, if large { 128 } else { 7 });
    sound_of(rng, &counts, arrived)
}

/// The same where some item has several places.
pub fn sound_places(rng: &mut Rng) -> Record {
    let records = std::iter::repeat_with(|| sound(rng));
    records.into_iter().find(|r| r.places > r.items).expect("there are such records")
}

/// In every history the price of a held place is at least p times the weight.
pub fn is_unreached(r: &Record) -> bool {
    r.pairs().any(|(bidder, place)| r.price[place] < r.slack.p * r.rows[bidder][place] as u64)
}

/// A record of so many bidders and of items with so many places, sound where these counts
/// are within limits.
pub fn sound_of(rng: &mut Rng, counts: &[u64], arrived: u64) -> Record {
    let q = rng.pick(&[2, 10, 100, 999, 1_000, 1_000]);
    let middle = rng.range(1, q - 1);
    let slack = Slack { p: rng.pick(&[1, middle, q - 1]), q };
    let most = rng.pick(&[3, 100, 9_999, MAX_WEIGHT, MAX_WEIGHT]);
    sound_at(rng, counts, arrived, slack, most)
}

/// The same at this slack, with weights up to `most`.
pub fn sound_at(rng: &mut Rng, counts: &[u64], arrived: u64, slack: Slack, most: u64) -> Record {
    let mut r = Record::of_counts(counts);
    r.arrived = arrived;
    r.slack = slack;
    fill_edges(rng, &mut r, most);
    for item in 0..counts.len() {
        let places = r.places_of(item);
        r.withdrawn[places].fill(rng.chance(1, 8) as u8);
    }
    match_some(rng, &mut r);
    split(rng, &mut r);
    repair(&mut r);
    r
}

fn fill_edges(rng: &mut Rng, r: &mut Record, most: u64) {
    let density = rng.range(1, 4);
    for bidder in 0..r.arrived as usize {
        for item in 0..r.items as usize {
            if rng.chance(density, 4) {
                let weight = rng.range(most.saturating_sub(50_000).max(1), most);
                set_edge(r, bidder, item, weight);
            }
        }
    }
}

/// The edge at every place of an item.
fn set_edge(r: &mut Record, bidder: usize, item: usize, weight: u64) {
    let places = r.places_of(item);
    r.rows[bidder][places].fill(weight as u32);
}

fn live_items(r: &Record) -> Vec<usize> {
    (0..r.items as usize).filter(|&i| r.counts[i] > 0 && !r.is_gone(i)).collect()
}

/// Bidders at live places, most of them held.
fn match_some(rng: &mut Rng, r: &mut Record) {
    let mut bidders: Vec<usize> = (0..r.arrived as usize).collect();
    rng.shuffle(&mut bidders);
    for place in (0..r.places as usize).filter(|&place| r.withdrawn[place] == 0) {
        let fit = bidders.iter().position(|&b| r.rows[b][place] != 0);
        if let Some(at) = fit.filter(|_| rng.chance(4, 5)) {
            r.holder[place] = bidders.swap_remove(at) as u8 + 1;
        }
    }
}

/// Each pair's (q + p) times its weight as a price and a gain. The price is at most 2p
/// times the weight above the least of the item, so that the pair covers its edge at the
/// item's other places too.
fn split(rng: &mut Rng, r: &mut Record) {
    let Slack { p, q } = r.slack;
    for item in live_items(r) {
        let places = r.places_of(item);
        let holders: Vec<u8> = r.holder[places.clone()].to_vec();
        let weight = |&holder: &u8| match holder {
            0 => 0,
            holder => r.rows[holder as usize - 1][places.start] as u64,
        };
        let weights: Vec<u64> = holders.iter().map(weight).collect();
        let most = (q + p) * weights.iter().min().expect("a place");
        let least = any_of(rng, most);
        for ((place, holder), weight) in places.zip(holders).zip(weights) {
            if holder != 0 {
                let whole = (q + p) * weight;
                let above = any_of(rng, (2 * p * weight).min(whole - least));
                r.price[place] = least + above;
                r.gain[holder as usize - 1] = whole - r.price[place];
            }
        }
    }
}

/// A number up to this, often 0 or this itself.
fn any_of(rng: &mut Rng, most: u64) -> u64 {
    match rng.below(4) {
        0 => most,
        1 => 0,
        _ => rng.range(0, most),
    }
}

/// Lowers each live edge that is not covered to what is allowed.
fn repair(r: &mut Record) {
    for bidder in 0..r.arrived as usize {
        for item in live_items(r) {
            let weight = r.weight_at(bidder, item).min(allowed(r, bidder, item));
            set_edge(r, bidder, item, weight);
        }
    }
}

/// The most that an edge may weigh for the item's least price and the gain to cover it.
fn allowed(r: &Record, bidder: usize, item: usize) -> u64 {
    let price = r.price[r.places_of(item)].iter().min().expect("a place");
    (r.gain[bidder] + price) / (r.slack.q - r.slack.p)
}

/// Raises some live edges, none of them at the item that its bidder holds, to the most that
/// the board stays sound with.
pub fn raise_some(rng: &mut Rng, r: &mut Record) {
    for item in live_items(r) {
        let holders = r.holder[r.places_of(item)].to_vec();
        for bidder in (0..r.arrived as usize).filter(|&b| !holders.contains(&(b as u8 + 1))) {
            if rng.chance(1, 2) {
                let weight = allowed(r, bidder, item).min(MAX_WEIGHT);
                set_edge(r, bidder, item, weight);
            }
        }
    }
}

/// Another number in one cell, often a near one; the board may stay sound.
pub fn nudge(rng: &mut Rng, r: &mut Record) {
    let (places, bidders) = (r.places.clamp(1, 64) as usize, r.arrived.clamp(1, 128) as usize);
    let (place, bidder) = (rng.index(places), rng.index(bidders));
    match rng.below(11) {
        0 => r.items = near(rng, r.items),
        1 => r.arrived = near(rng, r.arrived),
        2 => r.slack.p = near(rng, r.slack.p),
        3 => r.slack.q = near(rng, r.slack.q),
        4 => r.price[place] = near(rng, r.price[place]),
        5 => r.gain[bidder] = near(rng, r.gain[bidder]),
        6 => r.holder[place] = near(rng, r.holder[place] as u64) as u8,
        7 => r.withdrawn[place] = near(rng, r.withdrawn[place] as u64) as u8,
        8 if rng.chance(1, 2) => r.places = near(rng, r.places),
        8 => r.counts[place] = near(rng, r.counts[place] as u64) as u8,
        _ => r.rows[bidder][place] = near(rng, r.rows[bidder][place] as u64) as u32,
    }
}

fn near(rng: &mut Rng, n: u64) -> u64 {
    match rng.below(8) {
        0 => rng.word(),
        1 => 0,
        2 => u64::MAX,
        3 | 4 => n.wrapping_sub(1),
        5 => n.wrapping_add(rng.range(2, 200)),
        _ => n.wrapping_add(1),
    }
}

/// Every unused cell of a board, one after the other.
pub fn unused_cells(r: &Record) -> Vec<Unused> {
    let (places, arrived) = (r.places as usize, r.arrived as usize);
    let mut cells = Vec::new();
    cells.extend((r.items as usize..MAX_ITEMS).map(Unused::Count));
    cells.extend((places..MAX_PLACES).map(Unused::Price));
    cells.extend((places..MAX_PLACES).map(Unused::Holder));
    cells.extend((places..MAX_PLACES).map(Unused::Withdrawn));
    cells.extend((arrived..MAX_BIDDERS).map(Unused::Gain));
    for bidder in 0..MAX_BIDDERS {
        let first = if bidder < arrived { places } else { 0 };
        cells.extend((first..MAX_PLACES).map(|place| Unused::Weight(bidder, place)));
    }
    cells
}

#[derive(Clone, Copy, Debug)]
pub enum Unused {
    Count(usize),
    Price(usize),
    Holder(usize),
    Withdrawn(usize),
    Gain(usize),
    Weight(usize, usize),
}

impl Unused {
    /// A number that is not 0 in this cell.
    pub fn fill(self, r: &mut Record, number: u64) {
        match self {
            Unused::Count(i) => r.counts[i] = number.min(255) as u8,
            Unused::Price(i) => r.price[i] = number,
            Unused::Holder(i) => r.holder[i] = number as u8,
            Unused::Withdrawn(i) => r.withdrawn[i] = number.min(255) as u8,
            Unused::Gain(b) => r.gain[b] = number,
            Unused::Weight(b, i) => r.rows[b][i] = number as u32,
        }
    }
}

/// Any numbers in every cell; some of them small, so that tests go deep. Counts often add
/// up to the places.
pub fn random(rng: &mut Rng) -> Record {
    let items = rng.range(1, 64);
    let mut r = match rng.below(3) {
        0 => Record::of_counts(&ones(items)),
        1 => Record::of_counts(&counts(rng, items, 4)),
        _ => any_counts(rng),
    };
    r.slack = Slack { p: number(rng, 5), q: number(rng, 1_000) };
    r.arrived = number(rng, 128);
    let (calm, most) = (rng.chance(1, 2), rng.pick(&[1, 4, 1_000_000]));
    let mut cell = |limit: u64| if calm { rng.below(limit + 1) } else { number(rng, limit) };
    r.price.iter_mut().for_each(|y| *y = cell(most * 1_000));
    r.gain.iter_mut().for_each(|g| *g = cell(most * 1_000));
    r.holder.iter_mut().for_each(|h| *h = cell(130) as u8);
    r.withdrawn.iter_mut().for_each(|gone| *gone = cell(1) as u8);
    r.rows.iter_mut().flatten().for_each(|w| *w = cell(most) as u32);
    r
}

fn any_counts(rng: &mut Rng) -> Record {
    let mut r = Record::zero();
    r.items = number(rng, 64);
    r.places = number(rng, 64);
    r.counts.iter_mut().for_each(|count| *count = number(rng, 8) as u8);
    r
}

fn number(rng: &mut Rng, usual: u64) -> u64 {
    match rng.below(8) {
        0 => rng.word(),
        1 => rng.pick(&[0, u64::MAX, 1 << 63, usual + 1]),
        _ => rng.below(usual + 1),
    }
}

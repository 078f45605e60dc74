//! The fixed-size record of an auction, and the test of soundness on it, which is "read
//! place by place" (document 02, R-6).
//!
//! The record may hold any numbers, so the test adds and multiplies in u128.

use super::auction::*;
use super::hungarian::items_by_place;
use super::refusal::*;
use std::fmt;
use std::ops::Range;

/// A board in cells of fixed number. Places stand in item order, those of an item side by
/// side; each has its own column of weights.
#[derive(Clone, PartialEq, Eq)]
pub struct Record {
    pub items: u64,
    /// How many places each item has.
    pub counts: [u8; MAX_ITEMS],
    /// How many there are in all.
    pub places: u64,
    pub slack: Slack,
    pub arrived: u64,
    pub price: [u64; MAX_PLACES],
    /// The holder's number, 0 where the place is free.
    pub holder: [u8; MAX_PLACES],
    /// 1 for a place of an item that is withdrawn, 0 for one of an item that is not.
    pub withdrawn: [u8; MAX_PLACES],
    pub gain: [u64; MAX_BIDDERS],
    /// A bidder's weights by place, 0 for no edge.
    pub rows: [[u32; MAX_PLACES]; MAX_BIDDERS],
}

/// Only the cells that are not 0, each with its number.
impl fmt::Debug for Record {
    fn fmt(&self, f: &mut fmt::Formatter) -> fmt::Result {
        fn cells<T: Copy + Into<u64>>(list: &[T]) -> Vec<(usize, u64)> {
            let numbered = list.iter().enumerate().map(|(i, &cell)| (i + 1, cell.into()));
            numbered.filter(|(_, cell)| *cell != 0).collect()
        }
        let rows = self.rows.iter().enumerate().map(|(b, row)| (b + 1, cells(row)));
        let rows: Vec<_> = rows.filter(|(_, row)| !row.is_empty()).collect();
        f.debug_struct("Record")
            .field("items", &self.items)
            .field("counts", &cells(&self.counts))
            .field("places", &self.places)
            .field("slack", &self.slack)
            .field("arrived", &self.arrived)
            .field("price", &cells(&self.price))
            .field("holder", &cells(&self.holder))
            .field("withdrawn", &cells(&self.withdrawn))
            .field("gain", &cells(&self.gain))
            .field("rows", &rows)
            .finish()
    }
}

impl Record {
    pub fn zero() -> Record {
        Record {
            items: 0,
            counts: [0; MAX_ITEMS],
            places: 0,
            slack: Slack { p: 0, q: 0 },
            arrived: 0,
            price: [0; MAX_PLACES],
            holder: [0; MAX_PLACES],
            withdrawn: [0; MAX_PLACES],
            gain: [0; MAX_BIDDERS],
            rows: [[0; MAX_PLACES]; MAX_BIDDERS],
        }
    }

    /// A record of items with so many places, without slack and bidders.
    pub fn of_counts(counts: &[u64]) -> Record {
        let mut r = Record::zero();
        r.items = counts.len() as u64;
        counts.iter().zip(&mut r.counts).for_each(|(&count, cell)| *cell = count as u8);
        r.places = counts.iter().sum();
        r
    }

    /// The held edges as (bidder, place), both from 0.
    pub fn pairs(&self) -> impl Iterator<Item = (usize, usize)> + '_ {
        let held = self.holder.iter().enumerate().filter(|(_, &h)| h != 0);
        held.map(|(place, &h)| (h as usize - 1, place))
    }

    fn scaled(&self, factor: u64, bidder: usize, place: usize) -> u128 {
        factor as u128 * self.rows[bidder][place] as u128
    }

    fn pair_sum(&self, bidder: usize, place: usize) -> u128 {
        self.gain[bidder] as u128 + self.price[place] as u128
    }
}

/// By item, where the counts add up to the places. Items and bidders count from 0.
impl Record {
    /// The places of an item.
    pub fn places_of(&self, item: usize) -> Range<usize> {
        let before: usize = self.counts[..item].iter().map(|&count| count as usize).sum();
        before..before + self.counts[item] as usize
    }

    /// The item of a place.
    pub fn item_of(&self, place: usize) -> usize {
        items_by_place(&self.counts())[place]
    }

    /// Whether an item is withdrawn.
    pub fn is_gone(&self, item: usize) -> bool {
        self.withdrawn[self.places_of(item).start] != 0
    }

    /// The weight of a bidder's edge at an item, 0 for none.
    pub fn weight_at(&self, bidder: usize, item: usize) -> u64 {
        self.rows[bidder][self.places_of(item).start] as u64
    }

    pub fn counts(&self) -> Vec<u64> {
        self.counts[..self.items as usize].iter().map(|&count| count as u64).collect()
    }
}

pub fn is_sound(r: &Record) -> bool {
    within_limits(r)
        && counts_add_up(r)
        && unused_are_zero(r)
        && places_agree(r)
        && is_matching(r)
        && placed_are_tight(r)
        && unplaced_are_zero(r)
        && covered(r)
}

fn within_limits(r: &Record) -> bool {
    1 <= r.items
        && r.items <= MAX_ITEMS as u64
        && r.places <= MAX_PLACES as u64
        && r.arrived <= MAX_BIDDERS as u64
        && r.slack.may_open()
        && r.withdrawn.iter().all(|&gone| gone <= 1)
        && r.rows.iter().flatten().all(|&w| w as u64 <= MAX_WEIGHT)
}

/// Each item has 1 to 8 places, and they are all that there are.
fn counts_add_up(r: &Record) -> bool {
    let (used, unused) = r.counts.split_at(r.items as usize);
    used.iter().all(|&count| may_have(count as u64))
        && unused.iter().all(|&count| count == 0)
        && used.iter().map(|&count| count as u64).sum::<u64>() == r.places
}

/// Cells past the places and past the bidders that have arrived.
fn unused_are_zero(r: &Record) -> bool {
    let (places, arrived) = (r.places as usize, r.arrived as usize);
    r.price[places..].iter().all(|&y| y == 0)
        && r.holder[places..].iter().all(|&h| h == 0)
        && r.withdrawn[places..].iter().all(|&gone| gone == 0)
        && r.gain[arrived..].iter().all(|&g| g == 0)
        && r.rows.iter().all(|row| row[places..].iter().all(|&w| w == 0))
        && r.rows[arrived..].iter().flatten().all(|&w| w == 0)
}

/// Every place of an item has the edges and the flag of its first.
fn places_agree(r: &Record) -> bool {
    (0..r.items as usize).all(|item| {
        let places = r.places_of(item);
        let first = places.start;
        places.into_iter().all(|place| {
            let edges = r.rows.iter().all(|row| row[place] == row[first]);
            edges && r.withdrawn[place] == r.withdrawn[first]
        })
    })
}

/// Holders have arrived, hold along a live edge, and hold one place each.
fn is_matching(r: &Record) -> bool {
    let mut placed = [false; MAX_BIDDERS];
    for (bidder, place) in r.pairs() {
        if bidder >= r.arrived as usize || r.withdrawn[place] != 0 || r.rows[bidder][place] == 0 {
            return false;
        }
        if std::mem::replace(&mut placed[bidder], true) {
            return false;
        }
    }
    true
}

fn placed_are_tight(r: &Record) -> bool {
    let Slack { p, q } = r.slack;
    r.pairs().all(|(bidder, place)| r.pair_sum(bidder, place) == r.scaled(q + p, bidder, place))
}

/// Free and withdrawn places have price 0, unplaced bidders gain 0.
fn unplaced_are_zero(r: &Record) -> bool {
    let mut placed = [false; MAX_BIDDERS];
    r.pairs().for_each(|(bidder, _)| placed[bidder] = true);
    let free = |place: usize| r.holder[place] == 0 || r.withdrawn[place] != 0;
    (0..MAX_PLACES).all(|place| !free(place) || r.price[place] == 0)
        && (0..MAX_BIDDERS).all(|bidder| placed[bidder] || r.gain[bidder] == 0)
}

fn covered(r: &Record) -> bool {
    let Slack { p, q } = r.slack;
    let live = |place: &usize| r.withdrawn[*place] == 0;
    (0..r.arrived as usize).all(|bidder| {
        let mut places = (0..r.places as usize).filter(live);
        places.all(|place| r.pair_sum(bidder, place) >= r.scaled(q - p, bidder, place))
    })
}

pub fn to_record(auction: &Auction) -> Record {
    let mut r = Record::of_counts(&auction.counts());
    r.slack = auction.slack;
    r.arrived = auction.bidders.len() as u64;
    for (index, item) in auction.items.iter().enumerate() {
        let places = r.places_of(index);
        r.price[places.clone()].copy_from_slice(&item.prices);
        r.withdrawn[places].fill(item.withdrawn as u8);
    }
    let places: Vec<Range<usize>> = (0..auction.items.len()).map(|i| r.places_of(i)).collect();
    for (index, bidder) in auction.bidders.iter().enumerate() {
        r.gain[index] = bidder.gain;
        for edge in &bidder.edges {
            r.rows[index][places[edge.item as usize - 1].clone()].fill(edge.weight as u32);
        }
        if let Some(Place { item, number }) = bidder.held {
            let first = places[item as usize - 1].start;
            r.holder[first + number as usize - 1] = index as u8 + 1;
        }
    }
    r
}

/// The auction of a sound record; 13 for any other.
pub fn from_record(r: &Record) -> Result<Auction, Refusal> {
    if !is_sound(r) {
        return refuse(SPOILT, 0);
    }
    let places: Vec<Range<usize>> = (0..r.items as usize).map(|i| r.places_of(i)).collect();
    let item = |places: &Range<usize>| Item {
        prices: r.price[places.clone()].to_vec(),
        withdrawn: r.withdrawn[places.start] != 0,
    };
    let edges = |row: &[u32; MAX_PLACES]| {
        let weights = (1..).zip(&places).map(|(item, places)| (item, row[places.start] as u64));
        let edge = |(item, weight): (u64, u64)| (weight != 0).then_some(Edge { item, weight });
        weights.filter_map(edge).collect()
    };
    let bidder = |b: usize| Bidder { edges: edges(&r.rows[b]), gain: r.gain[b], held: None };
    let mut auction = Auction {
        slack: r.slack,
        items: places.iter().map(item).collect(),
        bidders: (0..r.arrived as usize).map(bidder).collect(),
    };
    let items = items_by_place(&r.counts());
    for (bidder, place) in r.pairs() {
        let item = items[place];
        let number = (place - places[item].start) as u64 + 1;
        auction.bidders[bidder].held = Some(Place { item: item as u64 + 1, number });
    }
    Ok(auction)
}

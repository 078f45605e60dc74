//! Ways to break one clause of soundness. What belongs to an item, its edges and its flag, is
//! changed at all its places, but where this is the clause.

use super::{set_edge, sound_of};
use crate::gen::places::counts;
use crate::model::auction::*;
use crate::model::sound::Record;
use crate::rng::Rng;

/// A way to break one clause of soundness; false where this record offers no
/// place for it.
pub type Spoil = fn(&mut Rng, &mut Record) -> bool;

pub const SPOILS: [(&str, Spoil); 43] = [
    ("items set to 0", |_, r| set(&mut r.items, 0)),
    ("no items at all", |_, r| no_items(r)),
    ("too many items", |rng, r| set(&mut r.items, rng.pick(&[65, 1 << 32, u64::MAX]))),
    ("too many bidders", |rng, r| set(&mut r.arrived, rng.pick(&[129, 256, u64::MAX]))),
    ("p is 0", |_, r| set(&mut r.slack.p, 0)),
    ("p is q", |_, r| set(&mut r.slack.p, r.slack.q)),
    ("p above q", |rng, r| set(&mut r.slack.p, rng.pick(&[r.slack.q + 1, u64::MAX]))),
    ("q above its limit", |rng, r| set(&mut r.slack.q, rng.pick(&[1_001, u64::MAX]))),
    ("weight above its limit", |rng, r| weight_above(rng, r)),
    ("unused price", |rng, r| past_places(rng, r, |r, i| r.price[i] = 1)),
    ("unused holder", |rng, r| past_places(rng, r, |r, i| r.holder[i] = 1)),
    ("unused withdrawn", |rng, r| past_places(rng, r, |r, i| r.withdrawn[i] = 1)),
    ("unused flag above 1", |rng, r| past_places(rng, r, |r, i| r.withdrawn[i] = 2)),
    ("flag above 1", |rng, r| flag_above(rng, r)),
    ("unused weight", |rng, r| past_places(rng, r, |r, i| r.rows[0][i] = 1)),
    ("unused gain", |rng, r| past_bidders(rng, r, |r, b| r.gain[b] = 1)),
    ("unused row", |rng, r| past_bidders(rng, r, |r, b| set_edge(r, b, 0, 1))),
    ("holder not arrived", |rng, r| stranger(rng, r)),
    ("bidder at two items", |rng, r| two_items(rng, r)),
    ("bidder at two places of an item", |rng, r| two_places(rng, r)),
    ("holder without edge", |rng, r| at_pair(rng, r, |r, b, i| set_pair(r, b, i, |_| 0))),
    ("withdrawn item held", |rng, r| at_pair(rng, r, |r, _, i| set_flag(r, r.item_of(i), 1))),
    ("pair's weight raised", |rng, r| at_pair(rng, r, |r, b, i| set_pair(r, b, i, |w| w + 1))),
    ("pair's gain raised", |rng, r| at_pair(rng, r, |r, b, _| r.gain[b] += 1)),
    ("pair's price raised", |rng, r| at_pair(rng, r, |r, _, i| r.price[i] += 1)),
    ("pair's price far too high", |rng, r| at_pair(rng, r, |r, _, i| r.price[i] += 1 << 63)),
    ("price of a free place", |rng, r| free_price(rng, r, false)),
    ("price of a withdrawn place", |rng, r| free_price(rng, r, true)),
    ("gain of an unplaced bidder", |rng, r| unplaced_gain(rng, r)),
    ("edge not covered", |rng, r| uncover(rng, r)),
    ("item without places", |rng, r| emptied(rng, r)),
    ("item of nine places or more", |rng, r| crowded(rng, r)),
    ("unused count", |rng, r| unused_count(rng, r)),
    ("a place more than the counts say", |_, r| place_more(r)),
    ("a place fewer", |rng, r| with_idle_item(rng, r, |r| r.places -= 1)),
    ("a count one more", |rng, r| with_idle_item(rng, r, |r| r.counts[r.items as usize - 1] += 1)),
    ("places far above", |rng, r| places_above(rng, r)),
    ("another weight at one place", |rng, r| at_edge(rng, r, 2, |rng, w| rng.range(1, w - 1))),
    ("no edge at one place", |rng, r| at_edge(rng, r, 1, |_, _| 0)),
    ("an edge at one place", |rng, r| edge_more(rng, r)),
    ("flag of one place", |rng, r| one_flag(rng, r, 1)),
    ("flag of all places but one", |rng, r| one_flag(rng, r, 0)),
    ("65 places", |_, r| overfull(r)),
];

fn set(cell: &mut u64, value: u64) -> bool {
    *cell = value;
    true
}

/// Nothing at all is wrong with it but that it has no item.
fn no_items(r: &mut Record) -> bool {
    *r = Record { slack: r.slack, arrived: r.arrived, ..Record::zero() };
    true
}

fn weight_above(rng: &mut Rng, r: &mut Record) -> bool {
    // A withdrawn item's edge meets no clause but the limit itself.
    let gone: Vec<usize> = (0..r.items as usize).filter(|&i| r.is_gone(i)).collect();
    if gone.is_empty() || r.arrived == 0 {
        return false;
    }
    let (bidder, item) = (rng.below(r.arrived) as usize, rng.pick(&gone));
    set_edge(r, bidder, item, rng.pick(&[1_000_001, u32::MAX as u64]));
    true
}

fn past_places(rng: &mut Rng, r: &mut Record, break_at: fn(&mut Record, usize)) -> bool {
    let room = r.places < MAX_PLACES as u64;
    if room {
        break_at(r, rng.range(r.places, MAX_PLACES as u64 - 1) as usize);
    }
    room
}

fn past_bidders(rng: &mut Rng, r: &mut Record, break_at: fn(&mut Record, usize)) -> bool {
    let room = r.arrived < MAX_BIDDERS as u64;
    if room {
        break_at(r, rng.range(r.arrived, MAX_BIDDERS as u64 - 1) as usize);
    }
    room
}

/// One of these, if there is one.
fn one_of<T: Copy>(rng: &mut Rng, list: &[T]) -> Option<T> {
    (!list.is_empty()).then(|| rng.pick(list))
}

/// The held edges as (bidder, place), both from 0.
fn pairs(r: &Record) -> Vec<(usize, usize)> {
    r.pairs().collect()
}

/// The places that nobody holds, of withdrawn items or of others.
fn free_places(r: &Record, withdrawn: bool) -> Vec<usize> {
    let free = (0..r.places as usize).filter(|&place| r.holder[place] == 0);
    free.filter(|&place| (r.withdrawn[place] != 0) == withdrawn).collect()
}

/// The items of which nobody holds a place.
fn idle_items(r: &Record) -> Vec<usize> {
    let idle = |&item: &usize| r.holder[r.places_of(item)].iter().all(|&holder| holder == 0);
    (0..r.items as usize).filter(idle).collect()
}

/// The items of several places.
fn wide_items(r: &Record) -> Vec<usize> {
    (0..r.items as usize).filter(|&item| r.counts[item] > 1).collect()
}

fn at_pair(rng: &mut Rng, r: &mut Record, break_at: fn(&mut Record, usize, usize)) -> bool {
    let pair = one_of(rng, &pairs(r));
    pair.into_iter().for_each(|(bidder, place)| break_at(r, bidder, place));
    pair.is_some()
}

/// Another weight for a pair, at every place of its item.
fn set_pair(r: &mut Record, bidder: usize, place: usize, change: fn(u64) -> u64) {
    let item = r.item_of(place);
    set_edge(r, bidder, item, change(r.weight_at(bidder, item)));
}

/// At an item that nobody holds, where either flag would be sound.
fn flag_above(rng: &mut Rng, r: &mut Record) -> bool {
    let item = one_of(rng, &idle_items(r));
    let flag = rng.pick(&[2, 3, 128, 254, 255]);
    item.into_iter().for_each(|item| set_flag(r, item, flag));
    item.is_some()
}

/// The flag at every place of an item.
fn set_flag(r: &mut Record, item: usize, flag: u8) {
    let places = r.places_of(item);
    r.withdrawn[places].fill(flag);
}

fn stranger(rng: &mut Rng, r: &mut Record) -> bool {
    let place = one_of(rng, &free_places(r, false));
    let holder = rng.range(r.arrived + 1, 255) as u8;
    place.into_iter().for_each(|place| r.holder[place] = holder);
    place.is_some()
}

/// A free place of another item, by a new edge of the same weight, and the price that fits;
/// the edge must be covered at that item's further places too.
fn two_items(rng: &mut Rng, r: &mut Record) -> bool {
    let Some((bidder, place)) = one_of(rng, &pairs(r)) else {
        return false;
    };
    let needed = (r.slack.q - r.slack.p) * r.rows[bidder][place] as u64;
    let fits = |&second: &usize| {
        let further = r.places_of(r.item_of(second)).filter(|&other| other != second);
        let own = r.item_of(place) == r.item_of(second);
        !own && further.into_iter().all(|other| r.gain[bidder] + r.price[other] >= needed)
    };
    let free: Vec<usize> = free_places(r, false).into_iter().filter(fits).collect();
    let Some(second) = one_of(rng, &free) else {
        return false;
    };
    let item = r.item_of(second);
    set_edge(r, bidder, item, r.rows[bidder][place] as u64);
    hold_too(r, place, second);
    true
}

/// A free place of the item that a bidder is at.
fn two_places(rng: &mut Rng, r: &mut Record) -> bool {
    let (free, mut found) = (free_places(r, false), Vec::new());
    for (_, place) in pairs(r) {
        let beside = free.iter().filter(|&&other| r.item_of(other) == r.item_of(place));
        found.extend(beside.map(|&other| (place, other)));
    }
    let found = one_of(rng, &found);
    found.into_iter().for_each(|(place, second)| hold_too(r, place, second));
    found.is_some()
}

/// The holder of a place has another one too, at the same price.
fn hold_too(r: &mut Record, place: usize, second: usize) {
    r.price[second] = r.price[place];
    r.holder[second] = r.holder[place];
}

fn free_price(rng: &mut Rng, r: &mut Record, withdrawn: bool) -> bool {
    let place = one_of(rng, &free_places(r, withdrawn));
    let price = rng.pick(&[1, u64::MAX]);
    place.into_iter().for_each(|place| r.price[place] = price);
    place.is_some()
}

fn unplaced_gain(rng: &mut Rng, r: &mut Record) -> bool {
    let placed: Vec<usize> = pairs(r).into_iter().map(|(b, _)| b).collect();
    let unplaced: Vec<usize> = (0..r.arrived as usize).filter(|b| !placed.contains(b)).collect();
    let bidder = one_of(rng, &unplaced);
    let gain = rng.pick(&[1, u64::MAX]);
    bidder.into_iter().for_each(|bidder| r.gain[bidder] = gain);
    bidder.is_some()
}

/// One more than is covered at the cheapest place, on a live edge that nobody holds.
fn uncover(rng: &mut Rng, r: &mut Record) -> bool {
    let factor = r.slack.q - r.slack.p;
    let least = |r: &Record, b: usize, i: usize| {
        let price = r.price[r.places_of(i)].iter().min().expect("a place");
        (r.gain[b] + price) / factor + 1
    };
    let held: Vec<(usize, usize)> = pairs(r).into_iter().map(|(b, p)| (b, r.item_of(p))).collect();
    let mut open = Vec::new();
    for bidder in 0..r.arrived as usize {
        for item in (0..r.items as usize).filter(|&i| !r.is_gone(i)) {
            if least(r, bidder, item) <= MAX_WEIGHT && !held.contains(&(bidder, item)) {
                open.push((bidder, item));
            }
        }
    }
    let open = one_of(rng, &open);
    open.into_iter().for_each(|(bidder, item)| set_edge(r, bidder, item, least(r, bidder, item)));
    open.is_some()
}

/// One more item, of no place, before, between or after the others.
fn emptied(rng: &mut Rng, r: &mut Record) -> bool {
    if r.items == MAX_ITEMS as u64 {
        return false;
    }
    let at = rng.index(r.items as usize + 1);
    r.counts[at..].rotate_right(1);
    r.counts[at] = 0;
    r.items += 1;
    true
}

/// Sound but for an item of too many places.
fn crowded(rng: &mut Rng, r: &mut Record) -> bool {
    let items = rng.range(1, 12);
    let mut list = counts(rng, items, 3);
    let item = rng.index(list.len());
    list[item] = rng.pick(&[9, 9, 9, 10, 16, 28]);
    *r = sound_of(rng, &list, r.arrived);
    true
}

fn unused_count(rng: &mut Rng, r: &mut Record) -> bool {
    let room = r.items < MAX_ITEMS as u64;
    if room {
        r.counts[rng.range(r.items, MAX_ITEMS as u64 - 1) as usize] = rng.pick(&[1, 2, 8, 255]);
    }
    room
}

/// One more item, of up to 7 places, which is nobody's and at which there is no edge, so
/// that its cells are as unused ones are.
fn with_idle_item(rng: &mut Rng, r: &mut Record, change: fn(&mut Record)) -> bool {
    let room = r.items < MAX_ITEMS as u64 && r.places < MAX_PLACES as u64;
    if room {
        let count = rng.range(1, 7.min(MAX_PLACES as u64 - r.places));
        r.counts[r.items as usize] = count as u8;
        r.items += 1;
        r.places += count;
        change(r);
    }
    room
}

/// Nothing stands at it.
fn place_more(r: &mut Record) -> bool {
    let room = r.places < MAX_PLACES as u64;
    r.places += room as u64;
    room
}

/// Some have the number's lower bits.
fn places_above(rng: &mut Rng, r: &mut Record) -> bool {
    let higher = [64, 256, 1 << 32, 1 << 63].map(|more| r.places + more);
    let above = rng.pick(&higher);
    set(&mut r.places, rng.pick(&[65, u64::MAX, above, above]))
}

/// Another weight for an edge at one place of an item of several, not for its holder.
fn at_edge(rng: &mut Rng, r: &mut Record, least: u64, change: fn(&mut Rng, u64) -> u64) -> bool {
    let mut found = Vec::new();
    for place in wide_items(r).into_iter().flat_map(|item| r.places_of(item)) {
        let bidders = 0..r.arrived as usize;
        let heavy = bidders.filter(|&b| r.rows[b][place] as u64 >= least);
        found.extend(heavy.filter(|&b| r.holder[place] as usize != b + 1).map(|b| (b, place)));
    }
    let found = one_of(rng, &found);
    if let Some((bidder, place)) = found {
        r.rows[bidder][place] = change(rng, r.rows[bidder][place] as u64) as u32;
    }
    found.is_some()
}

/// An edge that is covered, at one place of an item of several at which there is none.
fn edge_more(rng: &mut Rng, r: &mut Record) -> bool {
    let factor = r.slack.q - r.slack.p;
    let mut found = Vec::new();
    for place in wide_items(r).into_iter().flat_map(|item| r.places_of(item)) {
        for bidder in (0..r.arrived as usize).filter(|&b| r.rows[b][place] == 0) {
            let most = match r.withdrawn[place] {
                0 => (r.gain[bidder] + r.price[place]) / factor,
                _ => MAX_WEIGHT,
            };
            found.extend((most > 0).then_some((bidder, place, most.min(MAX_WEIGHT))));
        }
    }
    let found = one_of(rng, &found);
    if let Some((bidder, place, most)) = found {
        r.rows[bidder][place] = rng.range(1, most) as u32;
    }
    found.is_some()
}

/// Another flag at one place of an item of several that nobody holds and at which there is
/// no edge.
fn one_flag(rng: &mut Rng, r: &mut Record, flag: u8) -> bool {
    let idle = idle_items(r);
    let wide: Vec<usize> = wide_items(r).into_iter().filter(|item| idle.contains(item)).collect();
    let item = one_of(rng, &wide);
    if let Some(item) = item {
        (0..MAX_BIDDERS).for_each(|bidder| set_edge(r, bidder, item, 0));
        set_flag(r, item, 1 - flag);
        let place = rng.pick(&r.places_of(item).collect::<Vec<usize>>());
        r.withdrawn[place] = flag;
    }
    item.is_some()
}

/// Counts within limits that add up to 65.
fn overfull(r: &mut Record) -> bool {
    let room = 65 - r.places;
    let fits = r.items + room.div_ceil(8) <= MAX_ITEMS as u64;
    if fits {
        let mut left = room;
        while left > 0 {
            r.counts[r.items as usize] = left.min(8) as u8;
            r.items += 1;
            left = left.saturating_sub(8);
        }
        r.places = 65;
    }
    fits
}

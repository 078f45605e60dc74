//! Counts that R-9 of document 02 does not mean, so that boards can be seen to tell them from
//! the one that it does.

use crate::gen::plan::Ground;
use crate::gen::sheet;
use crate::gen::small::{first_come, heaviest_first};
use crate::model::count::greatest;
use crate::model::hungarian::solve;
use crate::model::refusal::*;
use crate::model::sound::{is_sound, Record};
use crate::plans::weight_of;

/// What is wrong with a count: its value, or what it refuses.
#[derive(Clone, Copy, Debug, PartialEq, Eq)]
pub enum Miscount {
    /// None is not tried for a bidder that finds a free place.
    NoneUntried,
    /// A bidder takes the heaviest edge at a free place, and nothing else is tried for it.
    FirstCome,
    /// The heaviest edge is taken, then the heaviest that still fits.
    HeaviestFirst,
    /// The last item is never tried.
    LastItem,
    /// The last bidder is left out.
    LastBidder,
    /// An item is used once, however many places it has.
    Once,
    /// An item is used beyond its places.
    Crowded,
    /// The edges of withdrawn items are tried too.
    GoneTried,
    /// It is the weight of the board's own plan.
    Own,
    /// 17 counts items, not their places.
    Items,
    /// 17 does not count the places of withdrawn items.
    LivePlaces,
    /// 17 does not count bidders without an edge.
    Idle,
    /// 17 looks at the bidders alone.
    BiddersAlone,
    /// 17 looks at the places alone.
    PlacesAlone,
    /// 17 is met where both are over 6.
    BothOver,
    /// 17 is met from 6 on.
    From6,
    /// 17 is met from 8 on.
    From8,
    /// 17 comes before 13.
    LargeFirst,
}

impl Miscount {
    pub const ALL: [Miscount; 18] = [
        Miscount::NoneUntried,
        Miscount::FirstCome,
        Miscount::HeaviestFirst,
        Miscount::LastItem,
        Miscount::LastBidder,
        Miscount::Once,
        Miscount::Crowded,
        Miscount::GoneTried,
        Miscount::Own,
        Miscount::Items,
        Miscount::LivePlaces,
        Miscount::Idle,
        Miscount::BiddersAlone,
        Miscount::PlacesAlone,
        Miscount::BothOver,
        Miscount::From6,
        Miscount::From8,
        Miscount::LargeFirst,
    ];

    /// What it answers.
    pub fn of(self, r: &Record) -> Result<u64, Refusal> {
        match (is_sound(r), self) {
            (false, Miscount::LargeFirst) if r.arrived > 6 || r.places > 6 => refuse(LARGE, 0),
            (false, _) => refuse(SPOILT, 0),
            (true, _) if self.is_large(r) => refuse(LARGE, 0),
            (true, _) => Ok(self.value(r)),
        }
    }

    fn is_large(self, r: &Record) -> bool {
        let with_edge = r.rows.iter().filter(|row| row.iter().any(|&weight| weight != 0));
        let gone: u64 = r.withdrawn.iter().map(|&flag| flag as u64).sum();
        let (bidders, places) = match self {
            Miscount::Items => (r.arrived, r.items),
            Miscount::LivePlaces => (r.arrived, r.places - gone),
            Miscount::Idle => (with_edge.count() as u64, r.places),
            Miscount::BiddersAlone => (r.arrived, 0),
            Miscount::PlacesAlone => (0, r.places),
            Miscount::BothOver => (r.arrived.min(r.places), 0),
            _ => (r.arrived, r.places),
        };
        let most = match self {
            Miscount::From6 => 5,
            Miscount::From8 => 7,
            _ => 6,
        };
        bidders > most || places > most
    }

    fn value(self, r: &Record) -> u64 {
        let mut ground = Ground::of(r);
        let bidders = r.arrived;
        match self {
            Miscount::NoneUntried => return nobody_without(&ground.live, &mut ground.counts),
            Miscount::FirstCome => return weight_of(&ground.live, &first_come(&ground)),
            Miscount::HeaviestFirst => return weight_of(&ground.live, &heaviest_first(&ground)),
            Miscount::Own => return r.pairs().map(|(b, place)| r.rows[b][place] as u64).sum(),
            Miscount::LastItem => *ground.counts.last_mut().expect("an item") = 0,
            Miscount::LastBidder => drop(ground.live.pop()),
            Miscount::Once => ground.counts.fill(1),
            Miscount::Crowded => ground.counts.fill(bidders),
            Miscount::GoneTried => ground.live = sheet::all(r),
            // The refusals: more than 6 of either may come here, so nothing is tried.
            _ => return solve(&ground.live, &ground.counts).weight,
        }
        greatest(&ground.live, &ground.counts)
    }
}

/// The greatest weight where nobody goes without who finds a free place.
fn nobody_without(weights: &[Vec<u64>], free: &mut [u64]) -> u64 {
    let Some((first, others)) = weights.split_first() else {
        return 0;
    };
    let mut best = None;
    for item in 0..free.len() {
        if free[item] > 0 && first[item] != 0 {
            free[item] -= 1;
            best = best.max(Some(first[item] + nobody_without(others, free)));
            free[item] += 1;
        }
    }
    best.unwrap_or_else(|| nobody_without(others, free))
}

//! Plans for comparisons (document 02, R-4): at random on the live edges, near another,
//! all of a small board, and with a flaw; and boards for them.

use super::history::{history, Kind};
use super::places::counts;
use super::sheet::{self, Pattern, Sheet};
use super::{board, claim};
use crate::model::auction::*;
use crate::model::sound::{to_record, Record};
use crate::rng::Rng;

/// A cell per bidder: an item's number, or 0.
pub type Plan = Vec<u64>;

/// Those of the histories that are not long.
const KINDS: [Kind; 9] = [
    Kind::Small,
    Kind::Sparse,
    Kind::Dense,
    Kind::Ties,
    Kind::Withdrawals,
    Kind::Lists,
    Kind::Places,
    Kind::PlacesTies,
    Kind::PlacesLists,
];

/// Weights that make many plans weigh the same.
const ALIKE: [Pattern; 5] =
    [Pattern::Level, Pattern::Level, Pattern::UpTo(1), Pattern::UpTo(3), Pattern::Ends];

/// A sound board: one that no history need reach, one that a history reaches, or one
/// with many plans of equal weight.
pub fn any_board(rng: &mut Rng) -> Record {
    match rng.below(4) {
        0 => board::sound(rng),
        1 => {
            let kind = rng.pick(&KINDS);
            to_record(&history(rng, kind).auction())
        }
        _ => alike(rng),
    }
}

fn alike(rng: &mut Rng) -> Record {
    let most = rng.pick(&[(4, 4), (9, 6), (20, 12), (128, 64)]);
    let (bidders, items) = (rng.range(2, most.0), rng.range(2, most.1));
    let (pattern, density) = (rng.pick(&ALIKE), rng.range(5, 8));
    let sheet = sheet::sheet(rng, pattern, bidders, items, density);
    let withdrawals = rng.below(3);
    let most = rng.pick(&[1, 3]);
    let counts = counts(rng, items, most);
    sheet::board_of(rng, sheet, &counts, withdrawals)
}

/// How often an item is named in these cells.
pub fn times(plan: &[u64], item: u64) -> u64 {
    plan.iter().filter(|&&cell| cell == item).count() as u64
}

/// What plans are made on: the weights of the live edges, and how many places items have.
#[derive(Clone, Debug)]
pub struct Ground {
    pub live: Sheet,
    pub counts: Vec<u64>,
}

impl Ground {
    pub fn of(r: &Record) -> Ground {
        Ground { live: sheet::live(r), counts: r.counts() }
    }

    /// The items at which a bidder has a live edge and of which a place is left.
    pub fn free(&self, plan: &[u64], bidder: usize) -> Vec<u64> {
        let cells = self.live[bidder].iter().enumerate().filter(|(_, &weight)| weight != 0);
        let items = cells.map(|(item, _)| item as u64 + 1);
        items.filter(|&item| times(plan, item) < self.counts[item as usize - 1]).collect()
    }
}

/// Bidders in any order take an item with a free place each, or none.
pub fn any(rng: &mut Rng, ground: &Ground) -> Plan {
    let mut plan = vec![0; ground.live.len()];
    let mut bidders: Vec<usize> = (0..plan.len()).collect();
    rng.shuffle(&mut bidders);
    let placed = rng.range(1, 4);
    for bidder in bidders {
        let free = ground.free(&plan, bidder);
        if !free.is_empty() && rng.chance(placed, 4) {
            plan[bidder] = rng.pick(&free);
        }
    }
    plan
}

/// The plan with up to four changes.
pub fn near(rng: &mut Rng, ground: &Ground, plan: &[u64]) -> Plan {
    let mut plan = plan.to_vec();
    if !plan.is_empty() {
        (0..rng.below(5)).for_each(|_| change(rng, ground, &mut plan));
    }
    plan
}

/// A bidder, often the first or the last, leaves its item, takes a free one, or
/// exchanges cells with another.
fn change(rng: &mut Rng, ground: &Ground, plan: &mut [u64]) {
    let (any, other) = (rng.index(plan.len()), rng.index(plan.len()));
    let bidder = rng.pick(&[0, plan.len() - 1, any, any]);
    let (free, live) = (ground.free(plan, bidder), &ground.live);
    let fits = |bidder: usize, item: u64| item == 0 || live[bidder][item as usize - 1] != 0;
    match rng.below(6) {
        0 => plan[bidder] = 0,
        1 if !free.is_empty() => plan[bidder] = rng.pick(&free),
        _ if fits(bidder, plan[other]) && fits(other, plan[bidder]) => plan.swap(bidder, other),
        _ => {}
    }
}

/// So many plans: the auction's own, one of greatest weight, the empty one, others at
/// random and others near these, some of them the same.
pub fn several(rng: &mut Rng, auction: &Auction, count: usize) -> Vec<Plan> {
    let ground = Ground { live: auction.live_weights(), counts: auction.counts() };
    let empty = vec![0; auction.bidders.len()];
    let mut plans = vec![auction.matching(), claim::exact(auction).matching, empty];
    while plans.len() < count {
        let other = rng.index(plans.len());
        let plan = match rng.chance(1, 3) {
            true => any(rng, &ground),
            false => near(rng, &ground, &plans[other]),
        };
        plans.push(plan);
    }
    rng.shuffle(&mut plans);
    plans
}

/// Every plan: none and every item with a free place for the first bidder, then likewise
/// for the rest.
pub fn all(ground: &Ground) -> Vec<Plan> {
    let mut plans = vec![Vec::new()];
    for bidder in 0..ground.live.len() {
        let cells = |plan: &Plan| [vec![0], ground.free(plan, bidder)].concat();
        let longer =
            |plan: Plan| cells(&plan).into_iter().map(move |cell| [&plan[..], &[cell]].concat());
        plans = plans.into_iter().flat_map(longer).collect();
    }
    plans
}

/// Every one of a list beside every one.
pub fn pairs<T>(list: &[T]) -> impl Iterator<Item = (&T, &T)> {
    list.iter().flat_map(move |one| list.iter().map(move |other| (one, other)))
}

/// A plan of another length, with anything in further cells.
pub fn uneven(rng: &mut Rng, plan: &[u64]) -> Plan {
    let even = plan.len();
    let lengths = [0, even.saturating_sub(1), even + 1, even + 128, even + 256, 1_000];
    let length = rng.pick(&lengths);
    let mut list = plan.to_vec();
    list.resize(if length == even { even + 1 } else { length }, rng.pick(&[0, 1, u64::MAX]));
    list
}

/// What is wrong with a cell.
#[derive(Clone, Copy, Debug, PartialEq, Eq)]
pub enum Flaw {
    /// Its number is the last item's and 1.
    Past,
    /// It is far above; some are an item's number in their lower bits.
    Far,
    /// The bidder has an edge there, but the item is withdrawn.
    Gone,
    /// The item is live, but the bidder has no edge there.
    Edgeless,
    /// The bidder has a live edge there, but as many earlier bidders have the item as it
    /// has places.
    Named,
}

impl Flaw {
    pub const ALL: [Flaw; 5] = [Flaw::Past, Flaw::Far, Flaw::Gone, Flaw::Edgeless, Flaw::Named];

    /// The cells with this flaw for a bidder, from 0.
    fn cells(self, r: &Record, plan: &[u64], bidder: usize) -> Vec<u64> {
        let gone = |item: u64| r.is_gone(item as usize - 1);
        let edge = |item: u64| r.weight_at(bidder, item as usize - 1) != 0;
        let full = |item: u64| times(&plan[..bidder], item) >= r.counts[item as usize - 1] as u64;
        let items = 1..=r.items;
        match self {
            Flaw::Past => vec![r.items + 1],
            Flaw::Far => vec![257, 1 << 16, (1 << 32) + 1, 1 << 63, u64::MAX],
            Flaw::Gone => items.filter(|&item| gone(item) && edge(item)).collect(),
            Flaw::Edgeless => items.filter(|&item| !gone(item) && !edge(item)).collect(),
            Flaw::Named => items.filter(|&item| !gone(item) && edge(item) && full(item)).collect(),
        }
    }

    /// The plan with this flaw in the cell of a bidder, from 0; none where there is no
    /// such cell.
    pub fn put(self, rng: &mut Rng, r: &Record, plan: &[u64], bidder: usize) -> Option<Plan> {
        let cells = self.cells(r, plan, bidder);
        let mut plan = plan.to_vec();
        plan[bidder] = (!cells.is_empty()).then(|| rng.pick(&cells))?;
        Some(plan)
    }
}

/// The plan, of another length, or with up to two flaws.
pub fn damaged(rng: &mut Rng, r: &Record, plan: &[u64]) -> Plan {
    if rng.chance(1, 6) {
        return uneven(rng, plan);
    }
    let mut plan = plan.to_vec();
    for _ in 0..rng.pick(&[0, 0, 1, 1, 2]) {
        if !plan.is_empty() {
            let (bidder, flaw) = (rng.index(plan.len()), rng.pick(&Flaw::ALL));
            plan = flaw.put(rng, r, &plan, bidder).unwrap_or(plan);
        }
    }
    plan
}

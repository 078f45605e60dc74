//! Lists of items, for withdrawals: rising ones, and ones with a fault.

use crate::model::refusal::*;
use crate::model::sound::Record;
use crate::rng::Rng;

/// So many of these items in rising order, all where there are fewer.
pub fn rising(rng: &mut Rng, of: &[u64], count: usize) -> Vec<u64> {
    let mut items = of.to_vec();
    rng.shuffle(&mut items);
    items.truncate(count);
    items.sort();
    items
}

/// The items of a board that are withdrawn, or those that are not.
pub fn items_of(r: &Record, withdrawn: bool) -> Vec<u64> {
    (1..=r.items).filter(|&item| r.is_gone(item as usize - 1) == withdrawn).collect()
}

/// What is wrong with one item of a list.
#[derive(Clone, Copy, Debug, PartialEq, Eq)]
pub enum Fault {
    /// It is 0.
    Zero,
    /// Its number is the last item's and 1.
    Past,
    /// It is far above; some are an item's number in their lower bits.
    Far,
    /// It is withdrawn.
    Gone,
    /// It is the item before once more.
    Doubled,
    /// It is one below the item before, named already or not.
    Falling,
}

impl Fault {
    pub const ALL: [Fault; 6] =
        [Fault::Zero, Fault::Past, Fault::Far, Fault::Gone, Fault::Doubled, Fault::Falling];

    /// The refusal's number.
    pub fn number(self) -> u64 {
        match self {
            Fault::Zero | Fault::Past | Fault::Far => UNKNOWN,
            Fault::Gone => GONE,
            Fault::Doubled | Fault::Falling => ORDER,
        }
    }

    /// An item with this fault after the item before, 0 where it is the list's first;
    /// none where the board has no such item.
    fn item(self, rng: &mut Rng, r: &Record, before: u64) -> Option<u64> {
        let one_of = |rng: &mut Rng, items: Vec<u64>| (!items.is_empty()).then(|| rng.pick(&items));
        match self {
            Fault::Zero => Some(0),
            Fault::Past => Some(r.items + 1),
            Fault::Far => Some(rng.pick(&[257, 1 << 16, (1 << 32) + 1, 1 << 63, u64::MAX])),
            Fault::Gone => one_of(rng, items_of(r, true)),
            Fault::Doubled => (before > 0).then_some(before),
            Fault::Falling => {
                let live = items_of(r, false).into_iter();
                one_of(rng, live.filter(|&item| item < before).collect())
            }
        }
    }

    /// The list with an item more, which has this fault, at a place from 1.
    pub fn put(self, rng: &mut Rng, r: &Record, list: &[u64], place: usize) -> Option<Vec<u64>> {
        let before = if place == 1 { 0 } else { list[place - 2] };
        let item = self.item(rng, r, before)?;
        Some([&list[..place - 1], &[item], &list[place - 1..]].concat())
    }
}

/// More of those that depend on the item before, which not every list offers.
const FAULTS_AT_RANDOM: [Fault; 9] = [
    Fault::Zero,
    Fault::Past,
    Fault::Far,
    Fault::Gone,
    Fault::Gone,
    Fault::Doubled,
    Fault::Doubled,
    Fault::Falling,
    Fault::Falling,
];

/// Up to so many live items in rising order, and up to two faults.
pub fn any(rng: &mut Rng, r: &Record, most: usize) -> Vec<u64> {
    let count = rng.index(most + 1);
    let mut list = rising(rng, &items_of(r, false), count);
    for _ in 0..rng.pick(&[0, 0, 1, 1, 1, 2]) {
        let place = rng.index(list.len() + 1) + 1;
        let fault = rng.pick(&FAULTS_AT_RANDOM);
        list = fault.put(rng, r, &list, place).unwrap_or(list);
    }
    list
}

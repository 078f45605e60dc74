//! What a bid comes to for the offer taken, its gain and the rise of its price: as R-7 of
//! document 02 has it, as it was until then, and otherwise, so that a board can be seen to
//! tell them apart.

use crate::gen::history::History;
use crate::ties::{by_pairs, walk_raising, Offer, Walk};

/// How a bidder's gain and the price of its place come about.
#[derive(Clone, Copy, Debug, PartialEq, Eq)]
pub enum Raise {
    /// "The gain becomes that second utility, and the price rises by the lead plus p × w"
    /// (R-7), the second being "the greatest utility of any other open place of that batch, 0
    /// if none".
    Lead,
    /// Document 01, until R-7: "Its gain becomes that utility. The kettle's price then rises
    /// by p × w."
    Slack,
    /// The second may be one that is not open.
    Shut,
    /// The second is one at another item.
    OtherItem,
    /// The gain is the utility of the place taken.
    FirstGain,
    /// The price rises by the lead alone, and by p × w where there is none, so that chains
    /// end.
    LeadAlone,
}

impl Raise {
    /// Those that R-7 does not mean.
    pub const OTHERS: [Raise; 5] =
        [Raise::Slack, Raise::Shut, Raise::OtherItem, Raise::FirstGain, Raise::LeadAlone];

    /// The gain, and by how much the price rises, where p × w is `least`.
    pub fn of(self, offers: &[Offer], taken: Offer, least: i64) -> (i64, i64) {
        let second = self.second(offers, taken);
        let lead = taken.utility - second;
        match self {
            Raise::Slack => (taken.utility, least),
            Raise::FirstGain => (taken.utility, lead + least),
            Raise::LeadAlone if lead > 0 => (second, lead),
            _ => (second, lead + least),
        }
    }

    /// No greater than the utility of the place taken, so that the price does not fall.
    fn second(self, offers: &[Offer], taken: Offer) -> i64 {
        let counts = |offer: &&Offer| match self {
            Raise::Shut => offer.place != taken.place,
            Raise::OtherItem => offer.open && offer.place.item != taken.place.item,
            _ => offer.open && offer.place != taken.place,
        };
        let greatest = offers.iter().filter(counts).map(|offer| offer.utility).max();
        greatest.unwrap_or(0).clamp(0, taken.utility)
    }
}

/// The history's end where bids come to this.
pub fn walked(history: &History, raise: Raise) -> Walk {
    walk_raising(history, by_pairs, raise)
}

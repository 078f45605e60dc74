//! A board on both sides from its opening on, and the laws of document 01 after every
//! call: "the bid bound and share are wanted for any list" (document 02, R-3).

use super::{equal, Both, Same, Tally};
use crate::gen::history::{Call, History};
use crate::laws::{bids_are_bounded, on_board, places_at, require};
use crate::model::auction::{Edge, Slack};
use crate::model::refusal::Refusal;

pub struct Watched<'a> {
    pub both: Both<'a>,
    /// Edges accepted, once per place, and bids made, both in all.
    accepted: u64,
    bids: u64,
}

impl Watched<'_> {
    pub fn open(items: u64, slack: Slack, seen: &mut Tally) -> Same<Watched<'_>> {
        Watched::opened(&History::of_ones(items, slack, Vec::new()), seen)
    }

    /// The board of a history before its calls.
    pub fn opened<'a>(history: &History, seen: &'a mut Tally) -> Same<Watched<'a>> {
        Ok(Watched { both: Both::opened(history, seen)?, accepted: 0, bids: 0 })
    }

    pub fn call(&mut self, call: &Call) -> Same<Result<u64, Refusal>> {
        match call {
            Call::Arrive(edges) => self.arrive(edges),
            Call::Withdraw(items) => self.withdraw(items),
        }
    }

    pub fn arrive(&mut self, edges: &[Edge]) -> Same<Result<u64, Refusal>> {
        let answer = self.both.arrive(edges)?;
        if let Ok(bids) = answer {
            self.accepted += places_at(&self.both.ours, edges.iter().map(|edge| edge.item));
            self.bids += bids;
        }
        self.laws()?;
        Ok(answer)
    }

    pub fn withdraw(&mut self, items: &[u64]) -> Same<Result<u64, Refusal>> {
        let before = self.both.ours;
        let answer = self.both.withdraw(items)?;
        match answer {
            Ok(bids) => self.bids += bids,
            Err(_) => equal("a refusal keeps the board", self.both.ours == before, true)?,
        }
        self.laws()?;
        Ok(answer)
    }

    fn laws(&mut self) -> Same<()> {
        require(self.both.is_sound()?, || "not sound".into())?;
        bids_are_bounded(&self.both.ours, self.accepted, self.bids)?;
        on_board(&self.both.ours)
    }
}

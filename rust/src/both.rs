//! A board on both sides, the proved library's and the model's. Every call is
//! made on both, and answers, boards and lent lists must be equal.

use crate::ffi::{self, Told};
use crate::gen::history::History;
use crate::model::auction::*;
use crate::model::calls::*;
use crate::model::check::{Claim, Totals};
use crate::model::refusal::*;
use crate::model::sound::{is_sound, to_record, Record};
use crate::model::text::{put_line, replay_as_far, sheet, Replayed};
use crate::rng::Rng;
use std::collections::BTreeMap;
use std::fmt::Debug;
use std::hint::black_box;

pub mod compare;
pub mod count;
pub mod pages;
pub mod watched;

/// What both sides agree on, or how they differ.
pub type Same<T> = Result<T, String>;

/// The answers seen, by call and by number of the refusal, 0 for a served call.
#[derive(Debug, Default)]
pub struct Tally(BTreeMap<(&'static str, u64), u64>);

impl Tally {
    pub fn note<T>(&mut self, call: &'static str, answer: &Result<T, Refusal>) {
        self.count(call, answer.as_ref().err().map_or(0, |refusal| refusal.number));
    }

    pub fn count(&mut self, call: &'static str, number: u64) {
        *self.0.entry((call, number)).or_default() += 1;
    }

    pub fn of(&self, call: &'static str, number: u64) -> u64 {
        self.0.get(&(call, number)).copied().unwrap_or(0)
    }

    /// The call was answered with each of these numbers so often, and with no other.
    pub fn assert_seen(&self, call: &'static str, numbers: &[u64], least: u64) {
        let seen = self.0.iter().filter(|((name, _), _)| *name == call);
        let strange = seen.filter(|((_, number), _)| !numbers.contains(number)).count();
        assert_eq!(strange, 0, "{call}: other answers than {numbers:?}: {self:?}");
        for &number in numbers {
            let times = self.of(call, number);
            assert!(times >= least, "{call}: {number} came {times} times of {least}: {self:?}");
        }
    }
}

pub struct Both<'a> {
    pub ours: ffi::Board,
    pub model: Record,
    pub seen: &'a mut Tally,
}

/// Three lists: matching, prices, gains.
pub type Lists = [Vec<u64>; 3];

pub fn equal<T: PartialEq + Debug>(what: &str, ours: T, model: T) -> Same<()> {
    if ours == model {
        return Ok(());
    }
    Err(format!("{what}: ours {ours:?}, the model's {model:?}"))
}

/// The library's board with the numbers of the model's record.
pub fn board(r: &Record) -> ffi::Board {
    let mut weights = [0; MAX_BIDDERS * MAX_PLACES];
    for (row, cells) in r.rows.iter().zip(weights.chunks_exact_mut(MAX_PLACES)) {
        cells.copy_from_slice(row);
    }
    ffi::Board {
        items: ffi::Items { count: r.items, places: r.counts },
        places: r.places,
        slack: ffi::Slack { p: r.slack.p, q: r.slack.q },
        arrived: r.arrived,
        price: r.price.map(ffi::Scaled),
        holder: r.holder,
        withdrawn: r.withdrawn,
        gain: r.gain.map(ffi::Scaled),
        weights,
    }
}

/// The model's record with the numbers of the library's board.
pub fn record(b: &ffi::Board) -> Record {
    let mut r = Record::zero();
    r.items = b.items.count;
    r.counts = b.items.places;
    r.places = b.places;
    r.slack = Slack { p: b.slack.p, q: b.slack.q };
    r.arrived = b.arrived;
    r.price = b.price.map(|y| y.0);
    r.holder = b.holder;
    r.withdrawn = b.withdrawn;
    r.gain = b.gain.map(|g| g.0);
    for (row, cells) in r.rows.iter_mut().zip(b.weights.chunks_exact(MAX_PLACES)) {
        row.copy_from_slice(cells);
    }
    r
}

/// The record that a replay came to; all 0 where nothing was opened.
pub fn reached(replayed: &Replayed) -> Record {
    replayed.auction.as_ref().map_or_else(Record::zero, to_record)
}

/// The numbers of an answer: a served call has number and place 0, a refused
/// one the value 0.
fn told(answer: Result<u64, Refusal>) -> Told {
    match answer {
        Ok(value) => Told { number: 0, place: 0, value },
        Err(Refusal { number, place }) => Told { number, place, value: 0 },
    }
}

fn totals(answer: Result<Totals, Refusal>) -> ffi::Totals {
    let Told { number, place, .. } = told(answer.map(|_| 0));
    let (weight, total) = answer.map_or((0, 0), |totals| (totals.weight, totals.sum));
    ffi::Totals { number, place, weight, total }
}

/// What differs, cell by cell; at most six cells are named.
fn difference(ours: &Record, model: &Record) -> String {
    let mut found = Vec::new();
    let mut note = |name: String, a: u64, b: u64| {
        if a != b {
            found.push(format!("{name} {a} for {b}"));
        }
    };
    note("items".into(), ours.items, model.items);
    note("places".into(), ours.places, model.places);
    note("p".into(), ours.slack.p, model.slack.p);
    note("q".into(), ours.slack.q, model.slack.q);
    note("arrived".into(), ours.arrived, model.arrived);
    for i in 0..MAX_ITEMS {
        note(format!("count {}", i + 1), ours.counts[i] as u64, model.counts[i] as u64);
    }
    for i in 0..MAX_PLACES {
        note(format!("price {}", i + 1), ours.price[i], model.price[i]);
        note(format!("holder {}", i + 1), ours.holder[i] as u64, model.holder[i] as u64);
        let gone = (ours.withdrawn[i] as u64, model.withdrawn[i] as u64);
        note(format!("withdrawn {}", i + 1), gone.0, gone.1);
    }
    for b in 0..MAX_BIDDERS {
        note(format!("gain {}", b + 1), ours.gain[b], model.gain[b]);
        for i in 0..MAX_PLACES {
            let cells = (ours.rows[b][i] as u64, model.rows[b][i] as u64);
            note(format!("weight {} {}", b + 1, i + 1), cells.0, cells.1);
        }
    }
    found.truncate(6);
    found.join(", ")
}

/// The two boards are equal in every byte.
pub fn equal_boards(what: &str, ours: &ffi::Board, model: &Record) -> Same<()> {
    if *ours == board(model) {
        return Ok(());
    }
    Err(format!("{what}: the boards differ: {}", difference(&record(ours), model)))
}

/// Lists of these lengths, every cell another number.
pub fn marked(rooms: [usize; 3]) -> Lists {
    let mut mark = 0xabcd_ef01_2345_6789_u64;
    rooms.map(|room| {
        (0..room)
            .map(|_| {
                mark = mark.wrapping_mul(0x9e37_79b9_7f4a_7c15) | 1 << 63;
                mark
            })
            .collect()
    })
}

/// Lengths that suffice three times in four; otherwise a list may be short.
pub fn rooms(rng: &mut Rng, r: &Record) -> [usize; 3] {
    let short = rng.chance(1, 4);
    let (bidders, items) = (r.arrived.min(128) as usize, r.items.min(64) as usize);
    [bidders, items, bidders].map(|cells| match rng.below(4) {
        0 if short => cells.saturating_sub(1),
        1 if short => rng.index(cells + 1),
        2 => cells,
        _ => cells + rng.index(7),
    })
}

/// Lists in which every cell that a call may write has its place.
pub fn wide() -> [usize; 3] {
    [MAX_BIDDERS + 3, MAX_ITEMS + 3, MAX_BIDDERS + 3]
}

impl Both<'_> {
    pub fn on(model: Record, seen: &mut Tally) -> Both<'_> {
        Both { ours: board(&model), model, seen }
    }

    /// A board of items with one place each, opened on both sides, or the refusal of both.
    pub fn open(items: u64, slack: Slack, seen: &mut Tally) -> Same<Result<Both<'_>, Refusal>> {
        Both::open_places(items, slack, &ones(items), seen)
    }

    /// The same of items with so many places.
    pub fn open_places<'a>(
        items: u64,
        slack: Slack,
        counts: &[u64],
        seen: &'a mut Tally,
    ) -> Same<Result<Both<'a>, Refusal>> {
        let lent = counts.to_vec();
        let after = ffi::open_places(items, slack.p, slack.q, &lent);
        equal("open, the counts kept", &black_box(lent)[..], counts)?;
        let opened = open_record(items, slack, counts);
        let expected = opened.as_ref().map(|_| 0).map_err(|refusal| *refusal);
        equal("open", after.told(), told(expected))?;
        seen.note("open", &opened);
        let model = opened.clone().unwrap_or_else(|_| Record::zero());
        equal_boards("open", &after.board, &model)?;
        Ok(opened.map(|model| Both { ours: after.board, model, seen }))
    }

    /// The board of a history before its calls.
    pub fn opened<'a>(history: &History, seen: &'a mut Tally) -> Same<Both<'a>> {
        let both = Both::open_places(history.items(), history.slack, &history.counts, seen)?;
        Ok(both.expect("it opens"))
    }

    pub fn arrive(&mut self, edges: &[Edge]) -> Same<Result<u64, Refusal>> {
        let lent = |e: &Edge| ffi::Edge { item: e.item, weight: e.weight };
        let list: Vec<ffi::Edge> = edges.iter().map(lent).collect();
        let after = ffi::arrive(self.ours, &list);
        let expected = arrive_record(&mut self.model, edges);
        self.seen.note("arrive", &expected);
        equal("arrive", after.told(), told(expected))?;
        let by_buffer = ffi::arrive_buffer(self.ours, ffi::EdgeBuffer::new(&list));
        equal("arrive by a buffer", by_buffer.told(), after.told())?;
        equal("arrive by a buffer, the board", by_buffer.board == after.board, true)?;
        let kept = black_box(list).iter().zip(edges).all(|(a, b)| *a == lent(b));
        equal("arrive, the list of edges kept", kept, true)?;
        self.accept("arrive", after.board)?;
        Ok(expected)
    }

    pub fn withdraw(&mut self, items: &[u64]) -> Same<Result<u64, Refusal>> {
        let list = items.to_vec();
        let after = ffi::withdraw(self.ours, &list);
        let expected = withdraw_record(&mut self.model, items);
        self.seen.note("withdraw", &expected);
        equal("withdraw", after.told(), told(expected))?;
        equal("withdraw, the list of items kept", &black_box(list)[..], items)?;
        self.accept("withdraw", after.board)?;
        Ok(expected)
    }

    /// A refused call has left the model's board alone, so ours is compared
    /// with the board before the call.
    fn accept(&mut self, call: &str, after: ffi::Board) -> Same<()> {
        equal_boards(call, &after, &self.model)?;
        self.ours = after;
        Ok(())
    }

    pub fn is_sound(&mut self) -> Same<bool> {
        let expected = is_sound(&self.model);
        self.seen.count("sound", !expected as u64);
        equal("is_sound", ffi::is_sound(self.ours), expected)?;
        Ok(expected)
    }

    pub fn read_out(&mut self, rooms: [usize; 3]) -> Same<Result<Lists, Refusal>> {
        let (mut ours, mut theirs) = (marked(rooms), marked(rooms));
        let [m, y, g] = &mut ours;
        let answer = ffi::read_out(self.ours, m, y, g);
        let [m, y, g] = &mut theirs;
        let expected = read_out_record(&self.model, m, y, g).map(|_| 0);
        self.seen.note("read out", &expected);
        equal("read out", answer, told(expected))?;
        equal("read out, the lists", &ours, &theirs)?;
        Ok(expected.map(|_| ours))
    }

    /// The weights are equal; our lists need only be a best pair.
    pub fn exact(&mut self, rooms: [usize; 3]) -> Same<Result<Claim, Refusal>> {
        let (mut ours, mut theirs) = (marked(rooms), marked(rooms));
        let [m, y, g] = &mut ours;
        let answer = ffi::exact(self.ours, m, y, g);
        let [m, y, g] = &mut theirs;
        let expected = exact_record(&self.model, m, y, g);
        self.seen.note("exact", &expected);
        equal("exact", answer, told(expected))?;
        match expected {
            Ok(weight) => Ok(Ok(self.best_pair(weight, ours)?)),
            Err(refusal) => {
                equal("exact, the lists of a refusal", &ours, &marked(rooms))?;
                Ok(Err(refusal))
            }
        }
    }

    /// The pair at 0/1 is accepted by both checks with equal totals.
    fn best_pair(&mut self, weight: u64, lists: Lists) -> Same<Claim> {
        let cells = [self.model.arrived, self.model.items, self.model.arrived];
        let untouched = marked([lists[0].len(), lists[1].len(), lists[2].len()]);
        for ((list, before), used) in lists.iter().zip(&untouched).zip(cells) {
            let used = used as usize;
            equal("exact, the further cells", &list[used..], &before[used..])?;
        }
        let [m, y, g] = lists;
        let claim = Claim {
            matching: m[..cells[0] as usize].to_vec(),
            price: y[..cells[1] as usize].to_vec(),
            gain: g[..cells[2] as usize].to_vec(),
            slack: Slack { p: 0, q: 1 },
        };
        let gone = claim.price.iter().enumerate().filter(|(item, _)| self.model.is_gone(*item));
        equal("exact, prices of withdrawn items", gone.map(|(_, y)| y).sum::<u64>(), 0)?;
        let answer = self.check(&claim)?;
        equal("exact, its totals", answer, Ok(Totals { weight, sum: weight }))?;
        Ok(claim)
    }

    pub fn check(&mut self, claim: &Claim) -> Same<Result<Totals, Refusal>> {
        let lent = claim.clone();
        let (m, y, g) = (&lent.matching, &lent.price, &lent.gain);
        let Slack { p, q } = claim.slack;
        let answer = ffi::check(self.ours, m, y, g, p, q);
        equal("check, the lists kept", &black_box(lent), claim)?;
        let expected = check_record(&self.model, claim);
        self.seen.note("check", &expected);
        equal("check", answer, totals(expected))?;
        Ok(expected)
    }
}

/// A byte for each cell, so that a written one is noticed.
pub fn page(length: usize) -> Vec<u8> {
    (0..length).map(|i| 0x80 | (i * 37 % 127) as u8).collect()
}

/// The whole text replayed on both sides: board and bids. The refusal, if there is one.
pub fn equal_texts(text: &[u8], seen: &mut Tally) -> Same<Option<Refusal>> {
    let expected = replay_as_far(text);
    let after = ffi::replay(text);
    // Where a text is refused the value is still the bids up to there.
    let ending = told(expected.refusal.map_or(Ok(0), Err));
    equal("replay", after.told(), Told { value: expected.bids, ..ending })?;
    equal_boards("replay", &after.board, &reached(&expected))?;
    let number = expected.refusal.map_or(0, |refusal| refusal.number);
    seen.count("replay", number);
    Ok(expected.refusal)
}

/// What the program prints of a text, in a list of so many cells.
pub fn equal_sheets(text: &[u8], printed: &[u8], room: usize, seen: &mut Tally) -> Same<()> {
    let expected = fit(printed, room);
    seen.note("sheet", &expected);
    let mut out = page(room);
    let answer = ffi::sheet_text(text, &mut out);
    equal("sheet", answer, told(expected))?;
    equal("sheet, the list", out, page_with(printed, room, expected))
}

/// The plan in a list of so many cells, on both sides; 8 comes last.
pub fn equal_plans(text: &[u8], room: usize, seen: &mut Tally) -> Same<Result<u64, Refusal>> {
    let printed = sheet(text);
    let refusal = replay_as_far(text).refusal;
    let fitted = fit(&printed, room);
    let expected = refusal.map_or(fitted, Err);
    seen.note("plan", &expected);
    let mut out = page(room);
    let answer = ffi::plan_text(text, &mut out);
    equal("plan", answer, told(expected))?;
    equal("plan, the list", out, page_with(&printed, room, expected))?;
    Ok(expected)
}

/// The line of a refused text in a list of so many cells, on both sides.
pub fn equal_lines(number: u64, line: u64, room: usize, seen: &mut Tally) -> Same<()> {
    let mut printed = Vec::new();
    put_line(&mut printed, b'R', &[number, line]);
    let expected = fit(&printed, room);
    seen.note("line", &expected);
    let mut out = page(room);
    let answer = ffi::refusal_line(number, line, &mut out);
    equal("line", answer, told(expected))?;
    equal("line, the list", out, page_with(&printed, room, expected))
}

fn fit(printed: &[u8], room: usize) -> Result<u64, Refusal> {
    match printed.len() <= room {
        true => Ok(printed.len() as u64),
        false => refuse(SHORT, 0),
    }
}

/// The page after the call: as before where the call was refused.
fn page_with(printed: &[u8], room: usize, answer: Result<u64, Refusal>) -> Vec<u8> {
    let mut out = page(room);
    if answer.is_ok() {
        out[..printed.len()].copy_from_slice(printed);
    }
    out
}

pub fn shown(bytes: &[u8]) -> String {
    String::from_utf8_lossy(bytes).into_owned()
}

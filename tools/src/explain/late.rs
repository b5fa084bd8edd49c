//! Finds again whether a delayed list is a plan and, if not, when it first goes wrong and what goes wrong then.

use super::check;
use super::judge::{Happening, List, PlanFault, MOST};
use super::lines;
use super::words::Words;
use super::Context;
use crate::answers::{Answer, Proved};
use crate::list::{self, Entry};
use crate::model::{Kind, Sheet};

/// A way in which a delayed list fails to be a plan.
#[derive(Clone, Debug, PartialEq, Eq)]
pub enum LateFault {
    /// A set that meets a clear; a need without a source that is uncleared before its begin, each with the clear that spoils it; a
    /// goal that is lost; a minute above the horizon.
    Listed(PlanFault),
    /// A need from begin to end, and a clear, from its begin on, that comes too early for it.
    Broken { entry: usize, fact: usize, minutes: (u16, u16), by: Happening },
}

impl LateFault {
    /// The minute at which the run goes wrong by it; none for a lost goal and a minute above the horizon.
    pub fn tick(&self) -> Option<u16> {
        match self {
            LateFault::Listed(PlanFault::Clash { clear, .. }) => Some(clear.minute),
            LateFault::Listed(PlanFault::Unserved { minutes, .. }) => Some(minutes.0),
            LateFault::Listed(_) => None,
            LateFault::Broken { by, .. } => Some(by.minute),
        }
    }
}

/// The proved answer, with its explanation if that has passed its check.
pub struct Late {
    pub answer: Answer,
    /// The entries at their delayed minutes.
    pub entries: Vec<Entry>,
    /// What goes wrong at the first minute at which anything does, or at none.
    pub faults: Result<Vec<LateFault>, String>,
}

/// Explains the answer on delays for a list that the judge accepts, one for each of these entries.
pub fn late(
    bytes: &[u8],
    sheet: &Sheet,
    entries: &[Entry],
    delays: &[u16],
    proved: &Proved,
) -> Late {
    let answer = proved.late(bytes, &list::encode(sheet, entries), delays);
    let entries: Vec<Entry> =
        entries.iter().zip(delays).map(|(entry, by)| entry.later(*by)).collect();
    let (found, faults) = find(sheet, &entries);
    let outcome = check::late(bytes, answer, found, &entries, &faults);
    Late { answer, faults: outcome.map(|()| faults), entries }
}

fn find(sheet: &Sheet, entries: &[Entry]) -> (Answer, Vec<LateFault>) {
    let mut faults = ticked(&List { sheet, entries });
    let first =
        faults.iter().filter_map(LateFault::tick).min().filter(|tick| *tick <= sheet.horizon);
    match first {
        Some(_) => faults.retain(|fault| fault.tick() == first),
        None => faults = unticked(&List { sheet, entries }),
    }
    if faults.is_empty() {
        return (Answer { number: 0, detail: 0 }, faults);
    }
    (Answer { number: 41, detail: usize::from(first.unwrap_or(sheet.horizon)) }, faults)
}

/// All that goes wrong at some minute.
fn ticked(list: &List) -> Vec<LateFault> {
    let mut clashes = Vec::new();
    for fact in 0..list.sheet.facts.len() {
        list.add_clashes(fact, &mut clashes);
    }
    let mut faults: Vec<LateFault> = clashes.into_iter().map(LateFault::Listed).collect();
    for entry in 0..list.entries.len() {
        for (fact, minutes) in list.needs(entry) {
            faults.extend(unserved(list, entry, fact, minutes));
            faults.extend(broken(list, entry, fact, minutes));
        }
    }
    faults
}

/// A need that begins without a source, or with each cleared before.
fn unserved(list: &List, entry: usize, fact: usize, minutes: (u16, u16)) -> Option<LateFault> {
    let begin = i32::from(minutes.0);
    let in_time = |set: &Happening| i32::from(set.minute) + list.distance(entry, set) <= begin;
    let before = |clear: &Happening| clear.minute < minutes.0;
    let sources = list.served(fact, list.sources(fact, in_time), before).err()?;
    Some(LateFault::Listed(PlanFault::Unserved { entry, fact, minutes, sources }))
}

/// The clears from a need's begin on that come too early for it.
fn broken(list: &List, entry: usize, fact: usize, minutes: (u16, u16)) -> Vec<LateFault> {
    let early = |by: &Happening| {
        let until = i32::from(minutes.1) + list.distance(entry, by);
        minutes.0 <= by.minute && i32::from(by.minute) < until
    };
    let clears = list.all(Kind::Clears, fact).into_iter().filter(early);
    clears.map(|by| LateFault::Broken { entry, fact, minutes, by }).collect()
}

/// What keeps a list from being a plan without a minute at which it goes wrong: delays break nothing else of point 1.
fn unticked(list: &List) -> Vec<LateFault> {
    let mut faults = Vec::new();
    for entry in 0..list.entries.len() {
        list.add_own(entry, &mut faults);
    }
    for fact in (0..list.sheet.facts.len()).filter(|&fact| list.sheet.facts[fact].goal) {
        list.add_goal(fact, &mut faults);
    }
    faults.into_iter().map(LateFault::Listed).collect()
}

impl Late {
    /// Why the delayed list is no plan, a line for each fault; nothing if it is one.
    pub fn text(&self, context: &Context) -> String {
        let (Answer { number, detail }, Some(sheet)) = (self.answer, context.sheet) else {
            return String::new();
        };
        let faults = match &self.faults {
            Ok(_) if number == 0 => return String::new(),
            Ok(faults) => faults,
            Err(why) => return format!("the explanation did not pass its check: {why}\n"),
        };
        let head = match faults.first().and_then(LateFault::tick) {
            Some(_) => format!("with these delays the run goes wrong at minute {detail}:\n"),
            None => format!(
                "with these delays no minute up to the horizon, {detail}, goes wrong, and the list is not a plan:\n"
            ),
        };
        let words = Words { sheet, context };
        let shown = &faults[..faults.len().min(MOST)];
        head + &lines::late_faults(&words, &self.entries, shown, faults.len() - shown.len())
    }
}

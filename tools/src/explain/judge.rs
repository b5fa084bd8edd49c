//! Finds the judge's answer again, with every way in which a list fails to be a plan.

use super::{Found, Reason};
use crate::answers::Answer;
use crate::decode::decode;
use crate::list::{self, Entry};
use crate::model::{Event, Kind, Sheet};
use crate::rules::tightest;

/// So many faults are named; then only how many more there are.
pub(super) const MOST: usize = 20;

/// A set or a clear of some fact, by entry and minute.
#[derive(Clone, Copy, Debug, PartialEq, Eq)]
pub struct Happening {
    pub entry: usize,
    pub minute: u16,
}

/// A source, the initial state or a set, and the clear that spoils it.
#[derive(Clone, Copy, Debug, PartialEq, Eq)]
pub struct Spoiled {
    pub source: Option<Happening>,
    pub by: Happening,
}

/// A way in which a list fails to be a plan; events by number in the sheet.
#[derive(Clone, Debug, PartialEq, Eq)]
pub enum PlanFault {
    /// A minute above the horizon.
    Window { entry: usize, event: usize, minute: u16 },
    /// Point 1: a minute before the job's release.
    Release { entry: usize, event: usize, minute: u16 },
    /// Point 1: a bound, by its row, with the minutes of e and d; of those of one pair the tightest.
    Bound { entry: usize, row: usize, e: usize, d: usize, minutes: (u16, u16) },
    /// Point 1: a need that ends before it begins.
    Need { entry: usize, fact: usize, minutes: (u16, u16) },
    /// Point 2.
    Clash { fact: usize, set: Happening, clear: Happening },
    /// Point 3: the need from begin to end, and its sources, each with the clear that spoils it.
    Unserved { entry: usize, fact: usize, minutes: (u16, u16), sources: Vec<Spoiled> },
    /// Point 4.
    Goal { fact: usize, sources: Vec<Spoiled> },
}

pub fn find(bytes: &[u8], list: &[u8]) -> Found {
    let found = |number, reason| {
        let answer = Answer { number, detail: 0 };
        Found { answer, reasons: vec![reason], absent: Vec::new() }
    };
    let read = decode(bytes).and_then(|sheet| list::decode(&sheet, list).map(|list| (sheet, list)));
    let (sheet, entries) = match read {
        Ok(read) => read,
        Err(fault) => return found(fault.number, Reason::Form(fault)),
    };
    let mut faults = faults(&sheet, &entries);
    if faults.is_empty() {
        return found(0, Reason::Yes);
    }
    let more = faults.len().saturating_sub(MOST);
    faults.truncate(MOST);
    found(41, Reason::Faults { entries, faults, more })
}

fn faults(sheet: &Sheet, entries: &[Entry]) -> Vec<PlanFault> {
    let list = List { sheet, entries };
    let mut faults = Vec::new();
    for entry in 0..entries.len() {
        list.add_own(entry, &mut faults);
    }
    for fact in 0..sheet.facts.len() {
        list.add_clashes(fact, &mut faults);
    }
    for entry in 0..entries.len() {
        list.add_needs(entry, &mut faults);
    }
    for fact in (0..sheet.facts.len()).filter(|&fact| sheet.facts[fact].goal) {
        list.add_goal(fact, &mut faults);
    }
    faults
}

pub(super) struct List<'a> {
    pub(super) sheet: &'a Sheet,
    pub(super) entries: &'a [Entry],
}

impl List<'_> {
    fn minute(&self, entry: usize, event: Event) -> Option<u16> {
        let entry = &self.entries[entry];
        let place = self.sheet.jobs[entry.job].place(event.kind, event.fact)?;
        Some(entry.times[place])
    }

    /// All events of this kind and fact.
    pub(super) fn all(&self, kind: Kind, fact: usize) -> Vec<Happening> {
        let at = |entry: usize| {
            let minute = self.minute(entry, Event::new(kind, fact))?;
            Some(Happening { entry, minute })
        };
        (0..self.entries.len()).filter_map(at).collect()
    }

    /// The horizon and point 1.
    pub(super) fn add_own(&self, entry: usize, faults: &mut Vec<PlanFault>) {
        let owner = self.entries[entry].job;
        let job = &self.sheet.jobs[owner];
        let first = self.sheet.first_event(owner);
        for (place, &minute) in self.entries[entry].times.iter().enumerate() {
            let event = first + place;
            if minute > self.sheet.horizon {
                faults.push(PlanFault::Window { entry, event, minute });
            }
            if minute < job.release {
                faults.push(PlanFault::Release { entry, event, minute });
            }
        }
        self.add_bounds(entry, faults);
        for (fact, minutes) in self.needs(entry) {
            if minutes.0 > minutes.1 {
                faults.push(PlanFault::Need { entry, fact, minutes });
            }
        }
    }

    /// For each pair of events, the tightest bounds that are broken: both only where they contradict each other.
    fn add_bounds(&self, entry: usize, faults: &mut Vec<PlanFault>) {
        let owner = self.entries[entry].job;
        let job = &self.sheet.jobs[owner];
        let (first, first_row) = (self.sheet.first_event(owner), self.sheet.first_bound(owner));
        for pair in tightest::of(job) {
            let of = |event: Event| self.minute(entry, event).unwrap_or(0);
            let minutes = (of(pair.e), of(pair.d));
            let gap = i32::from(minutes.0) - i32::from(minutes.1);
            let low = pair.low.filter(|(low, _)| gap < i32::from(*low));
            let high = pair.high.filter(|(high, _)| gap > i32::from(*high));
            let number = |event: &Event| first + job.events.partition_point(|e| e < event);
            let (e, d) = (number(&pair.e), number(&pair.d));
            let rows = low.into_iter().chain(high).map(|(_, place)| first_row + place);
            faults.extend(rows.map(|row| PlanFault::Bound { entry, row, e, d, minutes }));
        }
    }

    /// The needs of an entry: fact, begin and end.
    pub(super) fn needs(&self, entry: usize) -> Vec<(usize, (u16, u16))> {
        let events = &self.sheet.jobs[self.entries[entry].job].events;
        let need = |event: &Event| {
            let begin = self.minute(entry, Event::new(Kind::Begins, event.fact))?;
            let end = self.minute(entry, Event::new(Kind::Ends, event.fact))?;
            (event.kind == Kind::Begins).then_some((event.fact, (begin, end)))
        };
        events.iter().filter_map(need).collect()
    }

    pub(super) fn add_clashes(&self, fact: usize, faults: &mut Vec<PlanFault>) {
        let clears = self.all(Kind::Clears, fact);
        for set in self.all(Kind::Sets, fact) {
            for &clear in clears.iter().filter(|clear| clear.minute == set.minute) {
                faults.push(PlanFault::Clash { fact, set, clear });
            }
        }
    }

    /// The initial state, if the fact is initial, and the sets that pass.
    pub(super) fn sources(
        &self,
        fact: usize,
        passes: impl Fn(&Happening) -> bool,
    ) -> Vec<Option<Happening>> {
        let initial = self.sheet.facts[fact].initial.then_some(None);
        let sets = self.all(Kind::Sets, fact).into_iter().filter(passes).map(Some);
        initial.into_iter().chain(sets).collect()
    }

    fn add_needs(&self, entry: usize, faults: &mut Vec<PlanFault>) {
        for (fact, minutes) in self.needs(entry) {
            let (begin, end) = (i32::from(minutes.0), i32::from(minutes.1));
            let gap = |other: &Happening| self.distance(entry, other);
            let in_time = |set: &Happening| i32::from(set.minute) + gap(set) <= begin;
            let harms = |clear: &Happening| i32::from(clear.minute) < end + gap(clear);
            if let Err(sources) = self.served(fact, self.sources(fact, in_time), harms) {
                faults.push(PlanFault::Unserved { entry, fact, minutes, sources });
            }
        }
    }

    /// The minutes that lie at least between the entry's need and a set or a clear.
    pub(super) fn distance(&self, entry: usize, other: &Happening) -> i32 {
        if other.entry == entry {
            0
        } else {
            self.sheet.gap()
        }
    }

    pub(super) fn add_goal(&self, fact: usize, faults: &mut Vec<PlanFault>) {
        if let Err(sources) = self.served(fact, self.sources(fact, |_| true), |_| true) {
            faults.push(PlanFault::Goal { fact, sources });
        }
    }

    /// Some source has no clear after it that harms; or each with the first that does.
    pub(super) fn served(
        &self,
        fact: usize,
        sources: Vec<Option<Happening>>,
        harms: impl Fn(&Happening) -> bool,
    ) -> Result<(), Vec<Spoiled>> {
        let clears: Vec<Happening> =
            self.all(Kind::Clears, fact).into_iter().filter(harms).collect();
        let mut spoiled = Vec::new();
        for source in sources {
            let after = |clear: &&Happening| source.map_or(true, |set| set.minute < clear.minute);
            match clears.iter().filter(after).min_by_key(|clear| clear.minute) {
                Some(&by) => spoiled.push(Spoiled { source, by }),
                None => return Ok(()),
            }
        }
        Err(spoiled)
    }
}

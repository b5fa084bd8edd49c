//! Why a list is not a plan, fault by fault.

use super::count;
use crate::explain::judge::{Happening, Spoiled};
use crate::explain::words::Words;
use crate::explain::{LateFault, PlanFault};
use crate::list::Entry;
use crate::model::Kind;
use crate::notation::print_span;

pub fn faults(words: &Words, entries: &[Entry], faults: &[PlanFault], more: usize) -> String {
    let list = List { words, entries };
    let text: String = faults.iter().map(|fault| list.fault(fault)).collect();
    text + &others(more)
}

pub fn late_faults(words: &Words, entries: &[Entry], faults: &[LateFault], more: usize) -> String {
    let list = List { words, entries };
    let line = |fault: &LateFault| match fault {
        LateFault::Listed(fault) => list.fault(fault),
        LateFault::Broken { entry, fact, minutes, by } => list.broken(*entry, *fact, *minutes, *by),
    };
    faults.iter().map(line).collect::<String>() + &others(more)
}

fn others(more: usize) -> String {
    match more {
        0 => String::new(),
        _ => format!("and {}\n", count(more, "more fault")),
    }
}

struct List<'a> {
    words: &'a Words<'a>,
    entries: &'a [Entry],
}

impl List<'_> {
    /// The entry, counted from 0, with its job.
    fn entry(&self, entry: usize) -> String {
        format!("entry {entry} ({})", self.words.job(self.entries[entry].job))
    }

    fn fault(&self, fault: &PlanFault) -> String {
        let words = self.words;
        match fault {
            PlanFault::Window { entry, event, minute } => format!(
                "{}: {} is at minute {minute}, past the horizon, {}\n",
                self.entry(*entry),
                words.event(*event),
                words.sheet.horizon
            ),
            PlanFault::Release { entry, event, minute } => format!(
                "point 1, {}: {} is at minute {minute}, and the job starts {}\n",
                self.entry(*entry),
                words.event(*event),
                words.release(self.entries[*entry].job)
            ),
            PlanFault::Bound { entry, row, e, d, minutes } => {
                format!(
                    "point 1, {}: {}\n",
                    self.entry(*entry),
                    self.bound(*row, (*e, *d), *minutes)
                )
            }
            PlanFault::Need { entry, fact, minutes } => format!(
                "point 1, {}: the need of {} begins at minute {} and ends at {}\n",
                self.entry(*entry),
                words.fact(*fact),
                minutes.0,
                minutes.1
            ),
            PlanFault::Clash { fact, set, clear } => format!(
                "point 2, minute {}: {} {} and {} {} in one minute\n",
                set.minute,
                self.entry(set.entry),
                words.does(Kind::Sets, *fact),
                self.entry(clear.entry),
                Kind::Clears.verb()
            ),
            PlanFault::Unserved { entry, fact, minutes, sources } => format!(
                "point 3, {}: needs {} from minute {} to {}, {}\n",
                self.entry(*entry),
                words.fact(*fact),
                minutes.0,
                minutes.1,
                self.sources(sources, &self.late(*fact), Some(minutes.1))
            ),
            PlanFault::Goal { fact, sources } => format!(
                "point 4: {} is a goal, {}\n",
                words.fact(*fact),
                self.sources(sources, "and nothing sets it", None)
            ),
        }
    }

    /// A need, and the clear that comes too early for it.
    fn broken(&self, entry: usize, fact: usize, minutes: (u16, u16), by: Happening) -> String {
        let gap = count(self.words.sheet.gap() as usize, "minute");
        let within = match by.minute >= minutes.1 {
            true => format!(", within the gap of {gap} after it"),
            false => String::new(),
        };
        format!(
            "point 3, {}: needs {} from minute {} to {}, but {} clears it at minute {}{within}\n",
            self.entry(entry),
            self.words.fact(fact),
            minutes.0,
            minutes.1,
            self.entry(by.entry),
            by.minute
        )
    }

    /// A broken bound, with the minutes of e and d.
    fn bound(&self, row: usize, (e, d): (usize, usize), minutes: (u16, u16)) -> String {
        let (span, place) = self.words.bound(row, e);
        let gap = i32::from(minutes.0) - i32::from(minutes.1);
        format!(
            "from {} at minute {} to {} at minute {} it is {gap} min, and {place} asks for {}",
            self.words.event(d),
            minutes.1,
            self.words.event(e),
            minutes.0,
            print_span(span)
        )
    }

    /// What to say where nothing serves a need: the first set, which comes too late, or that there is none.
    fn late(&self, fact: usize) -> String {
        let set = |(entry, found): (usize, &Entry)| {
            let place = self.words.sheet.jobs[found.job].place(Kind::Sets, fact)?;
            Some((found.times[place], entry))
        };
        match self.entries.iter().enumerate().filter_map(set).min() {
            Some((minute, entry)) => format!(
                "but the first set of it, by {} at minute {minute}, serves other entries from minute {} on",
                self.entry(entry),
                i32::from(minute) + self.words.sheet.gap()
            ),
            None => "and nothing sets it".to_string(),
        }
    }

    fn happening(&self, happening: Happening) -> String {
        format!("{} at minute {}", self.entry(happening.entry), happening.minute)
    }

    /// What became of each source of a goal, or of a need that ends at this minute.
    fn sources(&self, sources: &[Spoiled], none: &str, end: Option<u16>) -> String {
        let spoiled = |spoiled: &Spoiled| {
            let late = end.is_some_and(|end| spoiled.by.minute > end);
            let gap = self.words.sheet.gap();
            let within =
                if late { format!(", within the gap of {gap} minutes") } else { String::new() };
            let clear = self.happening(spoiled.by) + &within;
            match spoiled.source {
                None => format!("initial, but cleared by {clear}"),
                Some(set) => format!("set by {}, but cleared by {clear}", self.happening(set)),
            }
        };
        if sources.is_empty() {
            return none.to_string();
        }
        sources.iter().map(spoiled).collect::<Vec<String>>().join("; ")
    }
}

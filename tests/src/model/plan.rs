//! "What a plan is" of document 01, with the releases and the gap of document 02: the four points, over entries and
//! their ticks.
//! Two equal entries are two instances: everything here goes by the place of the entry.

use super::list::Instance;
use super::sheet::{Kind, Sheet};

/// The tick of the initial state, which precedes tick 0.
const START: i32 = -1;

/// The ticks that lie at least between two events. A value, so that tests can make wrong judges and planners.
#[derive(Clone, Copy)]
pub struct Distances {
    /// Whether the entries at these places of a plan are one instance.
    pub same: fn(&[Instance], usize, usize) -> bool,
    /// From a set to the begin of a need, by whether one instance has both.
    pub to_need: fn(&Sheet, bool) -> i32,
    /// From the end of a need to a clear, likewise.
    pub to_clear: fn(&Sheet, bool) -> i32,
    /// From tick 0 to the begin of a need that the initial state serves.
    pub from_start: fn(&Sheet) -> i32,
    /// Between a set and a clear.
    pub apart: fn(&Sheet) -> i32,
}

/// Those of the documents: the gap in point 3 alone, and there between two instances alone.
pub const DISTANCES: Distances = Distances {
    same: |_, i, k| i == k,
    to_need: gap_of_others,
    to_clear: gap_of_others,
    from_start: |_| 0,
    apart: |_| 1,
};

fn gap_of_others(sheet: &Sheet, same: bool) -> i32 {
    if same {
        0
    } else {
        sheet.gap()
    }
}

/// A way in which a list fails to be a plan.
#[derive(Clone, Copy, Debug, PartialEq, Eq)]
pub enum Fault {
    /// A time before the release or above H.
    Window { entry: usize },
    /// Point 1.
    OwnTimes { entry: usize },
    /// Point 2.
    Clash { fact: usize },
    /// Point 3.
    Need { entry: usize, fact: usize },
    /// Point 4.
    Goal { fact: usize },
}

/// An event of an entry, at its tick.
#[derive(Clone, Copy, Debug)]
pub struct Happening {
    pub entry: usize,
    pub kind: Kind,
    pub fact: usize,
    pub tick: i32,
}

/// A need of an entry, from `begin` to `end`.
struct Need {
    entry: usize,
    fact: usize,
    begin: i32,
    end: i32,
}

pub fn is_plan(sheet: &Sheet, plan: &[Instance]) -> bool {
    faults(sheet, plan).is_empty()
}

/// Every fault of the list; a plan has none.
pub fn faults(sheet: &Sheet, plan: &[Instance]) -> Vec<Fault> {
    faults_by(sheet, plan, &DISTANCES)
}

pub fn faults_by(sheet: &Sheet, plan: &[Instance], distances: &Distances) -> Vec<Fault> {
    let mut faults = Vec::new();
    for (entry, instance) in plan.iter().enumerate() {
        if !in_window(sheet, instance) {
            faults.push(Fault::Window { entry });
        }
        if !meets_point_1(sheet, instance) {
            faults.push(Fault::OwnTimes { entry });
        }
    }
    let all = happenings(sheet, plan);
    for fact in 0..sheet.facts.len() {
        if clashes(&all, fact, (distances.apart)(sheet)) {
            faults.push(Fault::Clash { fact });
        }
    }
    for need in needs(&all) {
        let own = |entry| (distances.same)(plan, entry, need.entry);
        if !need_is_met(sheet, &all, &need, &own, distances) {
            faults.push(Fault::Need { entry: need.entry, fact: need.fact });
        }
    }
    for fact in 0..sheet.facts.len() {
        if sheet.facts[fact].goal && !goal_is_met(sheet, &all, fact) {
            faults.push(Fault::Goal { fact });
        }
    }
    faults
}

pub fn in_window(sheet: &Sheet, instance: &Instance) -> bool {
    let window = sheet.releases[instance.job]..=sheet.horizon;
    instance.times.iter().all(|t| window.contains(t))
}

/// The job's bounds hold, and each need begins no later than it ends.
pub fn meets_point_1(sheet: &Sheet, instance: &Instance) -> bool {
    let events = sheet.events_of(instance.job);
    let time = |event| instance.times[events.iter().position(|k| *k == event).unwrap()];
    let bounds_hold = sheet.bounds_of(instance.job).all(|bound| {
        let gap = time(bound.e) - time(bound.d);
        bound.low.map_or(true, |low| low <= gap) && bound.high.map_or(true, |high| gap <= high)
    });
    let needs_hold = events.iter().all(|&k| {
        let event = sheet.events[k];
        let end = sheet.event(event.job, Kind::Ends, event.fact);
        event.kind != Kind::Begins || time(k) <= time(end.unwrap())
    });
    bounds_hold && needs_hold
}

/// Every event of every entry.
pub fn happenings(sheet: &Sheet, plan: &[Instance]) -> Vec<Happening> {
    let mut all = Vec::new();
    for (entry, instance) in plan.iter().enumerate() {
        let events = sheet.events_of(instance.job);
        for (&event, &tick) in events.iter().zip(&instance.times) {
            let event = sheet.events[event];
            all.push(Happening { entry, kind: event.kind, fact: event.fact, tick });
        }
    }
    all
}

/// The happenings of one kind and one fact.
fn of(all: &[Happening], kind: Kind, fact: usize) -> impl Iterator<Item = &Happening> {
    all.iter().filter(move |h| h.kind == kind && h.fact == fact)
}

fn needs(all: &[Happening]) -> Vec<Need> {
    let mut needs = Vec::new();
    for begin in all.iter().filter(|h| h.kind == Kind::Begins) {
        for end in of(all, Kind::Ends, begin.fact).filter(|h| h.entry == begin.entry) {
            needs.push(Need {
                entry: begin.entry,
                fact: begin.fact,
                begin: begin.tick,
                end: end.tick,
            });
        }
    }
    needs
}

/// Some set and some clear of the fact are closer than they may be.
fn clashes(all: &[Happening], fact: usize, apart: i32) -> bool {
    let close = |set: &Happening, clear: &Happening| (clear.tick - set.tick).abs() < apart;
    of(all, Kind::Sets, fact).any(|set| of(all, Kind::Clears, fact).any(|clear| close(set, clear)))
}

/// Some source lies early enough before the need, and each clear after that source late enough after the need.
fn need_is_met(
    sheet: &Sheet,
    all: &[Happening],
    need: &Need,
    own: &dyn Fn(usize) -> bool,
    distances: &Distances,
) -> bool {
    let to_need = |set: &Happening| (distances.to_need)(sheet, own(set.entry));
    let to_clear = |clear: &Happening| (distances.to_clear)(sheet, own(clear.entry));
    let harms = |source: i32, clear: &Happening| {
        source < clear.tick && clear.tick < need.end + to_clear(clear)
    };
    let serves = |source: i32| !of(all, Kind::Clears, need.fact).any(|c| harms(source, c));
    let in_time = |set: &Happening| set.tick + to_need(set) <= need.begin;
    let from_start = need.begin >= (distances.from_start)(sheet);
    (sheet.facts[need.fact].initial && from_start && serves(START))
        || of(all, Kind::Sets, need.fact).any(|set| in_time(set) && serves(set.tick))
}

/// Some source of the goal has no clear after it.
fn goal_is_met(sheet: &Sheet, all: &[Happening], fact: usize) -> bool {
    let lasts = |source: i32| of(all, Kind::Clears, fact).all(|clear| clear.tick <= source);
    (sheet.facts[fact].initial && lasts(START))
        || of(all, Kind::Sets, fact).any(|set| lasts(set.tick))
}

//! Builders: from facts, jobs, events and bounds to sheet bytes, and from instances to list bytes.

use crate::bounds::Bounds;
use crate::model::list::Instance;
use crate::model::sheet::{number, Edition, Kind, Sheet, NO_HIGH, NO_LOW};
use std::collections::{BTreeMap, BTreeSet};

/// An event within its job. The sheet's order is by fact, then type: the order of these fields.
#[derive(Clone, Copy, Debug, PartialEq, Eq, PartialOrd, Ord)]
pub struct Act {
    pub fact: usize,
    pub kind: Kind,
}

pub fn begins(fact: usize) -> Act {
    let kind = Kind::Begins;
    Act { fact, kind }
}

pub fn ends(fact: usize) -> Act {
    let kind = Kind::Ends;
    Act { fact, kind }
}

pub fn sets(fact: usize) -> Act {
    let kind = Kind::Sets;
    Act { fact, kind }
}

pub fn clears(fact: usize) -> Act {
    let kind = Kind::Clears;
    Act { fact, kind }
}

/// A job with its release, its events and, for pairs (e, d) of them, rows of low and high of time(e) − time(d).
#[derive(Clone, Debug)]
pub struct Job {
    pub code: u16,
    /// Said in edition 2 alone.
    pub release: u16,
    pub acts: BTreeSet<Act>,
    pub bounds: Bounds,
}

impl Job {
    pub fn new(code: u16) -> Job {
        Job { code, release: 0, acts: BTreeSet::new(), bounds: Bounds::default() }
    }

    pub fn not_before(mut self, release: u16) -> Job {
        self.release = release;
        self
    }

    pub fn needs(mut self, fact: usize) -> Job {
        self.acts.extend([begins(fact), ends(fact)]);
        self
    }

    pub fn sets(mut self, fact: usize) -> Job {
        self.acts.insert(sets(fact));
        self
    }

    pub fn clears(mut self, fact: usize) -> Job {
        self.acts.insert(clears(fact));
        self
    }

    /// One row more for the pair, behind those that it has.
    pub fn bound(mut self, e: Act, d: Act, low: i16, high: i16) -> Job {
        self.bounds.insert((e, d), (low, high));
        self
    }

    /// e comes exactly `gap` ticks after d.
    pub fn exactly(self, e: Act, d: Act, gap: i16) -> Job {
        self.bound(e, d, gap, gap)
    }

    /// The same in the place of all rows of the pair.
    pub fn now_exactly(mut self, e: Act, d: Act, gap: i16) -> Job {
        self.bounds.replace((e, d), &[(gap, gap)]);
        self
    }

    /// Takes out a set, a clear, or a need with both its ends, and their bounds.
    pub fn remove(&mut self, act: Act) {
        let fact = act.fact;
        let gone = match act.kind {
            Kind::Begins | Kind::Ends => vec![begins(fact), ends(fact)],
            Kind::Sets | Kind::Clears => vec![act],
        };
        self.acts.retain(|a| !gone.contains(a));
        self.bounds.retain(|(e, d)| !gone.contains(e) && !gone.contains(d));
    }
}

/// What a sheet says; jobs stand by rising code.
#[derive(Clone, Debug)]
pub struct Spec {
    pub edition: Edition,
    pub horizon: u16,
    pub marks: Vec<u8>,
    pub jobs: Vec<Job>,
}

impl Spec {
    /// In edition 1.
    pub fn new(horizon: u16, marks: &[u8], jobs: &[Job]) -> Spec {
        Spec { edition: Edition::One, horizon, marks: marks.to_vec(), jobs: jobs.to_vec() }
    }

    /// The same in edition 2, with this byte for the gap and revision 0.
    pub fn with_gap(self, gap: u8) -> Spec {
        self.revised(gap, 0)
    }

    /// The same in edition 2, with this byte for the gap and this revision.
    pub fn revised(self, gap: u8, revision: u16) -> Spec {
        Spec { edition: Edition::Two { gap, revision }, ..self }
    }

    /// With the releases of the first jobs.
    pub fn released(mut self, releases: &[u16]) -> Spec {
        self.jobs.iter_mut().zip(releases).for_each(|(job, release)| job.release = *release);
        self
    }

    /// The same in edition 1, with nothing that only edition 2 can say.
    pub fn plain(mut self) -> Spec {
        self.jobs.iter_mut().for_each(|job| job.release = 0);
        Spec { edition: Edition::One, ..self }
    }

    /// What this sheet says.
    pub fn of(sheet: &Sheet) -> Spec {
        let marks = sheet.facts.iter().map(|fact| u8::from(fact.initial) + 2 * u8::from(fact.goal));
        let jobs = sheet.codes.iter().zip(&sheet.releases);
        let mut jobs: Vec<Job> =
            jobs.map(|(code, release)| Job::new(*code).not_before(*release as u16)).collect();
        let act = |event: usize| {
            let event = sheet.events[event];
            Act { fact: event.fact, kind: event.kind }
        };
        for (number, event) in sheet.events.iter().enumerate() {
            jobs[event.job].acts.insert(act(number));
        }
        for bound in &sheet.bounds {
            let low = bound.low.unwrap_or(NO_LOW) as i16;
            let high = bound.high.unwrap_or(NO_HIGH) as i16;
            let job = &mut jobs[sheet.events[bound.e].job];
            job.bounds.insert((act(bound.e), act(bound.d)), (low, high));
        }
        let (edition, horizon) = (sheet.edition, sheet.horizon as u16);
        Spec { edition, horizon, marks: marks.collect(), jobs }
    }

    /// The same without these jobs; facts and codes stay.
    pub fn without(mut self, gone: &[usize]) -> Spec {
        let mut job = 0;
        self.jobs.retain(|_| {
            job += 1;
            !gone.contains(&(job - 1))
        });
        self
    }

    pub fn event_count(&self) -> usize {
        self.jobs.iter().map(|job| job.acts.len()).sum()
    }

    /// How many rows the bounds have in all.
    pub fn bound_count(&self) -> usize {
        self.jobs.iter().map(|job| job.bounds.len()).sum()
    }

    /// Whether some pair of events has several bounds.
    pub fn repeats(&self) -> bool {
        self.jobs.iter().any(|job| job.bounds.repeat())
    }

    /// The same with the tightest row alone for each pair. Where the rows of a pair cannot all hold, it is no sheet.
    pub fn tightest(mut self) -> Spec {
        self.jobs.iter_mut().for_each(|job| job.bounds = job.bounds.tightest());
        self
    }

    pub fn bytes(&self) -> Vec<u8> {
        self.bodies().bytes()
    }

    pub fn bodies(&self) -> Bodies {
        let mut bodies = Bodies {
            edition: self.edition.number(),
            facts: facts_body_in(self.edition, self.horizon, &self.marks),
            ..Bodies::default()
        };
        let mut first = 0;
        for (number, job) in self.jobs.iter().enumerate() {
            bodies.jobs.extend(job.code.to_le_bytes());
            if self.edition != Edition::One {
                bodies.jobs.extend(job.release.to_le_bytes());
            }
            for act in &job.acts {
                let row = [number as u8, act.kind as u8, act.fact as u8];
                bodies.events.extend(row);
            }
            for ((e, d), (low, high)) in &job.bounds {
                let place = |act| first + job.acts.range(..act).count();
                let row = bound_row(place(e) as u8, place(d) as u8, *low, *high);
                bodies.bounds.extend(row);
            }
            first += job.acts.len();
        }
        bodies
    }
}

/// In edition 1.
pub fn facts_body(horizon: u16, marks: &[u8]) -> Vec<u8> {
    facts_body_in(Edition::One, horizon, marks)
}

pub fn facts_body_in(edition: Edition, horizon: u16, marks: &[u8]) -> Vec<u8> {
    let mut body = vec![marks.len() as u8];
    body.extend(horizon.to_le_bytes());
    if let Edition::Two { gap, revision } = edition {
        body.push(gap);
        body.extend(revision.to_le_bytes());
    }
    body.extend(marks);
    body
}

pub fn bound_row(e: u8, d: u8, low: i16, high: i16) -> [u8; 6] {
    let (low, high) = (low.to_le_bytes(), high.to_le_bytes());
    [e, d, low[0], low[1], high[0], high[1]]
}

/// A bound that bounds nothing.
pub fn free_bound_row(e: u8, d: u8) -> [u8; 6] {
    bound_row(e, d, NO_LOW as i16, NO_HIGH as i16)
}

/// The edition byte and the four bodies of a sheet, right or wrong.
#[derive(Clone, Debug)]
pub struct Bodies {
    pub edition: u8,
    pub facts: Vec<u8>,
    pub jobs: Vec<u8>,
    pub events: Vec<u8>,
    pub bounds: Vec<u8>,
}

impl Default for Bodies {
    /// Edition 1, and nothing in the bodies.
    fn default() -> Bodies {
        let none = Vec::new;
        Bodies { edition: 1, facts: none(), jobs: none(), events: none(), bounds: none() }
    }
}

impl Bodies {
    /// The bodies of a sheet with right contents, whatever its edition byte.
    pub fn of(sheet: &[u8]) -> Option<Bodies> {
        let mut bodies = Bodies { edition: *sheet.first()?, ..Bodies::default() };
        let mut start = 26;
        for part in 0..4 {
            let length = usize::from(number(sheet.get(..26)?, 6 + 6 * part));
            *bodies.part(part) = sheet.get(start..start + length)?.to_vec();
            start += length;
        }
        (bodies.bytes() == sheet).then_some(bodies)
    }

    /// From bodies of edition 1, right or wrong, to those of edition 2 with this byte for the gap, with no look at what
    /// they say.
    pub fn with_gap(mut self, gap: u8) -> Bodies {
        if self.facts.len() >= 3 {
            self.facts.splice(3..3, [gap, 0, 0]);
        }
        let with_release =
            |row: &[u8]| if row.len() == 2 { [row, &[0, 0]].concat() } else { row.to_vec() };
        self.jobs = self.jobs.chunks(2).flat_map(with_release).collect();
        Bodies { edition: 2, ..self }
    }

    pub fn part(&mut self, number: usize) -> &mut Vec<u8> {
        match number {
            0 => &mut self.facts,
            1 => &mut self.jobs,
            2 => &mut self.events,
            _ => &mut self.bounds,
        }
    }

    /// The sheet with right contents, as far as two bytes can hold them.
    pub fn bytes(&self) -> Vec<u8> {
        let bodies = [&self.facts, &self.jobs, &self.events, &self.bounds];
        let mut sheet = vec![self.edition, 4];
        let mut start = 26;
        for (part, body) in bodies.iter().enumerate() {
            sheet.extend([part as u8 + 1, 0]);
            sheet.extend((start as u16).to_le_bytes());
            sheet.extend((body.len() as u16).to_le_bytes());
            start += body.len();
        }
        for body in bodies {
            sheet.extend(body);
        }
        sheet
    }
}

/// An instance to be listed: the number of its job, and a tick for each event.
#[derive(Clone, Debug)]
pub struct Entry {
    pub job: usize,
    pub ticks: BTreeMap<Act, u16>,
}

impl Entry {
    pub fn new(job: usize, ticks: &[(Act, u16)]) -> Entry {
        Entry { job, ticks: ticks.iter().copied().collect() }
    }

    /// The times in sheet order.
    pub fn times(&self) -> Vec<u16> {
        self.ticks.values().copied().collect()
    }
}

/// The list of these entries, in this order.
pub fn list_bytes(spec: &Spec, entries: &[Entry]) -> Vec<u8> {
    let rows: Vec<(u16, Vec<u16>)> =
        entries.iter().map(|entry| (spec.jobs[entry.job].code, entry.times())).collect();
    list_of_rows(&rows)
}

/// The list of these job codes with their times.
pub fn list_of_rows(rows: &[(u16, Vec<u16>)]) -> Vec<u8> {
    let mut list = vec![1, 0];
    list.extend((rows.len() as u16).to_le_bytes());
    let mut start = 4 + 4 * rows.len();
    for (code, times) in rows {
        list.extend(code.to_le_bytes());
        list.extend((start as u16).to_le_bytes());
        start += 2 * times.len();
    }
    for time in rows.iter().flat_map(|(_, times)| times) {
        list.extend(time.to_le_bytes());
    }
    list
}

/// The list of these instances of the sheet.
pub fn list_of_instances(sheet: &Sheet, plan: &[Instance]) -> Vec<u8> {
    let row = |instance: &Instance| {
        let times = instance.times.iter().map(|tick| *tick as u16).collect();
        (sheet.codes[instance.job], times)
    };
    list_of_rows(&plan.iter().map(row).collect::<Vec<_>>())
}

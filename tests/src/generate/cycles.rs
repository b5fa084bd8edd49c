//! Plans in which facts are set, needed and cleared again and again, by jobs that do one, two or all of these: events lie as
//! close together as they may, so that a small delay decides.

use super::Pair;
use crate::build::{begins, clears, ends, sets, Entry, Job, Spec};
use crate::rng::Rng;

/// What the jobs of a fact do: one job for each.
const ROLES: [fn(Job, usize) -> Job; 6] = [
    |job, fact| job.sets(fact),
    |job, fact| job.needs(fact),
    |job, fact| job.clears(fact),
    |job, fact| job.sets(fact).needs(fact),
    |job, fact| job.needs(fact).clears(fact),
    |job, fact| job.sets(fact).needs(fact).clears(fact),
];

const SETTER: usize = 0;
const NEEDER: usize = 1;
const CLEANER: usize = 2;
const SETTER_AND_NEEDER: usize = 3;
const NEEDER_AND_CLEANER: usize = 4;
const ALL: usize = 5;

/// In edition 2 with this byte for the gap, in edition 1 without one.
pub fn plan(rng: &mut Rng, gap: Option<u8>) -> Pair {
    let facts = 1 + rng.below(3);
    let mut jobs = Vec::new();
    for fact in 0..facts {
        let role = |(place, role): (usize, &fn(Job, usize) -> Job)| {
            role(Job::new((10 * fact + place) as u16), fact)
        };
        jobs.extend(ROLES.iter().enumerate().map(role));
    }
    let mut spec = Spec::new(0, &vec![0; facts], &jobs);
    if let Some(gap) = gap {
        spec = spec.with_gap(gap);
    }
    let gap = spec.edition.gap() as u16;
    let mut entries = Vec::new();
    for fact in 0..facts {
        let needed = rng.chance(75);
        let (ends, none) = (Vec::new(), Vec::new());
        let mut line = Line { fact, gap, needed, tick: 0, ends, entries: none };
        let initial = rng.chance(30);
        if initial {
            line.serve(rng, 0, None, 70);
        }
        for _ in 0..rng.below(3) {
            line.cycle(rng, 80);
        }
        let held = !line.cycle(rng, 40);
        spec.marks[fact] = u8::from(initial) + 2 * u8::from(held && rng.chance(80));
        entries.extend(line.entries);
    }
    let last = entries.iter().flat_map(|entry| entry.ticks.values()).max().copied().unwrap_or(0);
    let more = *rng.pick(&[0, 1, 3, 40, 700]);
    spec.horizon = last + rng.below(more + 1) as u16;
    rng.shuffle(&mut entries);
    Pair { spec, entries }
}

/// The events of one fact so far.
struct Line {
    fact: usize,
    gap: u16,
    needed: bool,
    /// From here on the fact may be set.
    tick: u16,
    /// Entry and end of every need.
    ends: Vec<(usize, u16)>,
    entries: Vec<Entry>,
}

impl Line {
    fn push(&mut self, role: usize) -> usize {
        self.entries.push(Entry::new(ROLES.len() * self.fact + role, &[]));
        self.entries.len() - 1
    }

    /// A set, some needs and, as often as this says, a clear. Gives whether there is one.
    fn cycle(&mut self, rng: &mut Rng, cleared: usize) -> bool {
        let all = [SETTER, SETTER_AND_NEEDER, ALL];
        let role = if self.needed { *rng.pick(&all) } else { SETTER };
        let setter = self.push(role);
        self.tick += few(rng);
        self.entries[setter].ticks.insert(sets(self.fact), self.tick);
        if role != SETTER {
            self.need(rng, setter, self.tick);
        }
        let own = (role == ALL).then_some(setter);
        self.serve(rng, self.tick + self.gap, own, cleared)
    }

    /// Needs by others from this tick on, and a clear by this entry or, as often as it says, by another.
    fn serve(&mut self, rng: &mut Rng, from: u16, own: Option<usize>, cleared: usize) -> bool {
        for _ in 0..if self.needed { rng.below(3) } else { 0 } {
            let entry = self.push(NEEDER);
            self.need(rng, entry, from);
        }
        match own {
            Some(entry) => self.clear(rng, entry),
            None if !rng.chance(cleared) => return false,
            None if self.needed && rng.chance(50) => {
                let entry = self.push(NEEDER_AND_CLEANER);
                self.need(rng, entry, from);
                self.clear(rng, entry);
            }
            None => {
                let entry = self.push(CLEANER);
                self.clear(rng, entry);
            }
        }
        true
    }

    /// A need from this tick on or soon after.
    fn need(&mut self, rng: &mut Rng, entry: usize, from: u16) {
        let begin = from + few(rng);
        let end = begin + few(rng);
        self.entries[entry].ticks.extend([(begins(self.fact), begin), (ends(self.fact), end)]);
        self.ends.push((entry, end));
    }

    /// A clear as soon as it may come, or a little later.
    fn clear(&mut self, rng: &mut Rng, entry: usize) {
        let gap = |other: usize| if other == entry { 0 } else { self.gap };
        let settled = self.ends.iter().map(|(other, end)| end + gap(*other)).max().unwrap_or(0);
        let tick = settled.max(self.tick + 1) + few(rng);
        self.entries[entry].ticks.insert(clears(self.fact), tick);
        self.tick = tick + 1;
    }
}

/// Mostly none.
fn few(rng: &mut Rng) -> u16 {
    *rng.pick(&[0, 0, 0, 1, 1, 2, 4])
}

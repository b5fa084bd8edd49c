//! Random sheets with lists: any, and such that the list is a plan.

use super::Pair;
use crate::bounds::Span;
use crate::build::{begins, clears, ends, sets, Act, Entry, Job, Spec};
use crate::model::plan::{faults, Fault};
use crate::model::sheet::{Edition, MAX_BOUNDS};
use crate::rng::Rng;

/// How much there may be of everything.
#[derive(Clone, Copy)]
pub struct Size {
    pub facts: usize,
    pub jobs: usize,
    pub parts: usize,
    pub entries: usize,
    /// Ticks of a list stand close together, so that they meet often.
    pub span: u16,
    /// Attempts to turn the list into a plan before the sheet is stripped.
    pub repairs: usize,
    /// The greatest gap, in edition 2; none in edition 1.
    pub gap: Option<u8>,
}

pub const SMALL: Size =
    Size { facts: 5, jobs: 5, parts: 5, entries: 6, span: 9, repairs: 80, gap: None };

/// Up to the limits of sheet and list, which `Pair::fits` tests.
pub const LARGE: Size =
    Size { facts: 64, jobs: 32, parts: 10, entries: 64, span: 40, repairs: 20, gap: None };

/// The same in edition 2, with gaps and releases.
pub const SMALL_2: Size = Size { gap: Some(4), ..SMALL };
pub const LARGE_2: Size = Size { gap: Some(12), ..LARGE };

/// A sheet and a list for it, with no regard to plan points.
pub fn any(rng: &mut Rng, size: Size) -> Pair {
    let mut pair = without_bounds(rng, size);
    for job in 0..pair.spec.jobs.len() {
        let fit = rng.chance(50);
        add_bounds(rng, &mut pair, job, fit);
        add_release(rng, &mut pair, job, fit);
    }
    pair
}

/// A sheet and a list that is a plan of it.
pub fn plan(rng: &mut Rng, size: Size) -> Pair {
    let mut pair = without_bounds(rng, size);
    repair(rng, &mut pair, size);
    strip(&mut pair);
    for job in 0..pair.spec.jobs.len() {
        add_bounds(rng, &mut pair, job, true);
        add_release(rng, &mut pair, job, true);
    }
    pair
}

/// From 1 to `most`, rarely 0.
fn count(rng: &mut Rng, most: usize) -> usize {
    if rng.chance(3) {
        0
    } else {
        1 + rng.below(most)
    }
}

fn without_bounds(rng: &mut Rng, size: Size) -> Pair {
    loop {
        let facts = count(rng, size.facts);
        let marks = (0..facts).map(|_| *rng.pick(&[0, 0, 0, 0, 0, 1, 2, 2, 3]));
        let marks: Vec<u8> = marks.collect();
        let horizon = horizon(rng, size);
        let mut spec = Spec::new(horizon, &marks, &jobs(rng, facts, size));
        if let Some(most) = size.gap {
            let any = rng.below(usize::from(most) + 1) as u8;
            let gap = if rng.chance(30) { *rng.pick(&[0, 1, 2]) } else { any };
            spec = spec.revised(gap, rng.number() as u16);
        }
        let wished = count(rng, size.entries);
        let entries = if spec.jobs.is_empty() { 0 } else { wished };
        let entries = (0..entries).map(|_| entry(rng, &spec, size)).collect();
        let pair = Pair { spec, entries };
        if pair.fits() {
            return pair;
        }
    }
}

fn horizon(rng: &mut Rng, size: Size) -> u16 {
    match rng.below(5) {
        0 => rng.below(10_081) as u16,
        1 => rng.below(4) as u16,
        _ => size.span + rng.below(4) as u16,
    }
}

fn jobs(rng: &mut Rng, facts: usize, size: Size) -> Vec<Job> {
    let limit = if rng.chance(50) { 40 } else { 65_536 };
    let mut codes: Vec<u16> = (0..count(rng, size.jobs)).map(|_| rng.below(limit) as u16).collect();
    codes.sort();
    codes.dedup();
    codes.iter().map(|&code| job(rng, code, facts, size)).collect()
}

fn job(rng: &mut Rng, code: u16, facts: usize, size: Size) -> Job {
    let mut job = Job::new(code);
    let parts = if facts == 0 { 0 } else { count(rng, size.parts) };
    for _ in 0..parts {
        let fact = rng.below(facts);
        job = match rng.below(10) {
            0..=3 => job.needs(fact),
            4..=6 => job.sets(fact),
            _ => job.clears(fact),
        };
    }
    job
}

/// An instance of some job, with close ticks up to H and every need the right way round.
fn entry(rng: &mut Rng, spec: &Spec, size: Size) -> Entry {
    let job = rng.below(spec.jobs.len());
    let mut entry = Entry::new(job, &[]);
    for act in &spec.jobs[job].acts {
        entry.ticks.insert(*act, tick(rng, spec, size));
    }
    order_needs(&mut entry);
    entry
}

/// A tick of the span, now and then counted back from H.
fn tick(rng: &mut Rng, spec: &Spec, size: Size) -> u16 {
    let most = spec.horizon.min(size.span);
    let tick = rng.below(usize::from(most) + 1) as u16;
    if rng.chance(4) {
        spec.horizon - tick
    } else {
        tick
    }
}

fn order_needs(entry: &mut Entry) {
    for fact in 0..64 {
        let (begin, end) = (entry.ticks.get(&begins(fact)), entry.ticks.get(&ends(fact)));
        if let (Some(&begin), Some(&end)) = (begin, end) {
            entry.ticks.insert(begins(fact), begin.min(end));
            entry.ticks.insert(ends(fact), begin.max(end));
        }
    }
}

fn faults_of(pair: &Pair) -> Vec<Fault> {
    let (sheet, instances) = pair.read();
    faults(&sheet, &instances)
}

/// Small changes aimed at a fault, kept where they leave no more faults than before.
fn repair(rng: &mut Rng, pair: &mut Pair, size: Size) {
    let mut left = faults_of(pair);
    for _ in 0..size.repairs {
        if left.is_empty() {
            return;
        }
        let fault = *rng.pick(&left);
        let mut other = pair.clone();
        mend(rng, &mut other, fault, size);
        if !other.fits() {
            continue;
        }
        let remaining = faults_of(&other);
        if remaining.len() <= left.len() {
            *pair = other;
            left = remaining;
        }
    }
}

fn mend(rng: &mut Rng, pair: &mut Pair, fault: Fault, size: Size) {
    let any_tick = tick(rng, &pair.spec, size);
    match fault {
        Fault::Clash { fact } => move_act(rng, pair, clears(fact), any_tick),
        Fault::Need { entry, fact } => mend_need(rng, pair, entry, fact, size),
        Fault::Goal { fact } => match rng.below(8) {
            0 => pair.spec.marks[fact] &= 1,
            1..=3 => move_act(rng, pair, sets(fact), any_tick),
            4..=6 => move_act(rng, pair, clears(fact), any_tick),
            _ => add_set(rng, pair, fact, size),
        },
        Fault::Window { .. } | Fault::OwnTimes { .. } => unreachable!("ticks were chosen so"),
    }
}

/// Puts a set just before the need, or a clear just after it, or a new set somewhere.
fn mend_need(rng: &mut Rng, pair: &mut Pair, entry: usize, fact: usize, size: Size) {
    let begin = pair.entries[entry].ticks[&begins(fact)];
    let end = pair.entries[entry].ticks[&ends(fact)];
    let most = 2 + pair.spec.edition.gap() as usize;
    let back = rng.below(most) as u16;
    let on = rng.below(most) as u16;
    match rng.below(10) {
        0 => pair.spec.marks[fact] |= 1,
        1..=3 => move_act(rng, pair, sets(fact), begin.saturating_sub(back)),
        4..=6 => move_act(rng, pair, clears(fact), end + on),
        7 => add_set(rng, pair, fact, size),
        _ => {
            let later = tick(rng, &pair.spec, size);
            pair.entries[entry].ticks.insert(begins(fact), later);
            order_needs(&mut pair.entries[entry]);
        }
    }
}

/// Gives a new tick to this event in one of the entries that have it.
fn move_act(rng: &mut Rng, pair: &mut Pair, act: Act, tick: u16) {
    let tick = tick.min(pair.spec.horizon);
    let mut having: Vec<&mut Entry> =
        pair.entries.iter_mut().filter(|e| e.ticks.contains_key(&act)).collect();
    if !having.is_empty() {
        let place = rng.below(having.len());
        having[place].ticks.insert(act, tick);
    }
}

/// Some job sets the fact from now on.
fn add_set(rng: &mut Rng, pair: &mut Pair, fact: usize, size: Size) {
    let job = rng.below(pair.spec.jobs.len().max(1));
    if let Some(found) = pair.spec.jobs.get_mut(job) {
        found.acts.insert(sets(fact));
    }
    for entry in pair.entries.iter_mut().filter(|e| e.job == job) {
        entry.ticks.insert(sets(fact), tick(rng, &pair.spec, size));
    }
}

/// Takes out of the sheet whatever still makes a fault.
fn strip(pair: &mut Pair) {
    loop {
        let faults = faults_of(pair);
        if faults.is_empty() {
            return;
        }
        for fault in faults {
            match fault {
                Fault::Clash { fact } => remove(pair, None, clears(fact)),
                Fault::Need { entry, fact } => remove(pair, Some(entry), begins(fact)),
                Fault::Goal { fact } => pair.spec.marks[fact] &= 1,
                Fault::Window { .. } | Fault::OwnTimes { .. } => unreachable!("see mend"),
            }
        }
    }
}

/// Takes an event out of the job of this entry, or out of every job.
fn remove(pair: &mut Pair, entry: Option<usize>, act: Act) {
    let job = entry.map(|place| pair.entries[place].job);
    for (number, found) in pair.spec.jobs.iter_mut().enumerate() {
        if job.map_or(true, |job| job == number) {
            found.remove(act);
        }
    }
    for entry in &mut pair.entries {
        let acts = &pair.spec.jobs[entry.job].acts;
        entry.ticks.retain(|act, _| acts.contains(act));
    }
}

/// In edition 2 a release for the job. Where it fits, no entry has a tick before it.
fn add_release(rng: &mut Rng, pair: &mut Pair, job: usize, fit: bool) {
    if pair.spec.edition == Edition::One {
        return;
    }
    let entries = pair.entries.iter().filter(|entry| entry.job == job);
    let first = entries.flat_map(|entry| entry.ticks.values()).min().copied();
    let horizon = pair.spec.horizon;
    pair.spec.jobs[job].release = match first {
        _ if rng.chance(30) => 0,
        None => *rng.pick(&[0, 1, 7, horizon, horizon + 1, 65_535]),
        Some(first) if !fit && rng.chance(30) => first + 1,
        Some(first) if rng.chance(50) => first,
        Some(first) => rng.below(usize::from(first) + 1) as u16,
    };
}

/// Random bounds for some pairs of the job's events, now and then several for one pair. Where they fit, every entry meets
/// them.
fn add_bounds(rng: &mut Rng, pair: &mut Pair, job: usize, fit: bool) {
    let acts: Vec<Act> = pair.spec.jobs[job].acts.iter().copied().collect();
    if acts.len() < 2 {
        return;
    }
    for _ in 0..rng.below(acts.len() + 1) {
        let (e, d) = (*rng.pick(&acts), *rng.pick(&acts));
        if e != d && pair.spec.bound_count() < MAX_BOUNDS {
            let gaps = gaps(pair, job, e, d);
            let room = MAX_BOUNDS - pair.spec.bound_count();
            let spans: Vec<Span> =
                (0..row_count(rng, room)).map(|_| limits(rng, &gaps, fit)).collect();
            pair.spec.jobs[job].bounds.replace((e, d), &spans);
        }
    }
}

/// How many rows a pair gets: mostly one, else few, rarely as many as there is room for.
fn row_count(rng: &mut Rng, room: usize) -> usize {
    match rng.below(800) {
        0 => room,
        1..=79 => room.min(2 + rng.below(3)),
        _ => 1,
    }
}

/// time(e) − time(d) in every entry of the job.
fn gaps(pair: &Pair, job: usize, e: Act, d: Act) -> Vec<i32> {
    let of_job = pair.entries.iter().filter(|entry| entry.job == job);
    of_job.map(|entry| i32::from(entry.ticks[&e]) - i32::from(entry.ticks[&d])).collect()
}

/// Low and high around the gaps: tight, loose or none. Where they need not fit, often too narrow.
fn limits(rng: &mut Rng, gaps: &[i32], fit: bool) -> (i16, i16) {
    let some = rng.between(-9, 9);
    let mut low = *gaps.iter().min().unwrap_or(&some);
    let mut high = *gaps.iter().max().unwrap_or(&some);
    if rng.chance(30) {
        low -= rng.between(0, 3);
        high += rng.between(0, 3);
    }
    if !fit && low < high {
        low += rng.between(0, 1);
    }
    let low = low.clamp(-10_080, 10_080) as i16;
    let high = high.clamp(-10_080, 10_080) as i16;
    match rng.below(8) {
        0 => (i16::MIN, high),
        1 => (low, i16::MAX),
        2 => (i16::MIN, i16::MAX),
        _ => (low, high),
    }
}

/// A copy of the pair with repeated entries, up to the limits of a list, in any order.
pub fn crowded(rng: &mut Rng, pair: &Pair) -> Pair {
    let mut crowded = pair.clone();
    for _ in 0..rng.below(64) {
        if pair.entries.is_empty() {
            break;
        }
        crowded.entries.push(rng.pick(&pair.entries).clone());
        if !crowded.fits() {
            crowded.entries.pop();
            break;
        }
    }
    rng.shuffle(&mut crowded.entries);
    crowded
}

//! Tiny sheets for the brute-force planner, biased towards the inside of the class.

use super::{bounded, repeat, Offsets};
use crate::bounds::{Pair, Span};
use crate::build::{begins, clears, ends, sets, Act, Job, Spec};
use crate::model::sheet::Edition;
use crate::rng::Rng;

/// Jobs and marks of facts, before there are bounds and a horizon.
struct Draft {
    jobs: Vec<Offsets>,
    marks: Vec<u8>,
}

pub fn sheet(rng: &mut Rng) -> Spec {
    let draft = if rng.chance(25) { loose_draft(rng) } else { chain_draft(rng) };
    let jobs = draft.jobs.iter().enumerate();
    let jobs: Vec<Job> = jobs.map(|(k, job)| bounded_job(rng, k as u16 + 1, job)).collect();
    let room = room(rng, &draft.jobs).clamp(0, LONGEST);
    let mut spec = Spec::new(room as u16, &draft.marks, &jobs);
    repeat::sometimes(rng, REPEATED, &mut spec);
    spec
}

/// In so many of a hundred sheets pairs of events have several bounds.
const REPEATED: usize = 25;

/// The longest horizon in edition 1, and in edition 2.
const LONGEST: i32 = 4;
const LONGEST_2: i32 = 11;

/// The greatest gap byte in edition 2.
pub const MAX_GAP: i32 = 4;

/// In edition 2, with a gap, with releases, and often with room for both.
pub fn sheet_2(rng: &mut Rng) -> Spec {
    let draft = if rng.chance(25) { loose_draft(rng) } else { chain_draft(rng) };
    let gap = rng.between(0, MAX_GAP) as u8;
    let mut latest = 0;
    let mut jobs = Vec::new();
    for (k, offsets) in draft.jobs.iter().enumerate() {
        let release = if rng.chance(50) { rng.between(0, 3) } else { 0 };
        latest = latest.max(release);
        jobs.push(bounded_job(rng, k as u16 + 1, offsets).not_before(release as u16));
    }
    let ticks = Edition::Two { gap, revision: 0 }.gap();
    let more = rng.between(0, 3) * (ticks - 1) + rng.between(0, latest);
    let horizon = (room(rng, &draft.jobs) + more).clamp(0, LONGEST_2);
    let job = rng.below(jobs.len());
    match rng.below(100) {
        0..=1 => {
            let late = [horizon, horizon + 1, 256, 65_535];
            jobs[job].release = *rng.pick(&late) as u16;
        }
        2..=25 => {
            loosen(rng, &mut jobs[job]);
            jobs[job].release = (horizon - length(&draft.jobs[job])).max(0) as u16;
        }
        _ => {}
    }
    let revision = if rng.chance(10) { rng.number() as u16 } else { 0 };
    let mut spec = Spec::new(horizon as u16, &draft.marks, &jobs).revised(gap, revision);
    repeat::sometimes(rng, REPEATED, &mut spec);
    spec
}

/// One bound of the job loses one of its sides, so that the window alone may hold its events together.
fn loosen(rng: &mut Rng, job: &mut Job) {
    let rows: Vec<(Pair, Span)> = job.bounds.iter().copied().collect();
    if !rows.is_empty() {
        let (_, (low, high)) = *rng.pick(&rows);
        let side = if rng.chance(50) { (low, i16::MAX) } else { (i16::MIN, high) };
        job.bounds.replace(rng.pick(&rows).0, &[side]);
    }
}

/// The ticks from the job's first event to its last.
fn length(job: &Offsets) -> i32 {
    let most = job.values().max().unwrap_or(&0);
    most - job.values().min().unwrap_or(&0)
}

/// Room for every job alone, and often for all of them.
fn room(rng: &mut Rng, jobs: &[Offsets]) -> i32 {
    let longest = jobs.iter().map(length).max().unwrap();
    let room = rng.between(0, 2) + rng.between(0, 2) - i32::from(rng.chance(3));
    longest + room
}

/// Any jobs over any facts.
fn loose_draft(rng: &mut Rng) -> Draft {
    let facts = 1 + rng.below(4);
    let jobs = (0..1 + rng.below(3)).map(|_| loose_job(rng, facts));
    let mut draft = Draft {
        jobs: jobs.collect(),
        marks: (0..facts).map(|_| *rng.pick(&[0, 0, 0, 1, 1, 2, 2, 3])).collect(),
    };
    for fact in 0..facts {
        let p = rng.below(facts);
        guard(rng, &mut draft, fact, p);
    }
    draft
}

fn loose_job(rng: &mut Rng, facts: usize) -> Offsets {
    let mut job = Offsets::new();
    for _ in 0..rng.below(4) {
        let fact = rng.below(facts);
        match rng.below(10) {
            0..=2 => add_need(rng, &mut job, fact),
            3..=6 => {
                job.insert(sets(fact), rng.between(0, 2));
            }
            _ => {
                job.insert(clears(fact), rng.between(0, 2));
            }
        }
    }
    job
}

/// Each job sets a product of its own and may need those before it; the last product is a goal.
/// Behind the products come one to three resources, mostly initial, that can put events in order.
fn chain_draft(rng: &mut Rng) -> Draft {
    let products = 1 + rng.below(3);
    let resources = 1 + rng.below(3);
    let mut draft = Draft {
        jobs: (0..products).map(|k| chain_job(rng, k)).collect(),
        marks: vec![0; products + resources],
    };
    for (fact, mark) in draft.marks.iter_mut().enumerate() {
        *mark = match fact + 1 {
            next if next == products => 2,
            next if next < products => *rng.pick(&[0, 0, 0, 0, 0, 1, 2, 2]),
            _ => *rng.pick(&[1, 1, 1, 1, 1, 1, 1, 3, 0]),
        };
    }
    if rng.chance(35) {
        draft.jobs.push(Offsets::new());
    }
    use_resources(rng, &mut draft, products);
    for fact in 0..draft.marks.len() {
        if rng.chance(35) {
            let cleaner = rng.below(draft.jobs.len());
            draft.jobs[cleaner].insert(clears(fact), rng.between(0, 2));
        }
        let mut p = products + rng.below(resources);
        if p == fact {
            p = products + (p - products + 1) % resources;
        }
        guard(rng, &mut draft, fact, p);
    }
    draft
}

fn chain_job(rng: &mut Rng, product: usize) -> Offsets {
    let mut job = Offsets::new();
    job.insert(sets(product), rng.between(0, 1));
    for earlier in 0..product {
        if rng.chance(50) {
            add_need(rng, &mut job, earlier);
        }
    }
    if rng.chance(10) {
        add_need(rng, &mut job, product);
    }
    job
}

/// Needs of resources, clears where such a need ends, and now and then a set.
fn use_resources(rng: &mut Rng, draft: &mut Draft, first: usize) {
    for fact in first..draft.marks.len() {
        for job in &mut draft.jobs {
            if rng.chance(25) {
                add_need(rng, job, fact);
                if rng.chance(40) {
                    job.insert(clears(fact), job[&ends(fact)]);
                }
            }
        }
        if rng.chance(30) {
            let job = rng.below(draft.jobs.len());
            draft.jobs[job].insert(sets(fact), rng.between(0, 2));
        }
    }
}

fn add_need(rng: &mut Rng, job: &mut Offsets, fact: usize) {
    let (one, two) = (rng.between(0, 1), rng.between(0, 1));
    job.entry(begins(fact)).or_insert(one.min(two));
    job.entry(ends(fact)).or_insert(one.max(two));
}

/// For setters and cleaners of the fact: mostly p puts them in order.
fn guard(rng: &mut Rng, draft: &mut Draft, fact: usize, p: usize) {
    let jobs = &mut draft.jobs;
    let clear_first = rng.chance(30);
    for s in 0..jobs.len() {
        for a in 0..jobs.len() {
            let both = jobs[s].contains_key(&sets(fact)) && jobs[a].contains_key(&clears(fact));
            if both && p != fact && rng.chance(90) {
                let (set, clear) = ((s, sets(fact)), (a, clears(fact)));
                if clear_first {
                    put_in_order(rng, jobs, clear, set, p);
                } else {
                    put_in_order(rng, jobs, set, clear, p);
                }
            }
        }
    }
}

/// The early job's need of p ends with its event or later, the late one clears p with its own or
/// sooner; mostly so.
fn put_in_order(
    rng: &mut Rng,
    jobs: &mut [Offsets],
    (early, event): (usize, Act),
    (late, other): (usize, Act),
    p: usize,
) {
    add_need(rng, &mut jobs[early], p);
    if rng.chance(95) {
        let end = jobs[early][&event] + i32::from(rng.chance(20));
        let begin = jobs[early][&begins(p)].min(end);
        jobs[early].insert(begins(p), begin);
        jobs[early].insert(ends(p), end);
    }
    let sooner = i32::from(rng.chance(20));
    let clear = if early == late && rng.chance(80) {
        jobs[early][&ends(p)]
    } else {
        jobs[late][&other] - sooner
    };
    jobs[late].insert(clears(p), clear);
}

/// The job with bounds, most of them exact, and now and then one more.
fn bounded_job(rng: &mut Rng, code: u16, offsets: &Offsets) -> Job {
    let job = bounded(rng, code, offsets, limits);
    let mut acts = offsets.keys();
    match (acts.next(), acts.next()) {
        (Some(&e), Some(&d)) if rng.chance(2) => job.now_exactly(e, d, rng.between(-2, 2) as i16),
        _ => job,
    }
}

/// Limits around a gap.
fn limits(rng: &mut Rng, gap: i16) -> (i16, i16) {
    match rng.below(24) {
        0 => (gap - 1, gap),
        1 => (gap, gap + 1),
        2 => (gap, i16::MAX),
        3 => (i16::MIN, gap),
        _ => (gap, gap),
    }
}

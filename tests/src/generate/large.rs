//! Large random sheets, up to every limit, mostly inside the class and with something to plan.

use super::{bounded, repeat, Offsets};
use crate::build::{begins, clears, ends, sets, Act, Job, Spec};
use crate::model::sheet::{MAX_BOUNDS, MAX_EVENTS, MAX_FACTS, MAX_GAP, MAX_HORIZON, MAX_JOBS};
use crate::rng::Rng;

/// Jobs and marks of facts, before there are bounds and a horizon. Job k sets fact k, its product;
/// behind the products come the resources.
struct Draft {
    jobs: Vec<Offsets>,
    marks: Vec<u8>,
    /// The longest offset.
    span: i32,
}

impl Draft {
    fn resources(&self) -> std::ops::Range<usize> {
        self.jobs.len()..self.marks.len()
    }

    fn last_offset(&self, job: usize) -> i32 {
        self.jobs[job].values().copied().max().unwrap_or(0)
    }

    /// The jobs from `range` that have this event.
    fn having(&self, range: std::ops::Range<usize>, act: Act) -> Vec<usize> {
        range.filter(|&job| self.jobs[job].contains_key(&act)).collect()
    }
}

pub fn sheet(rng: &mut Rng) -> Spec {
    loop {
        let mut spec = any_size(rng);
        if spec.event_count() <= MAX_EVENTS && spec.bound_count() <= MAX_BOUNDS {
            repeat::sometimes(rng, 25, &mut spec);
            return spec;
        }
    }
}

/// In edition 2, with any gap and with releases.
pub fn sheet_2(rng: &mut Rng) -> Spec {
    let mut spec = sheet(rng);
    let any = rng.below(usize::from(MAX_GAP) + 1) as u8;
    let gap = *rng.pick(&[0, 1, 2, 3, 9, MAX_GAP, any]);
    let often = *rng.pick(&[0, 10, 50, 100]);
    let widest = *rng.pick(&[3, 30, 300]);
    for job in &mut spec.jobs {
        if rng.chance(often) {
            job.release = rng.below(widest) as u16;
        }
    }
    if rng.chance(8) {
        let late = spec.horizon.saturating_sub(rng.below(widest) as u16);
        let late = *rng.pick(&[late, late, spec.horizon, spec.horizon + 1, 65_535]);
        let job = rng.below(spec.jobs.len());
        spec.jobs[job].release = late;
    }
    let revision = rng.number() as u16;
    spec.revised(gap, revision)
}

fn any_size(rng: &mut Rng) -> Spec {
    let mut draft = chain(rng);
    for resource in draft.resources() {
        share(rng, &mut draft, resource);
    }
    if rng.chance(45) {
        spoil(rng, &mut draft);
    }
    let loose = *rng.pick(&[0, 0, 0, 1, 5]);
    let jobs = draft.jobs.iter().enumerate();
    let jobs: Vec<Job> = jobs
        .map(|(k, job)| bounded(rng, 3 * k as u16, job, |rng, gap| limits(rng, gap, loose)))
        .collect();
    let mut spec = Spec::new(horizon(rng, &draft), &draft.marks, &jobs);
    if rng.chance(6) {
        contradict(rng, &mut spec);
    }
    spec
}

/// Each job sets its product and may need some of those before it; the last product is a goal.
fn chain(rng: &mut Rng) -> Draft {
    let jobs = if rng.chance(30) { MAX_JOBS } else { 1 + rng.below(MAX_JOBS) };
    let resources = rng.below(MAX_FACTS - jobs + 1);
    let span = *rng.pick(&[3, 30, 300]);
    let mut draft = Draft { jobs: Vec::new(), marks: vec![1; jobs + resources], span };
    for product in 0..jobs {
        let mut job = Offsets::from([(sets(product), rng.between(0, span))]);
        for _ in 0..rng.below(3).min(product) {
            let earlier = product - 1 - rng.below(product.min(4));
            add_need(rng, &mut job, earlier, span);
        }
        draft.jobs.push(job);
        draft.marks[product] = *rng.pick(&[0, 0, 0, 0, 0, 0, 0, 0, 2, 2]);
    }
    draft.marks[jobs - 1] = 2;
    draft
}

fn add_need(rng: &mut Rng, job: &mut Offsets, fact: usize, span: i32) {
    let (one, two) = (rng.between(0, span), rng.between(0, span));
    job.insert(begins(fact), one.min(two));
    job.insert(ends(fact), one.max(two));
}

/// Jobs before a cut need the resource to their end, jobs after it clear it when they start: that
/// puts the events of the early jobs before those of the late ones.
fn share(rng: &mut Rng, draft: &mut Draft, resource: usize) {
    let count = draft.jobs.len();
    let cut = rng.below(count + 1);
    for job in 0..count {
        if job < cut && rng.chance(200 / count) {
            let last = draft.last_offset(job);
            draft.jobs[job].insert(begins(resource), rng.between(0, last));
            draft.jobs[job].insert(ends(resource), last);
        } else if job >= cut && rng.chance(120 / count) {
            draft.jobs[job].insert(clears(resource), 0);
        }
    }
    let early = draft.having(0..cut, begins(resource));
    let late = draft.having(cut..count, clears(resource));
    if !early.is_empty() && !late.is_empty() {
        let (one, other) = (*rng.pick(&early), *rng.pick(&late));
        order_events(rng, draft, one, other);
    }
}

/// A fact that the early job sets and the late one clears, or the other way round.
fn order_events(rng: &mut Rng, draft: &mut Draft, early: usize, late: usize) {
    let (first, last) = (draft.last_offset(early), draft.last_offset(late));
    let (first, last) = (rng.between(0, first), rng.between(0, last));
    match rng.below(3) {
        0 => {
            let users = draft.having(late + 1..draft.jobs.len(), begins(early));
            if users.is_empty() || rng.chance(5) {
                draft.jobs[late].insert(clears(early), last);
            }
        }
        1 => {
            draft.jobs[early].insert(clears(late), first);
        }
        _ if draft.marks.len() < MAX_FACTS => {
            let unwanted = draft.marks.len();
            draft.marks.push(0);
            draft.jobs[early].insert(sets(unwanted), first);
            draft.jobs[late].insert(clears(unwanted), last);
        }
        _ => {}
    }
}

/// One change that mostly leads to another answer than "plan".
fn spoil(rng: &mut Rng, draft: &mut Draft) {
    let job = rng.below(draft.jobs.len());
    let fact = rng.below(draft.marks.len());
    let product = rng.below(draft.jobs.len());
    let offset = rng.between(0, draft.span);
    match rng.below(9) {
        0 => {
            draft.jobs[job].insert(sets(product), offset);
        }
        1..=2 => {
            draft.jobs[job].insert(clears(fact), offset);
        }
        3 => {
            draft.jobs[job].insert(sets(fact), offset);
        }
        4 if draft.marks.len() < MAX_FACTS => {
            let unwanted = draft.marks.len();
            draft.marks.push(0);
            draft.jobs[job].insert(sets(unwanted), offset);
            draft.jobs[product].insert(clears(unwanted), offset);
        }
        5 => draft.marks[fact] |= 2,
        6 => draft.marks[fact] &= 2,
        7 if draft.marks.len() < MAX_FACTS => draft.marks.push(2),
        _ => {
            let span = draft.span;
            add_need(rng, &mut draft.jobs[job], fact, span);
        }
    }
}

/// Limits around a gap: mostly exact, loose as often as `loose` says.
fn limits(rng: &mut Rng, gap: i16, loose: usize) -> (i16, i16) {
    match rng.below(4) {
        _ if !rng.chance(loose) => (gap, gap),
        0 => (gap - rng.between(0, 3) as i16, gap),
        1 => (gap, gap + rng.between(0, 3) as i16),
        2 => (gap, i16::MAX),
        _ => (i16::MIN, gap),
    }
}

/// Room for every job alone but for one tick, for some of them in turn, or for all.
fn horizon(rng: &mut Rng, draft: &Draft) -> u16 {
    let jobs = 0..draft.jobs.len();
    let longest = jobs.map(|job| draft.last_offset(job)).max().unwrap_or(0);
    let more = match rng.below(10) {
        0 => rng.between(-1, 2),
        1..=2 => rng.between(0, 4 * draft.span),
        _ => MAX_HORIZON,
    };
    (longest + more).clamp(0, MAX_HORIZON) as u16
}

/// A bound that some job can hardly keep.
fn contradict(rng: &mut Rng, spec: &mut Spec) {
    let place = rng.below(spec.jobs.len());
    let job = &mut spec.jobs[place];
    let acts: Vec<Act> = job.acts.iter().copied().collect();
    if acts.len() > 1 {
        let gap = rng.between(-4, 4) as i16;
        job.bounds.replace((acts[0], acts[acts.len() - 1]), &[(gap, gap)]);
    }
}

//! Small changes of a sheet that leave it well formed, mostly: the sheet's limits are not minded.

use corrumai_tests::bounds::Span;
use corrumai_tests::build::{begins, clears, ends, sets, Act, Job, Spec};
use corrumai_tests::generate::{repeat, retire};
use corrumai_tests::model::sheet::{Edition, Kind, MAX_BOUNDS, NO_HIGH, NO_LOW};
use corrumai_tests::planner_model::{verdict, Verdict};
use corrumai_tests::rng::Rng;

pub fn change(rng: &mut Rng, spec: &mut Spec) {
    match rng.below(26) {
        0 => change_mark(rng, spec),
        1 => spec.marks.push(rng.below(4) as u8),
        2 => change_horizon(rng, spec),
        3 => tighten(rng, spec),
        4..=5 => add_act(rng, spec),
        6 => remove_act(rng, spec),
        7 => move_act(rng, spec),
        8 => change_jobs(rng, spec),
        9..=11 => add_bound(rng, spec),
        12 => remove_bound(rng, spec),
        13..=15 => change_bound(rng, spec),
        16 => change_edition(rng, spec),
        17 => change_gap(rng, spec),
        18..=21 => repeat_bound(rng, spec),
        22..=23 => drop(retire::retire(rng, spec)),
        _ => change_release(rng, spec),
    }
}

/// The same in the other edition; what only edition 2 can say is lost on the way back.
fn change_edition(rng: &mut Rng, spec: &mut Spec) {
    *spec = match spec.edition {
        Edition::One => spec.clone().with_gap(rng.below(3) as u8),
        Edition::Two { .. } => spec.clone().plain(),
    };
}

/// Mostly few ticks, now and then at or past the limit. A sheet of edition 1 becomes one of edition 2.
fn change_gap(rng: &mut Rng, spec: &mut Spec) {
    let gap = match rng.below(4) {
        0 => *rng.pick(&[59, 60, 61, 255]),
        1 => rng.below(61) as u8,
        _ => rng.below(6) as u8,
    };
    let revision = if rng.chance(30) { *rng.pick(&[1, 255, 256, 65_535]) } else { 0 };
    *spec = spec.clone().revised(gap, revision);
}

/// Few ticks, or near H, or any. A sheet of edition 1 becomes one of edition 2.
fn change_release(rng: &mut Rng, spec: &mut Spec) {
    if spec.edition == Edition::One {
        *spec = spec.clone().with_gap(1);
    }
    let horizon = spec.horizon;
    let release = match rng.below(5) {
        0 => 0,
        1 => horizon.saturating_sub(rng.below(12) as u16),
        2 => *rng.pick(&[horizon.saturating_add(1), 256, 65_535]),
        3 => rng.below(usize::from(horizon) + 1) as u16,
        _ => rng.below(9) as u16,
    };
    if let Some(job) = some_job(rng, spec) {
        job.release = release;
    }
}

fn change_mark(rng: &mut Rng, spec: &mut Spec) {
    if !spec.marks.is_empty() {
        let fact = rng.below(spec.marks.len());
        spec.marks[fact] = rng.below(4) as u8;
    }
}

fn change_horizon(rng: &mut Rng, spec: &mut Spec) {
    spec.horizon = match rng.below(5) {
        0 => spec.horizon.wrapping_add(1),
        1 => spec.horizon.saturating_sub(1),
        2 => rng.below(12) as u16,
        3 => 10_080 + rng.below(2) as u16,
        _ => rng.below(10_081) as u16,
    };
}

/// H becomes the last tick of the least list, or one less.
fn tighten(rng: &mut Rng, spec: &mut Spec) {
    if let Verdict::Plan(list) = verdict(&spec.bytes()) {
        let first = 4 + 4 * usize::from(list[2]);
        let ticks = list[first..].chunks(2).map(|t| u16::from_le_bytes([t[0], t[1]]));
        spec.horizon = ticks.max().unwrap_or(0).saturating_sub(rng.below(2) as u16);
    }
}

fn some_job<'a>(rng: &mut Rng, spec: &'a mut Spec) -> Option<&'a mut Job> {
    let count = spec.jobs.len();
    (count > 0).then(|| &mut spec.jobs[rng.below(count)])
}

fn some_act(rng: &mut Rng, job: &Job) -> Option<Act> {
    let acts: Vec<Act> = job.acts.iter().copied().collect();
    (!acts.is_empty()).then(|| *rng.pick(&acts))
}

fn put_act(job: &mut Job, kind: Kind, fact: usize) {
    match kind {
        Kind::Begins | Kind::Ends => job.acts.extend([begins(fact), ends(fact)]),
        Kind::Sets => job.acts.extend([sets(fact)]),
        Kind::Clears => job.acts.extend([clears(fact)]),
    }
}

fn add_act(rng: &mut Rng, spec: &mut Spec) {
    let facts = spec.marks.len();
    if facts > 0 {
        let kind = *rng.pick(&[Kind::Begins, Kind::Sets, Kind::Clears]);
        let fact = rng.below(facts);
        if let Some(job) = some_job(rng, spec) {
            put_act(job, kind, fact);
        }
    }
}

fn remove_act(rng: &mut Rng, spec: &mut Spec) {
    if let Some(job) = some_job(rng, spec) {
        if let Some(act) = some_act(rng, job) {
            job.remove(act);
        }
    }
}

/// An event goes to another fact; its bounds are lost.
fn move_act(rng: &mut Rng, spec: &mut Spec) {
    let facts = spec.marks.len();
    if let Some(job) = some_job(rng, spec) {
        if let Some(act) = some_act(rng, job) {
            job.remove(act);
            put_act(job, act.kind, rng.below(facts));
        }
    }
}

/// A job more with a job's events, a job less, or two jobs exchange their codes.
fn change_jobs(rng: &mut Rng, spec: &mut Spec) {
    let count = spec.jobs.len();
    let code = spec.jobs.last().map_or(0, |job| job.code.wrapping_add(1));
    match rng.below(4) {
        0 => spec.jobs.push(Job::new(code)),
        1 if count > 0 => {
            let twin = spec.jobs[rng.below(count)].clone();
            spec.jobs.push(Job { code, ..twin });
        }
        2 if count > 0 => {
            spec.jobs.remove(rng.below(count));
        }
        3 if count > 1 => {
            let place = rng.below(count - 1);
            let (first, second) = (spec.jobs[place].code, spec.jobs[place + 1].code);
            spec.jobs.swap(place, place + 1);
            spec.jobs[place].code = first;
            spec.jobs[place + 1].code = second;
        }
        _ => {}
    }
}

/// A gap: mostly few ticks, now and then at or past the limits.
fn gap(rng: &mut Rng) -> i16 {
    match rng.below(12) {
        0 => *rng.pick(&[-10_080, 10_080, -10_081, 10_081]),
        1 => rng.between(-10_080, 10_080) as i16,
        2 => rng.between(-300, 300) as i16,
        _ => rng.between(-6, 6) as i16,
    }
}

fn limits(rng: &mut Rng) -> (i16, i16) {
    let one = gap(rng);
    match rng.below(6) {
        0 => (NO_LOW as i16, one),
        1 => (one, NO_HIGH as i16),
        2 => {
            let two = gap(rng);
            (one.min(two), one.max(two))
        }
        3 => (one, one.saturating_add(1)),
        _ => (one, one),
    }
}

fn add_bound(rng: &mut Rng, spec: &mut Spec) {
    let Some(job) = some_job(rng, spec) else {
        return;
    };
    if let (Some(e), Some(d)) = (some_act(rng, job), some_act(rng, job)) {
        if e != d {
            let limits = limits(rng);
            job.bounds.insert((e, d), limits);
        }
    }
}

/// The rows of a pair and the place of one of them go to `change`, and the pair gets the rows that this leaves.
fn change_rows(rng: &mut Rng, spec: &mut Spec, change: fn(&mut Rng, &mut Vec<Span>, usize)) {
    let Some(bounds) = some_job(rng, spec).map(|job| &mut job.bounds) else {
        return;
    };
    if !bounds.is_empty() {
        let pair = *rng.pick(&bounds.pairs());
        let mut spans = bounds.of(pair);
        let place = rng.below(spans.len());
        change(rng, &mut spans, place);
        bounds.replace(pair, &spans);
    }
}

fn remove_bound(rng: &mut Rng, spec: &mut Spec) {
    change_rows(rng, spec, |_, spans, place| {
        spans.remove(place);
    });
}

fn change_bound(rng: &mut Rng, spec: &mut Spec) {
    change_rows(rng, spec, |rng, spans, place| spans[place] = changed(rng, spans[place]));
}

fn changed(rng: &mut Rng, (low, high): Span) -> Span {
    let step = rng.between(-2, 2) as i16;
    match rng.below(5) {
        0 => (low.saturating_add(step), high),
        1 => (low, high.saturating_add(step)),
        2 => (low.saturating_add(step), high.saturating_add(step)),
        3 => (high, high),
        _ => limits(rng),
    }
}

/// A row once more, one near it or one that says nothing; a row spread over several; the rows in another order; or one row
/// as often as makes 256 rows in all, or one more.
fn repeat_bound(rng: &mut Rng, spec: &mut Spec) {
    if rng.chance(4) {
        let room = (MAX_BOUNDS + rng.below(2)).saturating_sub(spec.bound_count());
        return fill_up(rng, spec, room);
    }
    change_rows(rng, spec, |rng, spans, place| {
        let span = spans[place];
        let at = rng.below(spans.len() + 1);
        match rng.below(6) {
            0 => spans.insert(at, span),
            1 => spans.insert(at, (NO_LOW as i16, NO_HIGH as i16)),
            2 => spans.insert(at, changed(rng, span)),
            3 => spans.insert(at, limits(rng)),
            4 => {
                let more = 1 + rng.below(4);
                spans.splice(place..=place, repeat::spread(rng, span, more));
            }
            _ => rng.shuffle(spans),
        }
    });
}

fn fill_up(rng: &mut Rng, spec: &mut Spec, room: usize) {
    if let Some(bounds) = some_job(rng, spec).map(|job| &mut job.bounds) {
        if !bounds.is_empty() {
            let pair = *rng.pick(&bounds.pairs());
            let span = *rng.pick(&bounds.of(pair));
            (0..room).for_each(|_| bounds.insert(pair, span));
        }
    }
}

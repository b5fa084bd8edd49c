//! Sheets with jobs that have no own times.

use crate::build::Spec;
use crate::model::sheet::{MAX_BOUNDS, MAX_EVENTS, MAX_JOBS};
use crate::retire::Cause;
use crate::rng::Rng;

/// Retires some jobs, up to all of them, or puts retired ones beside them. Gives why they are absent. Now and then H gets
/// shorter, too.
pub fn retire(rng: &mut Rng, spec: &mut Spec) -> Vec<Cause> {
    if spec.jobs.is_empty() {
        return Vec::new();
    }
    if rng.chance(15) {
        spec.horizon = spec.horizon.saturating_sub(1 + rng.below(3) as u16);
    }
    if rng.chance(50) {
        return (0..1 + rng.below(3)).filter_map(|_| add_retired(rng, spec)).collect();
    }
    let mut jobs: Vec<usize> = (0..spec.jobs.len()).collect();
    rng.shuffle(&mut jobs);
    jobs.truncate(1 + rng.below(jobs.len()));
    jobs.into_iter().filter_map(|job| by_some_cause(rng, spec, job)).collect()
}

/// The job is absent from now on, if the sheet can say so.
fn by_some_cause(rng: &mut Rng, spec: &mut Spec, job: usize) -> Option<Cause> {
    let causes: Vec<Cause> = Cause::ALL.into_iter().filter(|cause| cause.fits(spec, job)).collect();
    let cause = *causes.get(rng.below(causes.len().max(1)))?;
    cause.put_on(spec, job, 0);
    Some(cause)
}

/// A retired job somewhere among the others, much like one of them: it often sets, needs or clears a fact more. All codes
/// are new.
fn add_retired(rng: &mut Rng, spec: &mut Spec) -> Option<Cause> {
    let mut job = rng.pick(&spec.jobs).clone();
    let fact = rng.below(spec.marks.len().max(1));
    job = match rng.below(5) {
        _ if spec.marks.is_empty() => job,
        0..=1 => job.sets(fact),
        2 => job.needs(fact),
        3 => job.clears(fact),
        _ => job,
    };
    let fits = spec.jobs.len() < MAX_JOBS
        && spec.event_count() + job.acts.len() <= MAX_EVENTS
        && spec.bound_count() + job.bounds.len() <= MAX_BOUNDS;
    if !fits {
        return None;
    }
    let place = rng.below(spec.jobs.len() + 1);
    spec.jobs.insert(place, job);
    spec.jobs.iter_mut().enumerate().for_each(|(place, job)| job.code = 7 * (place as u16 + 1));
    by_some_cause(rng, spec, place)
}

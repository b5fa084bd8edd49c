//! Sheets with absent jobs: each job's lack of own times has to be found, and none of them may cost anything after that.

use super::{all_acts, crowd, job_line, loose_star_job, ring_job, with_shortcuts, zigzag, FAR};
use crate::build::{begins, clears, ends, sets, Act, Job, Spec};
use crate::cases::ordinary::unwanted_rings;
use crate::cases::repeated::filled;
use crate::model::sheet::MAX_EVENTS;
use crate::retire::{retired as retire, Cause};

/// All sheets, each with a name and the count of its jobs that are present.
pub fn retired() -> Vec<(&'static str, Spec, usize)> {
    let rings = |jobs, step, turned| (rings(jobs, step, turned), 0);
    let named = |name, (spec, present)| (name, spec, present);
    vec![
        named("absent: 32 rings of 8 events, gain 1", rings(32, 50, true)),
        named("absent: 32 rings of 8, along the sheet", rings(32, 50, false)),
        named("absent: 32 rings of 8, steps of 0", rings(32, 0, true)),
        named("absent: 32 rings of 8, steps of 1,600", rings(32, 1_600, true)),
        named("absent: 16 rings of 16 events, gain 1", rings(16, 50, true)),
        named("absent: 8 rings of 32 events, gain 1", rings(8, 50, true)),
        named("absent: 4 rings of 64 events, gain 1", rings(4, 50, true)),
        named("absent: 2 rings of 128 events, gain 1", rings(2, 50, true)),
        ("absent: 32 rings of 2 events, gain 1", pairs(32), 0),
        ("absent: 32 rings of 2 events, 256 rows", filled(pairs(32)), 0),
        ("absent: 32 jobs, 8 rows each, the last crosses", crossing(), 0),
        ("absent: a zigzag with shortcuts, gains 1", round_zigzag(), 0),
        ("absent: 32 jobs a tick too long for H", chains(10_081), 0),
        ("absent: 32 jobs released a tick too late", late_chains(), 0),
        ("absent: the unwanted half of 32 jobs, by rings", unwanted_rings(), 16),
        ("absent: 31 rings beside 190 events tied loosely", star_beside_rings(48, 31), 1),
        ("absent: 3 rings beside 250 events tied loosely", star_beside_rings(63, 3), 1),
        ("absent: 31 rings set what one job sets", setters_beside_one(), 1),
        ("absent: every other one of a crowd", every_other(crowd(1, false)), 16),
        ("absent: every other one of a line of 32", every_other(job_line()), 16),
    ]
}

/// 256 events in so many jobs of equal size, each on facts of its own, all of them goals, and each a ring that gains a tick
/// a turn: against the order of the sheet or along it.
fn rings(jobs: usize, step: i16, against: bool) -> Spec {
    let all = all_acts(64);
    let parts = all.chunks(MAX_EVENTS / jobs).enumerate();
    let jobs: Vec<Job> = parts
        .map(|(code, acts)| {
            let mut acts = acts.to_vec();
            if against {
                acts.reverse();
            }
            ring_job(code as u16, &acts, step, 1)
        })
        .collect();
    Spec::new(FAR, &[2; 64], &jobs)
}

/// So many jobs of two sets, a ring each.
fn pairs(jobs: usize) -> Spec {
    let pair = |k: usize| ring_job(k as u16, &[sets(2 * k), sets(2 * k + 1)], 0, 1);
    Spec::new(FAR, &vec![2; 2 * jobs], &(0..jobs).map(pair).collect::<Vec<_>>())
}

/// 32 jobs of 8 events, the first two of which have 8 rows, the last above all others.
fn crossing() -> Spec {
    let mut spec = rings(32, 0, false);
    for job in &mut spec.jobs {
        let acts: Vec<Act> = job.acts.iter().copied().collect();
        let mut spans = [(0, 9); 8];
        spans[7] = (10, 10);
        job.bounds = spans.into_iter().map(|span| ((acts[1], acts[0]), span)).collect();
    }
    spec
}

/// One job of 128 events: a ring of steps with shortcuts that fall a tick short.
fn round_zigzag() -> Spec {
    let acts: Vec<Act> = (0..64).flat_map(|fact| [sets(fact), clears(fact)]).collect();
    let way = zigzag(&acts);
    let job = with_shortcuts(Job::new(1), &way);
    Spec::new(FAR, &[2; 64], &[job.bound(way[0], way[127], 1 - 127 * 30, i16::MAX)])
}

/// 32 jobs of 8 events, each some ticks after the one behind it in the sheet, so many from the first to the last.
fn chains(length: i16) -> Spec {
    let mut spec = rings(32, 0, false);
    for (k, job) in spec.jobs.iter_mut().enumerate() {
        let of = |fact: usize| [clears(fact), sets(fact), begins(fact), ends(fact)];
        let way: Vec<Act> = [of(2 * k + 1), of(2 * k)].concat();
        let step = length / 7;
        let steps = (0..7).map(|place| if place == 6 { length - 6 * step } else { step });
        let rows = way.windows(2).zip(steps);
        job.bounds = rows.map(|(two, step)| ((two[1], two[0]), (step, i16::MAX))).collect();
    }
    spec
}

/// The same with a release that leaves a tick too few.
fn late_chains() -> Spec {
    chains(5_000).with_gap(60).released(&[FAR - 5_000 + 1; 32])
}

/// One job whose events of so many facts are tied loosely to one of them, and so many rings of two events.
fn star_beside_rings(facts: usize, rings: usize) -> Spec {
    let mut jobs: Vec<Job> =
        (0..rings).map(|k| ring_job(k as u16, &[sets(k), clears(k)], 0, 1)).collect();
    jobs.push(Job { code: 99, ..loose_star_job(facts) });
    Spec::new(FAR, &vec![2; facts], &jobs)
}

/// One job sets seven goals, and 31 absent ones set them too.
fn setters_beside_one() -> Spec {
    let goals: Vec<Act> = (0..7).map(sets).collect();
    let mut jobs: Vec<Job> =
        (0..31).map(|k| ring_job(k as u16, &[&goals[..], &[clears(7)]].concat(), 9, 1)).collect();
    jobs.push(goals.iter().fold(Job::new(99), |job, goal| job.sets(goal.fact)));
    Spec::new(FAR, &[2, 2, 2, 2, 2, 2, 2, 1], &jobs)
}

/// The sheet with jobs 1, 3 and so on retired.
fn every_other(spec: Spec) -> Spec {
    (1..spec.jobs.len()).step_by(2).fold(spec, |spec, job| {
        let cause = if Cause::Crossing.fits(&spec, job) { Cause::Crossing } else { Cause::Length };
        retire(spec, job, cause)
    })
}

//! Both sides of each limit of a sheet, for planner and judge.

use super::{add_bounds, marks};
use crate::build::{
    begins, bound_row, clears, ends, list_bytes, list_of_rows, sets, Bodies, Entry, Job, Spec,
};
use crate::cases::examples::P5_LIST;
use crate::cases::planner::PlannerCase;
use crate::cases::Case;

/// A sheet with its least list, or with the answer that refuses it.
pub struct Side {
    pub name: &'static str,
    pub sheet: Vec<u8>,
    pub due: Result<Vec<u8>, u8>,
}

impl Side {
    pub fn judged(self) -> Case {
        let number = self.due.clone().err().unwrap_or(0);
        Case::new(self.name, self.sheet, self.due.unwrap_or(P5_LIST.to_vec()), number)
    }

    pub fn planned(self) -> PlannerCase {
        let number = self.due.clone().err().unwrap_or(0);
        let list = self.due.ok();
        let detail = list.as_ref().map_or(0, Vec::len);
        PlannerCase { name: self.name.to_string(), sheet: self.sheet, number, detail, list }
    }
}

fn good(name: &'static str, spec: &Spec, list: Vec<u8>) -> Side {
    Side { name, sheet: spec.bytes(), due: Ok(list) }
}

fn bad(name: &'static str, spec: &Spec, number: u8) -> Side {
    Side { name, sheet: spec.bytes(), due: Err(number) }
}

pub fn cases() -> Vec<Side> {
    let mut cases = facts();
    cases.extend(horizon());
    cases.extend(jobs());
    cases.extend(events());
    cases.extend(bounds());
    cases.extend(values());
    cases.extend(codes());
    cases.extend(last_rows());
    cases
}

fn facts() -> Vec<Side> {
    let goal = |count: usize| {
        let mut marks = vec![0; count];
        marks[count - 1] = 2;
        Spec::new(9, &marks, &[Job::new(1).sets(count - 1)])
    };
    let all = |count: usize, mark| Spec::new(9, &vec![mark; count], &[]);
    vec![
        good("64 facts, the last is the goal", &goal(64), list_of_rows(&[(1, vec![0])])),
        good("64 facts, initial and goals", &all(64, 3), P5_LIST.to_vec()),
        good("64 facts without marks", &all(64, 0), P5_LIST.to_vec()),
        bad("65 facts, the last is the goal", &goal(65), 11),
        bad("65 facts, initial and goals", &all(65, 3), 11),
        bad("65 facts without marks", &all(65, 0), 11),
    ]
}

/// Job 1 needs fact 0 for `length` ticks and sets the goal at the end.
fn lasting(horizon: u16, length: i16) -> Spec {
    let job = Job::new(1).needs(0).sets(1).exactly(ends(0), begins(0), length);
    Spec::new(horizon, &[1, 2], &[job.exactly(sets(1), ends(0), 0)])
}

fn horizon() -> Vec<Side> {
    let list = |end| list_of_rows(&[(1, vec![0, end, end])]);
    let empty = |horizon| Spec::new(horizon, &[], &[]);
    vec![
        good("H 10,080, all of it taken", &lasting(10_080, 10_080), list(10_080)),
        good("H 10,080, little of it taken", &lasting(10_080, 3), list(3)),
        good("H 10,080 and nothing else", &empty(10_080), P5_LIST.to_vec()),
        bad("H 10,081, much of it taken", &lasting(10_081, 10_080), 11),
        bad("H 10,081, little of it taken", &lasting(10_081, 3), 11),
        bad("H 10,081 and nothing else", &empty(10_081), 11),
    ]
}

fn jobs() -> Vec<Side> {
    let idle = |count| Spec::new(9, &[2], &(0..count).map(Job::new).collect::<Vec<_>>());
    let last = |count: u16| {
        let mut spec = idle(count);
        spec.jobs[usize::from(count) - 1].acts.insert(sets(0));
        spec
    };
    let each = |count: u16| {
        let jobs: Vec<Job> = (0..count).map(|k| Job::new(k).sets(usize::from(k))).collect();
        Spec::new(9, &vec![2; usize::from(count)], &jobs)
    };
    let each_list: Vec<(u16, Vec<u16>)> = (0..32).map(|k| (k, vec![0])).collect();
    let no_goal = |count| Spec { marks: vec![0], ..idle(count) };
    vec![
        good("32 jobs, the last is wanted", &last(32), list_of_rows(&[(31, vec![0])])),
        good("32 jobs, all are wanted", &each(32), list_of_rows(&each_list)),
        good("32 jobs, all idle", &no_goal(32), P5_LIST.to_vec()),
        bad("33 jobs, the last is wanted", &last(33), 12),
        bad("33 jobs, all are wanted", &each(33), 12),
        bad("33 jobs, all idle", &no_goal(33), 12),
    ]
}

/// 32 jobs of 8 events over 64 facts. Job k sets goal k, needs three of the initial facts 32 to 63 and clears a fourth,
/// after all needs of it.
fn eight_each() -> Spec {
    let job = |k: usize| {
        let job = Job::new(k as u16).sets(k).clears(32 + k);
        [1, 2, 3].iter().fold(job, |job, more| job.needs(32 + (k + more) % 32))
    };
    let marks = [[2; 32], [1; 32]].concat();
    Spec::new(10_080, &marks, &(0..32).map(job).collect::<Vec<_>>())
}

fn eight_each_list() -> Vec<u8> {
    let spec = eight_each();
    let entry = |k: usize| {
        let tick = |act| u16::from(act == clears(32 + k));
        Entry { job: k, ticks: spec.jobs[k].acts.iter().map(|&act| (act, tick(act))).collect() }
    };
    list_bytes(&spec, &(0..32).map(entry).collect::<Vec<_>>())
}

/// As many sets of initial facts, 64 to a job.
fn many_sets(count: usize) -> Spec {
    let job = |k: usize| {
        let facts = 0..64.min(count - 64 * k);
        facts.fold(Job::new(k as u16), |job, fact| job.sets(fact))
    };
    let jobs: Vec<Job> = (0..(count + 63) / 64).map(job).collect();
    Spec::new(9, &[3; 64], &jobs)
}

fn events() -> Vec<Side> {
    let one_job = (0..64).fold(Job::new(1), |job, fact| job.needs(fact).sets(fact).clears(fact));
    let one_job = Spec::new(9, &marks(&[]), &[one_job]);
    let mut and_one = one_job.clone();
    and_one.jobs.push(Job::new(2).clears(63));
    let mut nine = eight_each();
    nine.jobs[31].acts.insert(clears(0));
    vec![
        good("256 events of one job", &one_job, P5_LIST.to_vec()),
        good("256 events, 8 to a job", &eight_each(), eight_each_list()),
        good("256 events of one kind", &many_sets(256), P5_LIST.to_vec()),
        bad("257 events, 256 of one job", &and_one, 13),
        bad("257 events, 8 to a job and one more", &nine, 13),
        bad("257 events of one kind", &many_sets(257), 13),
    ]
}

/// The sheet with this many bounds that exclude nothing.
fn bounded(mut spec: Spec, per_job: usize, count: usize) -> Spec {
    add_bounds(&mut spec.jobs, per_job, count);
    spec
}

/// 2,461 bytes: each part as long as it may be.
pub fn largest() -> Spec {
    bounded(eight_each(), 8, 256)
}

fn bounds() -> Vec<Side> {
    let mut and_one = largest();
    and_one.jobs[31].bounds.insert((clears(63), sets(31)), (-9, 9));
    let few = |count| bounded(many_sets(17), 300, count);
    let mut four_jobs = bounded(many_sets(256), 64, 256);
    four_jobs.jobs[3].bounds.insert((sets(63), sets(62)), (-9, 9));
    vec![
        good("the largest sheet", &largest(), eight_each_list()),
        good("256 bounds of 17 events", &few(256), P5_LIST.to_vec()),
        good("256 bounds of four jobs", &bounded(many_sets(256), 64, 256), P5_LIST.to_vec()),
        bad("257 bounds, the largest sheet and one more", &and_one, 14),
        bad("257 bounds of 17 events", &few(257), 14),
        bad("257 bounds of four jobs", &four_jobs, 14),
    ]
}

/// Job 1 needs fact 0, sets the goal at the end, and has this bound on the need's length.
fn values() -> Vec<Side> {
    let base = Job::new(1).needs(0).sets(1).exactly(sets(1), ends(0), 0);
    let spec = |job| Spec::new(10_080, &[1, 2], &[job]);
    let length = |low, high| spec(base.clone().bound(ends(0), begins(0), low, high));
    let negative = |low, high| spec(base.clone().bound(begins(0), ends(0), low, high));
    let long = || list_of_rows(&[(1, vec![0, 10_080, 10_080])]);
    let none = || list_of_rows(&[(1, vec![0, 0, 0])]);
    let (no_low, no_high) = (i16::MIN, i16::MAX);
    vec![
        good("low 10,080, no high", &length(10_080, no_high), long()),
        good("low 10,080 and high", &length(10_080, 10_080), long()),
        good("low -10,080, high 10,080", &length(-10_080, 10_080), none()),
        good("no low, high 10,080", &length(no_low, 10_080), none()),
        good("low -10,080, no high", &length(-10_080, no_high), none()),
        good("neither low nor high", &length(no_low, no_high), none()),
        good("low -10,080 and high", &negative(-10_080, -10_080), long()),
        good("no low, high -10,080", &negative(no_low, -10_080), long()),
        bad("low 10,081, no high", &length(10_081, no_high), 14),
        bad("low 10,081, no high, out of reach", &negative(10_081, no_high), 14),
        bad("high 10,081, low 10,080", &length(10_080, 10_081), 14),
        bad("high 10,081, no low", &length(no_low, 10_081), 14),
        bad("low -10,081, no high", &length(-10_081, no_high), 14),
        bad("low -10,081, high -10,080", &negative(-10_081, -10_080), 14),
        bad("high -10,081, no low", &negative(no_low, -10_081), 14),
        bad("high -10,081, no low, out of reach", &length(no_low, -10_081), 14),
        bad("low -32,767", &length(-32_767, no_high), 14),
        bad("high 32,766", &length(no_low, 32_766), 14),
        bad("low 32,767", &length(no_high, no_high), 14),
        bad("high -32,768", &length(no_low, no_low), 14),
    ]
}

/// Jobs that set a goal each.
fn codes() -> Vec<Side> {
    let spec = |codes: &[u16]| {
        let jobs = codes.iter().enumerate().map(|(k, code)| Job::new(*code).sets(k));
        Spec::new(9, &vec![2; codes.len()], &jobs.collect::<Vec<_>>())
    };
    let with = |name, codes: &[u16]| {
        let rows: Vec<(u16, Vec<u16>)> = codes.iter().map(|code| (*code, vec![0])).collect();
        good(name, &spec(codes), list_of_rows(&rows))
    };
    vec![
        with("code 0", &[0]),
        with("code 65,535", &[65_535]),
        with("codes 0 and 65,535", &[0, 65_535]),
        with("codes 32,767 and 32,768", &[32_767, 32_768]),
        bad("codes 65,535 and 0", &spec(&[65_535, 0]), 12),
    ]
}

/// The largest sheet with its last row of a part changed.
fn last_rows() -> Vec<Side> {
    let changed = |name, change: &dyn Fn(&mut Bodies), due| {
        let mut bodies = largest().bodies();
        change(&mut bodies);
        Side { name, sheet: bodies.bytes(), due }
    };
    let with = |name, change: &dyn Fn(&mut Bodies), number| changed(name, change, Err(number));
    let again = |row: usize| move |b: &mut Bodies| b.bounds.copy_within(row..row + 6, 1_530);
    let bound =
        |row: [u8; 6]| move |bodies: &mut Bodies| bodies.bounds[1_530..].copy_from_slice(&row);
    let event =
        |row: [u8; 3]| move |bodies: &mut Bodies| bodies.events[765..].copy_from_slice(&row);
    vec![
        with("mark 4 of fact 63 alone", &|bodies| bodies.facts[66] = 4, 11),
        with("code of job 31 that of job 30", &|bodies| bodies.jobs[62] = 30, 12),
        with("event 255 of job 32", &event([32, 3, 63]), 13),
        with("event 255 of fact 64", &event([31, 3, 64]), 13),
        with("event 255 of type 4", &event([31, 4, 63]), 13),
        with("event 255 again event 254", &|b| b.events.copy_within(762..765, 765), 13),
        with("event 255 a begin alone", &event([31, 0, 63]), 13),
        with("bound 255 of event 255 to itself", &bound(bound_row(255, 255, 0, 0)), 14),
        with("bound 255 of two jobs", &bound(bound_row(255, 247, 0, 0)), 14),
        with("bound 255 with low above high", &bound(bound_row(255, 254, 1, 0)), 14),
        with("bound 255 with high 10,081", &bound(bound_row(255, 254, 0, 10_081)), 14),
        with("bound 255 again bound 253", &again(1_518), 14),
        changed("bound 255 again bound 254", &again(1_524), Ok(eight_each_list())),
    ]
}

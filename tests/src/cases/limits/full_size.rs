//! Small cases grown to the largest sheet and the longest list. What was there stands last: its facts end with fact 63, its
//! jobs with job 31, its entries with the 64th. All that is new comes before it and is idle.

use super::add_bounds;
use crate::build::{list_of_rows, sets, Act, Job, Spec};
use crate::cases::planner::{self, PlannerCase};
use crate::cases::{edition_2, plans, repeated, Case};
use crate::model::list::{self, Instance};
use crate::model::sheet::{self, Sheet, MAX_BOUNDS};

/// How many events the first new jobs have; the others share the rest. With these, 64 entries can have 512 times.
const FIRST: [usize; 3] = [0, 1, 16];

/// 2,461 bytes in edition 1; in edition 2 three more and two for each of 32 jobs.
pub fn largest_in(edition: u8) -> usize {
    if edition == 2 {
        2_528
    } else {
        2_461
    }
}

/// The cases of the planner, each with the same answer but for the numbers of facts and jobs.
pub fn planned() -> Vec<PlannerCase> {
    // Of each in two editions, one will do.
    let repeated = repeated::planned().into_iter();
    let repeated = repeated.filter(|case| case.sheet[0] == 2 && grows(&case.sheet));
    let all = planner::cases().into_iter().chain(edition_2::planned()).chain(repeated);
    all.map(|case| {
        let small = sheet::read(&case.sheet).expect("these sheets are well formed");
        let list = case.list.map(|list| {
            let plan = list::read(&small, &list).expect("these lists are well formed");
            list_of_rows(&rows(&small, &plan))
        });
        let detail = match case.number {
            20..=22 => case.detail + 64 - small.facts.len(),
            _ => case.detail,
        };
        PlannerCase { sheet: grown(&small).bytes(), detail, list, ..case }
    })
    .collect()
}

/// The cases of "What a plan is", each with the same answer.
pub fn judged() -> Vec<Case> {
    let mut cases = Vec::new();
    let repeated = repeated::judged().into_iter();
    let repeated = repeated.filter(|case| case.sheet[0] == 1 && grows(&case.sheet)).step_by(3);
    for case in plans::cases().into_iter().chain(edition_2::judged()).chain(repeated) {
        let small = sheet::read(&case.sheet).expect("these sheets are well formed");
        let plan = list::read(&small, &case.list).unwrap_or_default();
        if plan.len() <= 16 && plan.iter().any(|i| !i.times.is_empty()) {
            let sheet = grown(&small);
            let mut all = idle_rows(&sheet, &plan);
            all.extend(rows(&small, &plan));
            cases.push(Case::new(&case.name, sheet.bytes(), list_of_rows(&all), case.expected));
        }
    }
    cases
}

/// Whether it is a sheet with several bounds of some pair, and has not all its bounds yet.
fn grows(bytes: &[u8]) -> bool {
    sheet::read(bytes).is_ok_and(|sheet| sheet.repeats() && sheet.bounds.len() < MAX_BOUNDS)
}

/// The largest sheet that says the same.
fn grown(small: &Sheet) -> Spec {
    let old = Spec::of(small);
    let (facts, jobs) = (64 - old.marks.len(), 32 - old.jobs.len());
    let mut all: Vec<Job> = (0..jobs).map(|k| Job::new(k as u16)).collect();
    let shared = 256 - old.event_count() - FIRST.iter().sum::<usize>();
    for (k, job) in all.iter_mut().enumerate() {
        let others = jobs - FIRST.len();
        let share = |k| shared / others + usize::from(k < shared % others);
        let count = FIRST.get(k).copied().unwrap_or_else(|| share(k - FIRST.len()));
        job.acts = (0..count).map(sets).collect();
    }
    add_bounds(&mut all, 256, 256 - old.bound_count());
    all.extend(old.jobs.iter().enumerate().map(|(k, job)| moved(job, facts, code(small, k))));
    let marks = [vec![0; facts], old.marks].concat();
    Spec { edition: old.edition, ..Spec::new(old.horizon, &marks, &all) }
}

/// The job with its facts so much higher.
fn moved(job: &Job, more: usize, code: u16) -> Job {
    let act = |act: &Act| Act { fact: act.fact + more, ..*act };
    let acts = job.acts.iter().map(act).collect();
    let bounds = job.bounds.iter().map(|((e, d), limits)| ((act(e), act(d)), *limits));
    Job { code, release: job.release, acts, bounds: bounds.collect() }
}

/// The codes end with 65,535.
fn code(small: &Sheet, job: usize) -> u16 {
    (65_536 - small.codes.len() + job) as u16
}

fn rows(small: &Sheet, plan: &[Instance]) -> Vec<(u16, Vec<u16>)> {
    let times = |i: &Instance| i.times.iter().map(|&tick| tick as u16).collect();
    plan.iter().map(|i| (code(small, i.job), times(i))).collect()
}

/// As many new entries as make 64, with as many times as make 512.
fn idle_rows(sheet: &Spec, plan: &[Instance]) -> Vec<(u16, Vec<u16>)> {
    let times = 512 - plan.iter().map(|i| i.times.len()).sum::<usize>();
    let (long, short) = (times / 16, times % 16);
    let idle = 64 - plan.len() - long - short;
    let of = |count, job: u16| vec![(job, vec![sheet.horizon; FIRST[usize::from(job)]]); count];
    [of(idle, 0), of(short, 1), of(long, 2)].concat()
}

//! The planner's answers on sheets worked out by hand: P1 to P9, and readings of the class.

use super::examples::{p1, p5, p6, p6_entries, p9, P1_LIST, P5_LIST};
use crate::build::{begins, clears, ends, list_bytes, sets, Entry, Job, Spec};

/// A sheet with the planner's number and, by number, its detail or its list.
#[derive(Clone, Debug)]
pub struct PlannerCase {
    pub name: String,
    pub sheet: Vec<u8>,
    pub number: u8,
    pub detail: usize,
    pub list: Option<Vec<u8>>,
}

pub fn refused(name: &str, spec: &Spec, number: u8, detail: usize) -> PlannerCase {
    PlannerCase { name: name.to_string(), sheet: spec.bytes(), number, detail, list: None }
}

pub fn planned(name: &str, spec: &Spec, list: Vec<u8>) -> PlannerCase {
    let detail = list.len();
    PlannerCase { detail, list: Some(list), ..refused(name, spec, 0, 0) }
}

/// The job with all its events on one tick.
pub fn at_once(spec: &Spec, job: usize, tick: u16) -> Entry {
    let acts = spec.jobs[job].acts.iter();
    Entry { job, ticks: acts.map(|act| (*act, tick)).collect() }
}

pub fn cases() -> Vec<PlannerCase> {
    let mut cases = examples();
    cases.extend(no_own_times());
    cases.extend(class_rules());
    cases.extend(guards());
    cases.extend(gaps());
    cases.extend(one_job());
    cases.extend(cleared_first());
    cases.extend(no_plan());
    cases
}

fn examples() -> Vec<PlannerCase> {
    let p6_list = list_bytes(&p6(6, true), &p6_entries(6, true));
    vec![
        planned("P1", &p1(100), P1_LIST.to_vec()),
        planned("P2", &p1(9), P1_LIST.to_vec()),
        refused("P3", &p1(8), 1, 0),
        planned("P5", &p5(), P5_LIST.to_vec()),
        planned("P6", &p6(6, true), p6_list),
        refused("P7", &p6(5, true), 1, 0),
        refused("P8", &p6(6, false), 21, 1),
        refused("P9", &p9(), 21, 0),
    ]
}

/// Job 1 sets the goal; nobody wants job 2, whose need would take 4 ticks. With less room it is absent.
fn no_own_times() -> Vec<PlannerCase> {
    let spec = |horizon| {
        let idle = Job::new(2).needs(0).exactly(ends(0), begins(0), 4);
        Spec::new(horizon, &[1, 2], &[Job::new(1).sets(1), idle])
    };
    let goal = list_bytes(&spec(4), &[at_once(&spec(4), 0, 0)]);
    let mut two_setters = spec(3);
    two_setters.jobs[1] = two_setters.jobs[1].clone().sets(1);
    vec![
        planned("room for the unwanted job", &spec(4), goal.clone()),
        planned("no room for the unwanted job", &spec(3), goal.clone()),
        planned("no room for the second setter", &two_setters, goal),
    ]
}

fn class_rules() -> Vec<PlannerCase> {
    let two = |code| Job::new(code).sets(1);
    let first_rule = Spec::new(3, &[0, 2], &[two(1), two(2)]);
    let initial = Spec::new(3, &[0, 3], &[two(1), two(2)]);
    let mut both = p9();
    both.marks.push(2);
    both.jobs = both.jobs.into_iter().map(|job| job.sets(2)).collect();
    let setter = Job::new(1).sets(0).sets(2);
    let cleaner = Job::new(2).sets(1).clears(2);
    let third_rule = Spec::new(3, &[2, 2, 0], &[setter, cleaner]);
    let mut unset = third_rule.clone();
    unset.jobs[0].remove(sets(2));
    let unset_list = list_bytes(&unset, &[at_once(&unset, 0, 0), at_once(&unset, 1, 0)]);
    vec![
        refused("two setters of a goal", &first_rule, 20, 1),
        planned("two setters of an initial goal", &initial, P5_LIST.to_vec()),
        refused("20 for fact 2 before 21 for fact 0", &both, 20, 2),
        refused("unwanted fact in no order", &third_rule, 22, 2),
        planned("unwanted fact only cleared", &unset, unset_list),
    ]
}

/// Fact 1 is initial and nobody wants job 1, which sets it. Job 2 clears it. Only fact 0, which is
/// not wanted either, can put them in order: job 1 needs it up to `end` after the set.
fn guarded(horizon: u16, end: i16) -> Spec {
    let setter =
        Job::new(1).needs(0).sets(1).exactly(ends(0), begins(0), 0).exactly(ends(0), sets(1), end);
    let cleaner =
        Job::new(2).needs(1).clears(1).clears(0).sets(2).exactly(ends(1), begins(1), 0).exactly(
            clears(1),
            begins(1),
            0,
        );
    Spec::new(horizon, &[0, 1, 2], &[setter, cleaner])
}

/// The cleaner of `guarded`, with its clear of fact 0 at the same tick as that of fact 1.
fn cleaner_at_once(spec: &Spec) -> Spec {
    let mut spec = spec.clone();
    spec.jobs[1] =
        spec.jobs[1].clone().exactly(clears(0), begins(1), 0).exactly(sets(2), begins(1), 0);
    spec
}

/// The cleaner's ticks: all 0, and its set of the goal at `set`.
fn cleaner_list(spec: &Spec, set: u16) -> Vec<u8> {
    let mut entry = at_once(spec, 1, 0);
    entry.ticks.insert(sets(2), set);
    list_bytes(spec, &[entry])
}

fn guards() -> Vec<PlannerCase> {
    let equal = cleaner_at_once(&guarded(3, 0));
    let early = cleaner_at_once(&guarded(3, -1));
    let chain = guard_by_guard();
    let chain_list = list_bytes(&chain, &[0, 1, 2].map(|k| at_once(&chain, k, k as u16)));
    vec![
        planned("an unwanted fact orders", &equal, cleaner_list(&equal, 0)),
        refused("its need ends too soon", &early, 21, 1),
        planned("fact 2 by fact 1 by fact 0", &chain, chain_list),
    ]
}

/// Each of three jobs on one tick; fact 0 orders fact 1, which orders fact 2.
fn guard_by_guard() -> Spec {
    let step = |code, need, set| {
        Job::new(code).needs(need).sets(set).exactly(ends(need), begins(need), 0).exactly(
            sets(set),
            begins(need),
            0,
        )
    };
    let mut last = step(3, 2, 3).clears(0).clears(1).clears(2);
    for fact in 0..3 {
        last = last.exactly(clears(fact), begins(2), 0);
    }
    Spec::new(3, &[1, 0, 0, 2], &[step(1, 0, 1), step(2, 1, 2), last])
}

/// The greatest time(clears 0) − time(clears 1) must be 0 by the closure of the rules.
fn gaps() -> Vec<PlannerCase> {
    let mut chain = cleaner_at_once(&guarded(3, 0));
    chain.jobs[1] = chain.jobs[1].clone().bound(clears(0), clears(1), -3, 3);
    let mut stated = guarded(3, 0);
    stated.jobs[1] = stated.jobs[1].clone().bound(clears(0), clears(1), 0, 1);
    let window = tight_by_the_window;
    vec![
        planned("a chain tighter than the bound", &chain, cleaner_list(&chain, 0)),
        refused("a gap of one too many", &stated, 21, 1),
        planned("tight by the window", &window(3), cleaner_list(&window(3), 3)),
        refused("a window one longer", &window(4), 21, 1),
    ]
}

/// The cleaner of `guarded` sets the goal at least 3 ticks after it clears fact 0: in a window of 3 ticks its clears fall
/// on one tick.
pub fn tight_by_the_window(horizon: u16) -> Spec {
    let mut spec = guarded(horizon, 0);
    spec.jobs[1] = spec.jobs[1].clone().bound(sets(2), clears(0), 3, i16::MAX);
    spec
}

/// Job 1 needs and clears fact 0, and sets and clears fact 1.
fn one_job() -> Vec<PlannerCase> {
    let base = Job::new(1)
        .needs(0)
        .clears(0)
        .sets(1)
        .clears(1)
        .sets(2)
        .exactly(ends(0), begins(0), 0)
        .exactly(clears(0), begins(0), 0)
        .exactly(sets(2), begins(0), 0);
    let strict = base.clone().exactly(sets(1), begins(0), 0).bound(clears(1), sets(1), 0, 3);
    let strict = Spec::new(4, &[1, 0, 2], &[strict]);
    let mut entry = at_once(&strict, 0, 0);
    entry.ticks.insert(clears(1), 1);
    let strict_list = list_bytes(&strict, &[entry]);
    // Here −u ≤ 1 − u in every own time, but the greatest −u is more than the least 1 − u.
    let apart = base.exactly(clears(1), sets(1), 1).bound(clears(1), clears(0), 1, 3);
    let apart = Spec::new(4, &[1, 0, 2], &[apart]);
    vec![
        planned("set strictly before clear in one job", &strict, strict_list),
        refused("greatest and least taken apart", &apart, 22, 1),
    ]
}

/// Job 1 clears goal 0 while it needs fact 2; job 2 sets goal 0 and clears fact 2.
fn cleared_first() -> Vec<PlannerCase> {
    let spec = |end: i16| {
        let cleaner = Job::new(1)
            .clears(0)
            .sets(1)
            .needs(2)
            .exactly(ends(2), begins(2), 0)
            .exactly(ends(2), clears(0), end)
            .exactly(sets(1), clears(0), 0);
        let setter = Job::new(2).sets(0).clears(2).exactly(clears(2), sets(0), 0);
        Spec::new(4, &[2, 2, 1], &[cleaner, setter])
    };
    let in_turn = |spec: &Spec| list_bytes(spec, &[0, 1].map(|k| at_once(spec, k, k as u16)));
    // Nobody wants fact 0 now, nor job 3, which sets it in no order with job 1.
    let mut unwanted = spec(0);
    unwanted.marks = vec![0, 2, 1, 2];
    unwanted.jobs[1] = unwanted.jobs[1].clone().sets(3).exactly(sets(3), sets(0), 0);
    unwanted.jobs.push(Job::new(3).sets(0));
    vec![
        planned("goal cleared first", &spec(0), in_turn(&spec(0))),
        refused("its need ends one too soon", &spec(-1), 21, 0),
        planned("cleared first among wanted jobs", &unwanted, in_turn(&unwanted)),
    ]
}

fn no_plan() -> Vec<PlannerCase> {
    let mut goal_cleared = p6(6, true);
    goal_cleared.marks[1] = 2;
    vec![
        refused("goal cleared last", &goal_cleared, 1, 0),
        refused("goal that nobody sets", &Spec::new(3, &[2], &[]), 1, 0),
    ]
}

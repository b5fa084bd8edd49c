//! Jobs without own times, by hand: mostly P1 with a third job that is retired, each with the numbers of its absent jobs.

use super::examples::{p1, p5, p6, p6_entries, p9, P1_LIST, P5_LIST};
use super::planner::{self, PlannerCase};
use super::repeated::in_edition_2;
use super::Case;
use crate::build::{begins, clears, ends, list_bytes, list_of_rows, sets, Act, Job, Spec};
use crate::model::sheet::{self, Edition};
use crate::retire::{retired, Cause, STEP};

/// A case of the planner, and which of its jobs are absent.
#[derive(Clone, Debug)]
pub struct RetiredCase {
    pub case: PlannerCase,
    pub absent: Vec<usize>,
}

/// The case with a plan.
fn planned_case(name: &str, spec: &Spec, absent: &[usize], list: &[u8]) -> RetiredCase {
    let case = planner::planned(name, spec, list.to_vec());
    RetiredCase { case, absent: absent.to_vec() }
}

fn refused(name: &str, spec: &Spec, absent: &[usize], answer: (u8, usize)) -> RetiredCase {
    let case = planner::refused(name, spec, answer.0, answer.1);
    RetiredCase { case, absent: absent.to_vec() }
}

/// All cases for the planner, those of edition 1 also in edition 2.
pub fn cases() -> Vec<RetiredCase> {
    let mut cases = beside_a_successor();
    cases.extend(without_a_successor());
    cases.extend(p9_without_job_20());
    cases.extend(nobody_left());
    cases.extend(several());
    cases.extend(in_orders());
    cases.extend(in_marking());
    cases.extend(still_outside());
    cases.extend(just_present());
    let old = cases.iter().filter(|retired| retired.case.sheet[0] == 1);
    let again: Vec<RetiredCase> = old
        .map(|RetiredCase { case, absent }| {
            let sheet = in_edition_2(&case.sheet);
            RetiredCase { case: PlannerCase { sheet, ..case.clone() }, absent: absent.clone() }
        })
        .collect();
    [cases, again].concat()
}

pub fn planned() -> Vec<PlannerCase> {
    cases().into_iter().map(|retired| retired.case).collect()
}

/// Needs fact 0 and sets fact 1, as job 10 of P1 does, at any ticks.
fn third_setter(code: u16) -> Job {
    Job::new(code).needs(0).sets(1)
}

/// P1 with these jobs more, which come in the order of their codes.
fn p1_and(more: &[Job]) -> Spec {
    let mut spec = p1(100);
    spec.jobs.extend_from_slice(more);
    spec.jobs.sort_by_key(|job| job.code);
    spec
}

/// In edition 1, but for what that cannot say.
fn in_edition_of(cause: Cause, spec: Spec) -> Spec {
    if cause == Cause::Release {
        spec.with_gap(1)
    } else {
        spec
    }
}

/// P1 with a third job that sets fact 1 and is retired.
pub fn p1_and_retired(cause: Cause) -> Spec {
    p1_and_third(cause, 0)
}

/// The same, with rules so many ticks looser.
fn p1_and_third(cause: Cause, slack: i16) -> Spec {
    let mut spec = in_edition_of(cause, p1_and(&[third_setter(30)]));
    cause.put_on(&mut spec, 2, slack);
    spec
}

/// Planned as P1. With a tick more the third job could run: two jobs set fact 1.
fn beside_a_successor() -> Vec<RetiredCase> {
    let mut cases = Vec::new();
    for cause in Cause::ALL {
        let name = |what: &str| format!("P1, a third job {what} by {}", cause.name());
        let (gone, there) = (p1_and_third(cause, 0), p1_and_third(cause, 1));
        cases.push(planned_case(&name("retired"), &gone, &[2], &P1_LIST));
        cases.push(refused(&name("just not retired"), &there, &[], (20, 1)));
    }
    let before = retired(p1_and(&[third_setter(5)]), 0, Cause::Crossing);
    let between = retired(p1_and(&[third_setter(15)]), 1, Cause::Ring);
    let idle = retired(p1_and(&[Job::new(30).needs(0)]), 2, Cause::Need);
    cases.push(planned_case("P1, a retired job before the others", &before, &[0], &P1_LIST));
    cases.push(planned_case("P1, a retired job between the others", &between, &[1], &P1_LIST));
    cases.push(planned_case("P1, a retired job that nobody wants", &idle, &[2], &P1_LIST));
    cases
}

/// A wanted fact that only absent jobs set has no source.
fn without_a_successor() -> Vec<RetiredCase> {
    let mut cases = Vec::new();
    for cause in Cause::ALL {
        for (job, code) in [(0, 10), (1, 20)] {
            let spec = retired(in_edition_of(cause, p1(100)), job, cause);
            let name = format!("P1, job {code} retired by {}", cause.name());
            cases.push(refused(&name, &spec, &[job], (1, 0)));
        }
    }
    let both = retired(p1_and(&[third_setter(30)]), 0, Cause::Length);
    let both = retired(both, 2, Cause::Crossing);
    cases.push(refused("P1, both setters of fact 1 retired", &both, &[0, 2], (1, 0)));
    cases.push(refused("P1, H too short for job 10", &p1(4), &[0], (1, 0)));
    cases.push(refused("P1, H too short for both", &p1(2), &[0, 1], (1, 0)));
    cases
}

/// Fact 0 is shown cleared last then, and a wanted job clears it, a goal.
fn p9_without_job_20() -> Vec<RetiredCase> {
    let late = retired(p9().with_gap(1), 1, Cause::Release);
    let mut with_need = p9();
    with_need.jobs[1] = with_need.jobs[1].clone().needs(1);
    let crossing = retired(with_need.clone(), 1, Cause::Crossing);
    vec![
        refused("P9, job 20 retired by its release", &late, &[1], (1, 0)),
        refused("P9, job 20 retired by crossing bounds", &crossing, &[1], (1, 0)),
        refused("P9, job 20 with a need", &with_need, &[], (21, 0)),
    ]
}

fn nobody_left() -> Vec<RetiredCase> {
    let both = |spec: Spec| retired(retired(spec, 0, Cause::Crossing), 1, Cause::Ring);
    let initial = Spec { marks: vec![3, 0, 0], ..p1(100) };
    let short = Spec { horizon: 2, ..p5() };
    vec![
        planned_case("P5, all jobs retired", &both(p5()), &[0, 1], &P5_LIST),
        planned_case("P5, H too short for both", &short, &[0, 1], &P5_LIST),
        planned_case("all jobs retired, the goal initial", &both(initial), &[0, 1], &P5_LIST),
        refused("P1, all jobs retired", &both(p1(100)), &[0, 1], (1, 0)),
    ]
}

/// Of several absent jobs each is left out.
fn several() -> Vec<RetiredCase> {
    let two = p1_and(&[third_setter(30), third_setter(40)]);
    let two = retired(retired(two, 2, Cause::Ring), 3, Cause::Crossing);
    let around = p1_and(&[third_setter(5), Job::new(15).needs(1).sets(2), Job::new(40).needs(0)]);
    let around = retired(retired(around, 0, Cause::Length), 2, Cause::Need);
    let around = retired(around, 4, Cause::Ring);
    let second = p1_and(&[Job::new(5).needs(0), third_setter(30)]);
    let second = retired(retired(second, 0, Cause::Need), 3, Cause::Length);
    vec![
        planned_case("P1 and two retired setters", &two, &[2, 3], &P1_LIST),
        planned_case("P1 among three retired jobs", &around, &[0, 2, 4], &P1_LIST),
        planned_case("P1, the second retired job a setter", &second, &[0, 3], &P1_LIST),
    ]
}

/// The sheet with one job more, which does this and needs fact 0, and is retired.
fn and_retired(spec: &Spec, act: Act) -> (Spec, Vec<usize>) {
    let mut spec = spec.clone();
    let mut job = Job::new(60).needs(0);
    job.acts.insert(act);
    spec.jobs.push(job);
    let absent = spec.jobs.len() - 1;
    (retired(spec, absent, Cause::Crossing), vec![absent])
}

/// An absent setter in no order with a clear does not keep the fact from being shown cleared last.
fn in_orders() -> Vec<RetiredCase> {
    let user = Job::new(1).needs(0).clears(0).sets(1);
    let initial = Spec::new(9, &[1, 2], &[user]);
    let initial_list = list_of_rows(&[(1, vec![0, 0, 0, 0])]);
    let p6_list = list_bytes(&p6(6, true), &p6_entries(6, true));
    let by_hand = |name: &str| {
        let case = planner::cases().into_iter().find(|case| case.name == name);
        let case = case.expect("there is one");
        let spec = Spec::of(&sheet::read(&case.sheet).expect("it is well formed"));
        (spec, case.list.expect("it has a plan"))
    };
    let (guarded, guarded_list) = by_hand("an unwanted fact orders");
    let (unwanted, unwanted_list) = by_hand("set strictly before clear in one job");
    let mut cases = Vec::new();
    for (name, spec, act, list) in [
        ("a retired setter of an initial fact", &initial, sets(0), &initial_list),
        ("P6, a retired setter of fact 1", &p6(6, true), sets(1), &p6_list),
        ("a retired setter of a guard", &guarded, sets(0), &guarded_list),
        ("a retired setter of an unwanted fact", &unwanted, sets(1), &unwanted_list),
        ("P1, a retired job clears the goal", &p1(100), clears(2), &P1_LIST.to_vec()),
    ] {
        let (spec, absent) = and_retired(spec, act);
        cases.push(planned_case(name, &spec, &absent, list));
    }
    let mut present = initial.clone();
    present.jobs.push(Job::new(60).needs(0).sets(0));
    cases.push(refused("a setter of an initial fact, not retired", &present, &[], (21, 0)));
    cases
}

/// What a retired setter of fact 1 needs is not wanted: fact 3, which nobody sets, or two jobs, or which is in no order.
fn in_marking() -> Vec<RetiredCase> {
    let with = |more: &[Job]| {
        let retiring = third_setter(30).needs(3);
        let mut spec = p1_and(&[&[retiring], more].concat());
        spec.marks.push(0);
        retired(spec, 2, Cause::Crossing)
    };
    let setter = |code| Job::new(code).sets(3);
    let renewed = with(&[setter(40).clears(3)]);
    vec![
        planned_case("its need that nobody sets", &with(&[]), &[2], &P1_LIST),
        planned_case("its need that one job sets", &with(&[setter(40)]), &[2], &P1_LIST),
        planned_case(
            "its need that two jobs set",
            &with(&[setter(40), setter(50)]),
            &[2],
            &P1_LIST,
        ),
        planned_case("its need that is in no order", &renewed, &[2], &P1_LIST),
    ]
}

/// Retired jobs lead into the class only as far as they are to blame; facts keep their numbers.
fn still_outside() -> Vec<RetiredCase> {
    let three = retired(p1_and(&[third_setter(5), third_setter(30)]), 0, Cause::Ring);
    let (p8, p8_absent) = and_retired(&p6(6, false), sets(2));
    let rule_3 = planner::cases().into_iter().find(|case| case.number == 22).expect("there is one");
    let rule_3_spec = Spec::of(&sheet::read(&rule_3.sheet).expect("it is well formed"));
    let (third, third_absent) = and_retired(&rule_3_spec, sets(1));
    vec![
        refused("one of three setters retired", &three, &[0], (20, 1)),
        refused("P8 and a retired job", &p8, &p8_absent, (21, 1)),
        refused("rule 22 and a retired job", &third, &third_absent, (22, rule_3.detail)),
    ]
}

/// Jobs that are not absent: without events, and with own times that end at H.
fn just_present() -> Vec<RetiredCase> {
    let idle = p1_and(&[Job::new(30)]);
    let idle_late = p1_and(&[Job::new(30).not_before(65_535)]).with_gap(1);
    let alone = Spec::new(0, &[1], &[Job::new(7)]);
    let long = |horizon| {
        let job = Job::new(1).needs(0).sets(1).exactly(ends(0), begins(0), 9);
        Spec::new(horizon, &[1, 2], &[job.exactly(sets(1), ends(0), 0)])
    };
    let fits = list_of_rows(&[(1, vec![0, 9, 9])]);
    let at_0 = Spec::new(0, &[2], &[Job::new(1).sets(0)]);
    vec![
        planned_case("P1, a job without events", &idle, &[], &P1_LIST),
        planned_case("P1, a late job without events", &idle_late, &[], &P1_LIST),
        planned_case("a job without events, H 0", &alone, &[], &P5_LIST),
        planned_case("a need as long as H", &long(9), &[], &fits),
        refused("a need longer than H", &long(8), &[0], (1, 0)),
        planned_case("a set at tick 0, H 0", &at_0, &[], &list_of_rows(&[(1, vec![0])])),
    ]
}

/// The cases for the judge: a list with a retired job is no plan; without it the list is what it was.
pub fn judged() -> Vec<Case> {
    let mut cases = Vec::new();
    for cause in Cause::ALL {
        let mut add = |name: &str, spec: &Spec, list: Vec<u8>, number| {
            let name = format!("{name} by {}", cause.name());
            cases.push(Case::new(&name, spec.bytes(), list.clone(), number));
            if spec.edition == Edition::One {
                cases.push(Case::new(&name, in_edition_2(&spec.bytes()), list, number));
            }
        };
        let (gone, there) = (p1_and_third(cause, 0), p1_and_third(cause, 1));
        let rows = |third: [u16; 3]| {
            let p1 = [(10, vec![0, 5, 5]), (20, vec![6, 9, 9])];
            list_of_rows(&[p1.to_vec(), vec![(30, third.to_vec())]].concat())
        };
        let fits = rows(just_fit(cause));
        add("P1's list beside a job retired", &gone, P1_LIST.to_vec(), 0);
        add("list with a job retired", &gone, fits.clone(), 41);
        add("list with a job just not retired", &there, fits, 0);
        add("list with a job at tick 0, retired", &gone, rows([0; 3]), 41);
        let idle = Spec { marks: vec![1, 0, 0], ..gone };
        let alone = list_of_rows(&[(30, just_fit(cause).to_vec())]);
        add("list of nothing but a job retired", &idle, alone, 41);
    }
    cases
}

/// The ticks that the third job of P1 has if it is just not retired.
fn just_fit(cause: Cause) -> [u16; 3] {
    let step = STEP as u16;
    match cause {
        Cause::Crossing => [0, 1, 1],
        Cause::Ring => [0, step, 2 * step],
        Cause::Need => [0, 0, 0],
        Cause::Release => [100, 100, 100],
        Cause::Length => [0, 100, 100],
    }
}

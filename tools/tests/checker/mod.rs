//! Checks explanations as data. It shares no code with the explainer: sheets, own times, wanted facts and
//! orders are those of the model in ../tests.

#![allow(dead_code)]

mod faults;
mod form;
pub mod json;
mod walks;

use corrumai_tests::closure::Closure;
use corrumai_tests::model::list;
use corrumai_tests::model::sheet::{self, Bound, Kind, Sheet};
use corrumai_tests::planner_model::{own_times, Study};
use json::Value;
use std::cell::RefCell;
use std::collections::BTreeMap;
use std::rc::Rc;
use walks::Rules;

/// The greatest low and the least high of all bounds of this one's pair.
fn tightest(sheet: &Sheet, bound: &Bound) -> (Option<i32>, Option<i32>) {
    let pair = || sheet.bounds.iter().filter(|other| (other.e, other.d) == (bound.e, bound.d));
    (pair().filter_map(|other| other.low).max(), pair().filter_map(|other| other.high).min())
}

/// The kinds of reasons of a planner's explanation, each found to be true.
pub fn planner(bytes: &[u8], due: (u8, usize), list: &[u8], explained: &str) -> Vec<String> {
    let value = json::parse(explained);
    assert_eq!(value.get("asked").text(), "planner");
    assert!(value.get("checked").bool(), "{value:?}\n{bytes:02x?}");
    assert_eq!((value.get("answer").place(), value.get("detail").place()), (due.0.into(), due.1));
    let reasons = value.get("reasons").list();
    assert!(!reasons.is_empty());
    for reason in reasons {
        planner_reason(bytes, due, list, reason);
    }
    absent_jobs(bytes, value.get("absent").list());
    let absent = value.get("absent").list().iter().map(|absent| kind("absent", absent));
    reasons.iter().map(|reason| kind(reason.get("kind").text(), reason)).chain(absent).collect()
}

/// The name, with the kind of its walk if it has one; of a fact without a source, whether absent jobs set it.
fn kind(name: &str, value: &Value) -> String {
    match name {
        "no-times" | "absent" => format!("{name}, {}", value.get("walk").get("kind").text()),
        "no-source" if !value.get("absent").list().is_empty() => format!("{name}, absent"),
        _ => name.to_string(),
    }
}

/// The jobs without own times, each with rules that no times meet. Bytes that are no sheet have none.
fn absent_jobs(bytes: &[u8], absent: &[Value]) {
    let jobs: Vec<usize> = absent.iter().map(|absent| absent.get("job").place()).collect();
    let Ok(sheet) = sheet::read(bytes) else {
        return assert!(jobs.is_empty());
    };
    let all = 0..sheet.codes.len();
    let due: Vec<usize> = all.filter(|&job| own_times(&sheet, job).is_none()).collect();
    assert_eq!(jobs, due);
    for (job, absent) in jobs.into_iter().zip(absent) {
        Rules { sheet: &sheet, study: None, job: Some(job) }.forbid(absent.get("walk"));
    }
}

fn planner_reason(bytes: &[u8], (number, detail): (u8, usize), list: &[u8], reason: &Value) {
    if (10..=14).contains(&number) {
        assert_eq!(reason.get("kind").text(), "form");
        return form::sheet_fault(bytes, number.into(), reason);
    }
    let sheet = sheet::read(bytes).unwrap();
    let study = Study::of(&sheet);
    let claims = Claims { sheet: &sheet, study: &study, own: RefCell::default() };
    let rules = Rules { sheet: &sheet, study: Some(&study), job: None };
    match (number, reason.get("kind").text()) {
        (20, "two-setters") => claims.two_setters(detail, reason),
        (21 | 22, "no-order") => claims.no_order(number, detail, reason),
        (1, "no-source") => claims.no_source(reason),
        (1, "goal-cleared") => claims.goal_cleared(reason),
        (1, "no-times") => rules.forbid(reason.get("walk")),
        (0, "plan") => rules.plan(list, reason),
        (30, "too-long") => {
            assert_eq!(reason.get("length").place(), detail);
            assert!(reason.get("buffer").place() < detail);
        }
        (_, kind) => panic!("{kind} is no reason for {number}"),
    }
}

/// The kinds of faults of a judge's explanation, each found to be true.
pub fn judge(bytes: &[u8], list: &[u8], due: u8, explained: &str) -> Vec<String> {
    let value = json::parse(explained);
    assert_eq!(value.get("asked").text(), "judge");
    assert!(value.get("checked").bool(), "{value:?}\n{bytes:02x?}\n{list:02x?}");
    assert_eq!((value.get("answer").place(), value.get("detail").place()), (due.into(), 0));
    assert!(value.get("absent").some().is_none());
    let [reason] = value.get("reasons").list() else { panic!("{value:?}") };
    match due {
        10..=14 => form::sheet_fault(bytes, due.into(), reason),
        40 => {
            let sheet = sheet::read(bytes).unwrap();
            let events = |code: usize| {
                let job = sheet.codes.iter().position(|found| usize::from(*found) == code)?;
                Some(sheet.events_of(job).len())
            };
            form::list_fault(list, events, reason);
        }
        41 => {
            let sheet = sheet::read(bytes).unwrap();
            let plan = list::read(&sheet, list).unwrap();
            return faults::check(&sheet, &plan, reason);
        }
        _ => assert_eq!(reason.get("kind").text(), "yes"),
    }
    vec![reason.get("kind").text().to_string()]
}

struct Claims<'a> {
    sheet: &'a Sheet,
    study: &'a Study<'a>,
    /// The own times of jobs that were asked for.
    own: RefCell<BTreeMap<usize, Rc<Closure>>>,
}

impl Claims<'_> {
    fn own(&self, job: usize) -> Rc<Closure> {
        let closure = || Rc::new(own_times(self.sheet, job).unwrap());
        self.own.borrow_mut().entry(job).or_insert_with(closure).clone()
    }

    /// The jobs that have such an event, absent ones too.
    fn all_that(&self, kind: Kind, fact: usize) -> Vec<usize> {
        let jobs = 0..self.sheet.codes.len();
        jobs.filter(|&job| self.sheet.event(job, kind, fact).is_some()).collect()
    }

    fn jobs_that(&self, kind: Kind, fact: usize) -> Vec<usize> {
        let mut jobs = self.all_that(kind, fact);
        jobs.retain(|&job| own_times(self.sheet, job).is_some());
        jobs
    }

    fn places(value: &Value) -> Vec<usize> {
        value.list().iter().map(Value::place).collect()
    }

    /// The chain begins with a goal and goes through wanted jobs to the fact.
    fn wants(&self, fact: usize, wants: &Value) {
        assert!(self.study.wanted_facts[fact]);
        let mut before = None;
        for link in wants.list() {
            let here = link.get("fact").place();
            match link.get("needed_by").some() {
                None => assert!(before.is_none() && self.sheet.facts[here].goal),
                Some(job) => {
                    let (job, set) = (job.place(), link.get("which_sets").place());
                    assert_eq!(before, Some(set));
                    assert!(!self.sheet.facts[set].initial && self.study.wanted_jobs[job]);
                    assert!(self.sheet.event(job, Kind::Sets, set).is_some());
                    assert!(self.sheet.event(job, Kind::Begins, here).is_some());
                }
            }
            before = Some(here);
        }
        assert_eq!(before, Some(fact));
    }

    fn two_setters(&self, fact: usize, reason: &Value) {
        assert_eq!(reason.get("fact").place(), fact);
        let setters = Self::places(reason.get("setters"));
        assert_eq!(setters, self.jobs_that(Kind::Sets, fact));
        assert!(setters.len() > 1 && !self.sheet.facts[fact].initial);
        self.wants(fact, reason.get("wants"));
    }

    fn no_source(&self, reason: &Value) {
        let fact = reason.get("fact").place();
        assert!(!self.sheet.facts[fact].initial && self.jobs_that(Kind::Sets, fact).is_empty());
        assert_eq!(Self::places(reason.get("absent")), self.all_that(Kind::Sets, fact));
        self.wants(fact, reason.get("wants"));
    }

    fn goal_cleared(&self, reason: &Value) {
        let fact = reason.get("fact").place();
        assert!(self.sheet.facts[fact].goal && self.study.cleared_last[fact]);
        let mut clearers = self.jobs_that(Kind::Clears, fact);
        clearers.retain(|&job| self.study.wanted_jobs[job]);
        assert_eq!(Self::places(reason.get("jobs")), clearers);
        assert!(!clearers.is_empty());
    }

    fn no_order(&self, number: u8, fact: usize, reason: &Value) {
        assert_eq!(reason.get("fact").place(), fact);
        let initial = self.sheet.facts[fact].initial;
        let orders: Vec<&str> =
            reason.get("orders").list().iter().map(|order| order.get("order").text()).collect();
        if number == 21 {
            self.wants(fact, reason.get("wants"));
            let due: &[&str] = &["cleared-last", "cleared-first"];
            assert_eq!(orders, if initial { &due[..1] } else { due });
        } else {
            assert!(!self.study.wanted_facts[fact]);
            assert_eq!(orders, ["cleared-last", "cleared-first"]);
        }
        for order in reason.get("orders").list() {
            self.unguarded(fact, order);
        }
    }

    /// The pair exists, counts for the order, and no fact guards it.
    fn unguarded(&self, fact: usize, order: &Value) {
        let (set, clear) = (order.get("set").place(), order.get("clear").place());
        let last = order.get("order").text() == "cleared-last";
        let shown = if last { &self.study.cleared_last } else { &self.study.cleared_first };
        assert!(!shown[fact]);
        assert!(self.jobs_that(Kind::Sets, fact).contains(&set));
        assert!(self.jobs_that(Kind::Clears, fact).contains(&clear));
        assert!(self.study.wanted_jobs[clear] && (last || self.study.wanted_jobs[set]));
        let candidates = order.get("candidates").list();
        assert_eq!(candidates.len(), self.sheet.facts.len());
        for (guard, candidate) in candidates.iter().enumerate() {
            assert_eq!(candidate.get("fact").place(), guard);
            let (early, late) = if last {
                ((set, Kind::Sets), (clear, Kind::Clears))
            } else {
                ((clear, Kind::Clears), (set, Kind::Sets))
            };
            self.candidate(fact, guard, early, late, candidate);
        }
    }

    fn candidate(
        &self,
        fact: usize,
        guard: usize,
        early: (usize, Kind),
        late: (usize, Kind),
        candidate: &Value,
    ) {
        let place = |job: usize, kind: Kind, fact: usize| {
            let event = self.sheet.event(job, kind, fact)?;
            self.sheet.events_of(job).iter().position(|k| *k == event)
        };
        let least = place(early.0, Kind::Ends, guard)
            .map(|end| self.own(early.0).least(end, place(early.0, early.1, fact).unwrap()));
        let greatest = place(late.0, Kind::Clears, guard)
            .map(|clear| self.own(late.0).greatest(clear, place(late.0, late.1, fact).unwrap()));
        let number = |name: &str| candidate.get(name).some().map(|value| value.number() as i32);
        assert_eq!((number("least"), number("greatest")), (least, greatest));
        assert_eq!(candidate.get("needed").bool(), least.is_some());
        assert_eq!(candidate.get("cleared").bool(), greatest.is_some());
        assert_eq!(candidate.get("shown").bool(), self.study.cleared_last[guard]);
        let excess = greatest.and_then(|greatest| Some((greatest - least?).max(0)));
        assert_eq!(number("excess"), excess);
        assert!(!self.study.cleared_last[guard] || excess != Some(0), "a guard");
    }
}

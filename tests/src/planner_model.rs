//! An independent planner, written from document 01's "Wanted facts and jobs", "Which order is shown"
//! and "The class, and when there is no plan", and from document 02 for releases, the gap and retired jobs: a job without
//! own times is absent.

use crate::build::list_of_rows;
use crate::closure::{Closure, Rules};
use crate::model::plan::{Distances, DISTANCES};
use crate::model::sheet::{self, Bound, Kind, Sheet};
use crate::wanted::Wanted;

/// The planner's answer before it looks at the buffer.
#[derive(Clone, Debug, PartialEq, Eq)]
pub enum Verdict {
    /// Number and detail: 10 to 14 and 20 to 22.
    Refused(u8, usize),
    NoPlan(NoPlan),
    /// The least list.
    Plan(Vec<u8>),
}

/// The reasons for "no plan"; at least one holds.
#[derive(Clone, Copy, Debug, PartialEq, Eq)]
pub struct NoPlan {
    /// No ticks up to H meet the list rules.
    pub no_ticks: bool,
    /// A wanted fact is neither initial nor set by any present job.
    pub no_source: bool,
    /// A wanted job clears a goal shown cleared last.
    pub goal_cleared: bool,
}

/// The planner's number and detail; a plan goes to the front of the buffer.
pub fn plan(sheet: &[u8], buffer: &mut [u8]) -> (u8, usize) {
    match verdict(sheet) {
        Verdict::Refused(number, detail) => (number, detail),
        Verdict::NoPlan(_) => (1, 0),
        Verdict::Plan(list) if list.len() > buffer.len() => (30, list.len()),
        Verdict::Plan(list) => {
            buffer[..list.len()].copy_from_slice(&list);
            (0, list.len())
        }
    }
}

pub fn verdict(bytes: &[u8]) -> Verdict {
    match sheet::read(bytes) {
        Ok(sheet) => verdict_on(&sheet, RIGHT),
        Err(number) => Verdict::Refused(number, 0),
    }
}

/// One thing that a planner has to look at.
#[derive(Clone, Copy, Debug, PartialEq, Eq)]
pub enum Look {
    /// Whether the job has own times.
    OwnTimes { job: usize },
    /// That the job is absent, in this part of the work.
    Absent { part: Part, job: usize },
    /// That own times, by which orders are shown, start with the job's release.
    Release { job: usize },
    /// That they meet every bound of a pair of events, and not the first alone.
    LaterBounds { job: usize },
    /// Whether the fact orders others.
    Guard { fact: usize },
    /// Whether the fact breaks class rule 20, 21 or 22.
    ClassRule { number: u8, fact: usize },
    /// Whether the wanted fact has no source.
    Source { fact: usize },
    /// Whether the goal, shown cleared last, is cleared.
    Goal { fact: usize },
    /// The one kind of event of the fact before the other.
    Order { one: Kind, other: Kind, fact: usize },
}

/// Where an absent job is left out.
#[derive(Clone, Copy, Debug, PartialEq, Eq)]
pub enum Part {
    /// What it needs is not wanted through it.
    Marking,
    /// Nor is it wanted itself.
    WantedJobs,
    ClearedLast,
    /// Class rule 20.
    Setters,
    /// What has no source.
    Source,
    /// Its own rules are none of the list rules.
    ListRules,
}

/// How a planner goes about it. Tests make wrong planners, which mark something else or overlook something.
#[derive(Clone, Copy)]
pub struct Manner {
    /// Which jobs are present, from which of them have own times.
    pub present: fn(&Sheet, Vec<bool>) -> Vec<bool>,
    pub mark: fn(&Sheet) -> Wanted,
    pub sees: fn(Look) -> bool,
    pub distances: Distances,
}

pub const RIGHT: Manner = Manner {
    present: |_, have_own_times| have_own_times,
    mark: Wanted::of,
    sees: |_| true,
    distances: DISTANCES,
};

pub fn verdict_on(sheet: &Sheet, manner: Manner) -> Verdict {
    let study = Study::by(sheet, manner);
    if let Some((number, fact)) = study.class() {
        return Verdict::Refused(number, fact);
    }
    let ticks = study.least_ticks();
    let reasons = NoPlan {
        no_ticks: ticks.is_none(),
        no_source: study.lacks_source(),
        goal_cleared: study.clears_goal(),
    };
    match ticks {
        Some(ticks) if !reasons.no_source && !reasons.goal_cleared => {
            Verdict::Plan(study.list(&ticks))
        }
        _ => Verdict::NoPlan(reasons),
    }
}

/// The closed rules of a job's own times; none if it has no own times.
pub fn own_times(sheet: &Sheet, job: usize) -> Option<Closure> {
    own_times_by(sheet, job, RIGHT.sees)
}

/// The jobs without own times.
pub fn absent_jobs(sheet: &Sheet) -> Vec<usize> {
    (0..sheet.codes.len()).filter(|&job| own_times(sheet, job).is_none()).collect()
}

fn own_times_by(sheet: &Sheet, job: usize, sees: fn(Look) -> bool) -> Option<Closure> {
    let events = sheet.events_of(job);
    let mut rules = Rules::new(events.len(), sheet.horizon);
    let place = |event: usize| events.iter().position(|k| *k == event).unwrap();
    if sees(Look::Release { job }) {
        add_release(sheet, job, &place, &mut rules);
    }
    let mut bounds: Vec<&Bound> = sheet.bounds_of(job).collect();
    if !sees(Look::LaterBounds { job }) {
        bounds.dedup_by_key(|bound| (bound.e, bound.d));
    }
    add_bounds(&bounds, &place, &mut rules);
    add_needs(sheet, job, sees, &place, &mut rules);
    rules.close()
}

/// No event of the job before its release.
fn add_release(sheet: &Sheet, job: usize, place: &dyn Fn(usize) -> usize, rules: &mut Rules) {
    for event in sheet.events_of(job) {
        rules.not_before(place(event), sheet.releases[job]);
    }
}

/// All of these bounds, with `place` giving the place of an event among the ticks.
fn add_bounds(bounds: &[&Bound], place: &dyn Fn(usize) -> usize, rules: &mut Rules) {
    for bound in bounds {
        let (e, d) = (place(bound.e), place(bound.d));
        if let Some(high) = bound.high {
            rules.at_most(e, d, high);
        }
        if let Some(low) = bound.low {
            rules.at_most(d, e, -low);
        }
    }
}

/// The needs of one job, with `place` as above.
fn add_needs(
    sheet: &Sheet,
    job: usize,
    sees: fn(Look) -> bool,
    place: &dyn Fn(usize) -> usize,
    rules: &mut Rules,
) {
    let order = |fact| Look::Order { one: Kind::Begins, other: Kind::Ends, fact };
    for fact in (0..sheet.facts.len()).filter(|&fact| sees(order(fact))) {
        let begin = sheet.event(job, Kind::Begins, fact);
        let end = sheet.event(job, Kind::Ends, fact);
        if let (Some(begin), Some(end)) = (begin, end) {
            rules.before(place(begin), place(end), 0);
        }
    }
}

/// The events of these jobs alone, to be marked. They have other numbers now: the bounds would not fit.
fn events_of_jobs(sheet: &Sheet, jobs: &[bool]) -> Sheet {
    let mut less = sheet.clone();
    less.events.retain(|event| jobs[event.job]);
    less.bounds.clear();
    less
}

/// What the class test and the planner look at.
pub struct Study<'a> {
    sheet: &'a Sheet,
    sees: fn(Look) -> bool,
    distances: Distances,
    /// None for a job without own times.
    own: Vec<Option<Closure>>,
    pub present: Vec<bool>,
    pub wanted_facts: Vec<bool>,
    pub wanted_jobs: Vec<bool>,
    pub cleared_last: Vec<bool>,
    pub cleared_first: Vec<bool>,
}

impl<'a> Study<'a> {
    pub fn of(sheet: &'a Sheet) -> Study<'a> {
        Study::by(sheet, RIGHT)
    }

    pub fn by(sheet: &'a Sheet, manner: Manner) -> Study<'a> {
        let (jobs, facts) = (0..sheet.codes.len(), sheet.facts.len());
        let own: Vec<Option<Closure>> =
            jobs.clone().map(|job| own_times_by(sheet, job, manner.sees)).collect();
        let lacks = |job: usize| own[job].is_none() && (manner.sees)(Look::OwnTimes { job });
        let present = (manner.present)(sheet, jobs.clone().map(|job| !lacks(job)).collect());
        let there = |part| {
            let jobs = jobs.clone();
            jobs.map(|job| is_there(present[job], part, job, manner.sees)).collect::<Vec<bool>>()
        };
        let mut wanted = (manner.mark)(&events_of_jobs(sheet, &there(Part::Marking)));
        let all = wanted.jobs.iter_mut().zip(there(Part::WantedJobs));
        all.for_each(|(wanted, there)| *wanted &= there);
        let mut study = Study {
            sheet,
            sees: manner.sees,
            distances: manner.distances,
            own,
            present,
            wanted_facts: wanted.facts,
            wanted_jobs: wanted.jobs,
            cleared_last: vec![false; facts],
            cleared_first: vec![false; facts],
        };
        while study.show_more_cleared_last() {}
        study.show_cleared_first();
        study
    }

    fn does(&self, job: usize, kind: Kind, fact: usize) -> bool {
        self.sheet.event(job, kind, fact).is_some()
    }

    fn jobs(&self) -> std::ops::Range<usize> {
        0..self.sheet.codes.len()
    }

    /// The present jobs, in this part of the work.
    fn jobs_that(&self, part: Part, kind: Kind, fact: usize) -> Vec<usize> {
        let there = |job: usize| is_there(self.present[job], part, job, self.sees);
        self.jobs().filter(|&job| there(job) && self.does(job, kind, fact)).collect()
    }

    /// Whether it is absent and sets a wanted fact that is not initial.
    pub fn would_be_wanted(&self, job: usize) -> bool {
        let asked = |fact: usize| self.wanted_facts[fact] && !self.sheet.facts[fact].initial;
        !self.present[job]
            && self.facts().any(|fact| asked(fact) && self.does(job, Kind::Sets, fact))
    }

    fn wanted_that(&self, kind: Kind, fact: usize) -> Vec<usize> {
        self.jobs().filter(|&job| self.wanted_jobs[job] && self.does(job, kind, fact)).collect()
    }

    fn facts(&self) -> std::ops::Range<usize> {
        0..self.sheet.facts.len()
    }

    /// The place of an event among its job's own times.
    fn place(&self, job: usize, kind: Kind, fact: usize) -> Option<usize> {
        let event = self.sheet.event(job, kind, fact)?;
        let events = self.sheet.events_of(job);
        events.iter().position(|k| *k == event)
    }

    /// Greatest time(job clears p) − time(its event of this kind and fact), if it clears p.
    fn clears_after(&self, job: usize, p: usize, kind: Kind, fact: usize) -> Option<i32> {
        let clear = self.place(job, Kind::Clears, p)?;
        Some(self.own[job].as_ref()?.greatest(clear, self.place(job, kind, fact)?))
    }

    /// Least time(job's need of p ends) − time(its event of this kind and fact), if it needs p.
    fn needs_after(&self, job: usize, p: usize, kind: Kind, fact: usize) -> Option<i32> {
        let end = self.place(job, Kind::Ends, p)?;
        Some(self.own[job].as_ref()?.least(end, self.place(job, kind, fact)?))
    }

    /// The facts shown cleared last.
    fn guards(&self) -> impl Iterator<Item = usize> + '_ {
        self.facts().filter(|&fact| self.cleared_last[fact] && (self.sees)(Look::Guard { fact }))
    }

    /// Some p, shown cleared last, puts the set of s before the clear of a.
    fn sets_before_clear(&self, s: usize, a: usize, fact: usize) -> bool {
        self.guards().any(|p| {
            let clear = self.clears_after(a, p, Kind::Clears, fact);
            let need = self.needs_after(s, p, Kind::Sets, fact);
            clear.is_some_and(|clear| need.is_some_and(|need| clear <= need))
        })
    }

    /// Some p, shown cleared last, puts the clear of a before the set of s.
    fn clears_before_set(&self, s: usize, a: usize, fact: usize) -> bool {
        self.guards().any(|p| {
            let clear = self.clears_after(s, p, Kind::Sets, fact);
            let need = self.needs_after(a, p, Kind::Clears, fact);
            clear.is_some_and(|clear| need.is_some_and(|need| clear <= need))
        })
    }

    /// One round of *cleared last*; true if something was shown.
    fn show_more_cleared_last(&mut self) -> bool {
        let setters = |fact| self.jobs_that(Part::ClearedLast, Kind::Sets, fact);
        let cleaners = |fact| self.wanted_that(Kind::Clears, fact);
        let shown = self.facts().filter(|&fact| !self.cleared_last[fact]);
        let shown: Vec<usize> = shown
            .filter(|&fact| {
                let ordered = |s, a| self.sets_before_clear(s, a, fact);
                every_pair(&setters(fact), &cleaners(fact), &ordered)
            })
            .collect();
        for &fact in &shown {
            self.cleared_last[fact] = true;
        }
        !shown.is_empty()
    }

    fn show_cleared_first(&mut self) {
        for fact in self.facts() {
            let setters = self.wanted_that(Kind::Sets, fact);
            let cleaners = self.wanted_that(Kind::Clears, fact);
            let ordered = |s, a| self.clears_before_set(s, a, fact);
            self.cleared_first[fact] = every_pair(&setters, &cleaners, &ordered);
        }
    }

    /// The first class rule that is broken, as number and lowest fact.
    fn class(&self) -> Option<(u8, usize)> {
        let rule_1 = |fact: &usize| {
            let setters = self.jobs_that(Part::Setters, Kind::Sets, *fact);
            self.wanted_facts[*fact] && !self.sheet.facts[*fact].initial && setters.len() >= 2
        };
        let neither = |fact: usize| !self.cleared_last[fact] && !self.cleared_first[fact];
        let rule_2 = |fact: &usize| {
            let initial = self.sheet.facts[*fact].initial;
            self.wanted_facts[*fact] && (neither(*fact) || initial && !self.cleared_last[*fact])
        };
        let rule_3 = |fact: &usize| {
            let set = !self.wanted_that(Kind::Sets, *fact).is_empty();
            let cleared = !self.wanted_that(Kind::Clears, *fact).is_empty();
            !self.wanted_facts[*fact] && set && cleared && neither(*fact)
        };
        let broken = |number: u8, rule: &dyn Fn(&usize) -> bool| {
            let seen = |fact: &usize| (self.sees)(Look::ClassRule { number, fact: *fact });
            self.facts().filter(seen).find(rule).map(|fact| (number, fact))
        };
        broken(20, &rule_1).or_else(|| broken(21, &rule_2)).or_else(|| broken(22, &rule_3))
    }

    fn lacks_source(&self) -> bool {
        self.facts().filter(|&fact| (self.sees)(Look::Source { fact })).any(|fact| {
            let setters = self.jobs_that(Part::Source, Kind::Sets, fact);
            self.wanted_facts[fact] && !self.sheet.facts[fact].initial && setters.is_empty()
        })
    }

    fn clears_goal(&self) -> bool {
        self.facts().filter(|&fact| (self.sees)(Look::Goal { fact })).any(|fact| {
            let cleared = !self.wanted_that(Kind::Clears, fact).is_empty();
            self.sheet.facts[fact].goal && self.cleared_last[fact] && cleared
        })
    }

    /// The least ticks that meet the list rules, for every event of the sheet.
    fn least_ticks(&self) -> Option<Vec<i32>> {
        let count = self.sheet.events.len();
        let mut rules = Rules::new(count, self.sheet.horizon);
        let part = Part::ListRules;
        let left_in = |job: usize| !self.present[job] && !(self.sees)(Look::Absent { part, job });
        for job in self.jobs().filter(|&job| self.wanted_jobs[job] || left_in(job)) {
            add_release(self.sheet, job, &|event| event, &mut rules);
            let bounds: Vec<&Bound> = self.sheet.bounds_of(job).collect();
            add_bounds(&bounds, &|event| event, &mut rules);
            add_needs(self.sheet, job, self.sees, &|event| event, &mut rules);
        }
        for fact in self.facts() {
            self.add_list_rules(fact, &mut rules);
        }
        let closure = rules.close()?;
        Some((0..count).map(|event| closure.least_tick(event)).collect())
    }

    fn add_list_rules(&self, fact: usize, rules: &mut Rules) {
        use Kind::{Begins, Clears, Ends, Sets};
        let (sheet, distances) = (self.sheet, self.distances);
        let to_need = |same| (distances.to_need)(sheet, same);
        let to_clear = |same| (distances.to_clear)(sheet, same);
        let apart = |_| (distances.apart)(sheet);
        if self.wanted_facts[fact] && !sheet.facts[fact].initial {
            self.add_order(fact, Sets, Begins, &to_need, rules);
        }
        if sheet.facts[fact].initial {
            for job in self.wanted_that(Begins, fact) {
                let begin = sheet.event(job, Begins, fact).unwrap();
                rules.not_before(begin, (distances.from_start)(sheet));
            }
        }
        if self.cleared_last[fact] {
            self.add_order(fact, Sets, Clears, &apart, rules);
            self.add_order(fact, Ends, Clears, &to_clear, rules);
        }
        if self.cleared_first[fact] {
            self.add_order(fact, Clears, Sets, &apart, rules);
        }
    }

    /// For wanted jobs: the one kind so many ticks before the other, by whether one job has both.
    fn add_order(
        &self,
        fact: usize,
        one: Kind,
        other: Kind,
        ticks: &dyn Fn(bool) -> i32,
        rules: &mut Rules,
    ) {
        if !(self.sees)(Look::Order { one, other, fact }) {
            return;
        }
        for x in self.wanted_that(one, fact) {
            for y in self.wanted_that(other, fact) {
                let first = self.sheet.event(x, one, fact).unwrap();
                let second = self.sheet.event(y, other, fact).unwrap();
                rules.before(first, second, ticks(x == y));
            }
        }
    }

    /// One entry for each wanted job, by rising code.
    fn list(&self, ticks: &[i32]) -> Vec<u8> {
        let wanted = self.jobs().filter(|&job| self.wanted_jobs[job]);
        let rows: Vec<(u16, Vec<u16>)> = wanted
            .map(|job| {
                let events = self.sheet.events_of(job);
                let times = events.iter().map(|&event| ticks[event] as u16).collect();
                (self.sheet.codes[job], times)
            })
            .collect();
        list_of_rows(&rows)
    }
}

/// The job counts in this part of the work: it is present, or that it is absent was overlooked.
fn is_there(present: bool, part: Part, job: usize, sees: fn(Look) -> bool) -> bool {
    present || !sees(Look::Absent { part, job })
}

fn every_pair(some: &[usize], others: &[usize], holds: &dyn Fn(usize, usize) -> bool) -> bool {
    some.iter().all(|&s| others.iter().all(|&a| holds(s, a)))
}

#[cfg(test)]
mod tests {
    use super::*;
    use crate::cases;
    use crate::cases::examples::{p1, P1_LIST};

    #[test]
    fn every_case_worked_out_by_hand() {
        for case in cases::planned().into_iter().chain(cases::edition_2::planned_with_every_gap()) {
            let mut buffer = vec![7; 100];
            let answer = plan(&case.sheet, &mut buffer);
            assert_eq!(answer, (case.number, case.detail), "{}", case.name);
            let mut expected = case.list.unwrap_or_default();
            expected.resize(100, 7);
            assert_eq!(buffer, expected, "{}", case.name);
        }
    }

    #[test]
    fn p4_needs_24_bytes() {
        let mut buffer = [7; 24];
        assert_eq!(plan(&p1(100).bytes(), &mut buffer[..23]), (30, 24));
        assert_eq!(buffer, [7; 24]);
        assert_eq!(plan(&p1(100).bytes(), &mut buffer), (0, 24));
        assert_eq!(buffer, P1_LIST);
    }
}

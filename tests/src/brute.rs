//! A brute-force planner for tiny sheets, from "What a plan is", with releases and gap, and "The least list" alone.
//!
//! It looks for plans among the sets of distinct instances with own times. No plan is missed by
//! that: of two equal entries of a plan one can be dropped, since whatever it set the other sets on
//! the same tick, and a need that took the dropped one's set has its own or the other's instead. All jobs are looked at;
//! one that has no own times has no instance, and is absent.

use crate::model::list::Instance;
use crate::model::plan::is_plan;
use crate::model::sheet::{Kind, Sheet};

/// For each wanted job its code and, for each of its events, the least tick in any plan.
pub type Rows = Vec<(u16, Vec<Option<i32>>)>;

/// A plan of one entry for each job in the form of `least_list`.
pub fn rows(sheet: &Sheet, plan: &[Instance]) -> Rows {
    let ticks = |i: &Instance| i.times.iter().copied().map(Some).collect();
    plan.iter().map(|i| (sheet.codes[i.job], ticks(i))).collect()
}

/// The plan is the least list, or there is none, if the sheet has no more than so many instances. Gives whether it has.
pub fn compare(sheet: &Sheet, plan: Option<&[Instance]>, most: usize) -> bool {
    let Some(instances) = instances(sheet, most) else {
        return false;
    };
    let due = plan.map(|plan| rows(sheet, plan));
    assert_eq!(due, least_list(sheet, &instances), "planner (left) and brute force\n{sheet:?}");
    true
}

/// The least list; none if there is no plan.
pub fn least_list(sheet: &Sheet, instances: &[Instance]) -> Option<Rows> {
    let possible = in_some_plan(sheet, instances)?;
    let in_plans = |job: usize| {
        let all = instances.iter().zip(&possible);
        all.filter(move |(i, possible)| **possible && i.job == job)
    };
    let least = |job: usize, place: usize| in_plans(job).map(|(i, _)| i.times[place]).min();
    let rows = wanted_jobs(sheet, instances).into_iter().map(|job| {
        let places = 0..sheet.events_of(job).len();
        let ticks = places.map(|place| least(job, place)).collect();
        (sheet.codes[job], ticks)
    });
    Some(rows.collect())
}

/// Which instances stand in some plan; none if there is no plan.
pub fn in_some_plan(sheet: &Sheet, instances: &[Instance]) -> Option<Vec<bool>> {
    let mut possible = vec![false; instances.len()];
    let mut search = Search::new(sheet, instances);
    let first = search.extend(Vec::new())?;
    let mut found = vec![first];
    for start in 0..instances.len() {
        if !found.iter().any(|plan| plan.contains(&start)) {
            found.extend(search.extend(vec![start]));
        }
    }
    for plan in found {
        let entries: Vec<Instance> = plan.iter().map(|&k| instances[k].clone()).collect();
        assert!(is_plan(sheet, &entries), "the search took no plan for one");
        plan.iter().for_each(|&k| possible[k] = true);
    }
    Some(possible)
}

/// Which instances stand in some plan, by trying every list with each of them up to `copies` times.
pub fn in_some_list(sheet: &Sheet, instances: &[Instance], copies: usize) -> Option<Vec<bool>> {
    let mut possible = vec![false; instances.len()];
    let mut any = false;
    for number in 0..(copies + 1).pow(instances.len() as u32) {
        let counts = digits(number, copies + 1, instances.len());
        let entries: Vec<Instance> = counts
            .iter()
            .zip(instances)
            .flat_map(|(&count, instance)| vec![instance.clone(); count])
            .collect();
        if is_plan(sheet, &entries) {
            any = true;
            for (possible, count) in possible.iter_mut().zip(&counts) {
                *possible |= *count > 0;
            }
        }
    }
    any.then_some(possible)
}

fn digits(mut number: usize, base: usize, count: usize) -> Vec<usize> {
    let mut digits = Vec::new();
    for _ in 0..count {
        digits.push(number % base);
        number /= base;
    }
    digits
}

/// Every instance of every job that has own times; none if there are more than `most`.
pub fn instances(sheet: &Sheet, most: usize) -> Option<Vec<Instance>> {
    let mut all = Vec::new();
    for job in 0..sheet.codes.len() {
        let times = own_times(sheet, job, most)?;
        all.extend(times.into_iter().map(|times| Instance { job, times }));
    }
    (all.len() <= most).then_some(all)
}

/// All own times of the job, event after event; none if they become too many on the way.
pub fn own_times(sheet: &Sheet, job: usize, most: usize) -> Option<Vec<Vec<i32>>> {
    let limits = limits(sheet, job);
    let mut all = vec![Vec::new()];
    for _ in sheet.events_of(job) {
        let mut longer = Vec::new();
        for times in &all {
            for tick in sheet.releases[job]..=sheet.horizon {
                let mut times: Vec<i32> = times.clone();
                times.push(tick);
                if limits.iter().all(|limit| limit.allows(&times)) {
                    longer.push(times);
                }
            }
        }
        if longer.len() > 20 * most {
            return None;
        }
        all = longer;
    }
    Some(all)
}

/// time(one) ≤ time(other) + gap, for two places among a job's events.
struct Limit {
    one: usize,
    other: usize,
    gap: i32,
}

impl Limit {
    /// A limit between events that have no time yet allows everything.
    fn allows(&self, times: &[i32]) -> bool {
        match (times.get(self.one), times.get(self.other)) {
            (Some(one), Some(other)) => *one <= other + self.gap,
            _ => true,
        }
    }
}

/// Point 1 for one job.
fn limits(sheet: &Sheet, job: usize) -> Vec<Limit> {
    let events = sheet.events_of(job);
    let place = |event: usize| events.iter().position(|k| *k == event).unwrap();
    let mut limits = Vec::new();
    let mut add = |one, other, gap| limits.push(Limit { one, other, gap });
    for bound in sheet.bounds.iter().filter(|b| events.contains(&b.e)) {
        let (e, d) = (place(bound.e), place(bound.d));
        bound.high.into_iter().for_each(|high| add(e, d, high));
        bound.low.into_iter().for_each(|low| add(d, e, -low));
    }
    // The end of a need stands next to its begin.
    for (place, &event) in events.iter().enumerate() {
        if sheet.events[event].kind == Kind::Begins {
            add(place, place + 1, 0);
        }
    }
    limits
}

/// The jobs that are wanted with the least of all sets of facts that the definition allows. `instances` are all that there
/// are.
pub fn wanted_jobs(sheet: &Sheet, instances: &[Instance]) -> Vec<usize> {
    let is_present = |job: usize| instances.iter().any(|instance| instance.job == job);
    let present: Vec<bool> = (0..sheet.codes.len()).map(is_present).collect();
    let holds = |set: usize, fact: usize| set >> fact & 1 == 1;
    let wanted = |set: usize, job: usize| {
        (0..sheet.facts.len()).any(|fact| {
            let sets = present[job] && sheet.event(job, Kind::Sets, fact).is_some();
            sets && holds(set, fact) && !sheet.facts[fact].initial
        })
    };
    let allowed = |set: usize| {
        let goals = (0..sheet.facts.len()).all(|f| !sheet.facts[f].goal || holds(set, f));
        let needs = sheet.events.iter().all(|event| {
            event.kind != Kind::Begins || !wanted(set, event.job) || holds(set, event.fact)
        });
        goals && needs
    };
    let all = 0..1usize << sheet.facts.len();
    let least = all.filter(|&set| allowed(set)).reduce(|a, b| a & b);
    let least = least.expect("the set of all facts is allowed");
    assert!(allowed(least), "the sets that are allowed have a least one");
    let jobs = 0..sheet.codes.len();
    jobs.filter(|&job| wanted(least, job)).collect()
}

/// What an instance does, fact by fact.
#[derive(Default)]
struct Deeds {
    sets: Vec<(usize, i32)>,
    clears: Vec<(usize, i32)>,
    /// Fact, begin, end.
    needs: Vec<(usize, i32, i32)>,
}

fn deeds(sheet: &Sheet, instance: &Instance) -> Deeds {
    let mut deeds = Deeds::default();
    let events = sheet.events_of(instance.job);
    for (place, &tick) in instance.times.iter().enumerate() {
        let event = sheet.events[events[place]];
        match event.kind {
            Kind::Sets => deeds.sets.push((event.fact, tick)),
            Kind::Clears => deeds.clears.push((event.fact, tick)),
            // The end of a need stands next to its begin.
            Kind::Begins => {
                let end = instance.times[place + 1];
                deeds.needs.push((event.fact, tick, end));
            }
            Kind::Ends => {}
        }
    }
    deeds
}

/// Something that still lacks a source: a need of a chosen instance, or a goal.
struct Lack {
    fact: usize,
    /// The instance whose need it is.
    owner: Option<usize>,
    begin: i32,
    end: i32,
}

/// A search for plans: instances chosen so far, and instances ruled out.
struct Search<'a> {
    sheet: &'a Sheet,
    deeds: Vec<Deeds>,
    chosen: Vec<usize>,
    barred: Vec<bool>,
}

impl<'a> Search<'a> {
    fn new(sheet: &'a Sheet, instances: &[Instance]) -> Search<'a> {
        Search {
            sheet,
            deeds: instances.iter().map(|i| deeds(sheet, i)).collect(),
            chosen: Vec::new(),
            barred: vec![false; instances.len()],
        }
    }

    /// A plan with all of these instances, if there is one.
    fn extend(&mut self, start: Vec<usize>) -> Option<Vec<usize>> {
        self.chosen = start;
        self.barred.fill(false);
        self.complete().then(|| self.chosen.clone())
    }

    /// Chooses more instances until there is a plan. A clash never heals. A lack is ended only by
    /// a set of an instance not yet chosen, so one of those must be in any plan that is left; those
    /// already tried in vain need not be tried again.
    fn complete(&mut self) -> bool {
        if self.clashes() {
            return false;
        }
        let Some(lack) = self.lack() else {
            return true;
        };
        let suppliers: Vec<usize> = (0..self.deeds.len())
            .filter(|&k| !self.barred[k] && !self.chosen.contains(&k) && self.supplies(&lack, k))
            .collect();
        for &k in &suppliers {
            self.chosen.push(k);
            if self.complete() {
                return true;
            }
            self.chosen.pop();
            self.barred[k] = true;
        }
        suppliers.iter().for_each(|&k| self.barred[k] = false);
        false
    }

    fn chosen(&self) -> impl Iterator<Item = &Deeds> {
        self.chosen.iter().map(|&k| &self.deeds[k])
    }

    fn clashes(&self) -> bool {
        self.chosen()
            .any(|one| self.chosen().any(|two| one.sets.iter().any(|set| two.clears.contains(set))))
    }

    fn lack(&self) -> Option<Lack> {
        let goals = (0..self.sheet.facts.len()).filter(|&fact| self.sheet.facts[fact].goal);
        // Past every event, so that no set is too late for it.
        let end_of_all = self.sheet.horizon + self.sheet.gap();
        let goals =
            goals.map(|fact| Lack { fact, owner: None, begin: end_of_all, end: end_of_all });
        let needs = self.chosen.iter().flat_map(|&k| {
            let needs = self.deeds[k].needs.iter();
            needs.map(move |&(fact, begin, end)| Lack { fact, owner: Some(k), begin, end })
        });
        goals.chain(needs).find(|lack| self.is_open(lack))
    }

    /// Neither the initial state nor a chosen instance serves as source.
    fn is_open(&self, lack: &Lack) -> bool {
        let initial = self.sheet.facts[lack.fact].initial && self.lasts(lack, -1);
        !initial && !self.chosen.iter().any(|&k| self.supplies(lack, k))
    }

    /// Instance k has a set early enough that lasts to the end.
    fn supplies(&self, lack: &Lack, k: usize) -> bool {
        let latest = if lack.owner == Some(k) { lack.begin } else { lack.begin - self.sheet.gap() };
        let sets = self.deeds[k].sets.iter();
        sets.filter(|set| set.0 == lack.fact && set.1 <= latest).any(|set| self.lasts(lack, set.1))
    }

    /// No chosen clear spoils a source at this tick.
    fn lasts(&self, lack: &Lack, source: i32) -> bool {
        self.chosen.iter().all(|&k| {
            let own = lack.owner == Some(k);
            let settled = lack.end + self.sheet.gap();
            self.deeds[k].clears.iter().all(|&(fact, tick)| {
                let late = if own { tick >= lack.end } else { tick >= settled };
                fact != lack.fact || tick <= source || late
            })
        })
    }
}

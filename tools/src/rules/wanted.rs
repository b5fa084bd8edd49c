//! Which facts and jobs are wanted, each with what wants it.

use super::present::Present;
use crate::model::{Kind, Sheet};
use std::collections::VecDeque;

/// Why a fact is wanted.
#[derive(Clone, Copy, Debug, PartialEq, Eq)]
pub enum Want {
    Goal,
    /// A wanted job needs it.
    NeededBy(usize),
}

pub struct Wanted {
    pub facts: Vec<Option<Want>>,
    /// For each wanted job, a wanted fact that it sets.
    pub jobs: Vec<Option<usize>>,
}

/// The wanted facts and jobs, each found on a shortest way from a goal. An absent job is never wanted.
pub fn wanted(present: &Present) -> Wanted {
    let sheet = present.sheet;
    let mut wanted =
        Wanted { facts: vec![None; sheet.facts.len()], jobs: vec![None; sheet.jobs.len()] };
    let mut waiting: VecDeque<usize> = VecDeque::new();
    for fact in (0..sheet.facts.len()).filter(|&fact| sheet.facts[fact].goal) {
        wanted.facts[fact] = Some(Want::Goal);
        waiting.push_back(fact);
    }
    while let Some(fact) = waiting.pop_front() {
        if sheet.facts[fact].initial {
            continue;
        }
        for job in present.jobs_that(Kind::Sets, fact) {
            if wanted.jobs[job].is_none() {
                wanted.jobs[job] = Some(fact);
                waiting.extend(want_needs(sheet, job, &mut wanted));
            }
        }
    }
    wanted
}

/// Marks what the job needs; the facts that were not wanted before.
fn want_needs(sheet: &Sheet, job: usize, wanted: &mut Wanted) -> Vec<usize> {
    let mut fresh = Vec::new();
    for event in sheet.jobs[job].events.iter().filter(|event| event.kind == Kind::Begins) {
        let want = &mut wanted.facts[event.fact];
        if want.is_none() {
            *want = Some(Want::NeededBy(job));
            fresh.push(event.fact);
        }
    }
    fresh
}

/// A link of the chain from a goal to a fact.
#[derive(Clone, Copy, Debug, PartialEq, Eq)]
pub struct Link {
    pub fact: usize,
    /// The job that needs it, and the wanted fact that this job sets; none for a goal.
    pub by: Option<(usize, usize)>,
}

impl Wanted {
    pub fn is_wanted(&self, job: usize) -> bool {
        self.jobs[job].is_some()
    }

    /// From a goal to this wanted fact.
    pub fn chain(&self, fact: usize) -> Vec<Link> {
        let mut chain = Vec::new();
        let mut at = fact;
        loop {
            let by = match self.facts[at] {
                Some(Want::NeededBy(job)) => self.jobs[job].map(|set| (job, set)),
                _ => None,
            };
            chain.push(Link { fact: at, by });
            match by {
                Some((_, set)) => at = set,
                None => break,
            }
        }
        chain.reverse();
        chain
    }
}

//! Which facts are shown cleared last and cleared first, and why a pair of a set and a clear has no guard.

use super::present::Present;
use super::wanted::Wanted;
use crate::model::{Job, Kind};

#[derive(Clone, Copy, Debug, PartialEq, Eq)]
pub enum Order {
    ClearedLast,
    ClearedFirst,
}

pub struct Orders<'a> {
    present: &'a Present<'a>,
    wanted: &'a Wanted,
    pub last: Vec<bool>,
    pub first: Vec<bool>,
}

/// A set and a clear of one fact, by the jobs that do it.
#[derive(Clone, Copy, Debug, PartialEq, Eq)]
pub struct Pair {
    pub set: usize,
    pub clear: usize,
}

/// What a fact does for a pair: a guard has all four.
#[derive(Clone, Copy, Debug, PartialEq, Eq)]
pub struct Candidate {
    pub fact: usize,
    /// Shown cleared last itself.
    pub shown: bool,
    /// Needed by the job that comes first, cleared by the one that comes last.
    pub needed: bool,
    pub cleared: bool,
    /// Greatest time(clears it) − time(the late event), and least time(its need ends) − time(the early one).
    pub greatest: Option<i32>,
    pub least: Option<i32>,
}

impl Candidate {
    /// By how many minutes the greatest difference passes the least.
    pub fn excess(&self) -> Option<i32> {
        Some((self.greatest? - self.least?).max(0))
    }

    pub fn serves(&self) -> bool {
        self.shown && self.excess() == Some(0)
    }
}

impl Orders<'_> {
    pub fn new<'a>(present: &'a Present<'a>, wanted: &'a Wanted) -> Orders<'a> {
        let none = vec![false; present.sheet.facts.len()];
        let mut orders = Orders { present, wanted, last: none.clone(), first: none };
        orders.show_last();
        for fact in 0..present.sheet.facts.len() {
            orders.first[fact] = orders.unguarded(fact, Order::ClearedFirst).is_none();
        }
        orders
    }

    /// Shows facts cleared last until nothing is added. What is shown stays so, and what is guarded: each fact goes on
    /// with its first pair without a guard, and tries for it the facts shown since.
    fn show_last(&mut self) {
        let order = Order::ClearedLast;
        let pairs = |fact: usize| self.pairs(fact, order).into_iter();
        let mut hidden: Vec<_> =
            (0..self.last.len()).map(|fact| (fact, pairs(fact).peekable(), 0)).collect();
        let mut shown: Vec<usize> = Vec::new();
        loop {
            let before = shown.len();
            hidden.retain_mut(|(fact, pairs, tried)| {
                while let Some(pair) = pairs.peek() {
                    let serves = |guard| self.candidate(*fact, order, *pair, guard).serves();
                    if !shown[*tried..].iter().any(|&guard| serves(guard)) {
                        *tried = shown.len();
                        return true;
                    }
                    (_, *tried) = (pairs.next(), 0);
                }
                self.last[*fact] = true;
                shown.push(*fact);
                false
            });
            if shown.len() == before {
                return;
            }
        }
    }

    /// The pairs of a set and a clear that the order asks about: of present jobs.
    pub fn pairs(&self, fact: usize, order: Order) -> Vec<Pair> {
        let mut setters = self.present.jobs_that(Kind::Sets, fact);
        let mut clearers = self.present.jobs_that(Kind::Clears, fact);
        if order == Order::ClearedFirst {
            setters.retain(|&job| self.wanted.is_wanted(job));
        }
        clearers.retain(|&job| self.wanted.is_wanted(job));
        let with = |&set: &usize| clearers.iter().map(move |&clear| Pair { set, clear });
        setters.iter().flat_map(with).collect()
    }

    /// The first pair that no fact guards.
    pub fn unguarded(&self, fact: usize, order: Order) -> Option<Pair> {
        let guarded = |pair: &Pair| {
            let late = if order == Order::ClearedLast { pair.clear } else { pair.set };
            // Only what the late job clears can be a guard.
            let events = self.present.sheet.jobs[late].events.iter();
            let mut clears = events.filter(|event| event.kind == Kind::Clears);
            clears.any(|event| {
                self.last[event.fact] && self.candidate(fact, order, *pair, event.fact).serves()
            })
        };
        self.pairs(fact, order).into_iter().find(|pair| !guarded(pair))
    }

    /// What this fact does for the pair.
    pub fn candidate(&self, fact: usize, order: Order, pair: Pair, guard: usize) -> Candidate {
        let ((early, early_kind), (late, late_kind)) = match order {
            Order::ClearedLast => ((pair.set, Kind::Sets), (pair.clear, Kind::Clears)),
            Order::ClearedFirst => ((pair.clear, Kind::Clears), (pair.set, Kind::Sets)),
        };
        let jobs = &self.present.sheet.jobs;
        let end = jobs[early].place(Kind::Ends, guard);
        let clear = jobs[late].place(Kind::Clears, guard);
        let table = |job: usize| self.present.table(job);
        let from = |job: &Job, kind| job.place(kind, fact);
        let least = |end| Some(table(early)?.least(from(&jobs[early], early_kind)?, end));
        let greatest = |clear| Some(table(late)?.greatest(from(&jobs[late], late_kind)?, clear));
        let (least, greatest) = (end.and_then(least), clear.and_then(greatest));
        let (needed, cleared) = (end.is_some(), clear.is_some());
        Candidate { fact: guard, shown: self.last[guard], needed, cleared, greatest, least }
    }
}

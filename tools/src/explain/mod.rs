//! Why planner and judge answer as they do, in the sheet's own names. The answer is proved; what is said of
//! it here is found again by other means, and checked before it is printed.

mod bill;
mod check;
mod clause;
mod data;
mod judge;
mod late;
mod lines;
mod planner;
mod text;
mod words;

use crate::answers::{Answer, Proved};
use crate::fault::Fault;
use crate::list::Entry;
use crate::meaning::Source;
use crate::model::Sheet;
use crate::rules::orders::{Candidate, Order, Pair};
use crate::rules::wanted::Link;
use crate::rules::Rule;
pub use bill::{bill, Billed};
pub use judge::PlanFault;
pub use late::{late, Late, LateFault};
pub use words::{count, Words};

/// Rules that follow each other: from minute 0 on, or round a circle.
#[derive(Clone, Debug, PartialEq, Eq)]
pub struct Walk {
    pub circle: bool,
    pub steps: Vec<Rule>,
}

impl Walk {
    pub fn sum(&self) -> i32 {
        self.steps.iter().map(|rule| rule.minutes).sum()
    }
}

/// A pair of a set and a clear that no fact puts in this order, and what each fact lacks for it.
#[derive(Clone, Debug, PartialEq, Eq)]
pub struct Unordered {
    pub order: Order,
    pub pair: Pair,
    pub candidates: Vec<Candidate>,
}

/// A step of the plan, and the rule that holds it back.
#[derive(Clone, Copy, Debug, PartialEq, Eq)]
pub struct Held {
    pub event: usize,
    pub minute: u16,
    pub by: Option<Rule>,
}

#[derive(Clone, Debug, PartialEq, Eq)]
pub enum Reason {
    /// 10 to 14 and 40.
    Form(Fault),
    /// 20.
    TwoSetters {
        fact: usize,
        wants: Vec<Link>,
        setters: Vec<usize>,
    },
    /// 21 and 22; a fact that is not wanted has no chain of wants.
    NoOrder {
        fact: usize,
        wants: Vec<Link>,
        tries: Vec<Unordered>,
    },
    /// 1, in three ways. A fact without a source may have setters that are absent.
    NoSource {
        fact: usize,
        wants: Vec<Link>,
        absent: Vec<usize>,
    },
    GoalCleared {
        fact: usize,
        jobs: Vec<usize>,
    },
    NoTimes {
        walk: Walk,
    },
    /// 0 of the planner.
    Plan {
        entries: Vec<Entry>,
        steps: Vec<Held>,
        finish: Walk,
    },
    /// 30.
    TooLong {
        length: usize,
        room: usize,
    },
    /// 0 of the judge.
    Yes,
    /// 41.
    Faults {
        entries: Vec<Entry>,
        faults: Vec<PlanFault>,
        more: usize,
    },
}

/// A job that is absent for the planner, and the rules that leave it without own times.
#[derive(Clone, Debug, PartialEq, Eq)]
pub struct Absent {
    pub job: usize,
    pub walk: Walk,
}

/// An answer that was found without the proved library, and why it is the answer. The judge knows no absent jobs.
#[derive(Clone, Debug, PartialEq, Eq)]
pub struct Found {
    pub answer: Answer,
    pub reasons: Vec<Reason>,
    pub absent: Vec<Absent>,
}

/// The proved answer, with its explanation if that has passed its check.
pub struct Explanation {
    pub answer: Answer,
    pub judged: bool,
    pub reasons: Result<Vec<Reason>, String>,
    /// None without reasons.
    pub absent: Vec<Absent>,
}

/// Explains the planner's answer with a buffer of this many bytes.
pub fn plan(bytes: &[u8], room: usize, proved: &Proved) -> Explanation {
    let (answer, list) = proved.plan(bytes, room);
    let found = planner::find(bytes, room);
    let outcome = check::planned(bytes, answer, &list, &found);
    Explanation { judged: false, ..explained(answer, found, outcome) }
}

/// Explains the judge's answer.
pub fn judge(bytes: &[u8], list: &[u8], proved: &Proved) -> Explanation {
    let answer = proved.judge(bytes, list);
    let found = judge::find(bytes, list);
    let outcome = check::judged(bytes, answer, &found);
    Explanation { judged: true, ..explained(answer, found, outcome) }
}

/// The proved answer with what was found, if that has passed its check.
fn explained(answer: Answer, found: Found, outcome: Result<(), String>) -> Explanation {
    let (reasons, absent) = match outcome {
        Ok(()) => (Ok(found.reasons), found.absent),
        Err(why) => (Err(why), Vec::new()),
    };
    Explanation { answer, judged: false, reasons, absent }
}

/// What the words are made of: the sheet with its names, where its text says what, and the hour of the start.
pub struct Context<'a> {
    pub sheet: Option<&'a Sheet>,
    pub source: Option<&'a Source>,
    pub start: Option<u32>,
}

impl Explanation {
    pub fn text(&self, context: &Context) -> String {
        text::render(self, context)
    }

    /// The first reason, in one clause.
    pub fn clause(&self, context: &Context) -> String {
        clause::of(self, context)
    }

    pub fn json(&self, context: &Context) -> String {
        format!("{}\n", data::of(self, context))
    }
}

//! Which events of a job its rules put behind which, whatever its release and the horizon.

use super::least::least;
use super::{own, Rule};
use crate::model::{Kind, Sheet};

/// Events are told by their place in the job.
pub struct Follow {
    /// How long the job takes at least; none without events.
    pub length: Option<i32>,
    /// The most minutes by which rules put each event behind some begin of a need, and behind some end.
    begins: Vec<Option<i32>>,
    ends: Vec<Option<i32>>,
    /// The events from which a rule leads to each.
    back: Vec<Vec<usize>>,
}

impl Follow {
    /// None if no times meet the job's rules.
    pub fn new(sheet: &Sheet, job: usize) -> Option<Follow> {
        let (first, events) = (sheet.first_event(job), &sheet.jobs[job].events);
        let count = events.len();
        let own = own::rules(sheet, job).into_iter();
        let placed = |rule: Rule| {
            let from = rule.from? - first;
            Some(Rule { from: Some(from), to: rule.to - first, ..rule })
        };
        let rules: Vec<Rule> = own.filter_map(placed).collect();
        let length = least(count, &rules).ok()?.times.into_iter().max();
        let behind = |kind: Kind| {
            let start = events.iter().map(|event| (event.kind == kind).then_some(0));
            raised(start.collect(), &rules)
        };
        let mut back = vec![Vec::new(); count];
        for rule in &rules {
            back[rule.to].extend(rule.from);
        }
        Some(Follow { length, begins: behind(Kind::Begins), ends: behind(Kind::Ends), back })
    }

    /// Whether rules keep this event from coming before all begins of needs.
    pub fn is_behind_a_begin(&self, place: usize) -> bool {
        self.begins[place].is_some_and(|minutes| minutes >= 0)
    }

    pub fn is_behind_an_end(&self, place: usize) -> bool {
        self.ends[place].is_some_and(|minutes| minutes >= 0)
    }

    /// For each event, whether a chain of rules leads from it to this one.
    pub fn leading_to(&self, place: usize) -> Vec<bool> {
        let mut leads = vec![false; self.back.len()];
        let mut waiting = vec![place];
        while let Some(at) = waiting.pop() {
            for &from in &self.back[at] {
                if !leads[from] {
                    leads[from] = true;
                    waiting.push(from);
                }
            }
        }
        leads
    }
}

/// The times raised until they meet the rules, which have no circle that gains; none is below every time.
fn raised(mut times: Vec<Option<i32>>, rules: &[Rule]) -> Vec<Option<i32>> {
    let mut grew = true;
    while grew {
        grew = false;
        for rule in rules {
            let time = rule.from.and_then(|from| times[from]).map(|time| time + rule.minutes);
            if time > times[rule.to] {
                times[rule.to] = time;
                grew = true;
            }
        }
    }
    times
}

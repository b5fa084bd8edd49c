//! Point 1 for one job: its release, its bounds, and that a need begins no later than it ends. Of the bounds of one pair of
//! events the tightest are rules: who meets them meets all.

use super::{tightest, Rule, Why};
use crate::model::{Kind, Sheet};

/// The rules of the job's own times, but for the horizon.
pub fn rules(sheet: &Sheet, job: usize) -> Vec<Rule> {
    let (first, row) = (sheet.first_event(job), sheet.first_bound(job));
    let job = &sheet.jobs[job];
    let mut rules = Vec::new();
    if job.release > 0 {
        let (minutes, why) = (i32::from(job.release), Why::Release);
        let held = |place| Rule { from: None, to: first + place, minutes, why };
        rules.extend((0..job.events.len()).map(held));
    }
    for pair in tightest::of(job) {
        let number = |event| first + job.events.partition_point(|other| other < event);
        let (e, d) = (number(&pair.e), number(&pair.d));
        if let Some((low, place)) = pair.low {
            let (minutes, why) = (i32::from(low), Why::Low(row + place));
            rules.push(Rule { from: Some(d), to: e, minutes, why });
        }
        if let Some((high, place)) = pair.high {
            let (minutes, why) = (-i32::from(high), Why::High(row + place));
            rules.push(Rule { from: Some(e), to: d, minutes, why });
        }
    }
    for (place, event) in job.events.iter().enumerate() {
        if event.kind == Kind::Begins {
            // The end of a need is the next event, for they rise by fact, then type.
            let from = first + place;
            rules.push(Rule { from: Some(from), to: from + 1, minutes: 0, why: Why::Need });
        }
    }
    rules
}

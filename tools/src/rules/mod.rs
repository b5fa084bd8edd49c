//! What document 01 asks of times, as rules between two events, for warnings and explanations. The
//! proved planner has its own; nothing here decides an answer.

pub mod follow;
pub mod least;
pub mod list;
pub mod orders;
pub mod own;
pub mod present;
pub mod table;
pub mod tightest;
pub mod wanted;

use crate::model::Sheet;

/// Why one event comes so long after another.
#[derive(Clone, Copy, Debug, PartialEq, Eq)]
pub enum Why {
    /// The low or the high of a bound, by its row: the tightest of its pair.
    Low(usize),
    High(usize),
    /// No event of a job comes before its release.
    Release,
    /// A need begins no later than it ends.
    Need,
    /// A wanted fact is set before it is needed.
    SetBeforeNeed,
    /// For a fact shown cleared last: set before clear, and a need's end before clear.
    SetBeforeClear,
    NeedBeforeClear,
    /// For a fact shown cleared first.
    ClearBeforeSet,
}

/// time(to) ≥ time(from) + minutes; events by their number in the sheet. A release counts from minute 0, and from no event.
#[derive(Clone, Copy, Debug, PartialEq, Eq)]
pub struct Rule {
    pub from: Option<usize>,
    pub to: usize,
    pub minutes: i32,
    pub why: Why,
}

/// The job that the event of this number belongs to, and its place there.
pub fn locate(sheet: &Sheet, event: usize) -> (usize, usize) {
    let mut first = 0;
    for (number, job) in sheet.jobs.iter().enumerate() {
        if event < first + job.events.len() {
            return (number, event - first);
        }
        first += job.events.len();
    }
    unreachable!("the event is in the sheet")
}

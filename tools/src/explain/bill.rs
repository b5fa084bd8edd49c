//! Finds a run list's cost again, entry by entry.

use super::check;
use crate::answers::Cost;
use crate::list::Entry;

/// A line of the bill: an entry's job, the minutes from its first to its last event, and the rate of the job.
#[derive(Clone, Copy, Debug, PartialEq, Eq)]
pub struct Billed {
    pub job: usize,
    pub minutes: u16,
    pub rate: u32,
}

/// A line for each entry, if all come to the proved cost; the rates are one for each job.
pub fn bill(cost: Cost, entries: &[Entry], rates: &[u32]) -> Result<Vec<Billed>, String> {
    let line = |entry: &Entry| {
        let minutes = entry.span().map_or(0, |(first, last)| last - first);
        Billed { job: entry.job, minutes, rate: rates[entry.job] }
    };
    let lines: Vec<Billed> = entries.iter().map(line).collect();
    check::billed(cost, entries, rates, &lines).map(|()| lines)
}

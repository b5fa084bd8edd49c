//! A log beside the least list: what is missing, what ran twice, which steps are late and which too early.

mod text;

use crate::list::Entry;
use crate::log::Run;
use crate::model::{Event, Sheet};
pub use text::render;

/// A step that was logged at another minute than planned.
#[derive(Clone, Copy, Debug, PartialEq, Eq)]
pub struct Moved {
    pub job: usize,
    pub event: Event,
    pub planned: u16,
    pub logged: u16,
}

/// Jobs by number, with the count of their runs.
#[derive(Clone, Debug, Default, PartialEq, Eq)]
pub struct Differences {
    /// Planned, and not in the log.
    pub missing: Vec<usize>,
    /// Planned once, and run so often.
    pub repeated: Vec<(usize, usize)>,
    /// Run so often, and not planned.
    pub unplanned: Vec<(usize, usize)>,
    /// Steps of the first run of a planned job.
    pub moved: Vec<Moved>,
    /// How many steps of planned jobs are where they were planned.
    pub kept: usize,
}

impl Differences {
    /// Whether every planned step is in the log at its minute.
    pub fn is_kept(&self) -> bool {
        self.missing.is_empty() && self.moved.is_empty()
    }

    /// Whether there is nothing to tell.
    pub fn is_empty(&self) -> bool {
        self.is_kept() && self.repeated.is_empty() && self.unplanned.is_empty()
    }
}

/// The differences of the log from the list that was planned.
pub fn differences(sheet: &Sheet, planned: &[Entry], log: &[Run]) -> Differences {
    let mut found = Differences::default();
    for job in 0..sheet.jobs.len() {
        let mut runs: Vec<&Run> = log.iter().filter(|run| run.job == job).collect();
        // The first run is the one that was planned; of several with the same first step, the log's first.
        runs.sort_by_key(|run| run.times.iter().flatten().min().copied());
        let entry = planned.iter().find(|entry| entry.job == job);
        match (entry, runs.len()) {
            (None, 0) => {}
            (None, count) => found.unplanned.push((job, count)),
            (Some(_), 0) => found.missing.push(job),
            (Some(entry), count) => {
                found.add_steps(sheet, entry, runs[0]);
                if count > 1 {
                    found.repeated.push((job, count));
                }
            }
        }
    }
    found.moved.sort_by_key(|moved| (moved.logged, moved.planned));
    found
}

impl Differences {
    fn add_steps(&mut self, sheet: &Sheet, entry: &Entry, run: &Run) {
        for ((event, planned), logged) in entry.steps(sheet).zip(&run.times) {
            match *logged {
                Some(logged) if logged == planned => self.kept += 1,
                Some(logged) => self.moved.push(Moved { job: entry.job, event, planned, logged }),
                None => {}
            }
        }
    }
}

//! Run lists: as bytes (docs/FORMAT.md) and as the text that the program prints.

mod bytes;
mod lines;
mod text;

pub use bytes::{decode, encode};
pub use text::{clock, minutes_of_day, parse, print, Beside};

use crate::model::{Event, Sheet};

/// An entry: a job, by number, and a minute for each of its events, in sheet order.
#[derive(Clone, Debug, PartialEq, Eq)]
pub struct Entry {
    pub job: usize,
    pub times: Vec<u16>,
}

impl Entry {
    /// The entry so many minutes later.
    pub fn later(&self, minutes: u16) -> Entry {
        let times = self.times.iter().map(|time| time.saturating_add(minutes));
        Entry { job: self.job, times: times.collect() }
    }

    /// The minutes of its first and of its last event in time; none without events.
    pub fn span(&self) -> Option<(u16, u16)> {
        let (first, last) = (self.times.iter().min(), self.times.iter().max());
        first.copied().zip(last.copied())
    }

    /// The events of the entry with their minutes.
    pub fn steps<'a>(&'a self, sheet: &'a Sheet) -> impl Iterator<Item = (Event, u16)> + 'a {
        sheet.jobs[self.job].events.iter().copied().zip(self.times.iter().copied())
    }
}

//! Job logs: what really ran, as CSV (docs/LOGS.md), as a run list's text or as its bytes.

mod csv;
mod rows;

use crate::layout::{MAX_ENTRIES, MAX_TIMES};
use crate::list::{self, Entry};
use crate::model::{Event, Sheet};
use crate::note::{Note, Place};

/// A run of a job: the minute of each of its events, in sheet order; none where the log has none.
#[derive(Clone, Debug, PartialEq, Eq)]
pub struct Run {
    pub job: usize,
    pub times: Vec<Option<u16>>,
}

impl Run {
    fn new(sheet: &Sheet, job: usize) -> Run {
        Run { job, times: vec![None; sheet.jobs[job].events.len()] }
    }

    /// The events that the log has no minute for.
    pub fn missing(&self, sheet: &Sheet) -> Vec<Event> {
        let events = sheet.jobs[self.job].events.iter().zip(&self.times);
        events.filter(|(_, time)| time.is_none()).map(|(event, _)| *event).collect()
    }

    /// The entry of a list, if every event has its minute.
    pub fn entry(&self) -> Option<Entry> {
        let times = self.times.iter().copied().collect::<Option<Vec<u16>>>()?;
        Some(Entry { job: self.job, times })
    }
}

impl From<&Entry> for Run {
    fn from(entry: &Entry) -> Run {
        Run { job: entry.job, times: entry.times.iter().copied().map(Some).collect() }
    }
}

/// The runs that a log's text tells of; clock times count from the start, a minute of the day.
pub fn parse(sheet: &Sheet, text: &[u8], start: Option<u32>) -> Result<Vec<Run>, Vec<Note>> {
    let Ok(text) = std::str::from_utf8(text) else {
        let start = Place { line: 1, column: 1 };
        return Err(vec![Note::new(start, "this is no text in UTF-8")]);
    };
    let text = text.trim_start_matches('\u{feff}');
    let Some(separator) = csv::separator(text) else {
        return list::parse(sheet, text.as_bytes())
            .map(|entries| entries.iter().map(Run::from).collect());
    };
    let runs = rows::read(sheet, text, separator, start)?;
    let times: usize = runs.iter().map(|run| run.times.len()).sum();
    if runs.len() > MAX_ENTRIES || times > MAX_TIMES {
        let message = format!(
            "the judge takes at most {MAX_ENTRIES} runs and {MAX_TIMES} steps, and these are {} and {times}",
            runs.len()
        );
        return Err(vec![Note::new(Place { line: 1, column: 1 }, message)
            .with_help("cut the log, an evening or a wood at a time")]);
    }
    Ok(runs)
}

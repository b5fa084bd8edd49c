//! A list as the program prints it, and from that text back to its entries.

use super::lines::{self, Said};
use super::Entry;
use crate::layout::{MAX_ENTRIES, MAX_TIMES};
use crate::model::{Event, Sheet};
use crate::note::{Note, Place};
use std::collections::BTreeMap;
use std::fmt::Write;

/// What stands beside the numbers, as a comment: names, and clock times from this minute of the day on.
#[derive(Clone, Copy, Debug, Default)]
pub struct Beside {
    pub names: bool,
    pub start: Option<u32>,
}

/// The text of a list.
pub fn print(sheet: &Sheet, entries: &[Entry], beside: Beside) -> String {
    let mut text = format!("PLAN {}\n", entries.len());
    for entry in entries {
        let job = &sheet.jobs[entry.job];
        if job.events.is_empty() {
            let _ = writeln!(text, "{}", job.code);
        }
        for (event, tick) in entry.steps(sheet) {
            let line = format!("{} {} {} {tick}", job.code, event.kind.letter(), event.fact);
            match comment(sheet, entry.job, event, tick, beside) {
                Some(words) => writeln!(text, "{line:<18}# {words}"),
                None => writeln!(text, "{line}"),
            }
            .expect("a string takes every line");
        }
    }
    text
}

fn comment(sheet: &Sheet, job: usize, event: Event, tick: u16, beside: Beside) -> Option<String> {
    let mut words = Vec::new();
    words.extend(beside.start.map(|start| clock(start, tick)));
    if beside.names {
        let (job, fact) = (&sheet.jobs[job].name, &sheet.facts[event.fact].name);
        words.push(format!("{job} {} {fact}", event.kind.verb()));
    }
    (!words.is_empty()).then(|| words.join("  "))
}

/// The time of day so many minutes after the start, with the days that have passed.
pub fn clock(start: u32, tick: u16) -> String {
    let minutes = start + u32::from(tick);
    let (days, hours, minutes) = (minutes / 1_440, minutes / 60 % 24, minutes % 60);
    let days = if days == 0 { String::new() } else { format!(" (+{days} d)") };
    format!("{hours:02}:{minutes:02}{days}")
}

/// Minutes since midnight.
pub fn minutes_of_day(text: &str) -> Option<u32> {
    let (hours, minutes) = text.split_once(':')?;
    let digits = |part: &str| part.len() <= 2 && part.bytes().all(|c| c.is_ascii_digit());
    if !digits(hours) || !digits(minutes) {
        return None;
    }
    let (hours, minutes): (u32, u32) = (hours.parse().ok()?, minutes.parse().ok()?);
    (hours < 24 && minutes < 60).then_some(60 * hours + minutes)
}

/// The entries that a text says, or its errors.
pub fn parse(sheet: &Sheet, bytes: &[u8]) -> Result<Vec<Entry>, Vec<Note>> {
    let text = String::from_utf8_lossy(bytes);
    let text = text.trim_start_matches('\u{feff}');
    let mut reader = Reader { sheet, entries: Vec::new(), open: None, count: None };
    let mut errors = Vec::new();
    for (number, line) in (1..).zip(text.split('\n')) {
        let said = lines::read(sheet, number, line.trim_end_matches('\r'));
        let outcome = said.and_then(|said| reader.take(said));
        errors.extend(outcome.err());
    }
    errors.extend(reader.close().err());
    if errors.is_empty() {
        errors.extend(reader.check().err());
    }
    if errors.is_empty() {
        return Ok(reader.entries);
    }
    Err(errors)
}

/// An entry while its lines are read.
struct Open {
    job: usize,
    place: Place,
    times: BTreeMap<Event, u16>,
}

struct Reader<'a> {
    sheet: &'a Sheet,
    entries: Vec<Entry>,
    open: Option<Open>,
    count: Option<(i64, Place)>,
}

impl Reader<'_> {
    fn take(&mut self, said: Said) -> Result<(), Note> {
        match said {
            Said::Nothing => self.close(),
            Said::Count(_, place) if self.count.is_some() || !self.entries.is_empty() => {
                Err(Note::new(place, "the count of entries stands once, on the first line"))
            }
            Said::Count(count, place) => {
                self.count = Some((count, place));
                Ok(())
            }
            Said::Job(job, place) => self.begin(job, place),
            Said::Step { job, event, tick, place } => self.step(job, event, tick, place),
        }
    }

    fn begin(&mut self, job: usize, place: Place) -> Result<(), Note> {
        let closed = self.close();
        self.open = Some(Open { job, place, times: BTreeMap::new() });
        closed
    }

    /// A step of the entry that is open; of a new one if the job is another, or has this event already.
    fn step(&mut self, job: usize, event: Event, tick: u16, place: Place) -> Result<(), Note> {
        let goes_on = |open: &Open| open.job == job && !open.times.contains_key(&event);
        let mut closed = Ok(());
        if !self.open.as_ref().is_some_and(goes_on) {
            closed = self.begin(job, place);
        }
        if let Some(open) = &mut self.open {
            open.times.insert(event, tick);
        }
        closed
    }

    /// Ends the entry that is open: each event of its job has its minute.
    fn close(&mut self) -> Result<(), Note> {
        let Some(open) = self.open.take() else {
            return Ok(());
        };
        let job = &self.sheet.jobs[open.job];
        if let Some(event) = job.events.iter().find(|event| !open.times.contains_key(event)) {
            let fact = &self.sheet.facts[event.fact].name;
            let message = format!(
                "this entry of the job '{}' has no minute for '{} {fact}'",
                job.name,
                event.kind.phrase()
            );
            return Err(Note::new(open.place, message)
                .with_help("an entry has a line for each event of its job; a blank line ends it"));
        }
        self.entries.push(Entry { job: open.job, times: open.times.into_values().collect() });
        Ok(())
    }

    /// The count is right, and a list can hold them.
    fn check(&self) -> Result<(), Note> {
        let (found, start) = (self.entries.len(), Place { line: 1, column: 1 });
        let times: usize = self.entries.iter().map(|entry| entry.times.len()).sum();
        if found > MAX_ENTRIES || times > MAX_TIMES {
            let message =
                format!("a list holds at most {MAX_ENTRIES} entries and {MAX_TIMES} times");
            return Err(Note::new(start, message));
        }
        match self.count {
            Some((count, place)) if count != found as i64 => {
                let message = format!("PLAN {count} is followed by {found} entries");
                Err(Note::new(place, message))
            }
            _ => Ok(()),
        }
    }
}

#[cfg(test)]
mod tests {
    use super::minutes_of_day;

    #[test]
    fn times_of_day() {
        assert_eq!(minutes_of_day("18:30"), Some(1_110));
        assert_eq!(minutes_of_day("0:00"), Some(0));
        for wrong in ["24:00", "18:60", "18", "18:", ":30", "+8:30", "18:300", "a:b"] {
            assert_eq!(minutes_of_day(wrong), None, "{wrong}");
        }
    }
}

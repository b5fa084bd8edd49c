//! What the rows of a log say: a job, an event, a fact and a time; and which of them are one run.

use super::csv::{rows, Field};
use super::Run;
use crate::list::minutes_of_day;
use crate::model::{Event, Kind, Sheet};
use crate::note::{Note, Place};
use crate::similar::closest;

const DAY: u32 = 24 * 60;

/// The places of the columns; the last tells the runs of one job apart, and may be missing.
struct Columns {
    job: usize,
    event: usize,
    fact: usize,
    time: usize,
    run: Option<usize>,
}

/// In the order of a log without a header.
const PLAIN: Columns = Columns { job: 0, event: 1, fact: 2, time: 3, run: None };

/// A row that was understood.
struct Step {
    job: usize,
    place: usize,
    minute: u16,
    run: Option<String>,
}

pub fn read(
    sheet: &Sheet,
    text: &str,
    separator: char,
    start: Option<u32>,
) -> Result<Vec<Run>, Vec<Note>> {
    let rows = rows(text, separator);
    let is_header = |row: &Vec<Field>| row.iter().any(|field| is(field, "job"));
    let header = rows.first().filter(|row| is_header(row));
    let columns = header.map_or(Ok(PLAIN), |row| columns(row)).map_err(|note| vec![note])?;
    let reader = Reader { sheet, columns, start };
    let steps = rows.iter().skip(usize::from(header.is_some())).map(|row| reader.step(row));
    let (mut found, mut errors) = (Vec::new(), Vec::new());
    for step in steps {
        match step {
            Ok(step) => found.push(step),
            Err(note) => errors.push(note),
        }
    }
    if errors.is_empty() {
        return Ok(runs(sheet, found));
    }
    Err(errors)
}

fn is(field: &Field, name: &str) -> bool {
    field.text.eq_ignore_ascii_case(name)
}

/// The columns that the header names; others are left alone.
fn columns(header: &[Field]) -> Result<Columns, Note> {
    let find =
        |names: &[&str]| header.iter().position(|field| names.iter().any(|name| is(field, name)));
    let due = |names: &[&str]| {
        find(names).ok_or_else(|| {
            let place = header.first().map_or(Place::default(), |field| field.place);
            let message = format!("the header names no column '{}'", names.join("' or '"));
            Note::new(place, message).with_help("a log has the columns job, event, fact, minute")
        })
    };
    Ok(Columns {
        job: due(&["job"])?,
        event: due(&["event"])?,
        fact: due(&["fact"])?,
        time: due(&["minute", "time"])?,
        run: find(&["run"]),
    })
}

struct Reader<'a> {
    sheet: &'a Sheet,
    columns: Columns,
    start: Option<u32>,
}

impl Reader<'_> {
    fn step(&self, row: &[Field]) -> Result<Step, Note> {
        let field = |place: usize, what: &str| {
            row.get(place).filter(|field| !field.text.is_empty()).ok_or_else(|| {
                let end = row.get(place).or(row.last()).map_or(Place::default(), |f| f.place);
                Note::new(end, format!("this row has no {what}"))
            })
        };
        let job = self.job(field(self.columns.job, "job")?)?;
        let kind = kind(field(self.columns.event, "event")?)?;
        let named = field(self.columns.fact, "fact")?;
        let event = Event::new(kind, self.fact(named)?);
        let owner = &self.sheet.jobs[job];
        let place = owner.place(kind, event.fact).ok_or_else(|| {
            let (verb, fact) = (kind.verb(), &self.sheet.facts[event.fact].name);
            Note::new(named.place, format!("the job '{}' never {verb} '{fact}'", owner.name))
        })?;
        let minute = self.minute(field(self.columns.time, "time")?)?;
        let run = self.columns.run.and_then(|place| row.get(place)).map(|field| field.text.clone());
        Ok(Step { job, place, minute, run })
    }

    fn job(&self, field: &Field) -> Result<usize, Note> {
        let jobs = &self.sheet.jobs;
        let named = jobs.iter().position(|job| job.name == field.text);
        let coded = || jobs.iter().position(|job| field.text == job.code.to_string());
        named
            .or_else(coded)
            .ok_or_else(|| no_such("job", field, jobs.iter().map(|job| job.name.as_str())))
    }

    fn fact(&self, field: &Field) -> Result<usize, Note> {
        let facts = &self.sheet.facts;
        let named = facts.iter().position(|fact| fact.name == field.text);
        let number = || field.text.parse().ok().filter(|number| *number < facts.len());
        named
            .or_else(number)
            .ok_or_else(|| no_such("fact", field, facts.iter().map(|fact| fact.name.as_str())))
    }

    /// A minute, or a time of day within a day of the start.
    fn minute(&self, field: &Field) -> Result<u16, Note> {
        if let Ok(minute) = field.text.parse::<u16>() {
            return Ok(minute);
        }
        let Some(time) = time_of_day(&field.text) else {
            let message =
                format!("'{}' is no minute from 0 to {} and no time of day", field.text, u16::MAX);
            return Err(Note::new(field.place, message).with_help("write 31, 19:01 or 19:01:30"));
        };
        let Some(start) = self.start else {
            let message = "times of day need the start of the run";
            return Err(Note::new(field.place, message).with_help("give it: '--start 18:30'"));
        };
        // Behind midnight the clock starts anew.
        Ok(((time + DAY - start) % DAY) as u16)
    }
}

/// Minutes since midnight; seconds are cut off.
fn time_of_day(text: &str) -> Option<u32> {
    let (time, seconds) = match text.match_indices(':').nth(1) {
        Some((at, _)) => (&text[..at], &text[at + 1..]),
        None => (text, "00"),
    };
    let seconds = seconds.split(['.', ',']).next().filter(|s| s.len() == 2)?;
    seconds.parse::<u32>().ok().filter(|seconds| *seconds < 60)?;
    minutes_of_day(time)
}

fn no_such<'a>(what: &str, field: &Field, names: impl Iterator<Item = &'a str>) -> Note {
    let note = Note::new(field.place, format!("the sheet has no {what} '{}'", field.text));
    match closest(&field.text, names) {
        Some(name) => note.with_help(format!("did you mean '{name}'?")),
        None => note,
    }
}

fn kind(field: &Field) -> Result<Kind, Note> {
    Kind::of_word(&field.text).ok_or_else(|| {
        let message = format!("expected B, E, S or C, found '{}'", field.text);
        Note::new(field.place, message).with_help("or begins, ends, sets, clears")
    })
}

/// Steps of one job are one run until an event comes again; where the log names runs, by those names.
fn runs(sheet: &Sheet, steps: Vec<Step>) -> Vec<Run> {
    let mut runs: Vec<(Run, Option<String>)> = Vec::new();
    for step in steps {
        let goes_on =
            |(run, name): &&mut (Run, Option<String>)| run.job == step.job && *name == step.run;
        let open = runs.iter_mut().rev().find(goes_on);
        match open.filter(|(run, _)| run.times[step.place].is_none()) {
            Some((run, _)) => run.times[step.place] = Some(step.minute),
            None => {
                let mut run = Run::new(sheet, step.job);
                run.times[step.place] = Some(step.minute);
                runs.push((run, step.run));
            }
        }
    }
    runs.into_iter().map(|(run, _)| run).collect()
}

#[cfg(test)]
mod tests {
    use super::time_of_day;

    #[test]
    fn times_with_and_without_seconds() {
        assert_eq!(time_of_day("19:01"), Some(1_141));
        assert_eq!(time_of_day("19:01:59"), Some(1_141));
        assert_eq!(time_of_day("19:01:59.250"), Some(1_141));
        for wrong in ["19", "19:61", "25:00", "19:01:60", "19:01:5", "19:01:59:00", "x"] {
            assert_eq!(time_of_day(wrong), None, "{wrong}");
        }
    }
}

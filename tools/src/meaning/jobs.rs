//! The jobs with their events and bounds.

use super::draft::Draft;
use super::head::Head;
use super::{takes, JobSource};
use crate::model::{Event, Job, Kind, Span, MAX_BOUNDS, MAX_EVENTS, MAX_JOBS, MAX_SPAN};
use crate::notation::{name, print_span};
use crate::note::{Note, Place};
use crate::syntax::{Clauses, Line, Name, Named, Number, Statement, Written, BETWEEN_JOBS};
use std::collections::{BTreeMap, HashMap};

/// Reads the jobs, in the order of the lines.
pub fn read(lines: &[Line], head: &Head, errors: &mut Vec<Note>) -> (Vec<Job>, Vec<JobSource>) {
    let elsewhere = statements_by_job(lines);
    let (codes, names) = (BTreeMap::new(), HashMap::new());
    let mut reader = Reader { head, errors, codes, names, elsewhere };
    let mut counts = Counts::default();
    let is_job = |line: &Line| matches!(line.statement, Statement::Job { .. });
    let first = lines.iter().position(is_job).unwrap_or(lines.len());
    reader.outside(&lines[..first]);
    let (mut jobs, mut sources) = (Vec::new(), Vec::new());
    let mut rest = &lines[first..];
    while let Some((title, behind)) = rest.split_first() {
        let end = behind.iter().position(is_job).unwrap_or(behind.len());
        let (job, source) = reader.job(title, &behind[..end], &mut counts);
        jobs.push(job);
        sources.push(source);
        rest = &behind[end..];
        if jobs.len() == MAX_JOBS + 1 {
            let message = format!("too many jobs: a sheet holds at most {MAX_JOBS}");
            reader.errors.push(Note::new(title.place, message));
        }
    }
    (jobs, sources)
}

/// For each line that gives a job an event, as a phrase, the names of the jobs that have it.
fn statements_by_job(lines: &[Line]) -> HashMap<String, Vec<String>> {
    let mut found: HashMap<String, Vec<String>> = HashMap::new();
    let mut job = String::new();
    for line in lines {
        let phrase = match &line.statement {
            Statement::Job { name, .. } => {
                job = name.text.clone();
                continue;
            }
            Statement::Need { fact, .. } => phrase(Kind::Begins, fact),
            Statement::Set { fact, .. } => phrase(Kind::Sets, fact),
            Statement::Clear { fact, .. } => phrase(Kind::Clears, fact),
            _ => continue,
        };
        found.entry(phrase).or_default().push(job.clone());
    }
    found
}

/// How many events and bounds the sheet has so far.
#[derive(Default)]
struct Counts {
    events: usize,
    bounds: usize,
}

struct Reader<'a> {
    head: &'a Head,
    errors: &'a mut Vec<Note>,
    /// The line of each code and of each name.
    codes: BTreeMap<u16, usize>,
    names: HashMap<String, usize>,
    elsewhere: HashMap<String, Vec<String>>,
}

impl Reader<'_> {
    fn error(&mut self, place: Place, message: impl Into<String>) {
        self.errors.push(Note::new(place, message));
    }

    /// The value, or none once its error is noted.
    fn noted<T>(&mut self, outcome: Result<T, Note>) -> Option<T> {
        outcome.map_err(|error| self.errors.push(error)).ok()
    }

    fn outside(&mut self, lines: &[Line]) {
        for line in lines {
            if !line.statement.is_head() {
                self.error(line.place, "this line belongs to a job, and no job has begun");
            }
        }
    }

    fn job(&mut self, title: &Line, lines: &[Line], counts: &mut Counts) -> (Job, JobSource) {
        let (code, name, clauses) = self.title(title);
        let release = self.release(&clauses);
        let mut draft = Draft { name, release, ..Draft::default() };
        let errors = self.errors.len();
        for line in lines {
            let before = draft.events.len();
            self.events(line, &mut draft);
            let fresh = draft.events.len() - before;
            self.limit(line, &mut counts.events, fresh, "events", MAX_EVENTS);
        }
        // With an event missing, its start and end would be sought in vain.
        let known = self.errors.len() == errors;
        if known {
            let outcome = takes::add(title, lines, self.head, &mut draft);
            self.noted(outcome);
        }
        for line in lines {
            self.bound(line, &mut draft);
        }
        self.retire(&clauses, title.place, known, &mut draft);
        let fresh = draft.bounds_by_line();
        for line in [title].into_iter().chain(lines) {
            let fresh = fresh.get(&line.place).copied().unwrap_or(0);
            self.limit(line, &mut counts.bounds, fresh, "bounds", MAX_BOUNDS);
        }
        let source = JobSource {
            place: title.place,
            release: clauses.release.map(|(_, place)| place),
            optional: clauses.optional,
            retired: clauses.retired.is_some(),
            takes: clauses.takes.is_some(),
            ..JobSource::default()
        };
        draft.finish(code, source)
    }

    /// Marks the job, if its title says that it is retired. `known` is whether each line gave its events.
    fn retire(&mut self, clauses: &Clauses, title: Place, known: bool, draft: &mut Draft) {
        let Some(place) = clauses.retired else { return };
        if draft.retire(title) || !known {
            return;
        }
        let has = if draft.events.is_empty() { "no event" } else { "one event" };
        let message = format!("the job '{}' cannot be marked as retired: it has {has}", draft.name);
        let help = "the mark is two bounds between its first two events, which cannot both hold; \
                    give the job a line that it had, as what it needs, or take it out of the sheet";
        self.errors.push(Note::new(place, message).with_help(help));
    }

    fn title(&mut self, title: &Line) -> (u16, String, Clauses) {
        let Statement::Job { code, name, clauses } = &title.statement else {
            unreachable!("a job starts with its title")
        };
        if let Some(line) = self.names.get(&name.text).copied() {
            let message = format!("the job '{}' is declared on line {line} already", name.text);
            self.error(name.place, message);
        }
        self.names.insert(name.text.clone(), title.place.line);
        let code = self.code(*code);
        (self.noted(code).unwrap_or(0), name.text.clone(), *clauses)
    }

    /// The minute before which the job may not start.
    fn release(&mut self, clauses: &Clauses) -> u16 {
        let Some((minutes, place)) = clauses.release else { return 0 };
        let outcome = self.head.second("not before", place).and_then(|()| {
            u16::try_from(minutes.value).map_err(|_| {
                let message = format!("the minute of 'not before' lies from 0 to {}", u16::MAX);
                Note::new(minutes.place, message)
            })
        });
        self.noted(outcome).unwrap_or(0)
    }

    /// The code, if it is above every code so far.
    fn code(&mut self, code: Number) -> Result<u16, Note> {
        let Ok(value) = u16::try_from(code.value) else {
            let message = format!("a job code lies from 0 to {}", u16::MAX);
            return Err(Note::new(code.place, message));
        };
        if let Some(line) = self.codes.get(&value) {
            let message = format!("the job code {value} stands on line {line} already");
            return Err(Note::new(code.place, message));
        }
        let above = self.codes.range(value..).next_back().map(|(other, line)| (*other, *line));
        self.codes.insert(value, code.place.line);
        if let Some((other, line)) = above {
            let message = format!("job codes rise: {value} comes before {other} of line {line}");
            return Err(Note::new(code.place, message));
        }
        Ok(value)
    }

    /// Adds the line's new rows to the count, and says once that there are too many.
    fn limit(&mut self, line: &Line, count: &mut usize, fresh: usize, what: &str, most: usize) {
        let before = *count;
        *count += fresh;
        if before <= most && *count > most {
            self.error(line.place, format!("too many {what}: a sheet holds at most {most}"));
        }
    }

    fn events(&mut self, line: &Line, draft: &mut Draft) {
        let (fact, kinds): (_, &[Kind]) = match &line.statement {
            Statement::Need { fact, .. } => (fact, &[Kind::Begins, Kind::Ends]),
            Statement::Set { fact, .. } => (fact, &[Kind::Sets]),
            Statement::Clear { fact, .. } => (fact, &[Kind::Clears]),
            _ => return,
        };
        let Some(number) = self.noted(self.head.number(fact)) else {
            return;
        };
        if let Some(place) = draft.events.get(&Event::new(kinds[0], number)) {
            let message =
                format!("'{}' stands on line {} already", phrase(kinds[0], fact), place.line);
            self.errors.push(Note::new(line.place, message).with_help(second_length(line)));
            return;
        }
        for kind in kinds {
            draft.events.insert(Event::new(*kind, number), line.place);
        }
    }

    /// Reads the bound of a need or a bound's own line.
    fn bound(&mut self, line: &Line, draft: &mut Draft) {
        let (d, e, span) = match &line.statement {
            Statement::Need { fact, span: Some(span), .. } => {
                // A fact that is not known, or needed twice, is an error of the events.
                let Ok(fact) = self.head.number(fact) else { return };
                if draft.events.get(&Event::new(Kind::Begins, fact)) != Some(&line.place) {
                    return;
                }
                (Event::new(Kind::Begins, fact), Event::new(Kind::Ends, fact), span)
            }
            Statement::Bound { from, to, span } => {
                let (from, to) = (self.event(from, draft), self.event(to, draft));
                let (Some(d), Some(e)) = (from, to) else { return };
                (d, e, span)
            }
            _ => return,
        };
        let span = self::span(span);
        if let Some(span) = self.noted(span) {
            let outcome = draft.add_bound(e, d, span, line.place);
            self.noted(outcome);
        }
    }

    fn event(&mut self, named: &Named, draft: &Draft) -> Option<Event> {
        let fact = self.noted(self.head.number(&named.fact))?;
        let event = Event::new(named.kind, fact);
        if draft.events.contains_key(&event) {
            return Some(event);
        }
        let line = phrase(named.kind, &named.fact);
        let message = format!("the job '{}' has no line '{line}'", draft.name);
        let help = match self.elsewhere.get(&line).and_then(|jobs| jobs.first()) {
            Some(other) => format!("it stands in the job '{other}'; {BETWEEN_JOBS}"),
            None => format!("give the job a line '{line}', or tie another of its events"),
        };
        self.errors.push(Note::new(named.place, message).with_help(help));
        None
    }
}

/// Low and high, if they are within their limits and low is not above high.
pub fn span(written: &Written) -> Result<Span, Note> {
    let low = written.low.map(minutes).transpose()?;
    let high = written.high.map(minutes).transpose()?;
    match (low, high, written.low) {
        (Some(low), Some(high), Some(number)) if low > high => {
            Err(Note::new(number.place, format!("low {low} is above high {high}")))
        }
        _ => Ok(Span { low, high }),
    }
}

/// A side of a span, if it is within its limits.
fn minutes(number: Number) -> Result<i16, Note> {
    let value = i16::try_from(number.value).ok();
    value.filter(|value| (-MAX_SPAN..=MAX_SPAN).contains(value)).ok_or_else(|| {
        let message = format!("minutes lie from -{MAX_SPAN} to {MAX_SPAN}");
        Note::new(number.place, message)
    })
}

/// How a need that stands already gets one more length; empty if this line says none.
fn second_length(line: &Line) -> String {
    let Statement::Need { fact, span: Some(written), .. } = &line.statement else {
        return String::new();
    };
    let (fact, span) = (name(&fact.text), span(written).map_or("..".to_string(), print_span));
    format!("for more bounds on its length write 'from begin of need {fact} to end of need {fact}: {span}'")
}

/// The line that gives a job this event.
fn phrase(kind: Kind, fact: &Name) -> String {
    let word = match kind {
        Kind::Begins | Kind::Ends => "need",
        Kind::Sets => "set",
        Kind::Clears => "clear",
    };
    format!("{word} {}", fact.text)
}

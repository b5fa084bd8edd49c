//! Events, rules and minutes in the sheet's own names.

use super::Context;
use crate::list::clock;
use crate::meaning::bound_name;
use crate::model::{Edition, Event, Kind, Sheet, Span};
use crate::rules::{locate, Rule, Why};

/// The sheet's words; made only for a sheet that is one.
pub struct Words<'a> {
    pub sheet: &'a Sheet,
    pub context: &'a Context<'a>,
}

impl Words<'_> {
    pub fn fact(&self, fact: usize) -> String {
        format!("'{}'", self.sheet.facts[fact].name)
    }

    pub fn job(&self, job: usize) -> String {
        format!("'{}'", self.sheet.jobs[job].name)
    }

    /// The jobs, one behind the other.
    pub fn jobs(&self, jobs: &[usize]) -> String {
        let names: Vec<String> = jobs.iter().map(|&job| self.job(job)).collect();
        names.join(", ")
    }

    fn find(&self, event: usize) -> (usize, Event) {
        let (job, place) = locate(self.sheet, event);
        (job, self.sheet.jobs[job].events[place])
    }

    /// What happens, with the job that does it.
    pub fn step(&self, event: usize) -> String {
        let (job, event) = self.find(event);
        format!(
            "{} {} {}",
            self.sheet.jobs[job].name,
            event.kind.verb(),
            self.sheet.facts[event.fact].name
        )
    }

    /// The event within its job.
    pub fn event(&self, event: usize) -> String {
        let (_, event) = self.find(event);
        format!("{} {}", event.kind.phrase(), self.fact(event.fact))
    }

    /// The bound of this row and, where there is a text, its line.
    pub fn bound(&self, row: usize, event: usize) -> (Span, String) {
        let (job, _) = locate(self.sheet, event);
        let first = self.sheet.first_bound(job);
        let (bound, said) = (row - first, self.context.source.map(|source| &source.jobs[job]));
        (self.sheet.jobs[job].bounds[bound].span, bound_name(said, bound, first))
    }

    /// The release of a job and, where there is a text, its line.
    pub fn release(&self, job: usize) -> String {
        let line = self.context.source.map(|source| source.jobs[job].place.line);
        let line = line.map_or(String::new(), |line| format!(" (line {line})"));
        format!("not before minute {}{line}", self.sheet.jobs[job].release)
    }

    /// The line of the text that says that the job is retired.
    pub fn retired(&self, job: usize) -> Option<usize> {
        let said = self.context.source?.jobs.get(job)?;
        said.retired.then_some(said.place.line)
    }

    /// The gap, as what passes until something.
    fn gap(&self) -> String {
        match (self.sheet.gap(), self.sheet.edition) {
            (1, _) => "a minute".to_string(),
            (gap, Edition::Two { gap: 0, .. }) => format!("{gap} minutes, the default gap,"),
            (gap, _) => format!("{gap} minutes"),
        }
    }

    /// The rule, without the event that it starts from.
    pub fn short_rule(&self, rule: &Rule) -> String {
        let (owner, event) = self.find(rule.to);
        let same = rule.from.is_some_and(|from| locate(self.sheet, from).0 == owner);
        let (fact, gap) = (self.fact(event.fact), self.gap());
        match rule.why {
            Why::Release => self.release(owner),
            Why::Low(row) | Why::High(row) => self.bound(row, rule.to).1,
            Why::Need => "a need ends no earlier than it begins".to_string(),
            Why::SetBeforeNeed if same => "a job may need at once what it sets itself".to_string(),
            Why::SetBeforeNeed => format!("{fact} is there {gap} after another job sets it"),
            Why::SetBeforeClear => format!("{fact} is cleared last: after it is set"),
            Why::NeedBeforeClear if same => {
                format!("{fact} is cleared last: when its need has ended")
            }
            Why::NeedBeforeClear => {
                format!("{fact} is cleared last: {gap} after another job's need of it ends")
            }
            Why::ClearBeforeSet => format!("{fact} is cleared first: set after it is cleared"),
        }
    }

    /// What holds a step back: another step and a rule, or a release.
    pub fn holder(&self, rule: &Rule) -> String {
        let why = self.short_rule(rule);
        match rule.from {
            Some(from) => format!("{}, {:+} min ({why})", self.step(from), rule.minutes),
            None => why,
        }
    }

    /// The rule; of a bound, what it asks.
    pub fn rule(&self, rule: &Rule) -> String {
        let short = self.short_rule(rule);
        let (Why::Low(row) | Why::High(row), Some(from)) = (rule.why, rule.from) else {
            return short;
        };
        let (span, _) = self.bound(row, rule.to);
        let (from, minutes) = (self.event(from), rule.minutes.abs());
        let exact = span.low == span.high;
        let asks = match (exact, rule.minutes.signum()) {
            (true, 0) => format!("together with {from}"),
            (true, 1) => format!("{minutes} min after {from}"),
            (true, _) => format!("{minutes} min before {from}"),
            (false, 0) => format!("not before {from}"),
            (false, 1) => format!("at least {minutes} min after {from}"),
            (false, _) => format!("at most {minutes} min before {from}"),
        };
        format!("{short}: {asks}")
    }

    /// The minute, with the time of day where the start is known.
    pub fn minute(&self, minute: u16) -> String {
        match self.context.start {
            Some(start) => format!("{minute} ({})", clock(start, minute)),
            None => minute.to_string(),
        }
    }

    /// A line's text for a need, set or clear.
    pub fn does(&self, kind: Kind, fact: usize) -> String {
        format!("{} {}", kind.verb(), self.fact(fact))
    }
}

/// The number with its noun.
pub fn count(number: usize, noun: &str) -> String {
    let plural = if number == 1 { "" } else { "s" };
    format!("{number} {noun}{plural}")
}

//! From lines to a sheet: names, limits, and what the lines of a job mean together.

mod draft;
mod head;
mod jobs;
mod takes;

use crate::model::{Event, Sheet};
use crate::note::{Note, Place};
use crate::syntax::Line;
use std::collections::BTreeMap;

/// Where the text says what the sheet says, for warnings and explanations.
#[derive(Clone, Debug, Default, PartialEq, Eq)]
pub struct Source {
    /// Where a line says that it is of edition 2.
    pub edition: Option<Place>,
    pub horizon: Place,
    /// Where a line says the gap.
    pub gap: Option<Place>,
    pub facts: Vec<Place>,
    pub jobs: Vec<JobSource>,
}

#[derive(Clone, Debug, Default, PartialEq, Eq)]
pub struct JobSource {
    pub place: Place,
    /// Where the title says the release.
    pub release: Option<Place>,
    /// Nobody has to want this job.
    pub optional: bool,
    /// The title says that the job is retired.
    pub retired: bool,
    pub takes: bool,
    pub events: BTreeMap<Event, Place>,
    /// For each bound of the job, in the order of its rows.
    pub bounds: Vec<Place>,
    /// Events whose place within the job is written with them.
    pub placed: Vec<Event>,
}

/// A bound by its line; where there is no text, by its row. `place` is that among the job's bounds, whose first row is `first`.
pub fn bound_name(said: Option<&JobSource>, place: usize, first: usize) -> String {
    match said {
        Some(said) => format!("line {}", said.bounds[place].line),
        None => format!("bound {}", first + place),
    }
}

/// The sheet of these lines and where each thing stands, or the errors by place.
pub fn sheet(lines: &[Line]) -> Result<(Sheet, Source), Vec<Note>> {
    let mut errors = Vec::new();
    let head = head::read(lines, &mut errors);
    let (jobs, sources) = jobs::read(lines, &head, &mut errors);
    errors.sort_by_key(|error| error.place);
    if !errors.is_empty() {
        return Err(errors);
    }
    let edition = head.edition();
    let source = Source {
        edition: head.second,
        horizon: head.place,
        gap: head.gap.map(|(_, place)| place),
        facts: head.places,
        jobs: sources,
    };
    Ok((Sheet { edition, horizon: head.horizon, facts: head.facts, jobs }, source))
}

//! A job while it is read.

use super::JobSource;
use crate::model::{Bound, Event, Job, Span};
use crate::note::{Note, Place};
use std::collections::BTreeMap;

/// Two lengths that cannot both be: by them a retired job is marked.
const CROSSING: [Span; 2] = [Span { low: Some(1), high: None }, Span { low: None, high: Some(0) }];

/// Places are those of the lines.
#[derive(Default)]
pub struct Draft {
    pub name: String,
    pub release: u16,
    pub events: BTreeMap<Event, Place>,
    pub bounds: Vec<(Bound, Place)>,
    /// The bounds that mark a retired job.
    pub retired: Vec<(Bound, Place)>,
    pub placed: Vec<Event>,
}

impl Draft {
    pub fn add_bound(&mut self, e: Event, d: Event, span: Span, at: Place) -> Result<(), Note> {
        if e == d {
            return Err(Note::new(at, "a bound lies between two different events"));
        }
        self.bounds.push((Bound { e, d, span }, at));
        Ok(())
    }

    /// Marks the job as retired, on the line of its title: two bounds from its first event to its second. False if it has fewer.
    pub fn retire(&mut self, title: Place) -> bool {
        let mut events = self.events.keys().copied();
        let (Some(d), Some(e)) = (events.next(), events.next()) else {
            return false;
        };
        self.retired = CROSSING.map(|span| (Bound { e, d, span }, title)).to_vec();
        true
    }

    /// How many bounds each line gave.
    pub fn bounds_by_line(&self) -> BTreeMap<Place, usize> {
        let mut counts = BTreeMap::new();
        for (_, line) in self.bounds.iter().chain(&self.retired) {
            *counts.entry(*line).or_default() += 1;
        }
        counts
    }

    /// Bounds rise by their pairs; those of one pair keep the order of their lines, and what marks a retired job comes last.
    pub fn finish(mut self, code: u16, mut source: JobSource) -> (Job, JobSource) {
        self.bounds.sort_by_key(|(_, line)| *line);
        self.bounds.append(&mut self.retired);
        self.bounds.sort_by_key(|(bound, _)| (bound.e, bound.d));
        let (bounds, lines) = self.bounds.into_iter().unzip();
        let events = self.events.keys().copied().collect();
        let job = Job { code, release: self.release, name: self.name, events, bounds };
        source.events = self.events;
        source.bounds = lines;
        source.placed = self.placed;
        (job, source)
    }
}

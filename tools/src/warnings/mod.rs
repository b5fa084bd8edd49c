//! What a sheet may say and people seldom mean. Each warning says what it means, and how to say the other
//! thing.

mod absent;
mod facts;
mod ties;

pub use facts::former_gap;

use crate::meaning::{bound_name, JobSource, Source};
use crate::model::{Event, Job, Sheet};
use crate::notation::name;
use crate::note::{Note, Place};
use crate::rules::follow::Follow;
use crate::rules::present::Present;

/// The warnings, by place where the sheet came as a text.
pub fn of(sheet: &Sheet, source: Option<&Source>) -> Vec<Note> {
    let present = Present::of(sheet);
    let mut notes = Vec::new();
    for (number, job) in sheet.jobs.iter().enumerate() {
        let said = source.map(|source| &source.jobs[number]);
        let part = Part { sheet, number, job, said };
        let follow = Follow::new(sheet, number);
        notes.extend(follow.iter().flat_map(|follow| ties::of(&part, follow)));
        if !present.has(number) {
            let horizon = source.map(|source| source.horizon);
            notes.extend(absent::of(&part, follow.as_ref(), horizon));
        }
    }
    notes.extend(facts::of(&present, source));
    notes.sort_by_key(|note| note.place);
    notes
}

/// A job, and what its text says beyond the sheet.
struct Part<'a> {
    sheet: &'a Sheet,
    number: usize,
    job: &'a Job,
    said: Option<&'a JobSource>,
}

impl Part<'_> {
    fn place(&self, event: Event) -> Option<Place> {
        self.said.and_then(|said| said.events.get(&event)).copied()
    }

    /// The bound, told by its line or its row.
    fn bound(&self, place: usize) -> String {
        bound_name(self.said, place, self.sheet.first_bound(self.number))
    }

    /// The event as the notation writes it.
    fn words(&self, event: Event) -> String {
        format!("{} {}", event.kind.phrase(), name(&self.sheet.facts[event.fact].name))
    }

    fn note(&self, event: Event, message: String, help: String) -> Note {
        Note { place: self.place(event), message, help }
    }
}

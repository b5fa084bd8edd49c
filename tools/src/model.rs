//! What a sheet says (docs/FORMAT.md), with names, which its bytes do not hold.

use crate::layout::{Form, DEFAULT_GAP, EDITION_1, EDITION_1_GAP, EDITION_2};
pub use crate::layout::{
    MAX_BOUNDS, MAX_EVENTS, MAX_FACTS, MAX_GAP, MAX_HORIZON, MAX_JOBS, MAX_SPAN,
};

/// In the order of the type byte, 0 to 3.
#[derive(Clone, Copy, Debug, PartialEq, Eq, PartialOrd, Ord, Hash)]
pub enum Kind {
    Begins,
    Ends,
    Sets,
    Clears,
}

impl Kind {
    pub const ALL: [Kind; 4] = [Kind::Begins, Kind::Ends, Kind::Sets, Kind::Clears];

    /// The letter of a run list.
    pub fn letter(self) -> char {
        ['B', 'E', 'S', 'C'][self as usize]
    }

    /// The kind that a letter or a word of a run list means, in small letters or capitals.
    pub fn of_word(word: &str) -> Option<Kind> {
        match word.to_ascii_lowercase().as_str() {
            "b" | "begin" | "begins" => Some(Kind::Begins),
            "e" | "end" | "ends" => Some(Kind::Ends),
            "s" | "set" | "sets" => Some(Kind::Sets),
            "c" | "clear" | "clears" => Some(Kind::Clears),
            _ => None,
        }
    }

    /// What a job does with the fact.
    pub fn verb(self) -> &'static str {
        ["begins to need", "ends its need of", "sets", "clears"][self as usize]
    }

    /// How the notation calls the event.
    pub fn phrase(self) -> &'static str {
        ["begin of need", "end of need", "set", "clear"][self as usize]
    }
}

/// An event within its job. They rise by fact, then type: the order of these fields.
#[derive(Clone, Copy, Debug, PartialEq, Eq, PartialOrd, Ord, Hash)]
pub struct Event {
    pub fact: usize,
    pub kind: Kind,
}

impl Event {
    pub fn new(kind: Kind, fact: usize) -> Event {
        Event { fact, kind }
    }
}

/// Low and high of a difference in minutes; an open side is none.
#[derive(Clone, Copy, Debug, PartialEq, Eq)]
pub struct Span {
    pub low: Option<i16>,
    pub high: Option<i16>,
}

/// The span of time(e) − time(d).
#[derive(Clone, Copy, Debug, PartialEq, Eq)]
pub struct Bound {
    pub e: Event,
    pub d: Event,
    pub span: Span,
}

#[derive(Clone, Debug, PartialEq, Eq)]
pub struct Fact {
    pub name: String,
    pub initial: bool,
    pub goal: bool,
}

/// Events rise strictly; bounds rise by the pair (e, d), and those of one pair stand in any order: all apply.
#[derive(Clone, Debug, PartialEq, Eq)]
pub struct Job {
    pub code: u16,
    /// No event comes before this minute; 0 in edition 1.
    pub release: u16,
    pub name: String,
    pub events: Vec<Event>,
    pub bounds: Vec<Bound>,
}

impl Job {
    /// The name of a job of which nothing but its code is known, as in a sheet's bytes.
    pub fn name_of(code: u16) -> String {
        format!("job{code}")
    }

    /// The place of the event among the job's events.
    pub fn place(&self, kind: Kind, fact: usize) -> Option<usize> {
        self.events.binary_search(&Event::new(kind, fact)).ok()
    }

    pub fn does(&self, kind: Kind, fact: usize) -> bool {
        self.place(kind, fact).is_some()
    }
}

/// The edition of a sheet, with what only the second has.
#[derive(Clone, Copy, Debug, Default, PartialEq, Eq)]
pub enum Edition {
    #[default]
    One,
    /// The gap as its byte says it, where 0 stands for the default; and the revision.
    Two { gap: u8, revision: u16 },
}

impl Edition {
    pub fn form(self) -> &'static Form {
        match self {
            Edition::One => &EDITION_1,
            Edition::Two { .. } => &EDITION_2,
        }
    }

    /// The minutes that lie at least between a set and another instance's need, and between a need and another's clear.
    pub fn gap(self) -> u8 {
        match self {
            Edition::One => EDITION_1_GAP,
            Edition::Two { gap: 0, .. } => DEFAULT_GAP,
            Edition::Two { gap, .. } => gap,
        }
    }
}

/// Jobs rise strictly by code.
#[derive(Clone, Debug, Default, PartialEq, Eq)]
pub struct Sheet {
    pub edition: Edition,
    pub horizon: u16,
    pub facts: Vec<Fact>,
    pub jobs: Vec<Job>,
}

impl Sheet {
    /// The number of the job's first event in the sheet.
    pub fn first_event(&self, job: usize) -> usize {
        self.jobs[..job].iter().map(|job| job.events.len()).sum()
    }

    /// The number of the job's first bound in the sheet.
    pub fn first_bound(&self, job: usize) -> usize {
        self.jobs[..job].iter().map(|job| job.bounds.len()).sum()
    }

    /// The settling gap in minutes.
    pub fn gap(&self) -> i32 {
        i32::from(self.edition.gap())
    }

    /// The jobs that have such an event, by number.
    pub fn jobs_that(&self, kind: Kind, fact: usize) -> Vec<usize> {
        (0..self.jobs.len()).filter(|&job| self.jobs[job].does(kind, fact)).collect()
    }
}

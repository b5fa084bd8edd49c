//! The bytes of a sheet and of a list, in one place: what stands where, and how much there may be of it.
//! docs/FORMAT.md says the same in words.

/// Byte 1 of a sheet: the count of parts.
pub const PARTS: usize = 4;
/// Where the entries of the contents start, and how long each is: kind, a zero, offset, length.
pub const ENTRIES_AT: usize = 2;
pub const ENTRY: usize = 6;
/// Where the first body starts.
pub const CONTENTS: usize = ENTRIES_AT + PARTS * ENTRY;

/// A body of the sheet: its name, the answer that refuses it, and the most rows. Its kind is its place, from 1.
pub struct Part {
    pub name: &'static str,
    pub number: u8,
    pub most: usize,
}

pub const FACTS: usize = 0;
pub const JOBS: usize = 1;
pub const EVENTS: usize = 2;
pub const BOUNDS: usize = 3;

pub const BODIES: [Part; PARTS] = [
    Part { name: "facts", number: 11, most: 64 },
    Part { name: "jobs", number: 12, most: 32 },
    Part { name: "events", number: 13, most: 256 },
    Part { name: "bounds", number: 14, most: 256 },
];

/// What differs between the editions: byte 0 of a sheet, where the marks start in the facts body, and the bytes of a row.
#[derive(Debug, PartialEq, Eq)]
pub struct Form {
    pub edition: u8,
    pub marks_at: usize,
    pub rows: [usize; PARTS],
}

pub const EDITION_1: Form = Form { edition: 1, marks_at: 3, rows: [1, 2, 3, 6] };
pub const EDITION_2: Form = Form { edition: 2, marks_at: 6, rows: [1, 4, 3, 6] };

/// The form that byte 0 names.
pub fn form(edition: u8) -> Option<&'static Form> {
    [&EDITION_1, &EDITION_2].into_iter().find(|form| form.edition == edition)
}

/// The answer for contents that are not as they should be.
pub const BAD_CONTENTS: u8 = 10;

pub const MAX_FACTS: usize = BODIES[FACTS].most;
pub const MAX_JOBS: usize = BODIES[JOBS].most;
pub const MAX_EVENTS: usize = BODIES[EVENTS].most;
pub const MAX_BOUNDS: usize = BODIES[BOUNDS].most;
pub const MAX_HORIZON: u16 = 10_080;
/// The farthest that a low or a high lies from 0.
pub const MAX_SPAN: i16 = 10_080;

/// In the facts body: the count, the horizon, in edition 2 the gap and the revision, then the marks.
pub const HORIZON_AT: usize = 1;
pub const GAP_AT: usize = 3;
pub const REVISION_AT: usize = 4;
/// The place of the gap in the sheet: the facts body is the first.
pub const GAP_BYTE: usize = CONTENTS + GAP_AT;
/// The greatest gap, that for which 0 stands, and that of edition 1, which says none; in minutes.
pub const MAX_GAP: u8 = 60;
pub const DEFAULT_GAP: u8 = 2;
pub const EDITION_1_GAP: u8 = 1;
/// Before this version 0 stood for the gap of edition 1, and rewriting to edition 2 wrote it.
pub const DEFAULT_GAP_SINCE: &str = "0.4.0";
pub const INITIAL: u8 = 1;
pub const GOAL: u8 = 2;

/// In a job's row of edition 2: the code, then the release.
pub const RELEASE_AT: usize = 2;

/// In a bound's row: e and d, then low and high; the values of an open side.
pub const LOW_AT: usize = 2;
pub const HIGH_AT: usize = 4;
pub const NO_LOW: i16 = i16::MIN;
pub const NO_HIGH: i16 = i16::MAX;

/// Byte 0 and byte 1 of a list, then the count of entries and the entries: code, offset.
pub const LIST_OPENING: [u8; 2] = [1, 0];
pub const LIST_COUNT_AT: usize = 2;
pub const LIST_ENTRIES_AT: usize = 4;
pub const LIST_ENTRY: usize = 4;
pub const LIST_TIME: usize = 2;
pub const MAX_ENTRIES: usize = 64;
pub const MAX_TIMES: usize = 512;
/// The most minutes that an entry may be late.
pub const MAX_DELAY: u16 = 600;
/// The highest rate of a job, in cents per hour, and the minutes of an hour.
pub const MAX_RATE: u32 = 1_000_000;
pub const HOUR: u64 = 60;

/// Enough for every list that the planner writes.
pub const LONGEST_PLAN: usize = LIST_ENTRIES_AT + LIST_ENTRY * MAX_JOBS + LIST_TIME * MAX_EVENTS;

/// Enough for every well-formed sheet, of either edition.
pub const LONGEST_SHEET: usize = {
    let mut length = CONTENTS + EDITION_2.marks_at;
    let mut part = 0;
    while part < PARTS {
        length += EDITION_2.rows[part] * BODIES[part].most;
        part += 1;
    }
    length
};

/// The two-byte number that starts at `at`; the bytes are there.
pub fn two(bytes: &[u8], at: usize) -> u16 {
    u16::from_le_bytes([bytes[at], bytes[at + 1]])
}

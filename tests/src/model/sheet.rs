//! "The sheet" of document 01 and its edition 2 of document 02: which bytes are a sheet, and what they say.

use super::limits::{Limits, LIMITS};

pub const MAX_FACTS: usize = 64;
pub const MAX_JOBS: usize = 32;
pub const MAX_EVENTS: usize = 256;
pub const MAX_BOUNDS: usize = 256;
pub const MAX_HORIZON: i32 = 10_080;
pub const MAX_GAP: u8 = 60;
pub const NO_LOW: i32 = -32_768;
pub const NO_HIGH: i32 = 32_767;

/// The settling gap in ticks that gap byte 0 of edition 2 stands for.
const DEFAULT_GAP: i32 = 2;

/// The settling gap in ticks of edition 1, which has no byte for it.
const GAP_OF_EDITION_1: i32 = 1;

/// The edition, with what edition 2 alone says of the whole sheet: the byte of the settling gap, and the revision.
#[derive(Clone, Copy, Debug, PartialEq, Eq)]
pub enum Edition {
    One,
    Two { gap: u8, revision: u16 },
}

impl Edition {
    pub fn number(self) -> u8 {
        match self {
            Edition::One => 1,
            Edition::Two { .. } => 2,
        }
    }

    /// The settling gap in ticks; byte 0 stands for the default.
    pub fn gap(self) -> i32 {
        match self {
            Edition::One => GAP_OF_EDITION_1,
            Edition::Two { gap: 0, .. } => DEFAULT_GAP,
            Edition::Two { gap, .. } => i32::from(gap),
        }
    }
}

/// The bytes of the facts body before the marks: F, H; in edition 2 also gap and revision.
pub fn facts_head(edition: u8) -> usize {
    if edition == 2 {
        6
    } else {
        3
    }
}

/// The bytes of a job: its code; in edition 2 also its release.
pub fn job_row(edition: u8) -> usize {
    if edition == 2 {
        4
    } else {
        2
    }
}

/// In the order of the type byte, 0 to 3.
#[derive(Clone, Copy, Debug, PartialEq, Eq, PartialOrd, Ord)]
pub enum Kind {
    Begins,
    Ends,
    Sets,
    Clears,
}

#[derive(Clone, Copy, Debug, PartialEq, Eq)]
pub struct Fact {
    pub initial: bool,
    pub goal: bool,
}

/// Events rise by job, then fact, then type: the order of these fields.
#[derive(Clone, Copy, Debug, PartialEq, Eq, PartialOrd, Ord)]
pub struct Event {
    pub job: usize,
    pub fact: usize,
    pub kind: Kind,
}

/// low ≤ time(e) − time(d) ≤ high, as far as there is a low and a high.
#[derive(Clone, Copy, Debug, PartialEq, Eq)]
pub struct Bound {
    pub e: usize,
    pub d: usize,
    pub low: Option<i32>,
    pub high: Option<i32>,
}

#[derive(Clone, Debug, PartialEq, Eq)]
pub struct Sheet {
    pub edition: Edition,
    pub horizon: i32,
    pub facts: Vec<Fact>,
    pub codes: Vec<u16>,
    /// For each job the tick before which none of its events falls; 0 in edition 1.
    pub releases: Vec<i32>,
    pub events: Vec<Event>,
    /// By rising pair (e, d); a pair may stand several times, and then all its bounds apply.
    pub bounds: Vec<Bound>,
}

impl Sheet {
    /// The settling gap in ticks.
    pub fn gap(&self) -> i32 {
        self.edition.gap()
    }

    /// The numbers of the job's events, in sheet order.
    pub fn events_of(&self, job: usize) -> Vec<usize> {
        (0..self.events.len()).filter(|&k| self.events[k].job == job).collect()
    }

    /// The bounds of the job: both events are its own.
    pub fn bounds_of(&self, job: usize) -> impl Iterator<Item = &Bound> {
        self.bounds.iter().filter(move |b| self.events[b.e].job == job)
    }

    /// Whether some pair of events has several bounds.
    pub fn repeats(&self) -> bool {
        self.bounds.windows(2).any(|two| (two[0].e, two[0].d) == (two[1].e, two[1].d))
    }

    /// The number of the job's event of this kind and fact.
    pub fn event(&self, job: usize, kind: Kind, fact: usize) -> Option<usize> {
        let wanted = Event { job, fact, kind };
        self.events.iter().position(|e| *e == wanted)
    }
}

/// The sheet, or the first of the answers 10 to 14 that is due.
pub fn read(bytes: &[u8]) -> Result<Sheet, u8> {
    read_within(bytes, &LIMITS)
}

/// The same in one edition: any other is a fault of the contents.
pub fn read_in(edition: u8, bytes: &[u8]) -> Result<Sheet, u8> {
    match bytes.first() {
        Some(first) if *first == edition => read(bytes),
        _ => Err(10),
    }
}

pub fn read_within(bytes: &[u8], limits: &Limits) -> Result<Sheet, u8> {
    let [facts, jobs, events, bounds] = read_contents(bytes).ok_or(10)?;
    let number = bytes[0];
    let (edition, horizon, facts) = read_facts(number, facts, limits).ok_or(11)?;
    let (codes, releases) = read_jobs(number, jobs, limits.jobs).ok_or(12)?;
    let event_rows = rows(events, 3, limits.events).ok_or(13)?;
    let events = read_events(&event_rows, codes.len(), facts.len()).ok_or(13)?;
    let bounds = read_bounds(bounds, &events, limits).ok_or(14)?;
    Ok(Sheet { edition, horizon, facts, codes, releases, events, bounds })
}

/// The two-byte number that starts at `at`, little-endian.
pub fn number(bytes: &[u8], at: usize) -> u16 {
    u16::from_le_bytes([bytes[at], bytes[at + 1]])
}

fn signed(bytes: &[u8], at: usize) -> i32 {
    i32::from(number(bytes, at) as i16)
}

/// The four bodies: the first at 26, each next where the last ends, and the last ends with the sheet.
fn read_contents(bytes: &[u8]) -> Option<[&[u8]; 4]> {
    if bytes.len() < 26 || !(1..=2).contains(&bytes[0]) || bytes[1] != 4 {
        return None;
    }
    let mut bodies: [&[u8]; 4] = [&[]; 4];
    let mut start = 26;
    for (part, body) in bodies.iter_mut().enumerate() {
        let entry = &bytes[2 + 6 * part..8 + 6 * part];
        let offset = usize::from(number(entry, 2));
        let length = usize::from(number(entry, 4));
        if usize::from(entry[0]) != part + 1 || entry[1] != 0 || offset != start {
            return None;
        }
        *body = bytes.get(start..start + length)?;
        start += length;
    }
    (start == bytes.len()).then_some(bodies)
}

fn read_facts(edition: u8, body: &[u8], limits: &Limits) -> Option<(Edition, i32, Vec<Fact>)> {
    let head = facts_head(edition);
    if body.len() < head || body.len() != head + usize::from(body[0]) {
        return None;
    }
    let horizon = i32::from(number(body, 1));
    let edition = match edition {
        2 => Edition::Two { gap: body[3], revision: number(body, 4) },
        _ => Edition::One,
    };
    let gap_fits = !matches!(edition, Edition::Two { gap, .. } if gap > limits.gap);
    let marks = &body[head..];
    let fits = marks.len() <= limits.facts && horizon <= limits.horizon && gap_fits;
    let good = fits && marks.iter().all(|m| *m <= 3);
    let facts =
        marks.iter().map(|m| Fact { initial: *m == 1 || *m == 3, goal: *m == 2 || *m == 3 });
    good.then(|| (edition, horizon, facts.collect()))
}

/// The rows of a body, or none if it holds no whole number of rows or too many.
fn rows(body: &[u8], size: usize, most: usize) -> Option<Vec<&[u8]>> {
    let whole = body.len() % size == 0 && body.len() / size <= most;
    whole.then(|| body.chunks(size).collect())
}

fn rise_strictly<T: PartialOrd>(items: &[T]) -> bool {
    items.windows(2).all(|pair| pair[0] < pair[1])
}

fn rise<T: PartialOrd>(items: &[T]) -> bool {
    items.windows(2).all(|pair| pair[0] <= pair[1])
}

/// Codes and releases; the codes rise strictly, whatever the releases.
fn read_jobs(edition: u8, body: &[u8], most: usize) -> Option<(Vec<u16>, Vec<i32>)> {
    let rows = rows(body, job_row(edition), most)?;
    let codes: Vec<u16> = rows.iter().map(|row| number(row, 0)).collect();
    let release = |row: &&[u8]| if edition == 2 { i32::from(number(row, 2)) } else { 0 };
    let releases = rows.iter().map(release).collect();
    rise_strictly(&codes).then_some((codes, releases))
}

fn read_kind(byte: u8) -> Option<Kind> {
    match byte {
        0 => Some(Kind::Begins),
        1 => Some(Kind::Ends),
        2 => Some(Kind::Sets),
        3 => Some(Kind::Clears),
        _ => None,
    }
}

fn read_events(rows: &[&[u8]], jobs: usize, facts: usize) -> Option<Vec<Event>> {
    let mut events = Vec::new();
    for row in rows {
        let event =
            Event { job: usize::from(row[0]), kind: read_kind(row[1])?, fact: usize::from(row[2]) };
        if event.job >= jobs || event.fact >= facts {
            return None;
        }
        events.push(event);
    }
    (rise_strictly(&events) && needs_have_both_ends(&events)).then_some(events)
}

fn needs_have_both_ends(events: &[Event]) -> bool {
    let has = |event: &Event, kind| events.contains(&Event { kind, ..*event });
    events.iter().all(|event| match event.kind {
        Kind::Begins => has(event, Kind::Ends),
        Kind::Ends => has(event, Kind::Begins),
        Kind::Sets | Kind::Clears => true,
    })
}

fn read_bounds(body: &[u8], events: &[Event], limits: &Limits) -> Option<Vec<Bound>> {
    let mut bounds = Vec::new();
    for row in rows(body, 6, limits.bounds)? {
        let (e, d) = (usize::from(row[0]), usize::from(row[1]));
        let (low, high) = (signed(row, 2), signed(row, 4));
        let one_job = e != d && events.get(e)?.job == events.get(d)?.job;
        let low_holds = limit_holds(low, limits.low, limits.no_low);
        let high_holds = limit_holds(high, limits.high, limits.no_high);
        if !one_job || low > high || !low_holds || !high_holds {
            return None;
        }
        bounds.push(Bound {
            e,
            d,
            low: (low != limits.no_low).then_some(low),
            high: (high != limits.no_high).then_some(high),
        });
    }
    // Equal pairs stand next to each other; all their bounds apply.
    let pairs: Vec<(usize, usize)> = bounds.iter().map(|b| (b.e, b.d)).collect();
    rise(&pairs).then_some(bounds)
}

fn limit_holds(value: i32, (least, greatest): (i32, i32), none: i32) -> bool {
    value == none || (least..=greatest).contains(&value)
}

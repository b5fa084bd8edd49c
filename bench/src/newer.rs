//! Which of two sheets counts: both are tested row by row, nothing but the revision is kept, and their bytes are compared.

use crate::sheet::{contents, is_limit, number, read_facts, BEGINS, CLEARS, ENDS, NO_HIGH, NO_LOW};
use std::cmp::Ordering;

/// The edition that has revisions, and the rows of its jobs, events and bounds: their bytes, and how many there may be.
const EDITION: u8 = 2;
const JOBS: Rows = Rows { size: 4, most: 32 };
const EVENTS: Rows = Rows { size: 3, most: 256 };
const BOUNDS: Rows = Rows { size: 6, most: 256 };

struct Rows {
    size: usize,
    most: usize,
}

impl Rows {
    fn whole(&self, body: &[u8]) -> bool {
        body.len() % self.size == 0 && body.len() <= self.most * self.size
    }
}

/// Number, and that very sheet; an empty one with a refusal.
pub fn newer<'a>(first: &'a [u8], second: &'a [u8]) -> (u8, &'a [u8]) {
    match chosen(first, second) {
        Ok(sheet) => (0, sheet),
        Err(number) => (number, &[]),
    }
}

fn chosen<'a>(first: &'a [u8], second: &'a [u8]) -> Result<&'a [u8], u8> {
    match revision(first)?.cmp(&revision(second)?) {
        Ordering::Less => Ok(second),
        Ordering::Equal if first != second => Err(56),
        Ordering::Greater | Ordering::Equal => Ok(first),
    }
}

/// That of a well-formed sheet, or the first of the answers 10 to 14 that is due.
fn revision(bytes: &[u8]) -> Result<u16, u8> {
    if bytes.first() != Some(&EDITION) {
        return Err(10);
    }
    let [facts, jobs, events, bounds] = contents(bytes).ok_or(10)?;
    let facts = read_facts(facts, true).ok_or(11)?;
    let due = |good: bool, number: u8| if good { Ok(()) } else { Err(number) };
    due(JOBS.whole(jobs) && codes_rise(jobs), 12)?;
    due(
        EVENTS.whole(events) && events_good(events, jobs.len() / JOBS.size, facts.marks.len()),
        13,
    )?;
    due(BOUNDS.whole(bounds) && bounds_good(bounds, events), 14)?;
    Ok(facts.revision)
}

fn codes_rise(jobs: &[u8]) -> bool {
    let codes = || jobs.chunks_exact(JOBS.size).map(|row| number(row, 0));
    codes().zip(codes().skip(1)).all(|(one, next)| one < next)
}

/// An end stands right after its begin, and only there.
fn events_good(events: &[u8], jobs: usize, facts: usize) -> bool {
    let (mut last, mut open) = (-1, false);
    for row in events.chunks_exact(EVENTS.size) {
        let (job, kind, fact) = (row[0], row[1], row[2]);
        let key = i32::from(job) << 16 | i32::from(fact) << 8 | i32::from(kind);
        let known = usize::from(job) < jobs && usize::from(fact) < facts && kind <= CLEARS;
        let paired = (kind == ENDS) == open && (!open || key == last + 1);
        if !known || key <= last || !paired {
            return false;
        }
        (last, open) = (key, kind == BEGINS);
    }
    !open
}

/// A pair may stand again right behind itself.
fn bounds_good(bounds: &[u8], events: &[u8]) -> bool {
    let job = |event: u8| events.get(EVENTS.size * usize::from(event));
    let mut last = 0;
    bounds.chunks_exact(BOUNDS.size).all(|row| {
        let (e, d) = (row[0], row[1]);
        let (low, high) = (number(row, 2) as i16, number(row, 4) as i16);
        let key = u16::from_be_bytes([e, d]);
        let of_one_job = job(e).is_some() && job(e) == job(d);
        let limits = low <= high && is_limit(low, NO_LOW) && is_limit(high, NO_HIGH);
        let rises = last <= key;
        last = key;
        e != d && of_one_job && rises && limits
    })
}

//! From a sheet to its bytes.

use crate::layout::{CONTENTS, GOAL, INITIAL, NO_HIGH, NO_LOW, PARTS};
use crate::model::{Edition, Fact, Job, Sheet, Span};

/// The bytes of a sheet that keeps every limit.
pub fn encode(sheet: &Sheet) -> Vec<u8> {
    let bodies = [facts(sheet), jobs(sheet), events(sheet), bounds(sheet)];
    let mut bytes = vec![sheet.edition.form().edition, PARTS as u8];
    let mut start = CONTENTS;
    for (kind, body) in (1..).zip(&bodies) {
        bytes.extend([kind, 0]);
        bytes.extend((start as u16).to_le_bytes());
        bytes.extend((body.len() as u16).to_le_bytes());
        start += body.len();
    }
    bytes.extend(bodies.concat());
    bytes
}

fn facts(sheet: &Sheet) -> Vec<u8> {
    let mark = |fact: &Fact| INITIAL * u8::from(fact.initial) + GOAL * u8::from(fact.goal);
    let mut body = vec![sheet.facts.len() as u8];
    body.extend(sheet.horizon.to_le_bytes());
    if let Edition::Two { gap, revision } = sheet.edition {
        body.push(gap);
        body.extend(revision.to_le_bytes());
    }
    body.extend(sheet.facts.iter().map(mark));
    body
}

fn jobs(sheet: &Sheet) -> Vec<u8> {
    let mut body = Vec::new();
    for job in &sheet.jobs {
        body.extend(job.code.to_le_bytes());
        if sheet.edition != Edition::One {
            body.extend(job.release.to_le_bytes());
        }
    }
    body
}

fn events(sheet: &Sheet) -> Vec<u8> {
    let mut body = Vec::new();
    for (number, job) in sheet.jobs.iter().enumerate() {
        for event in &job.events {
            body.extend([number as u8, event.kind as u8, event.fact as u8]);
        }
    }
    body
}

fn bounds(sheet: &Sheet) -> Vec<u8> {
    let mut body = Vec::new();
    let mut first = 0;
    for job in &sheet.jobs {
        body.extend(bounds_of(job, first));
        first += job.events.len();
    }
    body
}

/// The rows of one job, whose first event has the number `first`.
fn bounds_of(job: &Job, first: usize) -> Vec<u8> {
    let number = |event| (first + job.events.partition_point(|other| other < event)) as u8;
    let mut rows = Vec::new();
    for bound in &job.bounds {
        rows.extend([number(&bound.e), number(&bound.d)]);
        rows.extend(span(bound.span));
    }
    rows
}

fn span(span: Span) -> [u8; 4] {
    let low = span.low.unwrap_or(NO_LOW).to_le_bytes();
    let high = span.high.unwrap_or(NO_HIGH).to_le_bytes();
    [low[0], low[1], high[0], high[1]]
}

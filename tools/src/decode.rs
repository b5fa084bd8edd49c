//! From bytes to the sheet, with invented names, or to the fault for which planner and judge refuse them.

use crate::fault::{Body, Fault};
use crate::layout::{
    form, two, Form, Part, BAD_CONTENTS, BODIES, BOUNDS, CONTENTS, EDITION_1, EDITION_2,
    ENTRIES_AT, ENTRY, EVENTS, GAP_AT, GOAL, HIGH_AT, HORIZON_AT, INITIAL, JOBS, LOW_AT, MAX_FACTS,
    MAX_GAP, MAX_HORIZON, MAX_SPAN, NO_HIGH, NO_LOW, PARTS, RELEASE_AT, REVISION_AT,
};
use crate::model::{Bound, Edition, Event, Fact, Job, Kind, Sheet, Span};

/// The sheet that a well-formed sheet's bytes say.
pub fn decode(bytes: &[u8]) -> Result<Sheet, Fault> {
    let (form, [facts, jobs, events, bounds]) = read_contents(bytes)?;
    let mut sheet = read_facts(facts, form)?;
    sheet.jobs = read_jobs(jobs, form)?;
    let events = read_events(events, &sheet, form)?;
    for &(job, event) in &events {
        sheet.jobs[job].events.push(event);
    }
    for (job, bound) in read_bounds(bounds, &events, form)? {
        sheet.jobs[job].bounds.push(bound);
    }
    Ok(sheet)
}

/// The edition's form and the four bodies, each where the last one ends.
fn read_contents(bytes: &[u8]) -> Result<(&'static Form, [Body<'_>; PARTS]), Fault> {
    let contents = Body { number: BAD_CONTENTS, name: "contents", start: 0, bytes };
    let form = read_opening(&contents)?;
    let mut bodies = [contents; PARTS];
    let mut start = CONTENTS;
    for (part, body) in bodies.iter_mut().enumerate() {
        let found = read_entry(&contents, part, start).map_err(|fault| fault.in_row(part))?;
        *body = found;
        start += found.bytes.len();
    }
    if start != bytes.len() {
        let found = format!("{} bytes more", bytes.len() - start);
        let rule = ("sheet-ends", "the last body ends with the sheet".to_string());
        return Err(contents.fault(start, found, rule));
    }
    Ok((form, bodies))
}

fn read_opening(contents: &Body) -> Result<&'static Form, Fault> {
    let bytes = contents.bytes;
    if bytes.len() < CONTENTS {
        let found = format!("the end of the sheet, after {} bytes", bytes.len());
        let rule = ("contents-length", format!("the contents are the first {CONTENTS} bytes"));
        return Err(contents.fault(bytes.len(), found, rule));
    }
    let Some(form) = form(bytes[0]) else {
        let (first, second) = (EDITION_1.edition, EDITION_2.edition);
        let rule = ("edition", format!("the edition is {first} or {second}"));
        return Err(contents.fault(0, bytes[0].to_string(), rule));
    };
    if usize::from(bytes[1]) != PARTS {
        let rule = ("parts", format!("a sheet has {PARTS} parts"));
        return Err(contents.fault(1, bytes[1].to_string(), rule));
    }
    Ok(form)
}

/// The body that this entry of the contents names; it starts where the last one ended.
fn read_entry<'a>(contents: &Body<'a>, part: usize, start: usize) -> Result<Body<'a>, Fault> {
    let at = ENTRIES_AT + ENTRY * part;
    let entry = &contents.bytes[at..at + ENTRY];
    let Part { name, number, .. } = BODIES[part];
    let error =
        |place, found: String, rule, words| Err(contents.fault(at + place, found, (rule, words)));
    if usize::from(entry[0]) != part + 1 {
        let words = format!("entry {part} has the kind {}, {name}", part + 1);
        return error(0, format!("kind {}", entry[0]), "kind", words);
    }
    if entry[1] != 0 {
        return error(1, entry[1].to_string(), "zero", "this byte is 0".to_string());
    }
    if usize::from(two(entry, 2)) != start {
        let words = format!("a body starts where the last one ends: the {name} at {start}");
        return error(2, format!("offset {}", two(entry, 2)), "offset", words);
    }
    let end = start + usize::from(two(entry, 4));
    let Some(bytes) = contents.bytes.get(start..end) else {
        let found = format!("length {}, up to byte {end}", end - start);
        let words = format!("the sheet has {} bytes", contents.bytes.len());
        return error(4, found, "length", words);
    };
    Ok(Body { number, name, start, bytes })
}

/// A sheet of these facts, without jobs.
fn read_facts(body: Body, form: &Form) -> Result<Sheet, Fault> {
    let (horizon, edition) = read_head(&body, form)?;
    let marks = &body.bytes[form.marks_at..];
    if let Some(fact) = marks.iter().position(|mark| *mark > (INITIAL | GOAL)) {
        let rule = ("mark", "a mark is 0, 1 (initial), 2 (goal) or 3 (both)".to_string());
        let fault = body.fault(form.marks_at + fact, format!("mark {}", marks[fact]), rule);
        return Err(fault.in_row(fact));
    }
    let fact = |(number, mark): (usize, &u8)| Fact {
        name: format!("fact{number}"),
        initial: mark & INITIAL != 0,
        goal: mark & GOAL != 0,
    };
    let facts = marks.iter().enumerate().map(fact).collect();
    Ok(Sheet { edition, horizon, facts, jobs: vec![] })
}

/// What stands before the marks: horizon, and what the edition says; there is a mark for each fact.
fn read_head(body: &Body, form: &Form) -> Result<(u16, Edition), Fault> {
    let length = body.bytes.len();
    if length < form.marks_at {
        let found = format!("a body of {length} bytes");
        let rule = ("facts-head", format!("{} bytes come before the marks", form.marks_at));
        return Err(body.fault(length, found, rule));
    }
    let (count, horizon) = (usize::from(body.bytes[0]), two(body.bytes, HORIZON_AT));
    if count > MAX_FACTS {
        let rule = ("facts-most", format!("a sheet holds at most {MAX_FACTS} facts"));
        return Err(body.fault(0, format!("count {count}"), rule));
    }
    if horizon > MAX_HORIZON {
        let rule = ("horizon", format!("the horizon lies from 0 to {MAX_HORIZON}"));
        return Err(body.fault(HORIZON_AT, format!("horizon {horizon}"), rule));
    }
    let edition = read_edition(body, form)?;
    if length != form.marks_at + count {
        let found = format!("count {count} in a body of {length} bytes");
        let rule = ("facts-length", "there is one mark for each fact".to_string());
        return Err(body.fault(0, found, rule));
    }
    Ok((horizon, edition))
}

/// Gap and revision, where the edition has them.
fn read_edition(body: &Body, form: &Form) -> Result<Edition, Fault> {
    if *form == EDITION_1 {
        return Ok(Edition::One);
    }
    let gap = body.bytes[GAP_AT];
    if gap > MAX_GAP {
        let rule = ("gap", format!("the gap lies from 0 to {MAX_GAP}"));
        return Err(body.fault(GAP_AT, format!("gap {gap}"), rule));
    }
    Ok(Edition::Two { gap, revision: two(body.bytes, REVISION_AT) })
}

/// The rows of a body: a whole number of them, and not too many.
fn rows<'a>(
    body: &Body<'a>,
    part: usize,
    form: &Form,
) -> Result<std::slice::Chunks<'a, u8>, Fault> {
    let (size, most) = (form.rows[part], BODIES[part].most);
    let (length, name) = (body.bytes.len(), body.name);
    if length % size != 0 {
        let rule = ("rows-whole", format!("a row of the {name} has {size} bytes"));
        return Err(body.fault(length, format!("a body of {length} bytes"), rule));
    }
    if length / size > most {
        let rule = ("rows-most", format!("a sheet holds at most {most} {name}"));
        return Err(body.fault(most * size, format!("{} rows", length / size), rule));
    }
    Ok(body.bytes.chunks(size))
}

fn read_jobs(body: Body, form: &Form) -> Result<Vec<Job>, Fault> {
    let mut jobs: Vec<Job> = Vec::new();
    for (row, bytes) in rows(&body, JOBS, form)?.enumerate() {
        let code = two(bytes, 0);
        if let Some(last) = jobs.last().filter(|last| last.code >= code) {
            let rule = ("codes-rise", format!("codes rise: the row before has {}", last.code));
            let at = form.rows[JOBS] * row;
            return Err(body.fault(at, format!("code {code}"), rule).in_row(row));
        }
        let release = if *form == EDITION_1 { 0 } else { two(bytes, RELEASE_AT) };
        let name = Job::name_of(code);
        jobs.push(Job { code, release, name, events: Vec::new(), bounds: Vec::new() });
    }
    Ok(jobs)
}

/// Each event with the number of its job.
fn read_events(body: Body, sheet: &Sheet, form: &Form) -> Result<Vec<(usize, Event)>, Fault> {
    let mut events: Vec<(usize, Event)> = Vec::new();
    for (row, bytes) in rows(&body, EVENTS, form)?.enumerate() {
        let event = read_event(&body, row, bytes, sheet).map_err(|fault| fault.in_row(row))?;
        if events.last().is_some_and(|last| *last >= event) {
            let rule = ("events-rise", "events rise by job, then fact, then type".to_string());
            return Err(body.fault(3 * row, event_words(event), rule).in_row(row));
        }
        events.push(event);
    }
    for (row, &(job, event)) in events.iter().enumerate() {
        if !other_end(event).map_or(true, |end| events.contains(&(job, end))) {
            let rule = ("both-ends", "a need has both its ends".to_string());
            return Err(body.fault(3 * row, event_words((job, event)), rule).in_row(row));
        }
    }
    Ok(events)
}

/// The other end of a need.
fn other_end(event: Event) -> Option<Event> {
    match event.kind {
        Kind::Begins => Some(Event::new(Kind::Ends, event.fact)),
        Kind::Ends => Some(Event::new(Kind::Begins, event.fact)),
        Kind::Sets | Kind::Clears => None,
    }
}

fn event_words((job, event): (usize, Event)) -> String {
    format!("job number {job}, type {}, fact {}", event.kind as u8, event.fact)
}

fn read_event(
    body: &Body,
    row: usize,
    bytes: &[u8],
    sheet: &Sheet,
) -> Result<(usize, Event), Fault> {
    let (job, fact) = (usize::from(bytes[0]), usize::from(bytes[2]));
    if job >= sheet.jobs.len() {
        let rule = ("job-exists", format!("the sheet has {} jobs, from 0", sheet.jobs.len()));
        return Err(body.fault(3 * row, format!("job number {job}"), rule));
    }
    let Some(kind) = Kind::ALL.get(usize::from(bytes[1])) else {
        let words = "a type is 0 (need begins), 1 (need ends), 2 (sets) or 3 (clears)";
        let rule = ("type", words.to_string());
        return Err(body.fault(3 * row + 1, format!("type {}", bytes[1]), rule));
    };
    if fact >= sheet.facts.len() {
        let rule = ("fact-exists", format!("the sheet has {} facts, from 0", sheet.facts.len()));
        return Err(body.fault(3 * row + 2, format!("fact {fact}"), rule));
    }
    Ok((job, Event::new(*kind, fact)))
}

/// Each bound with the number of its job.
fn read_bounds(
    body: Body,
    events: &[(usize, Event)],
    form: &Form,
) -> Result<Vec<(usize, Bound)>, Fault> {
    let mut bounds = Vec::new();
    let mut last = (0, 0);
    for (row, bytes) in rows(&body, BOUNDS, form)?.enumerate() {
        let found = read_bound(&body, row, bytes, events).map_err(|fault| fault.in_row(row))?;
        let pair = (bytes[0], bytes[1]);
        if last > pair {
            let found = format!("events {} and {}", pair.0, pair.1);
            let words = "pairs of events rise, and one stands again only right behind itself";
            let before = format!("the row before has {} and {}", last.0, last.1);
            let rule = ("bounds-rise", format!("{words}: {before}"));
            return Err(body.fault(6 * row, found, rule).in_row(row));
        }
        last = pair;
        bounds.push(found);
    }
    Ok(bounds)
}

fn read_bound(
    body: &Body,
    row: usize,
    bytes: &[u8],
    events: &[(usize, Event)],
) -> Result<(usize, Bound), Fault> {
    let event = |place: usize| {
        let number = bytes[place];
        events.get(usize::from(number)).copied().ok_or_else(|| {
            let rule = ("event-exists", format!("the sheet has {} events, from 0", events.len()));
            body.fault(6 * row + place, format!("event {number}"), rule)
        })
    };
    let ((job, e), (other, d)) = (event(0)?, event(1)?);
    let found = format!("events {} and {}", bytes[0], bytes[1]);
    if job != other {
        let rule = ("one-job", "both events of a bound belong to one job".to_string());
        return Err(body.fault(6 * row, found, rule));
    }
    if e == d {
        let rule = ("two-events", "a bound lies between two different events".to_string());
        return Err(body.fault(6 * row, found, rule));
    }
    Ok((job, Bound { e, d, span: read_span(body, row, bytes)? }))
}

fn read_span(body: &Body, row: usize, bytes: &[u8]) -> Result<Span, Fault> {
    let side = |at: usize, none: i16, name: &str| {
        let value = two(bytes, at) as i16;
        if value == none {
            return Ok(None);
        }
        if (-MAX_SPAN..=MAX_SPAN).contains(&value) {
            return Ok(Some(value));
        }
        let words = format!("{name} is {none} for none, or from -{MAX_SPAN} to {MAX_SPAN}");
        let found = format!("{name} {value}");
        Err(body.fault(6 * row + at, found, (if at == LOW_AT { "low" } else { "high" }, words)))
    };
    let span = Span { low: side(LOW_AT, NO_LOW, "low")?, high: side(HIGH_AT, NO_HIGH, "high")? };
    match (span.low, span.high) {
        (Some(low), Some(high)) if low > high => {
            let rule = ("low-high", "low is not above high".to_string());
            Err(body.fault(6 * row + LOW_AT, format!("low {low}, high {high}"), rule))
        }
        _ => Ok(span),
    }
}

//! Facts and jobs that change nothing or stand in the way, a gap that is not what it seems.

use crate::layout::{DEFAULT_GAP, DEFAULT_GAP_SINCE, EDITION_1_GAP, GAP_BYTE};
use crate::meaning::Source;
use crate::model::{Edition, Event, Kind, Sheet};
use crate::notation::name;
use crate::note::{Note, Place};
use crate::rules::present::Present;
use crate::rules::wanted::wanted;

pub fn of(present: &Present, source: Option<&Source>) -> Vec<Note> {
    let sheet = present.sheet;
    let mut notes = Vec::new();
    for fact in 0..sheet.facts.len() {
        notes.extend(unused(sheet, source, fact));
        notes.extend(never_set(present, source, fact));
        notes.extend(cleared_goal(present, source, fact));
    }
    notes.extend(unwanted_jobs(present, source));
    notes.extend(gap(sheet, source).or_else(|| former_gap(sheet, source)));
    notes
}

fn fact_place(source: Option<&Source>, fact: usize) -> Option<Place> {
    source.map(|source| source.facts[fact])
}

fn event_place(source: Option<&Source>, job: usize, event: Event) -> Option<Place> {
    source.and_then(|source| source.jobs[job].events.get(&event)).copied()
}

/// A fact that nothing sets, needs or has as a goal.
fn unused(sheet: &Sheet, source: Option<&Source>, number: usize) -> Option<Note> {
    let fact = &sheet.facts[number];
    let touched = |kind| !sheet.jobs_that(kind, number).is_empty();
    if fact.goal || touched(Kind::Sets) || touched(Kind::Begins) {
        return None;
    }
    let message =
        format!("no job sets or needs '{}', and it is no goal: it changes nothing", fact.name);
    let help = "take the line out, or let a job set or need the fact".to_string();
    Some(Note { place: fact_place(source, number), message, help })
}

/// A fact that is needed or a goal, and is neither initial nor set, but by retired jobs. Of jobs that are absent by a slip there
/// are warnings already.
fn never_set(present: &Present, source: Option<&Source>, number: usize) -> Option<Note> {
    let sheet = present.sheet;
    let fact = &sheet.facts[number];
    let retired = present.absent_setters(number);
    let said = |&job: &usize| source.is_some_and(|source| source.jobs[job].retired);
    let set = !present.jobs_that(Kind::Sets, number).is_empty();
    if fact.initial || set || !retired.iter().all(said) {
        return None;
    }
    let help = format!(
        "write 'fact {} initial' if it is there at the start, or let a job set it",
        name(&fact.name)
    );
    let needing = present.jobs_that(Kind::Begins, number);
    let (place, who) = match needing.first() {
        Some(&job) => {
            let place = event_place(source, job, Event::new(Kind::Begins, number));
            (place, format!("the job '{}' needs '{}'", sheet.jobs[job].name, fact.name))
        }
        None if fact.goal => (fact_place(source, number), format!("'{}' is a goal", fact.name)),
        None => return None,
    };
    let end = if needing.is_empty() { "no plan reaches it" } else { "the job can never run" };
    let names: Vec<&str> = retired.iter().map(|&job| sheet.jobs[job].name.as_str()).collect();
    let but = match names[..] {
        [] => "no job sets it".to_string(),
        _ => format!("only retired jobs set it ('{}')", names.join("', '")),
    };
    let message = format!("{who}, but {but} and it is not initial: {end}");
    Some(Note { place, message, help })
}

fn cleared_goal(present: &Present, source: Option<&Source>, number: usize) -> Option<Note> {
    let sheet = present.sheet;
    let fact = &sheet.facts[number];
    let clearing = present.jobs_that(Kind::Clears, number);
    let &job = clearing.first().filter(|_| fact.goal)?;
    let message = format!(
        "'{}' is a goal, and the job '{}' clears it: if that job runs, the goal has to be set again after it",
        fact.name, sheet.jobs[job].name
    );
    let help = "take out the clear, or make another fact the goal".to_string();
    let place = event_place(source, job, Event::new(Kind::Clears, number));
    Some(Note { place, message, help })
}

/// Present jobs that no goal leads to. Without a goal there is one warning for all of them.
fn unwanted_jobs(present: &Present, source: Option<&Source>) -> Vec<Note> {
    let sheet = present.sheet;
    if !sheet.jobs.is_empty() && !sheet.facts.iter().any(|fact| fact.goal) {
        let message = "the sheet has no goal: its plan is the empty list".to_string();
        let help = "write 'goal' after what the run is for: 'fact report goal'".to_string();
        return vec![Note { place: source.map(|source| source.horizon), message, help }];
    }
    let wanted = wanted(present);
    let said = |job: usize| source.map(|source| &source.jobs[job]);
    let expected = |job: usize| said(job).is_some_and(|said| said.optional);
    let idle = |&job: &usize| present.has(job) && !wanted.is_wanted(job) && !expected(job);
    let unwanted = (0..sheet.jobs.len()).filter(idle);
    let note = |job: usize| {
        let message = format!(
            "nobody wants the job '{}': all that it sets is initial or leads to no goal, so the planner leaves it out",
            sheet.jobs[job].name
        );
        let help = format!(
            "make a fact that it sets a goal, or write 'job {} {} optional' if that is meant",
            sheet.jobs[job].code,
            name(&sheet.jobs[job].name)
        );
        Note { place: said(job).map(|said| said.place), message, help }
    };
    unwanted.map(note).collect()
}

/// A line that says gap 0, which is no gap of 0, not the shortest, and not what it was.
fn gap(sheet: &Sheet, source: Option<&Source>) -> Option<Note> {
    let place = source?.gap.filter(|_| matches!(sheet.edition, Edition::Two { gap: 0, .. }))?;
    let message = format!(
        "gap 0 stands for the default, {DEFAULT_GAP} min; before {DEFAULT_GAP_SINCE} that was \
         {EDITION_1_GAP} min, the shortest gap, which edition 1 has"
    );
    let help = format!("write 'gap {EDITION_1_GAP}' for the shortest, or 'gap {DEFAULT_GAP}'");
    Some(Note { place: Some(place), message, help })
}

/// A sheet as rewriting wrote it while the default was the gap of edition 1: it says nothing of edition 2.
pub fn former_gap(sheet: &Sheet, source: Option<&Source>) -> Option<Note> {
    let released = sheet.jobs.iter().any(|job| job.release > 0);
    if sheet.edition != (Edition::Two { gap: 0, revision: 0 }) || released {
        return None;
    }
    let message = format!(
        "no gap is said, so it is the default, {DEFAULT_GAP} min; before {DEFAULT_GAP_SINCE} that was \
         {EDITION_1_GAP} min, and sheets rewritten from edition 1 then say none"
    );
    let help = format!(
        "if it was rewritten then, write 'gap {EDITION_1_GAP}' (in bytes: {EDITION_1_GAP} in byte {GAP_BYTE}); \
         if {DEFAULT_GAP} min are meant, write 'gap {DEFAULT_GAP}'"
    );
    Some(Note { place: source.and_then(|source| source.edition), message, help })
}

//! Steps of a job that nothing ties to the rest of it.

use super::Part;
use crate::model::{Event, Kind};
use crate::notation::name;
use crate::note::Note;
use crate::rules::follow::Follow;

/// The warnings for a job whose bounds some times meet.
pub fn of(part: &Part, follow: &Follow) -> Vec<Note> {
    let groups = groups(part);
    let mut notes = Vec::new();
    for (place, &event) in part.job.events.iter().enumerate() {
        let loose = groups[place] != groups[main(part)];
        let note = match event.kind {
            Kind::Begins => {
                need(part, place, &groups).or_else(|| early_need(part, place, &groups, follow))
            }
            Kind::Ends => None,
            _ if loose => Some(loose_step(part, event)),
            _ => early_step(part, place, event, follow),
        };
        notes.extend(note);
    }
    notes
}

/// For each event the lowest one that bounds tie it to.
fn groups(part: &Part) -> Vec<usize> {
    let place = |event: &Event| part.job.events.partition_point(|other| other < event);
    let mut groups: Vec<usize> = (0..part.job.events.len()).collect();
    for bound in &part.job.bounds {
        if bound.span.low.is_some() || bound.span.high.is_some() {
            let (one, other) = (groups[place(&bound.e)], groups[place(&bound.d)]);
            let (low, high) = (one.min(other), one.max(other));
            groups.iter_mut().filter(|group| **group == high).for_each(|group| *group = low);
        }
    }
    groups
}

/// The place of the event that stands for its job: its first need, or its first step.
fn main(part: &Part) -> usize {
    part.job.events.iter().position(|event| event.kind == Kind::Begins).unwrap_or(0)
}

/// The first need of the job, if it has one.
fn first_need(part: &Part) -> Option<Event> {
    part.job.events.iter().copied().find(|event| event.kind == Kind::Begins)
}

/// A need whose begin or end, or both, hang in the air.
fn need(part: &Part, place: usize, groups: &[usize]) -> Option<Note> {
    let begin = part.job.events[place];
    let fact = name(&part.sheet.facts[begin.fact].name);
    let home = groups[main(part)];
    let job = &part.job.name;
    let apart = groups[place] != groups[place + 1];
    let message = match (apart, groups[place] != home, groups[place + 1] != home) {
        (false, false, _) => return None,
        (false, true, _) => format!(
            "nothing ties 'need {fact}' to the rest of the job '{job}': it may come hours before or after it"
        ),
        (true, true, false) => format!(
            "nothing says when 'need {fact}' begins: the job '{job}' may need it long before its other steps"
        ),
        (true, _, _) => format!(
            "nothing says how long 'need {fact}' lasts: the job '{job}' is free to need it for no time at all"
        ),
    };
    let help = format!(
        "in 'job {} {} takes 30 min' a need without minutes runs from start to end; \
         or give it minutes and a place: 'need {fact} for 5 min at start'",
        part.job.code,
        name(job)
    );
    Some(part.note(begin, message, help))
}

/// A need that is tied to others, and yet free to begin any time before them.
fn early_need(part: &Part, place: usize, groups: &[usize], follow: &Follow) -> Option<Note> {
    let events = &part.job.events;
    let other = |&other: &usize| {
        other != place && events[other].kind == Kind::Begins && groups[other] == groups[place]
    };
    let others: Vec<usize> = (0..events.len()).filter(other).collect();
    let leading = follow.leading_to(place);
    if others.is_empty() || others.iter().any(|&other| leading[other]) {
        return None;
    }
    let fact = name(&part.sheet.facts[events[place].fact].name);
    let message = format!(
        "'need {fact}' may begin any time before the other needs of the job '{}'",
        part.job.name
    );
    let help = format!(
        "tie its begin: 'need {fact} for 5 min at start' in a job that 'takes' its minutes, or \
         'from begin of need .. to begin of need {fact}: 0 min'"
    );
    Some(part.note(events[place], message, help))
}

/// A set or clear that is tied to nothing.
fn loose_step(part: &Part, event: Event) -> Note {
    let (step, job) = (part.words(event), &part.job.name);
    let Some(need) = first_need(part) else {
        let first = part.words(part.job.events[0]);
        let message = format!(
            "nothing ties '{step}' to '{first}': the two steps of the job '{job}' may come in any order, hours apart"
        );
        return part.note(event, message, format!("write 'from {first} to {step}: 0 min'"));
    };
    let end = Event::new(Kind::Ends, need.fact);
    let fact = &part.sheet.facts[need.fact].name;
    let message = format!(
        "nothing ties '{step}' to the rest of the job '{job}': it may come at minute 0, \
         while the job still needs '{fact}' or before it begins"
    );
    part.note(event, message, at_end(part, &step, &part.words(end)))
}

fn at_end(part: &Part, step: &str, end: &str) -> String {
    if part.said.is_some_and(|said| said.takes) {
        return format!("write '{step} at end', or '{step} at start' if that is meant");
    }
    format!(
        "say how long the job takes and write '{step} at end'; or 'from {end} to {step}: 0 min'"
    )
}

/// A set or clear that may come before every need of its job has ended, or before the job begins.
fn early_step(part: &Part, place: usize, event: Event, follow: &Follow) -> Option<Note> {
    let need = first_need(part)?;
    let placed = part.said.is_some_and(|said| said.placed.contains(&event));
    let (step, job) = (part.words(event), &part.job.name);
    let fact = &part.sheet.facts[need.fact].name;
    let end = part.words(Event::new(Kind::Ends, need.fact));
    if placed && !follow.is_behind_a_begin(place) {
        let message = format!("'{step}' may come before the job '{job}' begins");
        let help = format!("write '{step} at start' or '{step} at end', or give it fewer minutes");
        return Some(part.note(event, message, help));
    }
    if placed || follow.is_behind_an_end(place) {
        return None;
    }
    let message = format!("'{step}' may come while the job '{job}' still needs '{fact}'");
    let help = format!(
        "{}; if it is meant, write its place, as in '{step} 5 min after start'",
        at_end(part, &step, &end)
    );
    Some(part.note(event, message, help))
}

//! What `takes` and the places of events become: ordinary bounds, as few as will do.

use super::draft::Draft;
use super::head::Head;
use super::jobs::span;
use crate::model::{Event, Kind, Span};
use crate::notation::name;
use crate::note::{Note, Place};
use crate::syntax::{Anchor, Line, Placing, Statement, Written};

/// An event whose place in its job is written with it.
struct Placed {
    event: Event,
    placing: Placing,
    line: Place,
}

/// What the lines of a job say of its start and its end.
#[derive(Default)]
struct Said {
    /// Needs that run all along, with their lines.
    along: Vec<(usize, Place)>,
    placed: Vec<Placed>,
}

/// Adds the bounds that the job's title and its lines ask for.
pub fn add(title: &Line, lines: &[Line], head: &Head, draft: &mut Draft) -> Result<(), Note> {
    let Statement::Job { code, clauses, .. } = &title.statement else {
        return Ok(());
    };
    let takes = &clauses.takes;
    let mut said = read(lines, head, draft, takes.is_some());
    draft.placed = said.placed.iter().map(|placed| placed.event).collect();
    let Some(takes) = takes else {
        return said
            .placed
            .first()
            .map_or(Ok(()), |placed| Err(no_length(placed, draft, code.value)));
    };
    said.along.sort_unstable();
    said.placed.sort_by_key(|placed| placed.event);
    let length = length(takes)?;
    let (start, end) = anchors(&said, draft, title.place)?;
    let is_need = start.fact == end.fact && start.kind == Kind::Begins && end.kind == Kind::Ends;
    let low = length.low.or(if is_need { None } else { Some(0) });
    tie(draft, end, start, Span { low, ..length }, title.place)?;
    for &(fact, line) in said.along.iter().filter(|(fact, _)| *fact != start.fact) {
        let exact = Span { low: Some(0), high: Some(0) };
        tie(draft, Event::new(Kind::Begins, fact), start, exact, line)?;
        tie(draft, Event::new(Kind::Ends, fact), end, exact, line)?;
    }
    for placed in &said.placed {
        let anchor = if placed.placing.anchor == Anchor::Start { start } else { end };
        if placed.event != anchor {
            tie(draft, placed.event, anchor, span(&placed.placing.after)?, placed.line)?;
        }
    }
    Ok(())
}

fn read(lines: &[Line], head: &Head, draft: &Draft, takes: bool) -> Said {
    let mut said = Said::default();
    for line in lines {
        let (fact, placing, kind) = match &line.statement {
            Statement::Need { fact, span: None, placing: None } if takes => {
                (fact, None, Kind::Begins)
            }
            Statement::Need { fact, placing: Some(placing), .. } => {
                let end = placing.anchor == Anchor::End;
                (fact, Some(placing), if end { Kind::Ends } else { Kind::Begins })
            }
            Statement::Set { fact, placing: Some(placing) } => (fact, Some(placing), Kind::Sets),
            Statement::Clear { fact, placing: Some(placing) } => {
                (fact, Some(placing), Kind::Clears)
            }
            _ => continue,
        };
        // A fact that is not known, or a line that stands twice, is an error of the events.
        let Ok(fact) = head.number(fact) else { continue };
        let event = Event::new(kind, fact);
        if draft.events.get(&event) != Some(&line.place) {
            continue;
        }
        match placing {
            None => said.along.push((fact, line.place)),
            Some(&placing) => said.placed.push(Placed { event, placing, line: line.place }),
        }
    }
    said
}

fn no_length(placed: &Placed, draft: &Draft, code: i64) -> Note {
    let message = format!("the job '{}' does not say how long it takes", draft.name);
    let name = name(&draft.name);
    let help = format!("write its length after its name: 'job {code} {name} takes 30 min'");
    Note::new(placed.placing.place, message).with_help(help)
}

fn length(takes: &Written) -> Result<Span, Note> {
    if let Some(low) = takes.low.or(takes.high).filter(|number| number.value < 0) {
        return Err(Note::new(low.place, "a job takes 0 minutes or more"));
    }
    span(takes)
}

/// The events that stand for the job's start and its end.
fn anchors(said: &Said, draft: &Draft, title: Place) -> Result<(Event, Event), Note> {
    if let Some(&(fact, _)) = said.along.first() {
        return Ok((Event::new(Kind::Begins, fact), Event::new(Kind::Ends, fact)));
    }
    let at = |anchor| {
        let mut placed = said.placed.iter().filter(|placed| placed.placing.is_at(anchor));
        placed.next().map(|placed| placed.event)
    };
    let missing = |word: &str| {
        let message = format!("nothing of the job '{}' stands at its {word}", draft.name);
        let help = format!(
            "a need without minutes of its own runs from start to end; or write 'at {word}' \
             after what the job does then"
        );
        Note::new(title, message).with_help(help)
    };
    let start = at(Anchor::Start).ok_or_else(|| missing("start"))?;
    Ok((start, at(Anchor::End).ok_or_else(|| missing("end"))?))
}

/// A bound, unless it says nothing.
fn tie(draft: &mut Draft, e: Event, d: Event, span: Span, line: Place) -> Result<(), Note> {
    if span.low.is_none() && span.high.is_none() {
        return Ok(());
    }
    draft.add_bound(e, d, span, line)
}

//! Each line of a list's text by itself.

use crate::lexer::{tokens, Piece, Token};
use crate::model::{Event, Kind, Sheet};
use crate::note::{Note, Place};
use crate::similar::closest;

/// What a line says.
pub enum Said {
    Nothing,
    /// `PLAN` and the count of entries.
    Count(i64, Place),
    /// A job alone: an entry begins, and a job without events needs no more.
    Job(usize, Place),
    Step {
        job: usize,
        event: Event,
        tick: u16,
        place: Place,
    },
}

const FORM: &str = "a line is a job, B, E, S or C, a fact and a minute, as in '10 S 1 5'";

pub fn read(sheet: &Sheet, number: usize, text: &str) -> Result<Said, Note> {
    let (tokens, end) = tokens(number, text)?;
    let Some(first) = tokens.first() else {
        return Ok(Said::Nothing);
    };
    let place = first.place;
    match (&first.piece, &tokens[1..]) {
        (Piece::Word(word), _) if word == "ANSWER" => {
            let help = "only the text of a plan is a list";
            Err(Note::new(place, "this is an answer and no list").with_help(help))
        }
        (Piece::Word(word), [count]) if word == "PLAN" => match count.piece {
            Piece::Number(count) => Ok(Said::Count(count, place)),
            _ => Err(Note::new(count.place, format!("expected a count, found {}", count.piece))),
        },
        (_, []) => Ok(Said::Job(job(sheet, first)?, place)),
        (_, [kind, fact, tick]) => step(sheet, first, [kind, fact, tick]),
        (_, rest) => {
            let at = rest.get(3).map_or(end, |token| token.place);
            Err(Note::new(at, format!("{} fields are no step", tokens.len())).with_help(FORM))
        }
    }
}

fn step(sheet: &Sheet, first: &Token, rest: [&Token; 3]) -> Result<Said, Note> {
    let number = job(sheet, first)?;
    let owner = &sheet.jobs[number];
    let event = Event::new(kind(rest[0])?, fact(sheet, rest[1])?);
    if !owner.events.contains(&event) {
        let fact = &sheet.facts[event.fact].name;
        let message = format!("the job '{}' never {} '{fact}'", owner.name, event.kind.verb());
        return Err(Note::new(first.place, message));
    }
    let Piece::Number(value) = rest[2].piece else {
        let message = format!("expected a minute, found {}", rest[2].piece);
        return Err(Note::new(rest[2].place, message).with_help(FORM));
    };
    let tick = u16::try_from(value).map_err(|_| {
        Note::new(rest[2].place, format!("a list holds minutes from 0 to {}", u16::MAX))
    })?;
    Ok(Said::Step { job: number, event, tick, place: first.place })
}

/// A job by code or by name.
fn job(sheet: &Sheet, token: &Token) -> Result<usize, Note> {
    let found = match &token.piece {
        Piece::Number(code) => sheet.jobs.iter().position(|job| i64::from(job.code) == *code),
        Piece::Word(name) | Piece::Quoted(name) => {
            sheet.jobs.iter().position(|job| job.name == *name)
        }
        _ => None,
    };
    found.ok_or_else(|| {
        let names = sheet.jobs.iter().map(|job| job.name.as_str());
        no_such("job", token, names)
    })
}

/// A fact by number or by name.
fn fact(sheet: &Sheet, token: &Token) -> Result<usize, Note> {
    let found = match &token.piece {
        Piece::Number(number) => {
            usize::try_from(*number).ok().filter(|number| *number < sheet.facts.len())
        }
        Piece::Word(name) | Piece::Quoted(name) => {
            sheet.facts.iter().position(|fact| fact.name == *name)
        }
        _ => None,
    };
    found.ok_or_else(|| {
        let names = sheet.facts.iter().map(|fact| fact.name.as_str());
        no_such("fact", token, names)
    })
}

fn no_such<'a>(what: &str, token: &Token, names: impl Iterator<Item = &'a str>) -> Note {
    let note = Note::new(token.place, format!("the sheet has no {what} {}", token.piece));
    let close = match &token.piece {
        Piece::Word(name) | Piece::Quoted(name) => closest(name, names),
        _ => None,
    };
    match close {
        Some(name) => note.with_help(format!("did you mean '{name}'?")),
        None => note,
    }
}

fn kind(token: &Token) -> Result<Kind, Note> {
    let found = match &token.piece {
        Piece::Word(word) => Kind::of_word(word),
        _ => None,
    };
    found.ok_or_else(|| {
        let message = format!("expected B, E, S or C, found {}", token.piece);
        Note::new(token.place, message).with_help(FORM)
    })
}

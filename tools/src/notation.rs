//! The notation of docs/NOTATION.md: from text to a sheet and back.

use crate::layout::DEFAULT_GAP;
use crate::lexer::{begins_word, continues_word};
use crate::meaning::{self, Source};
use crate::model::{Bound, Edition, Event, Fact, Job, Kind, Sheet, Span};
use crate::note::{Note, Place};
use crate::syntax::{self, Line, WORDS};
use std::fmt::Write;

/// What generated text says of itself.
pub const HEADER: &str = "\
# A sheet in the notation of docs/NOTATION.md, written by bin/corrumai sheet to-text.
# The notation is a convenience outside the proof: what is planned and judged are the sheet's bytes.
";

/// The sheet that a text says.
pub fn parse(bytes: &[u8]) -> Result<Sheet, Vec<Note>> {
    read(bytes).map(|(sheet, _)| sheet)
}

/// The sheet, and where the text says what. Errors of form come first: only without them is the meaning
/// looked at.
pub fn read(bytes: &[u8]) -> Result<(Sheet, Source), Vec<Note>> {
    let text = decode_text(bytes).map_err(|error| vec![error])?;
    meaning::sheet(&parse_lines(text)?)
}

/// The text, without the mark that some editors put in front.
fn decode_text(bytes: &[u8]) -> Result<&str, Note> {
    let bytes = bytes.strip_prefix("\u{feff}".as_bytes()).unwrap_or(bytes);
    std::str::from_utf8(bytes).map_err(|fault| {
        let good = String::from_utf8_lossy(&bytes[..fault.valid_up_to()]).into_owned();
        let line = good.split('\n').count();
        let column = good.rsplit('\n').next().map_or(0, |text| text.chars().count()) + 1;
        Note::new(Place { line, column }, "this is no text in UTF-8")
    })
}

fn parse_lines(text: &str) -> Result<Vec<Line>, Vec<Note>> {
    let mut lines = Vec::new();
    let mut errors = Vec::new();
    for (number, line) in (1..).zip(text.split('\n')) {
        match syntax::line(number, line.strip_suffix('\r').unwrap_or(line)) {
            Ok(line) => lines.extend(line),
            Err(error) => errors.push(error),
        }
    }
    if errors.is_empty() {
        return Ok(lines);
    }
    Err(errors)
}

/// The text of a sheet, without a header.
pub fn print(sheet: &Sheet) -> String {
    let mut text = print_head(sheet);
    if !sheet.facts.is_empty() {
        text.push('\n');
    }
    for fact in &sheet.facts {
        let initial = if fact.initial { " initial" } else { "" };
        let goal = if fact.goal { " goal" } else { "" };
        let _ = writeln!(text, "fact {}{initial}{goal}", name(&fact.name));
    }
    for job in &sheet.jobs {
        text.push_str(&print_job(job, &sheet.facts));
    }
    text
}

/// Edition and horizon; in edition 2 the gap, with what 0 stands for, and the revision where it is not 0.
fn print_head(sheet: &Sheet) -> String {
    let horizon = format!("horizon {} min\n", sheet.horizon);
    let Edition::Two { gap, revision } = sheet.edition else {
        return horizon;
    };
    let edition = format!("edition {}\n", sheet.edition.form().edition);
    let gap = match gap {
        0 => format!("gap 0  # the default, {DEFAULT_GAP} min\n"),
        _ => format!("gap {gap}\n"),
    };
    let revision = match revision {
        0 => String::new(),
        _ => format!("revision {revision}\n"),
    };
    edition + &horizon + &gap + &revision
}

fn print_job(job: &Job, facts: &[Fact]) -> String {
    let release = match job.release {
        0 => String::new(),
        minute => format!(" not before {minute} min"),
    };
    let mut text = format!("\njob {} {}{release}\n", job.code, name(&job.name));
    for event in &job.events {
        let fact = name(&facts[event.fact].name);
        let _ = match event.kind {
            Kind::Begins => writeln!(text, "  need {fact}{}", duration(job, event.fact)),
            Kind::Ends => Ok(()),
            Kind::Sets => writeln!(text, "  set {fact}"),
            Kind::Clears => writeln!(text, "  clear {fact}"),
        };
    }
    let mut last = None;
    for bound in &job.bounds {
        let first = last.replace((bound.e, bound.d)) != Some((bound.e, bound.d));
        if first && is_duration(bound) {
            continue;
        }
        let (from, to) = (print_event(bound.d, facts), print_event(bound.e, facts));
        let _ = writeln!(text, "  from {from} to {to}: {}", print_span(bound.span));
    }
    text
}

/// Whether the bound is from a need's begin to its end: the first such one stands with the need, before all lines of bounds.
fn is_duration(bound: &Bound) -> bool {
    let need = (bound.d.kind, bound.e.kind) == (Kind::Begins, Kind::Ends);
    need && bound.d.fact == bound.e.fact
}

fn duration(job: &Job, fact: usize) -> String {
    let bound = job.bounds.iter().find(|bound| is_duration(bound) && bound.e.fact == fact);
    bound.map_or(String::new(), |bound| format!(" for {}", print_span(bound.span)))
}

/// An event as the notation calls it.
pub fn print_event(event: Event, facts: &[Fact]) -> String {
    let words = event.kind.phrase();
    format!("{words} {}", name(&facts[event.fact].name))
}

pub fn print_span(span: Span) -> String {
    match (span.low, span.high) {
        (Some(low), Some(high)) if low == high => format!("{low} min"),
        (Some(low), Some(high)) => format!("{low}..{high} min"),
        (Some(low), None) => format!("at least {low} min"),
        (None, Some(high)) => format!("at most {high} min"),
        (None, None) => "any time".to_string(),
    }
}

/// The name, in quotes where it is no word or a word of the notation.
pub fn name(text: &str) -> String {
    let plain = |c| continues_word(c) && (c == '-' || c == '_' || c.is_alphanumeric());
    let word = text.starts_with(begins_word) && text.chars().all(plain);
    if word && !WORDS.contains(&text) {
        return text.to_string();
    }
    format!("\"{text}\"")
}

//! The lines before the first job: edition, horizon, gap, revision and facts.

use crate::layout::{EDITION_1, EDITION_2};
use crate::model::{Edition, Fact, MAX_FACTS, MAX_GAP, MAX_HORIZON};
use crate::note::{Note, Place};
use crate::similar::closest;
use crate::syntax::{Line, Name, Number, Statement};
use std::collections::HashMap;

#[derive(Default)]
pub struct Head {
    pub horizon: u16,
    pub place: Place,
    /// Where the text says that it is of edition 2.
    pub second: Option<Place>,
    pub gap: Option<(u8, Place)>,
    revision: Option<(u16, Place)>,
    pub facts: Vec<Fact>,
    pub places: Vec<Place>,
    /// The number of each name.
    declared: HashMap<String, usize>,
}

impl Head {
    /// The edition, with what the lines say; what they leave out is 0.
    pub fn edition(&self) -> Edition {
        if self.second.is_none() {
            return Edition::One;
        }
        let (gap, revision) = (self.gap.map(|gap| gap.0), self.revision.map(|said| said.0));
        Edition::Two { gap: gap.unwrap_or(0), revision: revision.unwrap_or(0) }
    }

    /// An error unless the text is of edition 2, to which these words belong.
    pub fn second(&self, words: &str, place: Place) -> Result<(), Note> {
        if self.second.is_some() {
            return Ok(());
        }
        let edition = EDITION_2.edition;
        let message = format!("'{words}' belongs to edition {edition}");
        let help = format!("begin the text with a line 'edition {edition}'");
        Err(Note::new(place, message).with_help(help))
    }

    /// The fact's number.
    pub fn number(&self, name: &Name) -> Result<usize, Note> {
        self.declared.get(&name.text).copied().ok_or_else(|| self.unknown(name))
    }

    fn unknown(&self, name: &Name) -> Note {
        let note = Note::new(name.place, format!("no fact has the name '{}'", name.text));
        let names = self.facts.iter().map(|fact| fact.name.as_str());
        match closest(&name.text, names) {
            Some(other) => note.with_help(format!("did you mean '{other}'?")),
            None => note.with_help("each fact has a line 'fact NAME' before the first job"),
        }
    }

    fn declare(&mut self, name: &Name, initial: bool, goal: bool) -> Result<(), Note> {
        let number = self.facts.len();
        if let Some(other) = self.declared.get(&name.text) {
            let line = self.places[*other].line;
            let message = format!("the fact '{}' is declared on line {line} already", name.text);
            return Err(Note::new(name.place, message));
        }
        self.declared.insert(name.text.clone(), number);
        self.facts.push(Fact { name: name.text.clone(), initial, goal });
        self.places.push(name.place);
        if number == MAX_FACTS {
            let message = format!("too many facts: a sheet holds at most {MAX_FACTS}");
            return Err(Note::new(name.place, message));
        }
        Ok(())
    }

    fn set_horizon(&mut self, number: Number, place: Place) -> Result<(), Note> {
        if self.place.line > 0 {
            return Err(twice("horizon", self.place, place));
        }
        self.place = place;
        let value = u16::try_from(number.value).ok().filter(|value| *value <= MAX_HORIZON);
        self.horizon = value.ok_or_else(|| {
            let message = format!("the horizon lies from 0 to {MAX_HORIZON} minutes");
            Note::new(number.place, message).with_help("that is a week at most")
        })?;
        Ok(())
    }

    fn set_gap(&mut self, number: Number, place: Place) -> Result<(), Note> {
        self.second("gap", place)?;
        if let Some((_, other)) = self.gap {
            return Err(twice("gap", other, place));
        }
        let value = u8::try_from(number.value).ok().filter(|value| *value <= MAX_GAP);
        self.gap = Some((value.unwrap_or(0), place));
        value.map(|_| ()).ok_or_else(|| {
            Note::new(number.place, format!("the gap lies from 0 to {MAX_GAP} minutes"))
        })
    }

    fn set_revision(&mut self, number: Number, place: Place) -> Result<(), Note> {
        self.second("revision", place)?;
        if let Some((_, other)) = self.revision {
            return Err(twice("revision", other, place));
        }
        let value = u16::try_from(number.value).ok();
        self.revision = Some((value.unwrap_or(0), place));
        value.map(|_| ()).ok_or_else(|| {
            Note::new(number.place, format!("a revision lies from 0 to {}", u16::MAX))
        })
    }
}

fn twice(what: &str, first: Place, second: Place) -> Note {
    Note::new(second, format!("the {what} stands on line {} already", first.line))
}

/// Where the text says that it is of edition 2: what its first edition line says, right or wrong in its place.
fn read_edition(lines: &[Line], errors: &mut Vec<Note>) -> Option<Place> {
    let said = |line: &Line| match line.statement {
        Statement::Edition(number) => Some((number, line.place)),
        _ => None,
    };
    let mut all = lines.iter().filter_map(said);
    let (number, place) = all.next()?;
    errors.extend(all.map(|(_, other)| twice("edition", place, other)));
    if lines.first().map(|line| line.place) != Some(place) {
        let help = "write it in the first line";
        errors.push(Note::new(place, "the edition stands before all else").with_help(help));
    }
    let (one, two) = (EDITION_1.edition, EDITION_2.edition);
    if number.value != i64::from(one) && number.value != i64::from(two) {
        errors.push(Note::new(number.place, format!("the edition of a sheet is {one} or {two}")));
    }
    // An edition that is none is one error, and its lines are no others.
    (number.value != i64::from(one)).then_some(place)
}

/// Reads the head. Lines that stand too late are read too, so that each error is said once.
pub fn read(lines: &[Line], errors: &mut Vec<Note>) -> Head {
    let mut head = Head { second: read_edition(lines, errors), ..Head::default() };
    let mut in_job = false;
    for line in lines {
        let (outcome, late) = match &line.statement {
            Statement::Job { .. } => {
                in_job = true;
                continue;
            }
            Statement::Horizon(number) => (head.set_horizon(*number, line.place), LATE),
            Statement::Fact { name, initial, goal } => (head.declare(name, *initial, *goal), LATE),
            Statement::Gap(number) => (head.set_gap(*number, line.place), LATE_IN_2),
            Statement::Revision(number) => (head.set_revision(*number, line.place), LATE_IN_2),
            _ => continue,
        };
        let late = Note::new(line.place, late);
        errors.extend(if in_job { Some(late) } else { outcome.err() });
    }
    if head.place.line == 0 {
        let start = Place { line: 1, column: 1 };
        errors.push(
            Note::new(start, "there is no horizon").with_help(
                "write a line like 'horizon 480 min': the minute by which the run is over",
            ),
        );
    }
    head
}

const LATE: &str = "horizon and facts stand before the first job";
const LATE_IN_2: &str = "gap and revision stand before the first job";

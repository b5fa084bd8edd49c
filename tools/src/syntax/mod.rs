//! Each line of the notation by itself: its form, before names and limits are looked at.

mod cursor;
mod hints;
mod spans;

use crate::lexer::tokens;
use crate::model::Kind;
use crate::note::{Note, Place};
use cursor::Cursor;
pub use hints::BETWEEN_JOBS;
pub use spans::{Anchor, Placing, Written};

/// The words of the notation that are names only in quotes. Newer words (`takes`, `start`, `gap`, `not`) stand where
/// no name can stand, so that they stay free as names.
pub const WORDS: [&str; 20] = [
    "any", "at", "begin", "clear", "end", "fact", "for", "from", "goal", "horizon", "initial",
    "job", "least", "min", "most", "need", "of", "set", "time", "to",
];

/// The words that a line begins with.
const FIRST_WORDS: [&str; 10] =
    ["edition", "horizon", "gap", "revision", "fact", "job", "need", "set", "clear", "from"];

/// Clauses of a job's title, as errors name them.
const TAKES: &str = "'takes'";
const NOT_BEFORE: &str = "'not before'";
const RETIRED: &str = "'retired'";

/// What stands where no span will do.
const MINUTES: &str = "a number of minutes";

/// The forms of an event.
const EVENTS: &str = "'begin of need', 'end of need', 'set' or 'clear'";

#[derive(Clone, Debug, PartialEq, Eq)]
pub struct Name {
    pub text: String,
    pub place: Place,
}

#[derive(Clone, Copy, Debug, PartialEq, Eq)]
pub struct Number {
    pub value: i64,
    pub place: Place,
}

#[derive(Clone, Debug, PartialEq, Eq)]
pub struct Named {
    pub kind: Kind,
    pub fact: Name,
    pub place: Place,
}

/// What a job's title says behind the name.
#[derive(Clone, Copy, Debug, Default, PartialEq, Eq)]
pub struct Clauses {
    pub takes: Option<Written>,
    pub optional: bool,
    /// The minute before which the job may not start, and the place of `not`.
    pub release: Option<(Number, Place)>,
    /// The place of `retired`.
    pub retired: Option<Place>,
}

#[derive(Clone, Debug, PartialEq, Eq)]
pub enum Statement {
    Edition(Number),
    Horizon(Number),
    Gap(Number),
    Revision(Number),
    Fact { name: Name, initial: bool, goal: bool },
    Job { code: Number, name: Name, clauses: Clauses },
    Need { fact: Name, span: Option<Written>, placing: Option<Placing> },
    Set { fact: Name, placing: Option<Placing> },
    Clear { fact: Name, placing: Option<Placing> },
    Bound { from: Named, to: Named, span: Written },
}

impl Statement {
    /// Whether the line stands before the first job.
    pub fn is_head(&self) -> bool {
        use Statement::{Edition, Fact, Gap, Horizon, Revision};
        matches!(self, Edition(_) | Horizon(_) | Gap(_) | Revision(_) | Fact { .. })
    }
}

/// A statement and the place of its first word.
#[derive(Clone, Debug, PartialEq, Eq)]
pub struct Line {
    pub place: Place,
    pub statement: Statement,
}

/// The statement of a line; none if the line has only a comment or nothing.
pub fn line(number: usize, text: &str) -> Result<Option<Line>, Note> {
    let (tokens, end) = tokens(number, text)?;
    let Some(first) = tokens.first() else {
        return Ok(None);
    };
    let mut cursor = Cursor::new(&tokens, end);
    let statement = cursor.statement()?;
    cursor.finish()?;
    Ok(Some(Line { place: first.place, statement }))
}

impl Cursor<'_> {
    fn statement(&mut self) -> Result<Statement, Note> {
        let first = self.peek_word().unwrap_or("").to_string();
        if !FIRST_WORDS.contains(&first.as_str()) {
            let words: Vec<String> = FIRST_WORDS.iter().map(|word| format!("'{word}'")).collect();
            return self.expected(&format!("{} or '#'", words.join(", ")));
        }
        self.skip();
        match first.as_str() {
            "edition" => Ok(Statement::Edition(self.number("the number of the edition")?)),
            "horizon" => Ok(Statement::Horizon(self.minutes(MINUTES)?)),
            "gap" => Ok(Statement::Gap(self.gap()?)),
            "revision" => Ok(Statement::Revision(self.number("the number of the revision")?)),
            "fact" => self.fact_line(),
            "job" => self.job_line(),
            "need" => self.need_line(),
            "set" => Ok(Statement::Set { fact: self.fact()?, placing: self.placing("")? }),
            "clear" => Ok(Statement::Clear { fact: self.fact()?, placing: self.placing("")? }),
            _ => self.bound_line(),
        }
    }

    fn fact_line(&mut self) -> Result<Statement, Note> {
        let name = self.fact()?;
        let initial = self.try_word("initial");
        let goal = self.try_word("goal");
        let initial = initial || self.try_word("initial");
        if initial || goal || self.peek().is_none() {
            return Ok(Statement::Fact { name, initial, goal });
        }
        self.expected("'initial', 'goal' or the end of the line")
    }

    fn job_line(&mut self) -> Result<Statement, Note> {
        let code = self.number("the job's code, a number")?;
        let name = self.name("the name of the job")?;
        let mut clauses = Clauses::default();
        while self.peek().is_some() {
            self.clause(&mut clauses)?;
        }
        Ok(Statement::Job { code, name, clauses })
    }

    /// One of the clauses behind a job's name, each at most once.
    fn clause(&mut self, said: &mut Clauses) -> Result<(), Note> {
        let place = self.place();
        if said.takes.is_none() && self.try_word("takes") {
            said.takes = Some(self.span()?);
        } else if !said.optional && self.try_word("optional") {
            said.optional = true;
        } else if said.release.is_none() && self.try_word("not") {
            self.word("before")?;
            said.release = Some((self.minutes(MINUTES)?, place));
        } else if said.retired.is_none() && self.try_word("retired") {
            said.retired = Some(place);
        } else {
            let left = [
                (said.takes.is_none(), TAKES),
                (!said.optional, "'optional'"),
                (said.release.is_none(), NOT_BEFORE),
                (said.retired.is_none(), RETIRED),
            ];
            let left = left.iter().filter(|(open, _)| *open).map(|(_, words)| *words);
            let left = left.collect::<Vec<&str>>().join(", ");
            let or = if left.is_empty() { "" } else { " or " };
            return self.expected(&format!("{left}{or}the end of the line"));
        }
        Ok(())
    }

    /// Minutes, of which the unit may be left out.
    fn gap(&mut self) -> Result<Number, Note> {
        let number = self.number(MINUTES)?;
        match self.peek() {
            None => Ok(number),
            Some(_) => self.with_unit(number).map(|(number, _)| number),
        }
    }

    fn need_line(&mut self) -> Result<Statement, Note> {
        let fact = self.fact()?;
        let span = if self.try_word("for") { Some(self.span()?) } else { None };
        let placing = self.placing(if span.is_none() { "'for', " } else { "" })?;
        Ok(Statement::Need { fact, span, placing })
    }

    fn bound_line(&mut self) -> Result<Statement, Note> {
        let from = self.event()?;
        self.word("to")?;
        let to = self.event()?;
        self.colon()?;
        Ok(Statement::Bound { from, to, span: self.span()? })
    }

    fn event(&mut self) -> Result<Named, Note> {
        let place = self.place();
        let kind = match self.peek_word() {
            Some("begin") => Kind::Begins,
            Some("end") => Kind::Ends,
            Some("set") => Kind::Sets,
            Some("clear") => Kind::Clears,
            _ => return self.expected(EVENTS),
        };
        self.skip();
        if kind < Kind::Sets {
            self.word("of")?;
            self.word("need")?;
        }
        Ok(Named { kind, fact: self.fact()?, place })
    }
}

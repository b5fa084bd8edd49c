//! Spans of time, and where in its job an event stands.

use super::cursor::Cursor;
use super::hints::PLACE_AT;
use super::{Number, MINUTES};
use crate::lexer::{unit, Piece};
use crate::note::{Note, Place};

/// Low and high as written; an open side is none.
#[derive(Clone, Copy, Debug, PartialEq, Eq)]
pub struct Written {
    pub low: Option<Number>,
    pub high: Option<Number>,
}

#[derive(Clone, Copy, Debug, PartialEq, Eq)]
pub enum Anchor {
    Start,
    End,
}

/// How long after the start or the end of its job an event comes; before it, where this is negative.
#[derive(Clone, Copy, Debug, PartialEq, Eq)]
pub struct Placing {
    pub anchor: Anchor,
    pub after: Written,
    pub place: Place,
}

impl Placing {
    /// Whether the event stands at the very start or the very end.
    pub fn is_at(&self, anchor: Anchor) -> bool {
        let zero = |number: Option<Number>| number.is_some_and(|number| number.value == 0);
        self.anchor == anchor && zero(self.after.low) && zero(self.after.high)
    }
}

impl Cursor<'_> {
    /// Minutes with their unit; `1 h 30 min` is a number too.
    pub fn minutes(&mut self, what: &str) -> Result<Number, Note> {
        let number = self.number(what)?;
        self.with_unit(number).map(|(number, _)| number)
    }

    /// The number in minutes, with the smaller units behind it, and the minutes of its own unit.
    pub fn with_unit(&mut self, mut number: Number) -> Result<(Number, i64), Note> {
        let first = self.unit()?;
        number.value = number.value.saturating_mul(first);
        let mut last = first;
        while let Some(&Piece::Number(more)) = self.peek() {
            let smaller = self.word_ahead(1).and_then(unit).filter(|unit| *unit < last);
            let Some(unit) = smaller else { break };
            self.at += 2;
            let more = more.saturating_mul(unit);
            number.value = number.value.saturating_add(if number.value < 0 { -more } else { more });
            last = unit;
        }
        Ok((number, first))
    }

    pub fn span(&mut self) -> Result<Written, Note> {
        if self.try_word("any") {
            self.word("time")?;
            return Ok(Written { low: None, high: None });
        }
        if self.try_word("at") {
            return self.one_sided();
        }
        let mut low = self.number("minutes, 'at least', 'at most' or 'any time'")?;
        let has_unit = self.peek() != Some(&Piece::Dots);
        if has_unit {
            low = self.with_unit(low)?.0;
        }
        if self.peek() != Some(&Piece::Dots) {
            return Ok(Written { low: Some(low), high: Some(low) });
        }
        self.skip();
        let high = self.number(MINUTES)?;
        let (high, unit) = self.with_unit(high)?;
        if !has_unit {
            low.value = low.value.saturating_mul(unit);
        }
        Ok(Written { low: Some(low), high: Some(high) })
    }

    fn one_sided(&mut self) -> Result<Written, Note> {
        if self.try_word("least") {
            return Ok(Written { low: Some(self.minutes(MINUTES)?), high: None });
        }
        if self.try_word("most") {
            return Ok(Written { low: None, high: Some(self.minutes(MINUTES)?) });
        }
        self.expected("'least' or 'most'")
    }

    /// `at start`, `at end`, a span `after start`, `after end` or `before end`; none at the line's end.
    /// `also` names, for an error, what else could stand here.
    pub fn placing(&mut self, also: &str) -> Result<Option<Placing>, Note> {
        let place = self.place();
        let zero = Number { value: 0, place };
        let exact = Written { low: Some(zero), high: Some(zero) };
        let found = match (self.peek_word(), self.word_ahead(1)) {
            (Some("at"), Some("start")) => (Anchor::Start, exact),
            (Some("at"), Some("end")) => (Anchor::End, exact),
            (Some("at"), Some("least" | "most")) | (Some("any"), _) => return self.apart(place),
            (Some("at"), _) => {
                self.skip();
                return self.expected(PLACE_AT);
            }
            _ if matches!(self.peek(), Some(Piece::Number(_))) => return self.apart(place),
            _ if self.peek().is_none() => return Ok(None),
            _ => return self.expected(&format!("{also}{PLACES}")),
        };
        self.at += 2;
        Ok(Some(Placing { anchor: found.0, after: found.1, place }))
    }

    /// A span from the start or the end.
    fn apart(&mut self, place: Place) -> Result<Option<Placing>, Note> {
        let span = self.span()?;
        let zero = Number { value: 0, place };
        if self.try_word("after") {
            let after = Written { low: span.low.or(Some(zero)), high: span.high };
            return Ok(Some(Placing { anchor: self.anchor(true)?, after, place }));
        }
        if !self.try_word("before") {
            return self.expected(AFTER_SPAN);
        }
        let back = |side: Option<Number>| side.map(|n| Number { value: -n.value, ..n });
        let after = Written { low: back(span.high), high: back(span.low).or(Some(zero)) };
        Ok(Some(Placing { anchor: self.anchor(false)?, after, place }))
    }

    fn anchor(&mut self, start: bool) -> Result<Anchor, Note> {
        if start && self.try_word("start") {
            return Ok(Anchor::Start);
        }
        if self.try_word("end") {
            return Ok(Anchor::End);
        }
        self.expected(if start { "'start' or 'end'" } else { "'end'" })
    }
}

/// What can follow a span that is no length.
pub const AFTER_SPAN: &str = "'after start', 'after end' or 'before end'";
const PLACES: &str = "'at start', 'at end', minutes 'after start' or the end of the line";

//! Goes through the tokens of a line.

use super::{hints, Name, Number, WORDS};
use crate::lexer::{unit, Piece, Token};
use crate::note::{Note, Place};

pub struct Cursor<'a> {
    /// All tokens of the line, and how many are behind.
    pub tokens: &'a [Token],
    pub at: usize,
    end: Place,
}

impl Cursor<'_> {
    pub fn new(tokens: &[Token], end: Place) -> Cursor<'_> {
        Cursor { tokens, at: 0, end }
    }

    pub fn place(&self) -> Place {
        self.tokens.get(self.at).map_or(self.end, |token| token.place)
    }

    pub fn peek(&self) -> Option<&Piece> {
        self.tokens.get(self.at).map(|token| &token.piece)
    }

    /// The word that stands so many tokens ahead, if it is one.
    pub fn word_ahead(&self, ahead: usize) -> Option<&str> {
        match self.tokens.get(self.at + ahead).map(|token| &token.piece) {
            Some(Piece::Word(word)) => Some(word),
            _ => None,
        }
    }

    /// The word that stands right before this place, if it is one.
    pub fn word_behind(&self) -> Option<&str> {
        match &self.tokens.get(self.at.checked_sub(1)?)?.piece {
            Piece::Word(word) => Some(word),
            _ => None,
        }
    }

    pub fn peek_word(&self) -> Option<&str> {
        self.word_ahead(0)
    }

    pub fn skip(&mut self) {
        self.at += 1;
    }

    /// An error that names what stands here instead.
    pub fn expected<T>(&self, what: &str) -> Result<T, Note> {
        let found = self.peek().map_or("the end of the line".to_string(), Piece::to_string);
        let message = format!("expected {what}, found {found}");
        Err(Note::new(self.place(), message).with_help(hints::help(self, what)))
    }

    pub fn finish(&self) -> Result<(), Note> {
        if self.at == self.tokens.len() {
            return Ok(());
        }
        self.expected("the end of the line")
    }

    pub fn try_word(&mut self, word: &str) -> bool {
        let here = self.peek_word() == Some(word);
        if here {
            self.skip();
        }
        here
    }

    pub fn word(&mut self, word: &str) -> Result<(), Note> {
        if self.try_word(word) {
            return Ok(());
        }
        self.expected(&format!("'{word}'"))
    }

    pub fn colon(&mut self) -> Result<(), Note> {
        if self.peek() == Some(&Piece::Colon) {
            self.skip();
            return Ok(());
        }
        self.expected("':'")
    }

    pub fn name(&mut self, what: &str) -> Result<Name, Note> {
        let place = self.place();
        let text = match self.peek() {
            Some(Piece::Quoted(text)) => text.clone(),
            Some(Piece::Word(word)) if !WORDS.contains(&word.as_str()) => word.clone(),
            Some(Piece::Word(word)) => {
                let what = format!("{what} (the word '{word}' is a name only in quotes)");
                return self.expected(&what);
            }
            _ => return self.expected(what),
        };
        self.skip();
        Ok(Name { text, place })
    }

    pub fn fact(&mut self) -> Result<Name, Note> {
        self.name("the name of a fact")
    }

    pub fn number(&mut self, what: &str) -> Result<Number, Note> {
        let place = self.place();
        let Some(&Piece::Number(value)) = self.peek() else {
            return self.expected(what);
        };
        self.skip();
        Ok(Number { value, place })
    }

    /// The minutes of the unit that stands here.
    pub fn unit(&mut self) -> Result<i64, Note> {
        let Some(minutes) = self.peek_word().and_then(unit) else {
            return self.expected("'min'");
        };
        self.skip();
        Ok(minutes)
    }
}

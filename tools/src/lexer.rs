//! Cuts a line of the notation into words, names in quotes, numbers and signs. What word processors put in
//! the place of quotes, dashes and spaces is taken for what it is meant to be.

use crate::note::{Note, Place};
use std::fmt;
use std::iter::Peekable;
use std::str::Chars;

#[derive(Clone, Debug, PartialEq, Eq)]
pub enum Piece {
    Word(String),
    Quoted(String),
    Number(i64),
    Dots,
    Colon,
}

impl fmt::Display for Piece {
    fn fmt(&self, out: &mut fmt::Formatter) -> fmt::Result {
        match self {
            Piece::Word(word) => write!(out, "'{word}'"),
            Piece::Quoted(name) => write!(out, "\"{name}\""),
            Piece::Number(number) => write!(out, "'{number}'"),
            Piece::Dots => write!(out, "'..'"),
            Piece::Colon => write!(out, "':'"),
        }
    }
}

#[derive(Clone, Debug, PartialEq, Eq)]
pub struct Token {
    pub piece: Piece,
    pub place: Place,
}

pub fn begins_word(c: char) -> bool {
    c.is_alphabetic() || c == '_'
}

pub fn continues_word(c: char) -> bool {
    c.is_alphanumeric() || c == '_' || is_dash(c)
}

fn is_dash(c: char) -> bool {
    matches!(c, '-' | '\u{2010}'..='\u{2015}' | '\u{2212}')
}

fn is_space(c: char) -> bool {
    matches!(c, ' ' | '\t' | '\u{a0}' | '\u{2002}'..='\u{200a}' | '\u{202f}')
}

/// Quotes of print, in the manner of several countries.
fn is_print_quote(c: char) -> bool {
    matches!(c, '\u{201c}'..='\u{201f}' | '\u{ab}' | '\u{bb}')
}

/// Whether a name in quotes may hold this character.
pub fn in_quotes(c: char) -> bool {
    c != '"' && !c.is_control()
}

/// How many minutes the unit has; none if this is no unit.
pub fn unit(word: &str) -> Option<i64> {
    match word.to_ascii_lowercase().as_str() {
        "min" | "mins" | "minute" | "minutes" => Some(1),
        "h" | "hr" | "hrs" | "hour" | "hours" => Some(60),
        "d" | "day" | "days" => Some(24 * 60),
        _ => None,
    }
}

/// How low and high are written.
pub const RANGE: &str = "low and high are written with two dots: '5..10 min'";

/// The tokens of a line, and the place behind the last of them. A comment is left out.
pub fn tokens(line: usize, text: &str) -> Result<(Vec<Token>, Place), Note> {
    let mut lexer = Lexer { rest: text.chars().peekable(), place: Place { line, column: 1 } };
    let mut tokens = Vec::new();
    let mut end = lexer.place;
    while let Some(token) = lexer.token()? {
        tokens.push(token);
        end = lexer.place;
    }
    Ok((tokens, end))
}

struct Lexer<'a> {
    rest: Peekable<Chars<'a>>,
    place: Place,
}

/// What is wrong with a token, and what to write instead.
type Slip = (String, String);

fn slip<T>(message: impl Into<String>, help: impl Into<String>) -> Result<T, Slip> {
    Err((message.into(), help.into()))
}

impl Lexer<'_> {
    fn next_if(&mut self, test: impl Fn(char) -> bool) -> Option<char> {
        let next = self.rest.next_if(|c| test(*c));
        self.place.column += usize::from(next.is_some());
        next
    }

    fn take_while(&mut self, test: impl Fn(char) -> bool) -> String {
        let mut taken = String::new();
        while let Some(c) = self.next_if(&test) {
            taken.push(c);
        }
        taken
    }

    /// The next token; none at the line's end or a comment.
    fn token(&mut self) -> Result<Option<Token>, Note> {
        self.take_while(is_space);
        let place = self.place;
        let piece = match self.rest.peek().copied() {
            None | Some('#') => return Ok(None),
            Some('"') => self.quoted('"'),
            Some(c) if is_print_quote(c) => self.quoted(c),
            Some('.' | '…') => self.dots(),
            Some(c) if is_dash(c) || c.is_ascii_digit() => self.number(),
            Some(':') => Ok(self.colon()),
            Some(c) if begins_word(c) => Ok(Piece::Word(self.word())),
            Some(c) => slip(format!("unexpected character '{}'", c.escape_debug()), stray(c)),
        };
        let piece = piece.map_err(|(message, help)| Note::new(place, message).with_help(help))?;
        Ok(Some(Token { piece, place }))
    }

    fn word(&mut self) -> String {
        let word = self.take_while(continues_word);
        word.chars().map(|c| if is_dash(c) { '-' } else { c }).collect()
    }

    fn colon(&mut self) -> Piece {
        self.next_if(|c| c == ':');
        Piece::Colon
    }

    fn dots(&mut self) -> Result<Piece, Slip> {
        match self.take_while(|c| c == '.' || c == '…').as_str() {
            ".." | "…" => Ok(Piece::Dots),
            _ => slip("expected '..' between low and high", "write '5..30 min'"),
        }
    }

    /// A name ends with the quote that it began with; quotes of print come in pairs of any kind.
    fn quoted(&mut self, open: char) -> Result<Piece, Slip> {
        let print = open != '"';
        let closes = |c: char| c == '"' || (print && is_print_quote(c));
        self.next_if(|c| c == open);
        let name = self.take_while(|c| in_quotes(c) && !closes(c));
        if let Some(c) = self.rest.peek().filter(|c| c.is_control()) {
            return slip(format!("a name cannot hold the character '{}'", c.escape_debug()), "");
        }
        if self.next_if(closes).is_none() {
            let help = "a name begins and ends with a quote: \"plot files\"";
            return slip("the name in quotes does not end on this line", help);
        }
        if name.trim().is_empty() {
            return slip("a name cannot be empty", "");
        }
        Ok(Piece::Quoted(name.chars().map(|c| if is_space(c) { ' ' } else { c }).collect()))
    }

    fn number(&mut self) -> Result<Piece, Slip> {
        let negative = self.next_if(is_dash).is_some();
        let digits = self.take_while(|c| c.is_ascii_digit());
        if digits.is_empty() {
            return slip("expected digits right after '-'", RANGE);
        }
        if let Some(fraction) = self.fraction() {
            return self.no_fraction(&digits, &fraction);
        }
        let more: String = self.rest.clone().take_while(|c| continues_word(*c)).collect();
        if !more.is_empty() && unit(&more).is_none() {
            self.take_while(continues_word);
            return Err(no_number(&digits, &more));
        }
        // So long a number is out of every range, whatever it is.
        let value = digits.parse().unwrap_or(i64::MAX);
        Ok(Piece::Number(if negative { -value } else { value }))
    }

    /// The digits behind a point or comma, if a fraction stands here.
    fn fraction(&mut self) -> Option<String> {
        let mut ahead = self.rest.clone();
        ahead.next().filter(|c| ['.', ','].contains(c))?;
        ahead.next().filter(char::is_ascii_digit)?;
        self.next_if(|_| true);
        Some(self.take_while(|c| c.is_ascii_digit()))
    }

    fn no_fraction(&mut self, digits: &str, fraction: &str) -> Result<Piece, Slip> {
        let whole: i64 = digits.parse().unwrap_or(0);
        self.take_while(is_space);
        let minutes = unit(&self.word()).unwrap_or(1);
        let help = if minutes > 1 && fraction.len() < 4 {
            let parts = fraction.parse::<i64>().unwrap_or(0) * minutes;
            let all = 10_i64.pow(fraction.len() as u32);
            format!("in whole minutes this is {} min", whole * minutes + (parts + all / 2) / all)
        } else {
            format!("write {whole} min or {} min", whole.saturating_add(1))
        };
        slip(format!("minutes are whole: {digits}.{fraction} is no number here"), help)
    }
}

/// What a character that begins no token is probably meant for.
fn stray(c: char) -> &'static str {
    match c {
        ',' => "each line says one thing of one fact: give each fact a line of its own",
        '\'' | '\u{2018}' | '\u{2019}' => "a name stands in double quotes: \"plot files\"",
        ';' | '/' => "a comment begins with '#'",
        '=' => "minutes stand after ':' or 'for', with no other sign",
        _ => "",
    }
}

/// What to say of digits with word characters behind them.
fn no_number(digits: &str, more: &str) -> Slip {
    let high = more.strip_prefix(is_dash).unwrap_or("");
    if !high.is_empty() && high.chars().all(|c| c.is_ascii_digit()) {
        let message = format!("low and high are written '{digits}..{high}'");
        return (message, String::new());
    }
    let message = format!("'{digits}{more}' is neither a number nor a name");
    (message, "put a space after a number, or quotes around a name".to_string())
}

#[cfg(test)]
mod tests {
    use super::*;

    fn pieces(text: &str) -> Vec<(usize, Piece)> {
        let (tokens, _) = tokens(1, text).unwrap();
        tokens.into_iter().map(|token| (token.place.column, token.piece)).collect()
    }

    fn error(text: &str) -> (usize, String) {
        let error = tokens(7, text).unwrap_err();
        let place = error.place.unwrap();
        assert_eq!(place.line, 7);
        (place.column, error.message)
    }

    fn word(text: &str) -> Piece {
        Piece::Word(text.to_string())
    }

    fn quoted(text: &str) -> Piece {
        Piece::Quoted(text.to_string())
    }

    #[test]
    fn signs_need_no_spaces_around_them() {
        assert_eq!(
            pieces("to set a:-5..30 min"),
            [
                (1, word("to")),
                (4, word("set")),
                (8, word("a")),
                (9, Piece::Colon),
                (10, Piece::Number(-5)),
                (12, Piece::Dots),
                (14, Piece::Number(30)),
                (17, word("min")),
            ]
        );
    }

    #[test]
    fn columns_count_characters() {
        assert_eq!(
            pieces("\t\"ä # ü\" Höhe-2_b # the rest"),
            [(2, quoted("ä # ü")), (10, word("Höhe-2_b"))]
        );
    }

    #[test]
    fn what_word_processors_write_is_taken() {
        assert_eq!(
            pieces("set\u{a0}“plot\u{a0}files” „a“ «b» »c« load–codes: −5…30 min"),
            [
                (1, word("set")),
                (5, quoted("plot files")),
                (18, quoted("a")),
                (22, quoted("b")),
                (26, quoted("c")),
                (30, word("load-codes")),
                (40, Piece::Colon),
                (42, Piece::Number(-5)),
                (44, Piece::Dots),
                (45, Piece::Number(30)),
                (48, word("min")),
            ]
        );
        assert_eq!(pieces("\"the „big“ one\""), [(1, quoted("the „big“ one"))]);
    }

    #[test]
    fn a_unit_may_stand_right_behind_its_number() {
        let number = |value| Piece::Number(value);
        assert_eq!(
            pieces("5min 8h"),
            [(1, number(5)), (2, word("min")), (6, number(8)), (7, word("h"))]
        );
    }

    #[test]
    fn the_end_is_behind_the_last_token() {
        let (_, end) = tokens(3, "fact a   # comment").unwrap();
        assert_eq!(end, Place { line: 3, column: 7 });
    }

    #[test]
    fn a_long_number_keeps_its_sign() {
        let long = "99999999999999999999";
        assert_eq!(pieces(long), [(1, Piece::Number(i64::MAX))]);
        assert_eq!(pieces(&format!("-{long}")), [(1, Piece::Number(-i64::MAX))]);
    }

    #[test]
    fn what_is_no_token_is_refused_where_it_stands() {
        assert_eq!(error("fact §").0, 6);
        assert_eq!(error("fact a\u{1}").1, "unexpected character '\\u{1}'");
        assert_eq!(error("fact \"a").1, "the name in quotes does not end on this line");
        assert_eq!(error("fact \"a\tb\"").1, "a name cannot hold the character '\\t'");
        assert_eq!(error("fact \"  \"").1, "a name cannot be empty");
        assert_eq!(error("job 10 2nd-plot").0, 8);
        assert_eq!(error("a: 5...7 min").0, 5);
        assert_eq!(error("a: 5 - 7 min").0, 6);
        assert_eq!(
            error("a: 2.5 min"),
            (4, "minutes are whole: 2.5 is no number here".to_string())
        );
    }

    #[test]
    fn a_fraction_is_rounded_to_minutes() {
        let help = |text| tokens(1, text).unwrap_err().help;
        assert_eq!(help("2.5 min"), "write 2 min or 3 min");
        assert_eq!(help("2,5 h"), "in whole minutes this is 150 min");
        assert_eq!(help("0.33h"), "in whole minutes this is 20 min");
    }
}

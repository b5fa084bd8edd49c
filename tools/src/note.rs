//! Errors and warnings about a text: where, what, and what to write instead.

use std::fmt;

/// Line and column, both counted from 1; columns count characters.
#[derive(Clone, Copy, Debug, Default, PartialEq, Eq, PartialOrd, Ord)]
pub struct Place {
    pub line: usize,
    pub column: usize,
}

/// What is wrong or looks wrong, and where. A sheet in bytes has no lines, so a warning may have no place.
#[derive(Clone, Debug, PartialEq, Eq)]
pub struct Note {
    pub place: Option<Place>,
    pub message: String,
    /// What to write instead; empty if there is nothing to say.
    pub help: String,
}

/// So many are printed of each kind; then only how many more there are.
pub const MOST: usize = 20;

impl Note {
    pub fn new(place: Place, message: impl Into<String>) -> Note {
        Note { place: Some(place), message: message.into(), help: String::new() }
    }

    pub fn with_help(mut self, help: impl Into<String>) -> Note {
        self.help = help.into();
        self
    }
}

impl fmt::Display for Note {
    fn fmt(&self, out: &mut fmt::Formatter) -> fmt::Result {
        if let Some(place) = self.place {
            write!(out, "{}:{}: ", place.line, place.column)?;
        }
        write!(out, "{}", self.message)
    }
}

/// The notes with their source lines, each with a caret below; `kind` is error or warning.
pub fn render(file: &str, source: &[u8], kind: &str, notes: &[Note]) -> String {
    let source = String::from_utf8_lossy(source);
    let lines: Vec<&str> = source.trim_start_matches('\u{feff}').split('\n').collect();
    let mut text = String::new();
    for note in notes.iter().take(MOST) {
        text += &render_one(file, &lines, kind, note);
    }
    if notes.len() > MOST {
        let more = notes.len() - MOST;
        let plural = if more == 1 { "" } else { "s" };
        text += &format!("{file}: {more} more {kind}{plural}\n");
    }
    text
}

fn render_one(file: &str, lines: &[&str], kind: &str, note: &Note) -> String {
    let Some(place) = note.place else {
        let help = if note.help.is_empty() { String::new() } else { help_line(0, &note.help) };
        return format!("{file}: {kind}: {}\n{help}", note.message);
    };
    let mut text = format!("{file}:{}:{}: {kind}: {}\n", place.line, place.column, note.message);
    let number = place.line.to_string();
    if let Some(line) = lines.get(place.line - 1) {
        let line = shown(line.trim_end());
        let before = line.chars().take(place.column - 1);
        // Tabs stay, so that the caret stands below its character whatever their width.
        let blank: String = before.map(|c| if c == '\t' { c } else { ' ' }).collect();
        let margin = " ".repeat(number.len());
        text += &format!("  {number} | {line}\n  {margin} | {blank}^\n");
    }
    if !note.help.is_empty() {
        text += &help_line(number.len(), &note.help);
    }
    text
}

/// The line without signs that a terminal would obey.
fn shown(line: &str) -> String {
    line.chars().map(|c| if c.is_control() && c != '\t' { '\u{fffd}' } else { c }).collect()
}

fn help_line(width: usize, help: &str) -> String {
    format!("  {} = {help}\n", " ".repeat(width))
}

#[cfg(test)]
mod tests {
    use super::*;

    #[test]
    fn the_caret_stands_below_its_character() {
        let note = Note::new(Place { line: 2, column: 3 }, "what").with_help("do so");
        let text = render("f", "one\n\tü x\r\n".as_bytes(), "error", &[note]);
        assert_eq!(text, "f:2:3: error: what\n  2 | \tü x\n    | \t ^\n    = do so\n");
    }

    #[test]
    fn a_terminal_is_told_nothing() {
        let note = Note::new(Place { line: 1, column: 4 }, "what");
        let text = render("f", b"a\x1b[2Jb\0", "error", &[note]);
        assert_eq!(text, "f:1:4: error: what\n  1 | a\u{fffd}[2Jb\u{fffd}\n    |    ^\n");
    }

    #[test]
    fn many_notes_are_counted() {
        let notes = vec![Note::new(Place { line: 1, column: 1 }, "no"); MOST + 2];
        let text = render("f", b"x", "error", &notes);
        assert_eq!(text.matches("error: no").count(), MOST);
        assert!(text.ends_with("f: 2 more errors\n"));
    }
}

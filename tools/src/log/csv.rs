//! Rows and fields of a CSV file.

use crate::note::Place;

/// A field, without the spaces and quotes around it.
#[derive(Clone, Debug, PartialEq, Eq)]
pub struct Field {
    pub text: String,
    pub place: Place,
}

/// Whether the line says something: it is not empty and no comment.
fn counts(line: &str) -> bool {
    !line.trim().is_empty() && !line.trim_start().starts_with('#')
}

/// The sign between the fields of the first row; none if the text is no CSV.
pub fn separator(text: &str) -> Option<char> {
    let first = text.lines().find(|line| counts(line))?;
    [';', '\t', ','].into_iter().find(|&sign| fields(first, 1, sign).len() >= 4)
}

/// The rows that say something.
pub fn rows(text: &str, separator: char) -> Vec<Vec<Field>> {
    let lines = (1..).zip(text.lines()).filter(|(_, line)| counts(line));
    lines.map(|(number, line)| fields(line, number, separator)).collect()
}

/// Within quotes a separator is an ordinary sign, and two quotes are one.
fn fields(line: &str, number: usize, separator: char) -> Vec<Field> {
    let mut fields = Vec::new();
    let (mut text, mut quoted, mut column) = (String::new(), false, 1);
    let mut chars = (1..).zip(line.chars()).peekable();
    while let Some((at, c)) = chars.next() {
        match c {
            '"' if quoted && chars.peek().is_some_and(|(_, next)| *next == '"') => {
                chars.next();
                text.push('"');
            }
            '"' => quoted = !quoted,
            c if c == separator && !quoted => {
                fields.push(field(&text, number, column));
                (text, column) = (String::new(), at + 1);
            }
            c => text.push(c),
        }
    }
    fields.push(field(&text, number, column));
    fields
}

fn field(text: &str, line: usize, column: usize) -> Field {
    let blank = text.chars().take_while(|c| c.is_whitespace()).count();
    let blank = if text.trim().is_empty() { 0 } else { blank };
    Field { text: text.trim().to_string(), place: Place { line, column: column + blank } }
}

#[cfg(test)]
mod tests {
    use super::*;

    #[test]
    fn fields_and_quotes() {
        let texts = |line: &str| -> Vec<String> {
            fields(line, 1, ',').into_iter().map(|field| field.text).collect()
        };
        assert_eq!(texts("a, b ,\"c, \"\"d\"\"\","), ["a", "b", "c, \"d\"", ""]);
        let places: Vec<usize> = fields("a, b", 1, ',').iter().map(|f| f.place.column).collect();
        assert_eq!(places, [1, 4]);
    }

    #[test]
    fn the_separator_is_that_of_the_first_row() {
        assert_eq!(separator("# a,b\n\njob;event;fact;minute\n"), Some(';'));
        assert_eq!(separator("job\tevent\tfact\tminute"), Some('\t'));
        assert_eq!(separator("10,S,\"a;b;c;d\",5"), Some(','));
        assert_eq!(separator("PLAN 1\n10 S 1 5\n"), None);
        assert_eq!(separator("\n# nothing\n"), None);
    }
}

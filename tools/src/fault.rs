//! What is wrong with bytes that are no sheet, or no list for a sheet: where, what stands there, and the rule.

/// Each rule has a word of its own, by which programs know it.
#[derive(Clone, Debug, PartialEq, Eq)]
pub struct Fault {
    /// The answer that refuses the bytes.
    pub number: u8,
    /// The part that the byte belongs to: contents, facts, jobs, events, bounds; entries or times of a list.
    pub body: &'static str,
    /// The row of the body, from 0, where the fault is one row's.
    pub row: Option<usize>,
    /// The first byte that the fault concerns, from 0; the length where bytes are missing.
    pub byte: usize,
    /// What stands there.
    pub found: String,
    pub rule: &'static str,
    /// The rule in words.
    pub words: String,
}

/// A body while it is read: where it stands, and which answer refuses it.
#[derive(Clone, Copy)]
pub struct Body<'a> {
    pub number: u8,
    pub name: &'static str,
    pub start: usize,
    pub bytes: &'a [u8],
}

impl Body<'_> {
    /// A fault at this byte of the body.
    pub fn fault(
        &self,
        at: usize,
        found: impl Into<String>,
        rule: (&'static str, String),
    ) -> Fault {
        Fault {
            number: self.number,
            body: self.name,
            row: None,
            byte: self.start + at,
            found: found.into(),
            rule: rule.0,
            words: rule.1,
        }
    }
}

impl Fault {
    pub fn in_row(self, row: usize) -> Fault {
        Fault { row: Some(row), ..self }
    }

    /// The place in words.
    pub fn place(&self) -> String {
        let row = self.row.map_or(String::new(), |row| format!(", row {row}"));
        format!("{}{row}, byte {}", self.body, self.byte)
    }

    /// Where, what stands there, and the rule.
    pub fn reason(&self) -> String {
        format!("{}: {}; {}", self.place(), self.found, self.words)
    }
}

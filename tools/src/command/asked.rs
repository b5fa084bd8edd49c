//! A sheet, a list and numbers for them, as `late` and `cost` take them.

use super::Words;
use crate::answers::{meaning, Proved};
use crate::explain::count;
use crate::list::Entry;
use crate::model::Sheet;
use crate::shell::{read, Failure, Given, GivenList};
use std::ffi::OsStr;

/// So many of those that take a number are named where there are too few numbers, or too many.
const MOST_NAMED: usize = 8;

/// What the numbers of a command are.
pub struct Numbers {
    /// What one of them is called, and what takes one, of what.
    pub name: &'static str,
    pub taker: &'static str,
    pub whole: &'static str,
    pub most: u32,
    pub unit: &'static str,
    /// The digits of a word, or what is wrong with it.
    pub digits: fn(&OsStr) -> Result<String, Failure>,
}

/// Sheet, list and numbers as they were given.
pub struct Asked {
    pub given: Given,
    /// None for bytes that are no sheet, which are refused before the list is looked at.
    list: Option<GivenList>,
    /// The files' names, as a command takes them.
    names: [String; 2],
    numbers: &'static Numbers,
    /// The numbers as they were written, and as they are handed in.
    written: Vec<String>,
    pub values: Vec<u32>,
}

impl Asked {
    pub fn open(words: &Words, numbers: &'static Numbers) -> Result<Asked, Failure> {
        let written = words.files[2..].iter().map(|word| (numbers.digits)(word));
        let written = written.collect::<Result<Vec<String>, Failure>>()?;
        // What four bytes cannot hold is too much, as their greatest number is: with it the tests come in the library's own order.
        let values = written.iter().map(|digits| digits.parse().unwrap_or(u32::MAX)).collect();
        let given = Given::open(words.file(0))?;
        let input = read(words.file(1)).map_err(|failure| no_list(failure, words, numbers))?;
        let list = given.sheet.as_ref().ok().map(|sheet| GivenList::open(sheet, &input));
        let names = [0, 1].map(|place| words.files[place].to_string_lossy().into_owned());
        Ok(Asked { given, list: list.transpose()?, names, numbers, written, values })
    }

    pub fn list(&self) -> &[u8] {
        self.list.as_ref().map_or(&[], |list| &list.bytes)
    }

    /// Whether the bytes are a sheet, so that the list was looked at.
    pub fn has_sheet(&self) -> bool {
        self.list.is_some()
    }

    /// The sheet, and the entries of a list that the judge accepts; or why it does not.
    pub fn accepted(&self, proved: &Proved) -> Result<(&Sheet, &[Entry]), String> {
        let judged = proved.judge(&self.given.bytes, self.list()).number;
        let entries = self.list.as_ref().and_then(|list| list.entries.as_ref().ok());
        match (&self.given.sheet, entries) {
            (Ok(sheet), Some(entries)) if judged == 0 => Ok((sheet, entries)),
            _ => {
                let [sheet, list] = &self.names;
                Err(format!("{}; 'corrumai explain {sheet} {list}' says why", meaning(judged)))
            }
        }
    }

    /// What is wrong with the numbers, of which these take one each: their count, or how much they are.
    pub fn refused(&self, takers: &[String]) -> String {
        let Numbers { name, most, unit, .. } = self.numbers;
        let much = |place: usize| {
            let whose = takers.get(place).map_or(String::new(), |taker| format!(", of {taker},"));
            format!("the {name} {}{whose} is above {most} {unit}\n", self.written[place])
        };
        let above = (0..self.values.len()).filter(|&place| self.values[place] > *most).map(much);
        let another = (takers.len() != self.values.len()).then(|| self.another_count(takers));
        another.into_iter().chain(above).collect()
    }

    fn another_count(&self, takers: &[String]) -> String {
        let Numbers { name, taker, whole, .. } = self.numbers;
        let (due, found) = (count(takers.len(), taker), count(self.values.len(), name));
        let are = if self.values.len() == 1 { "is" } else { "are" };
        let more = (takers.len() > MOST_NAMED).then(|| "..".to_string());
        let named: Vec<String> = takers.iter().take(MOST_NAMED).cloned().chain(more).collect();
        let takes = match takers {
            [] => "it takes none".to_string(),
            _ => format!("it takes one for each, in their order: {}", named.join(", ")),
        };
        format!("the {whole} has {due}, and {found} {are} given; {takes}\n")
    }
}

/// The failure to read a list; where that is a number, the list was probably forgotten.
fn no_list(mut failure: Failure, words: &Words, numbers: &Numbers) -> Failure {
    if words.file(1).is_some_and(|word| (numbers.digits)(word).is_ok()) {
        failure.message += &format!("; the list comes before the {}s", numbers.name);
    }
    failure
}

/// Whether the text is digits, and at least one.
pub fn is_number(text: &str) -> bool {
    !text.is_empty() && text.bytes().all(|c| c.is_ascii_digit())
}

/// The reason for standard error: its first line, and what stands below it.
pub fn said(why: &str) -> String {
    let lines = why.lines().zip(["corrumai: "].into_iter().chain(std::iter::repeat("  ")));
    lines.map(|(line, before)| format!("{before}{line}\n")).collect()
}

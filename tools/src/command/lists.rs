//! corrumai list: run lists as text and back.

use super::{Command, Words};
use crate::answers::Proved;
use crate::list;
use crate::model::Sheet;
use crate::shell::{read, refuse_bytes, Failure, Given, GivenList, Output, DONE};

pub const TO_BYTES: Command = Command {
    name: "list to-bytes",
    files: "SHEET LIST",
    counts: (2, 2),
    options: &[],
    summary: "turn a run list's text into bytes",
    help: "\
The text is what 'corrumai plan' prints: PLAN and a count, which may be left out, then for each event a
job, B, E, S or C, a fact and a minute. Jobs and facts are numbers or names. An entry is a block of
lines of one job, in any order; it ends with a blank line, another job, or an event that it has already.
A job without events is a line with the job alone.
",
    run: to_bytes,
};

pub const TO_TEXT: Command = Command {
    name: "list to-text",
    files: "SHEET LIST",
    counts: (2, 2),
    options: &["--names", "--start HH:MM"],
    summary: "print a run list's bytes as text",
    help: "\
For bytes that are no list for the sheet it names the byte and the rule.

  --names          jobs and facts by name, as a comment after each line
  --start HH:MM    times of day too, for a run that starts then
",
    run: to_text,
};

/// The sheet, and the list as it was given.
fn open(words: &Words) -> Result<(Sheet, GivenList), Failure> {
    let given = Given::open(words.file(0))?;
    let sheet = given.sheet.map_err(|fault| refuse_bytes(&given.input, "sheet", &fault))?;
    let input = read(words.file(1))?;
    let list = GivenList::open(&sheet, &input)?;
    if let Err(fault) = &list.entries {
        return Err(refuse_bytes(&input, "list for this sheet", fault));
    }
    Ok((sheet, list))
}

fn to_bytes(words: &Words, _: &Proved) -> Result<Output, Failure> {
    let (_, list) = open(words)?;
    Ok(Output::new(DONE, list.bytes))
}

fn to_text(words: &Words, _: &Proved) -> Result<Output, Failure> {
    let (sheet, list) = open(words)?;
    let entries = list.entries.unwrap_or_default();
    Ok(Output::new(DONE, list::print(&sheet, &entries, words.beside)))
}

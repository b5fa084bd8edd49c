//! corrumai sheet: sheets as text and back, and whether one looks right.

use super::{Command, Words};
use crate::answers::Proved;
use crate::notation::{print, HEADER};
use crate::note::render;
use crate::shell::{refuse_bytes, Failure, Given, Output, DONE, REFUSED};
use crate::warnings;

pub const TO_BYTES: Command = Command {
    name: "sheet to-bytes",
    files: "[SHEET]",
    counts: (0, 1),
    options: &[],
    summary: "turn a sheet's text into the bytes that are planned",
    help: "\
Errors are printed with file, line and column, the line itself and what to write instead; then nothing
is written. Warnings go to standard error and stop nothing. A sheet in bytes is written as it is, if it
is well formed. docs/NOTATION.md explains the text; examples/*.txt are written in it.
",
    run: to_bytes,
};

pub const TO_TEXT: Command = Command {
    name: "sheet to-text",
    files: "[SHEET]",
    counts: (0, 1),
    options: &[],
    summary: "print a sheet's bytes as text, in plain events and bounds",
    help: "\
Bytes hold no names: facts are called by their number and jobs by their code. Of a text it prints what
its bytes say, with the text's names. For bytes that are no sheet it names the body, the row, the byte
and the rule.
",
    run: to_text,
};

pub const CHECK: Command = Command {
    name: "sheet check",
    files: "[SHEET]",
    counts: (0, 1),
    options: &["--strict"],
    summary: "name errors in a sheet, and what looks like a slip",
    help: "\
It prints nothing if all is well. A warning names something that is allowed and seldom meant: a step
that nothing ties to its job, a fact that nobody needs, and the like.

  --strict    status 1 for warnings too
",
    run: check,
};

fn to_bytes(words: &Words, _: &Proved) -> Result<Output, Failure> {
    let given = Given::open(words.file(0))?;
    if let Err(fault) = &given.sheet {
        return Err(refuse_bytes(&given.input, "sheet", fault));
    }
    let aside = warnings(&given);
    Ok(Output { status: DONE, out: given.bytes, aside })
}

fn to_text(words: &Words, _: &Proved) -> Result<Output, Failure> {
    let given = Given::open(words.file(0))?;
    match &given.sheet {
        Ok(sheet) => Ok(Output::new(DONE, format!("{HEADER}{}", print(sheet)))),
        Err(fault) => Err(refuse_bytes(&given.input, "sheet", fault)),
    }
}

fn check(words: &Words, _: &Proved) -> Result<Output, Failure> {
    let given = Given::open(words.file(0))?;
    let sheet = given.sheet.as_ref().map_err(|fault| refuse_bytes(&given.input, "sheet", fault))?;
    let notes = warnings::of(sheet, given.source.as_ref());
    let status = if words.strict && !notes.is_empty() { REFUSED } else { DONE };
    let aside = render(&given.input.name, &given.input.bytes, "warning", &notes);
    Ok(Output { status, out: Vec::new(), aside })
}

/// As `warnings`; and of a sheet in bytes, that its gap may once have meant another.
pub fn warnings_of_both(given: &Given) -> String {
    match (&given.sheet, &given.source) {
        (Ok(sheet), None) => {
            let notes = Vec::from_iter(warnings::former_gap(sheet, None));
            render(&given.input.name, &given.input.bytes, "warning", &notes)
        }
        _ => warnings(given),
    }
}

/// What looks like a slip in a text; a sheet in bytes is taken as it is.
pub fn warnings(given: &Given) -> String {
    match (&given.sheet, &given.source) {
        (Ok(sheet), Some(source)) => {
            let notes = warnings::of(sheet, Some(source));
            render(&given.input.name, &given.input.bytes, "warning", &notes)
        }
        _ => String::new(),
    }
}

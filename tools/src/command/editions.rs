//! corrumai sheet to-edition2 and to-edition1: a sheet rewritten to the other edition.

use super::{Command, Words};
use crate::answers::{meaning, written, Answer, Writer};
use crate::layout::{DEFAULT_GAP, DEFAULT_GAP_SINCE, EDITION_1_GAP, GAP_BYTE, LONGEST_SHEET};
use crate::model::{Edition, Job, Sheet};
use crate::shell::{Failure, Given, Output, DONE, REFUSED};

pub const TO_EDITION_2: Command = Command {
    name: "sheet to-edition2",
    files: "[SHEET]",
    counts: (0, 1),
    options: &[],
    summary: "rewrite a sheet of edition 1 to edition 2",
    help: "\
It writes the bytes of the sheet of edition 2 that says the same: gap 1, revision 0, and every job
released at minute 0. Another answer goes to standard error: ANSWER, number, detail. 10: the sheet is
not of edition 1; 10 to 14: it is not well formed.

What is written is proved; the reading of text is not.
",
    run: |words, proved| rewrite(words, proved.to_edition2),
};

pub const TO_EDITION_1: Command = Command {
    name: "sheet to-edition1",
    files: "[SHEET]",
    counts: (0, 1),
    options: &[],
    summary: "rewrite a sheet of edition 2 to edition 1",
    help: "\
It writes the bytes of the sheet of edition 1 that says the same. Another answer goes to standard
error: ANSWER, number, detail. 10: the sheet is not of edition 2; 10 to 14: it is not well formed;
50: its gap is not 1, or its revision or a release is not 0, which edition 1 cannot say. Gap 0 stands
for the default, 2 minutes.

Before 0.4.0 that default was 1 minute, and to-edition2 wrote gap 0. A sheet that was rewritten then is
mended by a line 'gap 1' in its text (sheet to-text, then sheet to-bytes), or by 1 in its byte 29.

What is written is proved; the reading of text is not.
",
    run: |words, proved| rewrite(words, proved.to_edition1),
};

fn rewrite(words: &Words, writer: Writer) -> Result<Output, Failure> {
    let given = Given::open(words.file(0))?;
    let (answer, bytes) = written(writer, &given.bytes, LONGEST_SHEET);
    if answer.number != 0 {
        let why = why(answer, &given);
        return Err(Failure::new(REFUSED, format!("{answer}\ncorrumai: {why}")));
    }
    let aside = super::sheets::warnings(&given);
    Ok(Output { status: DONE, out: bytes, aside })
}

/// What stands against it.
fn why(answer: Answer, given: &Given) -> String {
    match &given.sheet {
        Err(fault) => fault.reason(),
        Ok(sheet) if answer.number == 10 => {
            format!("the sheet is of edition {} already", sheet.edition.form().edition)
        }
        Ok(sheet) => {
            let said = beyond(sheet);
            format!("{}: {}{}", meaning(answer.number), said.join(", "), mending(sheet, &said))
        }
    }
}

/// What to do where nothing but the default gap stands against it.
fn mending(sheet: &Sheet, said: &[String]) -> String {
    if said.len() > 1 || !matches!(sheet.edition, Edition::Two { gap: 0, .. }) {
        return String::new();
    }
    format!(
        "\ncorrumai: before {DEFAULT_GAP_SINCE} gap 0 meant {EDITION_1_GAP} minute, and sheets rewritten then have it: \
         to mend one, let its text say 'gap {EDITION_1_GAP}', or set byte {GAP_BYTE} to {EDITION_1_GAP}"
    )
}

/// What a sheet of edition 2 says that edition 1 cannot say.
fn beyond(sheet: &Sheet) -> Vec<String> {
    let Edition::Two { gap, revision } = sheet.edition else {
        return Vec::new();
    };
    let mut said = Vec::new();
    match gap {
        EDITION_1_GAP => {}
        0 => said.push(format!(
            "gap 0 (the default, {DEFAULT_GAP} minutes; edition 1 has {EDITION_1_GAP})"
        )),
        _ => said.push(format!("gap {gap}")),
    }
    if revision > 0 {
        said.push(format!("revision {revision}"));
    }
    let released = sheet.jobs.iter().filter(|job| job.release > 0);
    let words = |job: &Job| format!("'{}' not before minute {}", job.name, job.release);
    said.extend(released.map(words));
    said
}

//! corrumai explain: why the answer is what it is.

use super::{Command, Words};
use crate::answers::Proved;
use crate::explain::{self, Context};
use crate::layout::LONGEST_PLAN;
use crate::shell::{read, Failure, Given, GivenList, Output, DONE, REFUSED};

pub const COMMAND: Command = Command {
    name: "explain",
    files: "[SHEET [LIST]]",
    counts: (0, 2),
    options: &["--json", "--start HH:MM", "--buffer BYTES"],
    summary: "say why planner or judge answers as it does",
    help: "\
Without a list it explains the planner's answer: what holds each step of the plan back, or why there is
none; and it names the absent jobs, which the planner leaves out, each with what leaves it no times.
With a list it explains the judge's.

  --json           the same as data, for programs
  --start HH:MM    times of day beside the minutes of a plan
  --buffer BYTES   the buffer that the planner gets

The answer is proved. The explanation is not: it is found by other means, looked up in the sheet, added
up and compared with the answer; where that fails, only the bare answer is printed.
",
    run,
};

fn run(words: &Words, proved: &Proved) -> Result<Output, Failure> {
    let given = Given::open(words.file(0))?;
    let explanation = match words.file(1) {
        None => explain::plan(&given.bytes, words.buffer.unwrap_or(LONGEST_PLAN), proved),
        Some(path) => {
            let input = read(Some(path))?;
            let list = match &given.sheet {
                Ok(sheet) => GivenList::open(sheet, &input)?.bytes,
                Err(_) => Vec::new(),
            };
            explain::judge(&given.bytes, &list, proved)
        }
    };
    let context = Context {
        sheet: given.sheet.as_ref().ok(),
        source: given.source.as_ref(),
        start: words.beside.start,
    };
    let out = if words.json { explanation.json(&context) } else { explanation.text(&context) };
    let status = if explanation.answer.number == 0 { DONE } else { REFUSED };
    let aside = super::sheets::warnings_of_both(&given);
    Ok(Output { status, out: out.into(), aside })
}

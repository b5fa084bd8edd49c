//! corrumai judge: the proved judge's answer.

use super::{Command, Words};
use crate::answers::Proved;
use crate::shell::{read, Failure, Given, GivenList, Output, DONE, REFUSED};

pub const COMMAND: Command = Command {
    name: "judge",
    files: "SHEET LIST",
    counts: (2, 2),
    options: &[],
    summary: "say whether a run list is a plan for a sheet",
    help: "\
It prints one line: ANSWER, number, detail. 0: the list is a plan; 10 to 14: the sheet is not well
formed; 40: the list is not, or names a job that is not in the sheet; 41: the list is no plan.
'corrumai explain SHEET LIST' says why.

The answer is the proved judge's; the reading of text is not proved.
",
    run,
};

fn run(words: &Words, proved: &Proved) -> Result<Output, Failure> {
    let given = Given::open(words.file(0))?;
    let input = read(words.file(1))?;
    let list = match &given.sheet {
        Ok(sheet) => GivenList::open(sheet, &input)?.bytes,
        // The judge refuses the sheet before it looks at the list.
        Err(_) => Vec::new(),
    };
    let answer = proved.judge(&given.bytes, &list);
    let status = if answer.number == 0 { DONE } else { REFUSED };
    let mut output = Output::new(status, format!("{answer}\n"));
    output.aside = super::sheets::warnings(&given);
    Ok(output)
}

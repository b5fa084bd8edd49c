//! corrumai plan: the proved planner's list.

use super::{Command, Words};
use crate::answers::{meaning, Answer, Proved};
use crate::layout::LONGEST_PLAN;
use crate::list;
use crate::model::Sheet;
use crate::shell::{Failure, Given, Output, DONE, REFUSED};

pub const COMMAND: Command = Command {
    name: "plan",
    files: "[SHEET]",
    counts: (0, 1),
    options: &["--names", "--start HH:MM", "--buffer BYTES"],
    summary: "print the run list of a sheet, or why there is none",
    help: "\
It prints PLAN and the count of entries, then a line for each event: the job's code, B (a need begins),
E (it ends), S (sets) or C (clears), the fact's number and the minute. Another answer is one line:
ANSWER, number, detail; 'corrumai explain' says why.

  --names          jobs and facts by name, as a comment after each line
  --start HH:MM    times of day too, for a run that starts then
  --buffer BYTES   the buffer that the planner gets; a list that does not fit gets answer 30

The list is the proved planner's; what is printed beside the numbers is not proved.
",
    run,
};

fn run(words: &Words, proved: &Proved) -> Result<Output, Failure> {
    let given = Given::open(words.file(0))?;
    let (answer, bytes) = proved.plan(&given.bytes, words.buffer.unwrap_or(LONGEST_PLAN));
    let mut output = match &given.sheet {
        Ok(sheet) if answer.number == 0 => Output::new(DONE, print(sheet, &bytes, words)?),
        _ => refused(answer, &given.input.name),
    };
    output.aside = super::sheets::warnings(&given) + &output.aside;
    Ok(output)
}

fn print(sheet: &Sheet, list: &[u8], words: &Words) -> Result<String, Failure> {
    let entries = list::decode(sheet, list)
        .map_err(|fault| Failure::usage(format!("a plan that is no list: {}", fault.words)))?;
    Ok(list::print(sheet, &entries, words.beside))
}

/// The bare answer, and where to read why.
pub fn refused(answer: Answer, name: &str) -> Output {
    let name = if name == "standard input" { "-" } else { name };
    Output {
        status: REFUSED,
        out: format!("{answer}\n").into(),
        aside: format!(
            "corrumai: {}; 'corrumai explain {name}' says why\n",
            meaning(answer.number)
        ),
    }
}

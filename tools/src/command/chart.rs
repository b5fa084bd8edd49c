//! corrumai chart: the run list as a drawing.

use super::{Command, Words};
use crate::answers::Proved;
use crate::chart::draw;
use crate::layout::LONGEST_PLAN;
use crate::list;
use crate::shell::{Failure, Given, Output, DONE};

pub const COMMAND: Command = Command {
    name: "chart",
    files: "[SHEET]",
    counts: (0, 1),
    options: &[],
    summary: "draw the run list of a sheet as an SVG, for a browser",
    help: "\
A row for each job, in it a lane for each fact: bars are needs, marks are sets and clears. For another
answer than a plan the answer is printed and nothing is drawn. The caption names the absent jobs, which
the planner leaves out.

The plan is the proved planner's; the drawing is not proved.
",
    run,
};

fn run(words: &Words, proved: &Proved) -> Result<Output, Failure> {
    let given = Given::open(words.file(0))?;
    let (answer, bytes) = proved.plan(&given.bytes, LONGEST_PLAN);
    let entries = given
        .sheet
        .as_ref()
        .ok()
        .filter(|_| answer.number == 0)
        .and_then(|sheet| list::decode(sheet, &bytes).ok().map(|entries| (sheet, entries)));
    let Some((sheet, entries)) = entries else {
        let refused = super::plan::refused(answer, &given.input.name);
        let answer = String::from_utf8_lossy(&refused.out).into_owned();
        return Err(Failure::new(refused.status, answer + &refused.aside));
    };
    let title = format!("Run list of {}", given.input.base_name());
    let mut output = Output::new(DONE, draw(&title, sheet, &entries));
    output.aside = super::sheets::warnings(&given);
    Ok(output)
}

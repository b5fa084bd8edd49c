//! corrumai report: sheets, lists and reasons as one HTML file.

use super::{Command, Words};
use crate::answers::Proved;
use crate::report::{render, Page};
use crate::shell::{Failure, Given, Output, DONE, REFUSED};

pub const COMMAND: Command = Command {
    name: "report",
    files: "DIR|SHEET..",
    counts: (1, usize::MAX),
    options: &["--start HH:MM"],
    summary: "write an HTML report of sheets and their run lists",
    help: "\
One file, which needs no other: for each sheet the chart, the steps with names and minutes, the critical
chain, or why there is no plan, and the sheet's text; for several sheets an index in front. A sheet's
text with errors is refused, and nothing is written. Of a folder it takes what 'batch' takes.

  --start HH:MM    times of day beside the minutes

  corrumai report --start 18:30 sheets > friday.html

The lists are the proved planner's; all else in the report is not proved. Status 1 if any sheet has no
plan; the report is written all the same.
",
    run,
};

fn run(words: &Words, proved: &Proved) -> Result<Output, Failure> {
    let mut pages = Vec::new();
    for file in super::batch::files(&words.files)? {
        pages.push(Page::new(Given::open(Some(&file))?, proved));
    }
    let planned = pages.iter().all(Page::is_planned);
    let status = if planned { DONE } else { REFUSED };
    Ok(Output::new(status, render(&pages, words.beside.start)))
}

//! corrumai compare: what really ran, held against the sheet.

use super::{Command, Words};
use crate::answers::{meaning, Proved};
use crate::compare::{differences, render};
use crate::explain::{self, Context, Explanation};
use crate::layout::LONGEST_PLAN;
use crate::list::{self, Entry};
use crate::log::{self, Run};
use crate::model::Sheet;
use crate::note;
use crate::shell::{read, refuse_bytes, Failure, Given, Input, Output, DONE, REFUSED};

pub const COMMAND: Command = Command {
    name: "compare",
    files: "SHEET LOG",
    counts: (2, 2),
    options: &["--start HH:MM"],
    summary: "hold a job log against its sheet",
    help: "\
The log is CSV with job, event, fact and minute or time of day, or a run list in text or bytes;
docs/LOGS.md says how to make one. The first line is the verdict:

  as planned                         each planned step ran at its minute
  later than planned, still a plan   the judge accepts what ran
  not a plan: ..                     the judge does not, with the first fault

Below it stand all faults, and what differs from the least list: jobs that are missing, that ran twice
or were not planned, steps that were late or too early.

  --start HH:MM    when the run started: needed for a log with times of day, which are then shown too

The verdict is the proved judge's, and the least list the proved planner's; reading the log is not proved.
",
    run,
};

fn run(words: &Words, proved: &Proved) -> Result<Output, Failure> {
    let given = Given::open(words.file(0))?;
    let input = read(words.file(1))?;
    let sheet = given.sheet.as_ref().map_err(|fault| refuse_bytes(&given.input, "sheet", fault))?;
    let runs = runs(sheet, &input, words.beside.start)?;
    let context =
        Context { sheet: Some(sheet), source: given.source.as_ref(), start: words.beside.start };
    let night = Night { sheet, bytes: &given.bytes, runs: &runs, context: &context };
    let mut output = night.compare(proved);
    output.aside = super::sheets::warnings(&given);
    Ok(output)
}

/// The runs of a log in bytes or as text.
fn runs(sheet: &Sheet, input: &Input, start: Option<u32>) -> Result<Vec<Run>, Failure> {
    if !input.is_text() {
        let entries = list::decode(sheet, &input.bytes)
            .map_err(|fault| refuse_bytes(input, "list for this sheet", &fault))?;
        return Ok(entries.iter().map(Run::from).collect());
    }
    log::parse(sheet, &input.bytes, start).map_err(|errors| {
        Failure::new(REFUSED, note::render(&input.name, &input.bytes, "error", &errors))
    })
}

/// A sheet and what ran.
struct Night<'a> {
    sheet: &'a Sheet,
    bytes: &'a [u8],
    runs: &'a [Run],
    context: &'a Context<'a>,
}

impl Night<'_> {
    fn compare(&self, proved: &Proved) -> Output {
        let (answer, list) = proved.plan(self.bytes, LONGEST_PLAN);
        let planned = list::decode(self.sheet, &list).ok().filter(|_| answer.number == 0);
        let found = planned.as_ref().map(|planned| differences(self.sheet, planned, self.runs));
        let judged = self.judge(proved);
        let is_plan = judged.as_ref().is_some_and(|judged| judged.answer.number == 0);
        let verdict = match (&judged, &found) {
            (None, _) => format!("not a plan: {}", self.broken_off().join("; ")),
            (Some(judged), _) if !is_plan => format!("not a plan: {}", judged.clause(self.context)),
            (_, Some(found)) if found.is_kept() => "as planned".to_string(),
            (_, Some(_)) => "later than planned, still a plan".to_string(),
            (_, None) => "a plan, and none to compare it with".to_string(),
        };
        let mut text = verdict + "\n\n" + &self.why(judged.as_ref());
        match found {
            Some(found) if found.is_empty() => text += "Nothing differs from the least list.\n",
            Some(found) => {
                text += "Beside the least list, which the planner gives for this sheet:\n\n";
                text += &render(self.sheet, &found, self.context.start);
            }
            None => {
                let why = meaning(answer.number);
                text += &format!("The planner gives no list for this sheet, {answer}: {why}.\n");
            }
        }
        Output::new(if is_plan { DONE } else { REFUSED }, text)
    }

    /// The judge's answer on what ran; none if a run broke off, since a list has a minute for every step.
    fn judge(&self, proved: &Proved) -> Option<Explanation> {
        let entries = self.runs.iter().map(Run::entry).collect::<Option<Vec<Entry>>>()?;
        Some(explain::judge(self.bytes, &list::encode(self.sheet, &entries), proved))
    }

    /// The runs without a minute for each of their steps.
    fn broken_off(&self) -> Vec<String> {
        let broken = |run: &Run| {
            let missing = run.missing(self.sheet);
            let step = |event: &crate::model::Event| {
                format!("{} '{}'", event.kind.verb(), self.sheet.facts[event.fact].name)
            };
            let steps = missing.iter().map(step).collect::<Vec<String>>().join(", ");
            let job = &self.sheet.jobs[run.job].name;
            (!missing.is_empty()).then(|| format!("the log has no minute at which '{job}' {steps}"))
        };
        self.runs.iter().filter_map(broken).collect()
    }

    /// All that the judge finds, where there is more than the first line says.
    fn why(&self, judged: Option<&Explanation>) -> String {
        match judged {
            None => "A run that broke off is not put before the judge.\n\n".to_string(),
            Some(judged) if judged.answer.number != 0 => {
                let text = judged.text(self.context);
                let faults = text.split_once("\n\n").map_or("", |(_, faults)| faults);
                format!("{faults}\n")
            }
            Some(_) => String::new(),
        }
    }
}

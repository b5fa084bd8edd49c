//! corrumai late: whether a run list holds where entries start late, and when it first goes wrong.

use super::asked::{is_number, said, Asked, Numbers};
use super::words::wrong;
use super::{Command, Words};
use crate::answers::{Answer, Proved, Run};
use crate::chart;
use crate::explain::{self, Context};
use crate::layout::{MAX_DELAY, MAX_FACTS};
use crate::list::Entry;
use crate::model::Sheet;
use crate::shell::{Failure, Output, DONE, REFUSED};
use std::ffi::OsStr;

pub const COMMAND: Command = Command {
    name: "late",
    files: "SHEET LIST DELAY..",
    counts: (2, usize::MAX),
    options: &["--follow", "--chart"],
    summary: "say whether a run list holds if entries start late",
    help: "\
A delay is a number of minutes from 0 to 600. There is one for each entry of the list, in entry order,
and it is added to all minutes of its entry. It prints one line: ANSWER, number, detail. 0: the delayed
list is a plan. 41: it is none, and the detail is the minute at which it first goes wrong; or the
horizon, where no minute up to it does and a goal is lost or a step lies past it. What goes wrong is
said on standard error. Before that come the judge's answers on the list as it is, detail 0, and 40 for
a delay above 600 or another count of delays.

  --follow    before that line one for each minute at which the facts held change: the minute and the
              numbers of the facts then held; the first is '-', for the state before minute 0
  --chart     instead, draw the delayed run as an SVG, and mark the minute at which it goes wrong

  corrumai late examples/p1.txt examples/p1.run 1 0

Answer and facts held are the proved library's; the reading of text, the reasons and the drawing are not
proved.
",
    run,
};

const DELAYS: Numbers = Numbers {
    name: "delay",
    taker: "instance",
    whole: "list",
    most: MAX_DELAY as u32,
    unit: "minutes",
    digits,
};

fn run(words: &Words, proved: &Proved) -> Result<Output, Failure> {
    if words.follow && words.chart {
        return Err(wrong(&COMMAND, "--follow prints and --chart draws: one of them at a time"));
    }
    let trial = Trial::open(words)?;
    let answer = proved.late(&trial.asked.given.bytes, trial.asked.list(), &trial.delays);
    let mut output = match trial.tried(answer, proved) {
        Ok((sheet, entries)) => trial.output(words, sheet, entries, proved),
        Err(why) if words.chart => {
            return Err(Failure::new(REFUSED, format!("{answer}\n{}", said(&why))));
        }
        Err(why) => {
            Output { status: REFUSED, out: format!("{answer}\n").into(), aside: said(&why) }
        }
    };
    output.aside = super::sheets::warnings(&trial.asked.given) + &output.aside;
    Ok(output)
}

/// A sheet, a list and the delays that are tried.
struct Trial {
    asked: Asked,
    delays: Vec<u16>,
}

impl Trial {
    fn open(words: &Words) -> Result<Trial, Failure> {
        let asked = Asked::open(words, &DELAYS)?;
        // As with four bytes, so with two.
        let two = |value: &u32| u16::try_from(*value).unwrap_or(u16::MAX);
        let delays = asked.values.iter().map(two).collect();
        Ok(Trial { asked, delays })
    }

    /// The sheet, and the entries that were tried; or why nothing was.
    fn tried(&self, answer: Answer, proved: &Proved) -> Result<(&Sheet, &[Entry]), String> {
        let before = if self.asked.has_sheet() { "without any delay, " } else { "" };
        let (sheet, entries) =
            self.asked.accepted(proved).map_err(|why| format!("{before}{why}"))?;
        if answer.number != 40 {
            return Ok((sheet, entries));
        }
        let takers = entries.iter().enumerate().map(|(place, entry)| named(sheet, place, entry));
        Err(self.asked.refused(&takers.collect::<Vec<String>>()))
    }

    /// What is said of delays that were tried.
    fn output(&self, words: &Words, sheet: &Sheet, entries: &[Entry], proved: &Proved) -> Output {
        let (given, delays) = (&self.asked.given, &self.delays);
        let bytes = &given.bytes;
        let late = explain::late(bytes, sheet, entries, delays, proved);
        let source = given.source.as_ref();
        let why = said(&late.text(&Context { sheet: Some(sheet), source, start: None }));
        let answer = format!("{}\n", late.answer);
        let is_plan = late.answer.number == 0;
        let status = if is_plan { DONE } else { REFUSED };
        let idle = self.idle(sheet, entries);
        if words.chart {
            let fault = (!is_plan).then_some(late.answer.detail as u16);
            let title = format!("Late run of {}", given.input.base_name());
            let out =
                chart::draw_late(&title, sheet, &late.entries, &chart::Late { delays, fault });
            let answer = if is_plan { String::new() } else { answer };
            return Output { status, out: out.into(), aside: idle + &answer + &why };
        }
        let out = match words.follow {
            true => followed(&proved.states(bytes, self.asked.list(), delays)) + &answer,
            false => answer,
        };
        Output { status, out: out.into(), aside: idle + &why }
    }

    /// A warning for each delay that delays nothing.
    fn idle(&self, sheet: &Sheet, entries: &[Entry]) -> String {
        let late = entries.iter().enumerate().zip(&self.delays).filter(|(_, delay)| **delay > 0);
        let idle = late.filter(|((_, entry), _)| entry.times.is_empty());
        let line = |((place, entry), delay): ((usize, &Entry), &u16)| {
            let entry = named(sheet, place, entry);
            format!("corrumai: warning: the delay {delay} of {entry} delays nothing: its job has no events\n")
        };
        idle.map(line).collect()
    }
}

/// The entry, counted from 0, with its job.
fn named(sheet: &Sheet, place: usize, entry: &Entry) -> String {
    format!("entry {place} ('{}')", sheet.jobs[entry.job].name)
}

/// The digits of a delay.
fn digits(word: &OsStr) -> Result<String, Failure> {
    let text = word.to_string_lossy();
    if is_number(&text) {
        return Ok(text.into_owned());
    }
    let hint = match text.strip_prefix('-') {
        Some(rest) if is_number(rest) => "; an entry can start late, and not early",
        _ if text.contains([',', ' ']) => "; each delay is a word of its own",
        _ => "",
    };
    let message = format!("the delay '{text}' is no number of minutes from 0 to {MAX_DELAY}{hint}");
    Err(wrong(&COMMAND, &message))
}

/// A line for each state whose facts are not those of the state before: the minute that it stands at, and its facts.
fn followed(states: &[Run]) -> String {
    let facts = |run: &Run| {
        let held = (0..MAX_FACTS).filter(|fact| run.held >> fact & 1 == 1);
        held.map(|fact| format!(" {fact}")).collect::<String>()
    };
    let fresh = states.first().map(|run| format!("-{}\n", facts(run)));
    let moves = states.windows(2).filter(|two| two[0].held != two[1].held);
    let moves = moves.map(|two| format!("{}{}\n", two[0].next, facts(&two[1])));
    fresh.into_iter().chain(moves).collect()
}

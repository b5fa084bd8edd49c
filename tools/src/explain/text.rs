//! An explanation as text.

use super::lines;
use super::words::Words;
use super::{Context, Explanation, Reason};
use crate::answers::{detail, meaning};
use crate::fault::Fault;

const HEAD: &str = "\
The answer is proved. The explanation is a help outside the proof, which has checked itself.
";

pub fn render(explanation: &Explanation, context: &Context) -> String {
    let answer = explanation.answer;
    let reasons = match &explanation.reasons {
        Ok(reasons) => reasons,
        Err(why) => {
            return format!(
                "The answer is proved. The explanation did not pass its check ({why}), so here is the \
                 bare answer.\n\n{answer}: {}\n",
                meaning(answer.number)
            );
        }
    };
    let judged = explanation.judged && answer.number == 0;
    let what = if judged { "the list is a plan" } else { meaning(answer.number) };
    let detail = match detail(answer.number) {
        words if words.is_empty() || judged => String::new(),
        words => format!("; {} is {words}", answer.detail),
    };
    let mut text = format!("{HEAD}\n{answer}: {what}{detail}.\n");
    for reason in reasons {
        text += "\n";
        text += &paragraph(reason, context);
    }
    if let Some(sheet) = context.sheet {
        let words = Words { sheet, context };
        let notes = explanation.absent.iter().map(|absent| lines::absent(&words, absent));
        text.extend(notes.map(|note| format!("\n{note}")));
    }
    text
}

fn paragraph(reason: &Reason, context: &Context) -> String {
    if let Reason::Form(fault) = reason {
        return form(fault);
    }
    let Some(sheet) = context.sheet else {
        return String::new();
    };
    let words = Words { sheet, context };
    match reason {
        Reason::Form(_) => String::new(),
        Reason::TwoSetters { fact, wants, setters } => {
            lines::two_setters(&words, *fact, wants, setters)
        }
        Reason::NoOrder { fact, wants, tries } => lines::no_order(&words, *fact, wants, tries),
        Reason::NoSource { fact, wants, absent } => lines::no_source(&words, *fact, wants, absent),
        Reason::GoalCleared { fact, jobs } => lines::goal_cleared(&words, *fact, jobs),
        Reason::NoTimes { walk } => lines::no_times(&words, walk),
        Reason::Plan { steps, finish, .. } => lines::plan(&words, steps, finish),
        Reason::TooLong { length, room } => {
            format!("The list takes {length} bytes, and the buffer has {room}.\n")
        }
        Reason::Yes => "Every entry meets points 1 to 4 of a plan (docs/FORMAT.md).\n".to_string(),
        Reason::Faults { entries, faults, more } => lines::faults(&words, entries, faults, *more),
    }
}

fn form(fault: &Fault) -> String {
    format!("Where:  {}\nFound:  {}\nRule:   {}\n", fault.place(), fault.found, fault.words)
}

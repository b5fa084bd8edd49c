//! An explanation in one clause, for a line among many.

use super::lines;
use super::words::{count, Words};
use super::{Context, Explanation, Held, Reason, Walk};
use crate::rules::wanted::Link;

/// Why, in one clause; of several reasons the first.
pub fn of(explanation: &Explanation, context: &Context) -> String {
    let why = match &explanation.reasons {
        Ok(reasons) => reasons.first().map_or(String::new(), |reason| clause(reason, context)),
        Err(why) => format!("the explanation did not pass its check: {why}"),
    };
    match explanation.absent.len() {
        0 => why,
        jobs => format!("{why}; {} absent", count(jobs, "job")),
    }
}

fn clause(reason: &Reason, context: &Context) -> String {
    if let Reason::Form(fault) = reason {
        return format!("{}: {}; {}", fault.place(), fault.found, fault.words);
    }
    let Some(sheet) = context.sheet else {
        return String::new();
    };
    let words = Words { sheet, context };
    match reason {
        Reason::TwoSetters { fact, setters, .. } => {
            let (jobs, fact) = (words.jobs(setters), words.fact(*fact));
            format!("{} set {fact}: {jobs}", count(setters.len(), "job"))
        }
        Reason::NoOrder { fact, .. } => {
            let fact = words.fact(*fact);
            format!("nothing shows whether {fact} is set before it is cleared or after")
        }
        Reason::NoSource { fact, wants, absent } => {
            let (who, fact) = (setting(&words, absent), words.fact(*fact));
            format!("{who} {fact}{}", wanted_by(&words, wants))
        }
        Reason::GoalCleared { fact, jobs } => {
            format!("the goal {} is cleared for good by {}", words.fact(*fact), words.jobs(jobs))
        }
        Reason::NoTimes { walk } => against(&words, walk),
        Reason::Plan { entries, steps, .. } => planned(&words, entries.len(), steps),
        Reason::TooLong { length, room } => {
            format!("the list takes {length} bytes, and the buffer has {room}")
        }
        Reason::Yes => "every entry meets points 1 to 4 of a plan".to_string(),
        Reason::Faults { entries, faults, more } => {
            let first = lines::faults(&words, entries, &faults[..1], 0);
            let others = faults.len() - 1 + more;
            let others = match others {
                0 => String::new(),
                _ => format!(", and {}", count(others, "more fault")),
            };
            format!("{}{others}", first.trim_end())
        }
        Reason::Form(_) => String::new(),
    }
}

fn against(words: &Words, walk: &Walk) -> String {
    let Some(last) = walk.steps.last() else {
        return String::new();
    };
    let step = words.step(last.to);
    if walk.circle {
        let gain = count(walk.sum() as usize, "minute");
        return format!("a circle of rules puts '{step}' {gain} after itself");
    }
    let horizon = i32::from(words.sheet.horizon);
    let past = count((walk.sum() - horizon) as usize, "minute");
    format!("'{step}' comes {past} past the horizon, {horizon}")
}

/// Who sets a fact without a source: nothing, or absent jobs alone.
fn setting(words: &Words, absent: &[usize]) -> String {
    match absent.len() {
        0 => "nothing sets".to_string(),
        1 => format!("only the absent {} sets", words.jobs(absent)),
        _ => format!("only the absent {} set", words.jobs(absent)),
    }
}

fn wanted_by(words: &Words, wants: &[Link]) -> String {
    match wants.last().and_then(|link| link.by) {
        Some((job, _)) => format!(", which {} needs", words.job(job)),
        None => ", which is a goal".to_string(),
    }
}

fn planned(words: &Words, jobs: usize, steps: &[Held]) -> String {
    // Of several last steps that with the lowest number.
    match steps.iter().rev().max_by_key(|held| held.minute) {
        Some(last) => format!("{}, last '{}'", count(jobs, "job"), words.step(last.event)),
        None => "nothing has to run".to_string(),
    }
}

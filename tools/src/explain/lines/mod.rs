//! The paragraphs of an explanation, a function for each reason.

mod faults;
mod orders;

use super::words::{count, Words};
use super::{Absent, Held, Walk};
use crate::rules::present::LEFT_OUT;
use crate::rules::wanted::Link;
use crate::rules::Why;
pub use faults::{faults, late_faults};
pub use orders::no_order;

/// Three columns: minute, step, and why.
fn table(head: [&str; 3], rows: &[[String; 3]]) -> String {
    let length = |text: &str| text.chars().count();
    let width = |column: usize| {
        let widths = rows.iter().map(|row| length(&row[column]));
        widths.chain([length(head[column])]).max().unwrap_or(0)
    };
    let (first, second) = (width(0), width(1));
    let line = |row: [&str; 3]| {
        let pad = |text: &str, width: usize| " ".repeat(width - length(text));
        let text = format!(
            "  {}{}  {}{}  {}",
            pad(row[0], first),
            row[0],
            row[1],
            pad(row[1], second),
            row[2]
        );
        format!("{}\n", text.trim_end())
    };
    let rows = rows.iter().map(|row| line([&row[0], &row[1], &row[2]]));
    [line(head)].into_iter().chain(rows).collect()
}

/// The walk, a row for each step, with the running sum.
fn walk_table(words: &Words, walk: &Walk) -> String {
    let Some(first) = walk.steps.first() else {
        return String::new();
    };
    let start = if walk.circle { "here the circle begins" } else { "a run starts at minute 0" };
    let begin = |from| ["0".to_string(), words.step(from), start.to_string()];
    let mut rows: Vec<[String; 3]> = first.from.map(begin).into_iter().collect();
    let mut sum = 0;
    for rule in &walk.steps {
        sum += rule.minutes;
        let because = match rule.from {
            Some(_) => format!("{:+} min, {}", rule.minutes, words.rule(rule)),
            None => words.rule(rule),
        };
        rows.push([sum.to_string(), words.step(rule.to), because]);
    }
    let head = if walk.circle { "after" } else { "minute" };
    table([head, "step, at the earliest", "because"], &rows)
}

fn against(words: &Words, walk: &Walk) -> String {
    if walk.circle {
        let gain = count(walk.sum() as usize, "minute");
        return format!(
            "Once around these rules, a step would have to come {gain} after itself:\n\n{}",
            walk_table(words, walk)
        );
    }
    let horizon = i32::from(words.sheet.horizon);
    let past = count((walk.sum() - horizon) as usize, "minute");
    format!(
        "From minute 0, each step at its earliest, the last one is {past} past the horizon, {horizon}:\n\n{}",
        walk_table(words, walk)
    )
}

/// A job that the planner leaves out: that its text says so, or what leaves it without own times.
pub fn absent(words: &Words, absent: &Absent) -> String {
    let Absent { job, walk } = absent;
    let name = format!("The job {} (code {})", words.job(*job), words.sheet.jobs[*job].code);
    if let Some(line) = words.retired(*job) {
        return format!("{name} is retired (line {line}): {LEFT_OUT}.\n");
    }
    let held = walk.steps.iter().any(|rule| rule.why == Why::Release);
    let what = if held { "release and bounds" } else { "bounds" };
    format!("{name} is absent, and {LEFT_OUT}: no times meet its {what}. {}", against(words, walk))
}

pub fn no_times(words: &Words, walk: &Walk) -> String {
    format!("The rules between the wanted jobs cannot be met. {}", against(words, walk))
}

/// Why a fact is wanted, from a goal on.
fn wants(words: &Words, wants: &[Link]) -> String {
    let line = |link: &Link| match link.by {
        None => format!("  {} is a goal\n", words.fact(link.fact)),
        Some((job, set)) => {
            let (fact, job, set) = (words.fact(link.fact), words.job(job), words.fact(set));
            format!("  {fact} is needed by {job}, which sets {set}\n")
        }
    };
    format!("Why it is wanted:\n{}", wants.iter().map(line).collect::<String>())
}

pub fn two_setters(words: &Words, fact: usize, chain: &[Link], setters: &[usize]) -> String {
    format!(
        "{} jobs set {}: {}. The planner takes a sheet only if one job sets a wanted fact.\n\n{}",
        setters.len(),
        words.fact(fact),
        words.jobs(setters),
        wants(words, chain)
    )
}

pub fn no_source(words: &Words, fact: usize, chain: &[Link], absent: &[usize]) -> String {
    let (fact, jobs, chain) = (words.fact(fact), words.jobs(absent), wants(words, chain));
    let are = match absent.len() {
        0 => return format!("{fact} is wanted, no job sets it, and it is not initial.\n\n{chain}"),
        1 => "is",
        _ => "are",
    };
    format!(
        "{fact} is wanted and not initial, and no job sets it but {jobs}, which {are} absent.\n\n{chain}"
    )
}

pub fn goal_cleared(words: &Words, fact: usize, jobs: &[usize]) -> String {
    format!(
        "{} is a goal and is cleared for good by {}, which has to run: every set of it comes before.\n",
        words.fact(fact),
        words.jobs(jobs)
    )
}

pub fn plan(words: &Words, steps: &[Held], finish: &Walk) -> String {
    let mut steps = steps.to_vec();
    steps.sort_by_key(|held| held.minute);
    let row = |held: &Held| {
        let by = held.by.map_or("minute 0".to_string(), |rule| words.holder(&rule));
        [words.minute(held.minute), words.step(held.event), by]
    };
    let rows: Vec<[String; 3]> = steps.iter().map(row).collect();
    if rows.is_empty() {
        return "Nothing has to run: every goal is initial, or there is none.\n".to_string();
    }
    let mut text = table(["minute", "step", "held back by"], &rows);
    let end = steps.last().map_or(0, |held| held.minute);
    text +=
        &format!("\nThe run is over at minute {}, and cannot be earlier:\n\n", words.minute(end));
    if finish.steps.is_empty() {
        return text + "  all its steps are at minute 0\n";
    }
    text + &walk_table(words, finish)
}

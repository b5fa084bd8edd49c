//! The subcommands of bin/corrumai: a table with a row for each. A later one gets a row here.

mod asked;
mod batch;
mod chart;
mod compare;
mod cost;
mod editions;
mod explain;
mod judge;
mod late;
mod lists;
mod newer;
mod plan;
mod report;
mod sheets;
mod words;

use crate::answers::Proved;
use crate::shell::{Failure, Output};
use crate::similar::closest;
use std::ffi::OsString;
pub use words::Words;

/// A subcommand, by its one or two words.
pub struct Command {
    pub name: &'static str,
    /// The files that it takes, as usage shows them, and how many it must have and may have.
    pub files: &'static str,
    pub counts: (usize, usize),
    pub options: &'static [&'static str],
    pub summary: &'static str,
    pub help: &'static str,
    run: fn(&Words, &Proved) -> Result<Output, Failure>,
}

pub const COMMANDS: &[Command] = &[
    plan::COMMAND,
    judge::COMMAND,
    late::COMMAND,
    cost::COMMAND,
    newer::COMMAND,
    sheets::TO_BYTES,
    sheets::TO_TEXT,
    sheets::CHECK,
    editions::TO_EDITION_2,
    editions::TO_EDITION_1,
    lists::TO_BYTES,
    lists::TO_TEXT,
    chart::COMMAND,
    explain::COMMAND,
    batch::COMMAND,
    compare::COMMAND,
    report::COMMAND,
];

const HEAD: &str = "\
Plans job sheets and judges run lists. What is planned and judged is proved; reading text, drawing,
warning and explaining are conveniences outside the proof.

";

const TAIL: &str = "
Sheets and lists are taken in bytes or as text; '-' is standard input. 'corrumai SUBCOMMAND --help'
says more; docs/COMMANDS.md shows each at work, docs/NOTATION.md explains the text, docs/REFUSALS.md the
answers.

Status 0: a plan, a yes, or done. 1: any other answer, or input that is refused. 2: wrong use, or a
file that cannot be read or written.
";

/// Runs the command that these words name.
pub fn run(words: &[OsString], proved: &Proved) -> Result<Output, Failure> {
    let texts: Vec<&str> = words.iter().map(|word| word.to_str().unwrap_or("")).collect();
    match texts[..] {
        [] => return Err(Failure::usage("a subcommand is missing; try 'corrumai --help'")),
        ["--help" | "-h" | "help"] => return Ok(Output::new(0, help())),
        ["--version" | "-V"] => return Ok(Output::new(0, version())),
        ["help", ref name @ ..] => return help_for(name),
        [group, "--help" | "-h"] if in_group(group).next().is_some() => return help_for(&[group]),
        _ => {}
    }
    let (command, used) = find(&texts)?;
    if texts[used..].iter().any(|word| ["--help", "-h"].contains(word)) {
        return Ok(Output::new(0, long_help(command)));
    }
    let words = words::parse(command, &words[used..])?;
    (command.run)(&words, proved)
}

/// The command, and how many words name it.
fn find(words: &[&str]) -> Result<(&'static Command, usize), Failure> {
    for used in [2, 1].into_iter().filter(|used| *used <= words.len()) {
        let name = words[..used].join(" ");
        if let Some(command) = COMMANDS.iter().find(|command| command.name == name) {
            return Ok((command, used));
        }
    }
    let names: Vec<&str> = in_group(words[0]).map(|command| command.name).collect();
    if !names.is_empty() {
        let names = names.join("', 'corrumai ");
        return Err(Failure::usage(format!("'{}' goes on: 'corrumai {names}'", words[0])));
    }
    let all = COMMANDS.iter().map(|command| command.name.split(' ').next().unwrap_or(""));
    let close = closest(words[0], all).map(|name| format!("; did you mean '{name}'?"));
    let close = close.unwrap_or("; try 'corrumai --help'".to_string());
    Err(Failure::usage(format!("there is no subcommand '{}'{close}", words[0])))
}

/// The commands whose first of two words this is.
fn in_group<'a>(word: &'a str) -> impl Iterator<Item = &'static Command> + 'a {
    let first = move |command: &&Command| {
        command.name.split_once(' ').is_some_and(|(first, _)| first == word)
    };
    COMMANDS.iter().filter(first)
}

fn version() -> String {
    format!("corrumai {}\n", env!("CARGO_PKG_VERSION"))
}

fn help() -> String {
    let row = |command: &Command| {
        let usage = format!("{} {}", command.name, command.files);
        format!("  corrumai {usage:<26} {}\n", command.summary)
    };
    format!("{HEAD}{}{TAIL}", COMMANDS.iter().map(row).collect::<String>())
}

fn help_for(name: &[&str]) -> Result<Output, Failure> {
    if let [word] = name {
        let group: Vec<String> = in_group(word).map(long_help).collect();
        if !group.is_empty() {
            return Ok(Output::new(0, group.join("\n")));
        }
    }
    match find(name)? {
        (command, used) if used == name.len() => Ok(Output::new(0, long_help(command))),
        _ => Err(Failure::usage("help takes the words of one subcommand")),
    }
}

pub fn usage(command: &Command) -> String {
    let options: String = command.options.iter().map(|option| format!(" [{option}]")).collect();
    format!("corrumai {}{options} {}", command.name, command.files)
}

fn long_help(command: &Command) -> String {
    let (first, rest) = command.summary.split_at(1);
    format!("{}{rest}.\n\n  {}\n\n{}", first.to_uppercase(), usage(command), command.help)
}

//! corrumai batch: many sheets, a line for each.

use super::{Command, Words};
use crate::answers::{short, Proved};
use crate::explain::{self, Context};
use crate::layout::LONGEST_PLAN;
use crate::list::{self, clock};
use crate::shell::{Failure, Given, Output, DONE, REFUSED, USAGE};
use crate::warnings;
use std::ffi::{OsStr, OsString};
use std::fs;
use std::io::{self, ErrorKind, IsTerminal, Write};
use std::path::{Path, PathBuf};

pub const COMMAND: Command = Command {
    name: "batch",
    files: "DIR|SHEET..",
    counts: (1, usize::MAX),
    options: &["--write", "--start HH:MM"],
    summary: "plan many sheets, a line for each",
    help: "\
For each sheet it prints file, answer, the minute at which the run is over, and why in one clause; then
a summary. Of a folder it takes the files that end in .sheet or .txt, by name.

  --write          write the list of each plan, in bytes, beside its sheet: of wood.txt to wood.txt.list.
                   Where a sheet is refused, such a list of an earlier run is taken away.
  --start HH:MM    the end as time of day too, for runs that start then

The answers are the proved planner's; the clauses are explanations, which have checked themselves.
Status 1 if any sheet is refused, 2 if one cannot be read or a list cannot be written.
",
    run,
};

/// What became of a sheet.
#[derive(Clone, Copy, PartialEq, Eq)]
enum Fate {
    Planned,
    NoPlan,
    Refused,
    Unreadable,
}

struct Line {
    file: String,
    fate: Fate,
    answer: &'static str,
    finish: String,
    reason: String,
}

fn run(words: &Words, proved: &Proved) -> Result<Output, Failure> {
    let files = files(&words.files)?;
    let mut progress = Progress::new(files.len());
    let mut lines = Vec::new();
    for file in &files {
        progress.step();
        lines.push(line(file, words, proved));
    }
    progress.clear();
    let any = |fate| lines.iter().any(|line| line.fate == fate);
    let status = match (any(Fate::Unreadable), lines.iter().all(|l| l.fate == Fate::Planned)) {
        (true, _) => USAGE,
        (false, true) => DONE,
        (false, false) => REFUSED,
    };
    Ok(Output::new(status, format!("{}\n{}", table(&lines), summary(&lines))))
}

/// The sheets that the words name, those of a folder by name.
pub fn files(words: &[OsString]) -> Result<Vec<OsString>, Failure> {
    let mut files = Vec::new();
    for word in words {
        if !Path::new(word).is_dir() {
            files.push(word.clone());
            continue;
        }
        let name = Path::new(word).display();
        let unread = |fault| Failure::usage(format!("cannot read the folder '{name}': {fault}"));
        let mut found = Vec::new();
        for entry in fs::read_dir(word).map_err(unread)? {
            let path = entry.map_err(unread)?.path();
            if path.is_file() && path.extension().is_some_and(|end| end == "sheet" || end == "txt")
            {
                found.push(path.into_os_string());
            }
        }
        if found.is_empty() {
            let message = format!("the folder '{name}' has no file that ends in .sheet or .txt");
            return Err(Failure::usage(message));
        }
        found.sort();
        files.extend(found);
    }
    Ok(files)
}

/// Plans a sheet and, where it is asked for, keeps its list.
fn line(file: &OsStr, words: &Words, proved: &Proved) -> Line {
    let (mut line, list) = planned(file, words, proved);
    if words.write && line.fate != Fate::Unreadable {
        if let Err(fault) = keep(file, list.as_deref()) {
            line.fate = Fate::Unreadable;
            line.reason = format!("the list beside it cannot be written: {fault}");
        }
    }
    line
}

fn planned(file: &OsStr, words: &Words, proved: &Proved) -> (Line, Option<Vec<u8>>) {
    let name = Path::new(file).display().to_string();
    let line = |fate, answer, finish, reason| Line { file: name, fate, answer, finish, reason };
    let given = match Given::open(Some(file)) {
        Ok(given) => given,
        Err(failure) if failure.status == USAGE => {
            let reason = failure.message.trim_start_matches("corrumai: ").to_string();
            return (line(Fate::Unreadable, "not read", String::new(), reason), None);
        }
        Err(failure) => {
            let reason = failure.message.lines().next().unwrap_or("").to_string();
            return (line(Fate::Refused, "text with errors", String::new(), reason), None);
        }
    };
    let explanation = explain::plan(&given.bytes, LONGEST_PLAN, proved);
    let sheet = given.sheet.as_ref().ok();
    let context = Context { sheet, source: given.source.as_ref(), start: None };
    let reason = explanation.clause(&context) + &slips(&given);
    let (answer, list) = proved.plan(&given.bytes, LONGEST_PLAN);
    let fate = match answer.number {
        0 => Fate::Planned,
        1 => Fate::NoPlan,
        _ => Fate::Refused,
    };
    let entries = sheet.filter(|_| fate == Fate::Planned).and_then(|s| list::decode(s, &list).ok());
    let last = entries.map(|entries| entries.iter().flat_map(|e| e.times.clone()).max());
    let finish = last.map_or(String::new(), |last| finish(last.unwrap_or(0), words.beside.start));
    (line(fate, short(answer.number), finish, reason), (fate == Fate::Planned).then_some(list))
}

/// How many warnings a text has: what was planned may not be what was meant.
fn slips(given: &Given) -> String {
    let (Ok(sheet), Some(source)) = (&given.sheet, &given.source) else {
        return String::new();
    };
    match warnings::of(sheet, Some(source)).len() {
        0 => String::new(),
        1 => "; 1 warning (sheet check)".to_string(),
        count => format!("; {count} warnings (sheet check)"),
    }
}

fn finish(minute: u16, start: Option<u32>) -> String {
    match start {
        Some(start) => format!("{minute} min, {}", clock(start, minute)),
        None => format!("{minute} min"),
    }
}

/// Writes the list beside its sheet, whole or not at all; takes an old one away where there is none.
fn keep(file: &OsStr, list: Option<&[u8]>) -> io::Result<()> {
    if file == "-" {
        return Err(io::Error::from(ErrorKind::InvalidInput));
    }
    let beside = |end: &str| {
        let mut name = file.to_os_string();
        name.push(end);
        PathBuf::from(name)
    };
    let Some(list) = list else {
        return match fs::remove_file(beside(".list")) {
            Err(fault) if fault.kind() != ErrorKind::NotFound => Err(fault),
            _ => Ok(()),
        };
    };
    let part = beside(".list.part");
    let written = fs::write(&part, list).and_then(|()| fs::rename(&part, beside(".list")));
    if written.is_err() {
        // What is left of it must not be taken for a list.
        let _ = fs::remove_file(&part);
    }
    written
}

fn table(lines: &[Line]) -> String {
    let width = |cell: fn(&Line) -> &str| {
        lines.iter().map(|line| cell(line).chars().count()).max().unwrap_or(0)
    };
    let (files, answers) = (width(|line| &line.file), width(|line| line.answer));
    let finishes = width(|line| &line.finish);
    let row = |line: &Line| {
        let Line { file, answer, finish, reason, .. } = line;
        let row = format!("{file:<files$}  {answer:<answers$}  {finish:>finishes$}  {reason}");
        format!("{}\n", row.trim_end())
    };
    lines.iter().map(row).collect()
}

fn summary(lines: &[Line]) -> String {
    let count = |fate| lines.iter().filter(|line| line.fate == fate).count();
    let sheets = if lines.len() == 1 { "sheet" } else { "sheets" };
    let mut text = format!(
        "{} {sheets}: {} planned, {} without a plan, {} refused",
        lines.len(),
        count(Fate::Planned),
        count(Fate::NoPlan),
        count(Fate::Refused)
    );
    match count(Fate::Unreadable) {
        0 => {}
        unread => text += &format!(", {unread} not read or not written"),
    }
    text + "\n"
}

/// A line on the terminal that tells how far the work is; nothing where standard error is no terminal.
struct Progress {
    all: usize,
    done: usize,
    shown: bool,
}

impl Progress {
    const WIDTH: usize = 30;

    fn new(all: usize) -> Progress {
        Progress { all, done: 0, shown: io::stderr().is_terminal() }
    }

    fn step(&mut self) {
        self.done += 1;
        if self.shown && (self.done == self.all || self.done % 16 == 1) {
            let full = Progress::WIDTH * self.done / self.all;
            let (bar, rest) = ("#".repeat(full), ".".repeat(Progress::WIDTH - full));
            let _ = write!(io::stderr(), "\r[{bar}{rest}] {} of {}", self.done, self.all);
        }
    }

    fn clear(&self) {
        if self.shown {
            let _ = write!(io::stderr(), "\r\x1b[K");
        }
    }
}

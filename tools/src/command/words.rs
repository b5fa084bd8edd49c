//! The arguments of a subcommand: its options and its files.

use super::{usage, Command};
use crate::list::{minutes_of_day, Beside};
use crate::shell::Failure;
use crate::similar::closest;
use std::ffi::{OsStr, OsString};

#[derive(Debug, Default)]
pub struct Words {
    pub files: Vec<OsString>,
    pub json: bool,
    pub strict: bool,
    pub write: bool,
    pub follow: bool,
    pub chart: bool,
    pub each: bool,
    pub beside: Beside,
    /// The buffer that the planner gets, in bytes.
    pub buffer: Option<usize>,
}

impl Words {
    pub fn file(&self, place: usize) -> Option<&OsStr> {
        self.files.get(place).map(OsString::as_os_str)
    }
}

/// Reads the words of this command; words and options that it does not have are errors.
pub fn parse(command: &Command, words: &[OsString]) -> Result<Words, Failure> {
    let mut found = Words::default();
    let mut rest = words.iter();
    while let Some(word) = rest.next() {
        match word.to_str() {
            Some(text) if is_option(text) => {
                option(command, text, &mut rest, &mut found)?;
            }
            _ => found.files.push(word.clone()),
        }
    }
    let (least, most) = command.counts;
    if found.files.len() > most {
        let extra = found.files[most].to_string_lossy();
        return Err(wrong(command, &format!("the argument '{extra}' is one too many")));
    }
    if found.files.len() < least {
        return Err(wrong(command, "a file is missing"));
    }
    if found.files.iter().filter(|file| *file == "-").count() > 1 {
        return Err(wrong(command, "only one of the files can be standard input"));
    }
    Ok(found)
}

/// A number below 0 is none: whoever takes numbers says what is wrong with it.
fn is_option(text: &str) -> bool {
    text.starts_with('-') && !text[1..].bytes().all(|c| c.is_ascii_digit())
}

pub fn wrong(command: &Command, message: &str) -> Failure {
    Failure::usage(format!("{message}\nusage: {}", usage(command)))
}

fn option<'a>(
    command: &Command,
    text: &str,
    rest: &mut impl Iterator<Item = &'a OsString>,
    found: &mut Words,
) -> Result<(), Failure> {
    let known = || command.options.iter().map(|option| option.split(' ').next().unwrap_or(""));
    if !known().any(|option| option == text) {
        let close = closest(text, known()).map(|name| format!("; did you mean '{name}'?"));
        let message = format!("there is no option '{text}' here{}", close.unwrap_or_default());
        return Err(wrong(command, &message));
    }
    let mut value = |what: &str| {
        let value = rest.next().and_then(|word| word.to_str());
        value.ok_or_else(|| wrong(command, &format!("{text} needs {what}")))
    };
    match text {
        "--json" => found.json = true,
        "--strict" => found.strict = true,
        "--write" => found.write = true,
        "--follow" => found.follow = true,
        "--chart" => found.chart = true,
        "--each" => found.each = true,
        "--names" => found.beside.names = true,
        "--start" => {
            let time = value("a time of day, as in '--start 18:30'")?;
            let minutes = minutes_of_day(time).ok_or_else(|| {
                wrong(command, &format!("'{time}' is no time of day from 00:00 to 23:59"))
            })?;
            found.beside.start = Some(minutes);
        }
        _ => {
            let bytes = value("a number of bytes")?;
            let number = bytes.parse::<u16>().ok().map(usize::from);
            found.buffer = Some(number.ok_or_else(|| {
                wrong(command, &format!("'{bytes}' is no number of bytes from 0 to {}", u16::MAX))
            })?);
        }
    }
    Ok(())
}

//! corrumai newer: which of two sheets counts.

use super::asked::said;
use super::{Command, Words};
use crate::answers::Proved;
use crate::decode::decode;
use crate::layout::EDITION_1;
use crate::model::{Edition, Sheet};
use crate::notation::print;
use crate::shell::{refuse_bytes, Failure, Given, Output, DONE, REFUSED};
use std::collections::BTreeSet;
use std::fs;

pub const COMMAND: Command = Command {
    name: "newer",
    files: "FIRST SECOND",
    counts: (2, 2),
    options: &[],
    summary: "say which of two sheets counts, by their revisions",
    help: "\
Of two sheets of edition 2 the one with the higher revision supersedes the other. It prints one line,
FIRST or SECOND, for the sheet that counts; with the same revision and the same bytes it is FIRST.
Another answer is one line: ANSWER, number, 0. 10 to 14: the first sheet is not well formed, or not of
edition 2 (10); then the same for the second; 56: both have the same revision, and other bytes. The
reason is said on standard error.

The bytes are compared, also of a text: names and comments are not in them. No plan is made.

  corrumai newer examples/wood-server.txt examples/corrected/wood-server.txt

Which sheet counts is the proved library's answer; the reading of text is not proved.
",
    run,
};

/// What is printed for the sheet that counts.
const PRINTED: [&str; 2] = ["FIRST", "SECOND"];

/// A sheet of edition 2 as it was given, with its revision.
struct Revised<'a> {
    given: &'a Given,
    sheet: &'a Sheet,
    revision: u16,
}

impl Revised<'_> {
    fn name(&self) -> &str {
        &self.given.input.name
    }
}

fn run(words: &Words, proved: &Proved) -> Result<Output, Failure> {
    let both = [Given::open(words.file(0))?, Given::open(words.file(1))?];
    let chosen = proved.newer(&both[0].bytes, &both[1].bytes);
    let why = match (revised(&both[0]), revised(&both[1])) {
        (Err(why), _) | (_, Err(why)) => said(&why),
        (Ok(first), Ok(second)) => {
            let why = match chosen {
                Ok(0) => supersedes(&first, &second),
                Ok(_) => supersedes(&second, &first),
                Err(_) => other_bytes(&first, &second),
            };
            said(&why) + strangers(first.sheet, second.sheet)
        }
    };
    let (status, line) = match chosen {
        Ok(which) => (DONE, PRINTED[which].to_string()),
        Err(answer) => (REFUSED, answer.to_string()),
    };
    let warnings: String = both.iter().map(super::sheets::warnings).collect();
    let aside = warnings + &why + same_file(words);
    Ok(Output { status, out: format!("{line}\n").into(), aside })
}

/// The sheet if it is one of edition 2; otherwise why it is none.
fn revised(given: &Given) -> Result<Revised<'_>, String> {
    let name = &given.input.name;
    match &given.sheet {
        Ok(sheet @ Sheet { edition: Edition::Two { revision, .. }, .. }) => {
            Ok(Revised { given, sheet, revision: *revision })
        }
        Ok(_) => Err(format!(
            "{name}: a sheet of edition 1 has no revision; 'corrumai sheet to-edition2' rewrites it, with revision 0"
        )),
        // The answer is 10 for its edition, whatever else is wrong.
        Err(fault) if given.bytes.first() == Some(&EDITION_1.edition) => {
            Err(format!("{name}: not of edition 2, and no well-formed sheet: {}", fault.reason()))
        }
        Err(fault) => Err(refuse_bytes(&given.input, "sheet", fault).message),
    }
}

/// Why the one counts and not the other.
fn supersedes(one: &Revised, other: &Revised) -> String {
    let (revision, former) = (one.revision, other.revision);
    if revision == former {
        return format!(
            "both sheets have revision {revision} and the same bytes: the first counts"
        );
    }
    format!("{}: revision {revision} supersedes revision {former} of {}", one.name(), other.name())
}

/// What differs first, and what to do.
fn other_bytes(first: &Revised, second: &Revised) -> String {
    let revision = first.revision;
    let unsaid = match revision {
        0 => "revision 0 is what 'sheet to-edition2' writes, and what a text without a revision line says\n",
        _ => "",
    };
    let remedy = match revision.checked_add(1) {
        Some(next) => format!("give the corrected sheet a higher revision, {next} or more"),
        None => format!("no revision is higher than {revision}: give the older sheet a lower one"),
    };
    format!(
        "both sheets have revision {revision}, and other bytes; they differ first here:\n{}{unsaid}{remedy}\n",
        difference(first, second)
    )
}

/// The first line that differs, as `sheet to-text` prints each sheet.
fn difference(first: &Revised, second: &Revised) -> String {
    // Names, which bytes do not hold, make no difference.
    let plain = |sheet: &Revised| decode(&sheet.given.bytes).as_ref().map_or(Vec::new(), lines);
    let (one, other) = (plain(first), plain(second));
    let alike = one.iter().zip(&other).take_while(|(one, other)| one == other).count();
    let shown = |sheet: &Revised| format!("{}: {}\n", sheet.name(), line(sheet.sheet, alike));
    shown(first) + &shown(second)
}

fn lines(sheet: &Sheet) -> Vec<String> {
    print(sheet).lines().filter(|line| !line.is_empty()).map(String::from).collect()
}

/// The line at this place; one of a job behind the job's own line.
fn line(sheet: &Sheet, place: usize) -> String {
    let lines = lines(sheet);
    let Some(line) = lines.get(place) else { return "no further line".to_string() };
    let Some(inner) = line.strip_prefix("  ") else { return line.clone() };
    let job = lines[..place].iter().rfind(|line| line.starts_with("job "));
    job.map_or(String::new(), |job| format!("{job}: ")) + inner
}

/// Said of sheets that have jobs, and none in common.
fn strangers(first: &Sheet, second: &Sheet) -> &'static str {
    let [one, other] =
        [first, second].map(|sheet| BTreeSet::from_iter(sheet.jobs.iter().map(|job| job.code)));
    if one.is_empty() || other.is_empty() || !one.is_disjoint(&other) {
        return "";
    }
    "corrumai: warning: the sheets have no job code in common; are they of the same wood?\n"
}

/// Said where both names are of one file.
fn same_file(words: &Words) -> &'static str {
    let [one, other] = [0, 1].map(|place| fs::canonicalize(&words.files[place]).ok());
    if one.is_none() || one != other {
        return "";
    }
    "corrumai: warning: both names are of the same file, so that a sheet is held against itself\n"
}

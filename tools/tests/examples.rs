//! The examples are up to date: text, bytes, run list and chart of each belong together.

mod common;

use common::{command, root, shell_words};
use corrumai_tools::decode::decode;
use corrumai_tools::encode::encode;
use corrumai_tools::list;
use corrumai_tools::model::{Edition, Event, Kind};
use corrumai_tools::notation::{parse, print};
use std::collections::BTreeSet;
use std::fs;
use std::path::PathBuf;

/// The names of the examples that have a file of this kind.
fn names(extension: &str) -> BTreeSet<String> {
    let files = fs::read_dir(root().join("examples")).unwrap().map(|file| file.unwrap().path());
    let of_kind = files.filter(|path| path.extension().is_some_and(|end| end == extension));
    of_kind.map(|path| path.file_stem().unwrap().to_str().unwrap().to_string()).collect()
}

fn path(name: &str, extension: &str) -> PathBuf {
    root().join("examples").join(format!("{name}.{extension}"))
}

fn bytes(name: &str, extension: &str) -> Vec<u8> {
    fs::read(path(name, extension)).unwrap()
}

/// What the command prints, with this status.
fn output(words: &[&str], due: u8) -> Vec<u8> {
    let (out, aside, status) = command(words);
    assert_eq!(status, due, "{words:?}: {aside}");
    out
}

fn file(name: &str, extension: &str) -> String {
    path(name, extension).to_str().unwrap().to_string()
}

#[test]
fn each_example_has_its_files() {
    let mut all: BTreeSet<String> = (1..=10).map(|number| format!("p{number}")).collect();
    let woods = ["wood", "wood-pasted", "wood-retired", "wood-server"];
    all.extend(["p1-edition2"].into_iter().chain(woods).map(String::from));
    for extension in ["txt", "sheet", "run"] {
        assert_eq!(names(extension), all, "{extension}");
    }
}

#[test]
fn texts_become_the_sheets() {
    for name in names("txt") {
        let sheet = parse(&bytes(&name, "txt")).unwrap_or_else(|e| panic!("{name}: {e:?}"));
        assert_eq!(encode(&sheet), bytes(&name, "sheet"), "{name}");
    }
}

/// The lines that are no comment and not empty.
fn statements(text: &str) -> Vec<&str> {
    text.lines().filter(|line| !line.is_empty() && !line.starts_with('#')).collect()
}

/// Document 01 gives its facts and jobs no names but their numbers.
#[test]
fn texts_of_document_01_are_those_of_to_text() {
    for name in names("txt").iter().filter(|name| name.starts_with('p')) {
        let written = String::from_utf8(bytes(name, "txt")).unwrap();
        let printed = print(&decode(&bytes(name, "sheet")).unwrap());
        assert_eq!(statements(&written), statements(&printed), "{name}");
    }
}

/// The proved program's own output is compared in ../tests; here the library's, from bytes and from text.
#[test]
fn runs_are_what_is_printed() {
    for name in names("sheet") {
        let due = bytes(&name, "run");
        let status = u8::from(!due.starts_with(b"PLAN"));
        for extension in ["sheet", "txt"] {
            let printed = output(&["plan", &file(&name, extension)], status);
            assert_eq!(printed, due, "{name}.{extension}");
        }
    }
}

#[test]
fn the_lists_are_judged_as_document_01_says() {
    let document_01 = [("p1", 0), ("p5", 0), ("p6", 0), ("p10", 41), ("wood", 0)];
    let document_02 =
        [("p1-edition2", 0), ("wood-server", 0), ("wood-pasted", 0), ("wood-retired", 0)];
    let expected = || document_01.into_iter().chain(document_02);
    assert_eq!(names("list"), expected().map(|(name, _)| name.to_string()).collect());
    for (name, number) in expected() {
        let words = ["judge", &file(name, "sheet"), &file(name, "list")];
        let answer = output(&words, u8::from(number != 0));
        assert_eq!(answer, format!("ANSWER {number} 0\n").into_bytes(), "{name}");
    }
}

/// Each command that stands behind a `$`, and what it prints.
#[test]
fn late_starts_and_costs_are_as_the_files_say() {
    let all = ["late", "cost"].map(|extension| Vec::from_iter(names(extension)));
    assert_eq!(all, [vec!["p1", "p6"], vec!["p1"]]);
    for (name, extension) in [("p1", "late"), ("p6", "late"), ("p1", "cost")] {
        let text = String::from_utf8(bytes(name, extension)).unwrap();
        let calls: Vec<&str> = text.split("$ bin/corrumai ").skip(1).collect();
        assert!(calls.len() > 1, "{name}");
        for call in calls {
            let (words, rest) = call.split_once('\n').unwrap();
            let due = rest.split("\n\n").next().unwrap().trim_end().to_string() + "\n";
            let words = shell_words(words);
            let words: Vec<&str> = words.iter().map(String::as_str).collect();
            let good = due.ends_with("ANSWER 0 0\n") || due.contains("COST ");
            assert_eq!(
                String::from_utf8(output(&words, u8::from(!good))).unwrap(),
                due,
                "{words:?}"
            );
        }
    }
}

/// Rates of the wood: one for each job, of which one does not run.
#[test]
fn the_wood_has_its_rates() {
    assert_eq!(Vec::from_iter(names("rates")), ["wood"]);
    let sheet = parse(&bytes("wood", "txt")).unwrap();
    let text = String::from_utf8(bytes("wood", "rates")).unwrap();
    let rates: Vec<u32> = text.split_whitespace().map(|word| word.parse().unwrap()).collect();
    assert_eq!(rates.len(), sheet.jobs.len());
    let entries = list::decode(&sheet, &bytes("wood", "list")).unwrap();
    let minutes = |entry: &list::Entry| entry.span().map_or(0, |(first, last)| last - first);
    let billed =
        entries.iter().map(|entry| u64::from(minutes(entry)) * u64::from(rates[entry.job]));
    let sum: u64 = billed.sum();
    for (sheet, list) in [("txt", "run"), ("sheet", "list")] {
        let files = [file("wood", sheet), file("wood", list)];
        let words = ["cost", &files[0], &files[1]].into_iter().chain(text.split_whitespace());
        let printed = output(&words.collect::<Vec<&str>>(), 0);
        assert_eq!(
            String::from_utf8(printed).unwrap(),
            format!("COST {} {}\n", sum / 60, sum % 60)
        );
    }
    assert!(sum % 60 > 0, "the example shows what is left");
}

#[test]
fn the_wood_has_its_list_and_its_chart() {
    for name in ["wood", "p1-edition2", "wood-server", "wood-pasted", "wood-retired"] {
        let mut buffer = [0; 1024];
        let (number, length) = corrumai_tests::plan(&bytes(name, "sheet"), &mut buffer);
        assert_eq!((number, &buffer[..length]), (0, &bytes(name, "list")[..]), "{name}");
    }
    let chart = output(&["chart", &file("wood", "txt")], 0);
    assert!(chart == fs::read(root().join("docs/wood.svg")).unwrap(), "docs/wood.svg is stale");
}

/// P1 goes to edition 2 and back, and its list stays.
#[test]
fn p1_in_both_editions() {
    let (first, second) = (file("p1", "sheet"), file("p1-edition2", "sheet"));
    assert_eq!(output(&["sheet", "to-edition2", &first], 0), bytes("p1-edition2", "sheet"));
    assert_eq!(output(&["sheet", "to-edition1", &second], 0), bytes("p1", "sheet"));
    assert_eq!(bytes("p1", "list"), bytes("p1-edition2", "list"));
    assert_eq!(bytes("p1", "run"), bytes("p1-edition2", "run"));
}

/// The server's job starts when the server is free, and every need of what another job sets keeps the gap.
#[test]
fn the_wood_waits_for_the_server() {
    let sheet = parse(&bytes("wood-server", "txt")).unwrap();
    let job = sheet.jobs.iter().position(|job| job.name == "valuation").unwrap();
    assert_eq!((sheet.gap(), sheet.jobs[job].release), (2, 90));
    let entries = list::decode(&sheet, &bytes("wood-server", "list")).unwrap();
    let steps = |kind: Kind| {
        let all = entries.iter().flat_map(|entry| entry.steps(&sheet));
        all.filter(move |(event, _)| event.kind == kind).collect::<Vec<(Event, u16)>>()
    };
    let first = entries.iter().find(|entry| entry.job == job).unwrap().times.iter().min();
    assert_eq!(first, Some(&90));
    let mut waits: Vec<u16> = Vec::new();
    for (set, minute) in steps(Kind::Sets) {
        let begins = steps(Kind::Begins).into_iter().filter(|(begin, _)| begin.fact == set.fact);
        waits.extend(begins.map(|(_, begin)| begin - minute));
    }
    assert!(waits.len() > 10 && waits.iter().min() == Some(&2), "{waits:?}");
    assert!(output(&["sheet", "check", "--strict", &file("wood-server", "txt")], 0).is_empty());
}

/// The corrected sheet has another revision and another minute at which the server is free; it counts, and has its files.
#[test]
fn the_corrected_wood_counts() {
    let names = ["wood-server", "corrected/wood-server"];
    let [sent, corrected] = names.map(|name| parse(&bytes(name, "txt")).unwrap());
    assert_eq!(encode(&corrected), bytes(names[1], "sheet"));
    let mut due = sent.clone();
    due.edition = Edition::Two { gap: 2, revision: 2 };
    due.jobs.iter_mut().find(|job| job.name == "valuation").unwrap().release = 105;
    assert_eq!((sent.edition, corrected), (Edition::Two { gap: 2, revision: 1 }, due));
    for extension in ["txt", "sheet"] {
        let [sent, corrected] = names.map(|name| file(name, extension));
        assert_eq!(output(&["newer", &sent, &corrected], 0), b"SECOND\n");
        assert_eq!(output(&["newer", &corrected, &sent], 0), b"FIRST\n");
        assert_eq!(output(&["plan", &corrected], 0), bytes(names[1], "run"));
        assert_eq!(output(&["judge", &corrected, &file(names[1], "list")], 0), b"ANSWER 0 0\n");
    }
    assert!(output(&["sheet", "check", "--strict", &file(names[1], "txt")], 0).is_empty());
}

/// Two sheets pasted together: pairs of events with several bounds, of which each that is tighter counts, and a line twice.
#[test]
fn the_pasted_wood_has_pairs_with_several_bounds() {
    let sheet = parse(&bytes("wood-pasted", "txt")).unwrap();
    let mut again = Vec::new();
    for two in sheet.jobs.iter().flat_map(|job| job.bounds.windows(2)) {
        if (two[0].e, two[0].d) == (two[1].e, two[1].d) {
            again.push(two[0].span == two[1].span);
        }
    }
    let lines = String::from_utf8(bytes("wood-pasted", "txt")).unwrap();
    let twice = lines.matches("  from end of need codes to set volume: at least 5 min\n").count();
    assert_eq!((again, twice), (vec![false; 4], 2));
    assert!(output(&["sheet", "check", "--strict", &file("wood-pasted", "txt")], 0).is_empty());
    // The tighter of two lines holds each of these back: 8 min and not 5, 4 and not 2.
    let run = String::from_utf8(bytes("wood-pasted", "run")).unwrap();
    for step in ["110 E 0 8\n", "300 E 2 29\n300 S 3 34\n", "400 B 1 39\n", "400 B 3 35\n"] {
        assert!(run.contains(step), "{run}");
    }
}

/// The wood with one job more, which is retired: the same list. Were it not, two jobs would set the codes.
#[test]
fn the_wood_with_a_retired_job_is_planned_as_the_wood() {
    let text = String::from_utf8(bytes("wood-retired", "txt")).unwrap();
    let (retired, wood) = (parse(text.as_bytes()).unwrap(), parse(&bytes("wood", "txt")).unwrap());
    let job = retired.jobs.iter().position(|job| job.name == "load-species").unwrap();
    let successor = retired.jobs.iter().find(|job| job.name == "load-codes").unwrap();
    assert!(retired.jobs[job].events.iter().all(|event| successor.events.contains(event)));
    let mut without = retired.clone();
    without.jobs.remove(job);
    assert_eq!(without, wood);
    for extension in ["run", "list"] {
        assert_eq!(bytes("wood-retired", extension), bytes("wood", extension), "{extension}");
    }
    assert!(output(&["sheet", "check", "--strict", &file("wood-retired", "txt")], 0).is_empty());
    let explained = output(&["explain", &file("wood-retired", "txt")], 0);
    let due = "The job 'load-species' (code 105) is retired (line 33): the planner plans as if it were not in the sheet.\n";
    assert!(String::from_utf8(explained).unwrap().ends_with(due));
    let anew = encode(&parse(text.replace(" retired takes", " takes").as_bytes()).unwrap());
    assert_eq!(corrumai_tests::plan(&anew, &mut [0; 1024]), (20, 4));
}

/// It shows what the notation has, and a job that does not run.
#[test]
fn the_wood_is_a_whole_example() {
    let sheet = parse(&bytes("wood", "txt")).unwrap();
    let events: Vec<Kind> =
        sheet.jobs.iter().flat_map(|job| &job.events).map(|event| event.kind).collect();
    assert!(Kind::ALL.iter().all(|kind| events.contains(kind)));
    let spans: Vec<_> = sheet.jobs.iter().flat_map(|job| &job.bounds).map(|b| b.span).collect();
    assert!(spans.iter().any(|span| span.high.is_none()));
    assert!(spans.iter().any(|span| span.high.is_some() && span.low < span.high));
    let run = String::from_utf8(bytes("wood", "run")).unwrap();
    let (jobs, first) = (sheet.jobs.len(), run.lines().next().unwrap());
    assert_eq!(first, format!("PLAN {}", jobs - 1));
}

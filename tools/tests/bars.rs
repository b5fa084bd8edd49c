//! The bar for people's commands: at most 50 ms of processor time on any sheet, all programs counted. Times are taken by
//! hand; what does not vary is tested: how many programs a command starts (builds.rs), and the instructions of the tool.

mod common;

use common::root;
use corrumai_tests::build::{Job, Spec};
use corrumai_tests::cases::{hostile, ordinary};
use corrumai_tests::say;
use corrumai_tools::decode::decode;
use corrumai_tools::notation::print;
use std::fs;
use std::path::PathBuf;
use std::process::{Command, Stdio};
use std::sync::Mutex;

const BAR: f64 = 50.0;
/// Runs of one command: processor time is told in hundredths of a second.
const RUNS: u32 = 3;

/// Millions of instructions of the tool, some 20 ms of a slow processor.
const INSTRUCTIONS: f64 = 80.0;
/// The sheets for which the tool takes the most, of all that are tried below.
const DEAREST: [&str; 4] = [
    "orders: the same, one bound loose",
    "orders: 256 events tied loosely to one",
    "own times: ring of 256 events, level",
    "32 jobs of 8 events, long names",
];

/// Each test runs alone: the time of all children is taken.
static ALONE: Mutex<()> = Mutex::new(());

/// A file of the test's own.
fn file(name: &str, bytes: &[u8]) -> String {
    let folder = PathBuf::from(env!("CARGO_TARGET_TMPDIR")).join("bars");
    fs::create_dir_all(&folder).unwrap();
    fs::write(folder.join(name), bytes).unwrap();
    folder.join(name).to_str().unwrap().to_string()
}

/// A job that sets and clears all facts but one at any time, and another that clears them too: 21, with as many guards to try
/// as there can be.
fn many_guards() -> Spec {
    let mut jobs = [Job::new(1), Job::new(2).sets(63)];
    for fact in 0..62 {
        jobs[0] = jobs[0].clone().sets(fact).clears(fact);
        jobs[1] = jobs[1].clone().needs(fact);
    }
    jobs[1] = jobs[1].clone().clears(0).clears(1);
    let mut marks = vec![0; 64];
    marks[63] = 2;
    Spec::new(10_080, &marks, &jobs)
}

/// The sheet as text, where each name has so many characters more.
fn text(spec: &Spec, more: usize) -> String {
    let mut sheet = decode(&spec.bytes()).unwrap();
    let tail = "-and-so-on".repeat(more / 10);
    sheet.facts.iter_mut().for_each(|fact| fact.name += &tail);
    sheet.jobs.iter_mut().for_each(|job| job.name += &tail);
    print(&sheet)
}

/// The sheets that are known to be dear, each as the text that it goes to: a text takes longer than bytes.
fn dear_sheets() -> Vec<(String, String)> {
    let named = |(name, spec): (&str, Spec)| (name.to_string(), text(&spec, 0));
    let mut texts: Vec<(String, String)> = hostile::sheets().into_iter().map(named).collect();
    texts.extend(hostile::retired().into_iter().map(|(name, spec, _)| named((name, spec))));
    texts.extend(ordinary::chains().into_iter().map(named));
    texts.extend(
        [
            ("32 jobs of 8 events", ordinary::full()),
            ("the same, one minute too few", ordinary::too_short()),
            ("the same, one fact without an order", ordinary::unordered()),
            ("21 with 62 guards to try", many_guards()),
        ]
        .map(named),
    );
    texts.push(("32 jobs of 8 events, long names".to_string(), text(&ordinary::full(), 60)));
    let write = |(number, (name, text)): (usize, (String, String))| {
        (name, file(&format!("{number}.txt"), text.as_bytes()))
    };
    let mut sheets: Vec<(String, String)> = texts.into_iter().enumerate().map(write).collect();
    for entry in fs::read_dir(root().join("examples")).unwrap() {
        let path = entry.unwrap().path().to_str().unwrap().to_string();
        if path.ends_with(".txt") || path.ends_with(".sheet") {
            sheets.push((path.clone(), path));
        }
    }
    sheets
}

/// The words of each command to be tried: its name, and what it is tried with.
fn dear_words() -> Vec<(String, Vec<String>)> {
    let mut all = Vec::new();
    for (name, path) in dear_sheets() {
        for subcommand in ["plan", "explain"] {
            all.push((name.clone(), vec![subcommand.to_string(), path.clone()]));
        }
    }
    // Lists with more faults than are named, and with none.
    for (number, (name, spec, list)) in hostile::lists().into_iter().enumerate() {
        let sheet = file(&format!("{number}-list.txt"), text(&spec, 0).as_bytes());
        let list = file(&format!("{number}.list"), &list);
        all.push((name, vec!["explain".to_string(), sheet, list]));
    }
    all
}

/// The processor time, in milliseconds, of all programs that this one has started and waited for.
fn spent_by_children() -> f64 {
    let stat = fs::read_to_string("/proc/self/stat").unwrap();
    // Behind the name: the state is field 3, and the children's times are fields 16 and 17.
    let fields: Vec<&str> = stat.rsplit_once(')').unwrap().1.split_whitespace().collect();
    let ticks = |field: usize| fields[field - 3].parse::<f64>().unwrap();
    (ticks(16) + ticks(17)) * 10.0
}

/// What one run of the command takes, in milliseconds.
fn cost(words: &[String]) -> f64 {
    let before = spent_by_children();
    for _ in 0..RUNS {
        let mut command = Command::new(root().join("bin/corrumai"));
        command.args(words).stdout(Stdio::null()).stderr(Stdio::null());
        assert!(command.status().unwrap().code().is_some_and(|status| status < 2), "{words:?}");
    }
    (spent_by_children() - before) / f64::from(RUNS)
}

#[test]
#[ignore = "a time: run by hand"]
fn no_sheet_takes_50_ms() {
    let _alone = ALONE.lock();
    let built = Command::new(root().join("tools/ready")).arg("corrumai").output().unwrap();
    assert!(built.status.success(), "{built:?}");
    for subcommand in ["plan", "explain"] {
        let words = dear_words().into_iter().filter(|(_, words)| words[0] == subcommand);
        let costs = words.map(|(name, words)| (cost(&words), name));
        let most = costs.max_by(|one, other| one.0.total_cmp(&other.0)).unwrap();
        say(&format!("bars, {subcommand}: {:.0} ms at most ({})", most.0, most.1));
        assert!(most.0 <= BAR, "{subcommand}: {most:?}");
    }
}

/// Millions of instructions of the tool; none without valgrind.
fn instructions(words: &[String]) -> Option<f64> {
    let mut command = Command::new("valgrind");
    command.args(["--tool=callgrind", "--callgrind-out-file=/dev/null"]);
    command.arg(env!("CARGO_BIN_EXE_corrumai")).args(words).stdout(Stdio::null());
    let output = command.output().ok()?;
    let said = String::from_utf8_lossy(&output.stderr);
    let count =
        said.lines().find_map(|line| line.split_once(" Collected : ")).map(|(_, count)| count);
    let count = count.and_then(|count| count.trim().parse::<f64>().ok());
    Some(count.unwrap_or_else(|| panic!("{words:?}: {said}")) / 1e6)
}

/// Counts the instructions for all sheets, or only for the dearest.
fn counted(dearest: bool) {
    let _alone = ALONE.lock();
    let mut counts = Vec::new();
    for (name, words) in dear_words() {
        // To explain takes more than to plan.
        if dearest && !(DEAREST.contains(&name.as_str()) && words[0] == "explain") {
            continue;
        }
        let Some(count) = instructions(&words) else {
            say("bars: valgrind is not on this machine, so that no instructions were counted");
            return;
        };
        counts.push((count, words[0].clone(), name));
    }
    counts.sort_by(|one, other| other.0.total_cmp(&one.0));
    for (count, subcommand, name) in counts.iter().take(if dearest { 1 } else { 12 }) {
        say(&format!("bars, {subcommand}: {count:.1} million instructions ({name})"));
    }
    assert!(!dearest || counts.len() == DEAREST.len(), "{counts:?}");
    assert!(counts[0].0 <= INSTRUCTIONS, "{:?}", counts[0]);
}

#[test]
fn the_dearest_sheets_keep_their_bar() {
    counted(true);
}

#[test]
#[ignore = "a minute: which sheets are the dearest"]
fn every_sheet_keeps_its_bar() {
    counted(false);
}

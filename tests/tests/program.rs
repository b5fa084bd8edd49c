//! The program against the model, in every byte that it prints. Its functions promise nothing of what
//! they print, since the kit's contracts do not speak of it: that is seen here.

use corrumai_tests::build::Bodies;
use corrumai_tests::cases::{self, hostile, ordinary};
use corrumai_tests::generate::{damage, large, tiny};
use corrumai_tests::model::list;
use corrumai_tests::model::sheet::{self, Kind};
use corrumai_tests::planner_model::{verdict, Verdict};
use corrumai_tests::rng::Rng;
use corrumai_tests::say;
use std::env;
use std::fmt::Write as _;
use std::io::Write as _;
use std::path::{Path, PathBuf};
use std::process::{Command, Stdio};

/// In ../crates/runlist/out, or in the folder that CORRUMAI_BIN_DIR names.
fn program() -> PathBuf {
    let folder = match env::var_os("CORRUMAI_BIN_DIR") {
        Some(given) => PathBuf::from(given),
        None => Path::new(env!("CARGO_MANIFEST_DIR")).join("../crates/runlist/out"),
    };
    let program = folder.join("runlist");
    assert!(
        program.is_file(),
        "{} is missing: run `rt run` in crates/runlist first",
        program.display()
    );
    program
}

/// What the program prints, and its status.
fn run(input: &[u8]) -> (String, Option<i32>) {
    let mut command = Command::new(program());
    let mut child = command.stdin(Stdio::piped()).stdout(Stdio::piped()).spawn().unwrap();
    let mut stdin = child.stdin.take().unwrap();
    // The program need not read what is too long to its end.
    let _ = stdin.write_all(input);
    drop(stdin);
    let output = child.wait_with_output().unwrap();
    (String::from_utf8(output.stdout).unwrap(), output.status.code())
}

/// What document 01 says that it prints.
fn due(input: &[u8]) -> String {
    if input.len() > 4_096 {
        return "ANSWER 10 0\n".to_string();
    }
    match verdict(input) {
        Verdict::Refused(number, detail) => format!("ANSWER {number} {detail}\n"),
        Verdict::NoPlan(_) => "ANSWER 1 0\n".to_string(),
        Verdict::Plan(list) => lines(input, &list),
    }
}

fn lines(input: &[u8], list: &[u8]) -> String {
    let sheet = sheet::read(input).unwrap();
    let plan = list::read(&sheet, list).unwrap();
    let mut text = format!("PLAN {}\n", plan.len());
    for instance in &plan {
        for (event, tick) in sheet.events_of(instance.job).iter().zip(&instance.times) {
            let event = sheet.events[*event];
            let kind = match event.kind {
                Kind::Begins => 'B',
                Kind::Ends => 'E',
                Kind::Sets => 'S',
                Kind::Clears => 'C',
            };
            let code = sheet.codes[instance.job];
            writeln!(text, "{code} {kind} {} {tick}", event.fact).unwrap();
        }
    }
    text
}

fn compare(input: &[u8]) {
    assert_eq!(run(input), (due(input), Some(0)), "program (left) and model\n{input:02x?}");
}

#[test]
fn p1_as_document_01_prints_it() {
    let folder = Path::new(env!("CARGO_MANIFEST_DIR")).join("../examples");
    let sheet = std::fs::read(folder.join("p1.sheet")).unwrap();
    let text = "PLAN 2\n10 B 0 0\n10 E 0 5\n10 S 1 5\n20 B 1 6\n20 E 1 9\n20 S 2 9\n";
    assert_eq!(run(&sheet), (text.to_string(), Some(0)));
    assert_eq!(due(&sheet), text);
}

#[test]
fn every_kind_of_sheet() {
    let mut rng = Rng::new(21);
    let mut inputs: Vec<Vec<u8>> = cases::planned().into_iter().map(|case| case.sheet).collect();
    let hostile = [hostile::sheets(), hostile::settled(), hostile::repeated()].concat().into_iter();
    inputs.extend(hostile.map(|(_, spec)| spec.bytes()));
    inputs.extend([ordinary::small().bytes(), ordinary::full().bytes()]);
    for sheet in [tiny::sheet, tiny::sheet_2] {
        inputs.extend((0..300).map(|_| sheet(&mut rng).bytes()));
        for _ in 0..100 {
            let spec = sheet(&mut rng);
            inputs.push(damage::damaged(&mut rng, &spec));
        }
    }
    for sheet in [large::sheet, large::sheet_2] {
        inputs.extend((0..30).map(|_| sheet(&mut rng).bytes()));
    }
    inputs.iter().for_each(|input| compare(input));
    let plans = inputs.iter().filter(|input| matches!(verdict(input), Verdict::Plan(_)));
    let (all, plans) = (inputs.len(), plans.count());
    say(&format!("program: {all} sheets printed alike, {plans} of them with a plan"));
    assert!(plans >= 100, "too few plans");
}

/// 4,096 bytes are read as a sheet, here one with too many bounds: 14. More are no sheet: 10.
#[test]
fn inputs_around_the_longest() {
    for length in [0, 1, 4_095, 4_096, 4_097, 4_098, 5_000, 70_000] {
        let facts = vec![0, 0, 0];
        let mut bodies = Bodies { facts, ..Bodies::default() };
        bodies.bounds = vec![0; usize::saturating_sub(length, 29)];
        let mut input = bodies.bytes();
        input.truncate(length);
        assert_eq!(input.len(), length);
        let number = if (29..=4_096).contains(&length) { 14 } else { 10 };
        assert_eq!(run(&input), (format!("ANSWER {number} 0\n"), Some(0)), "{length} bytes");
        compare(&input);
    }
}

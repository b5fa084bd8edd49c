//! Explanations of random sheets and lists of every answer, checked by a second checker.

mod checker;
mod common;

use checker::json;
use common::{any_sheet, proved};
use corrumai_tests::build::{self, Spec};
use corrumai_tests::cases::{self, examples, hostile, ordinary, planner};
use corrumai_tests::generate::{damage, large, near, planned, tiny};
use corrumai_tests::retire::Cause;
use corrumai_tests::rng::Rng;
use corrumai_tests::say;
use corrumai_tools::answers::Proved;
use corrumai_tools::decode::decode;
use corrumai_tools::explain::{self, Context};
use corrumai_tools::model::{Bound, Sheet};
use std::collections::BTreeMap;
use std::time::Instant;

/// Enough for every list.
const ROOM: usize = 1_024;

/// So many of each of the planner's answers are explained at least.
const ENOUGH: usize = 1_000;

/// How often an answer or a reason was seen.
#[derive(Default)]
struct Tally(BTreeMap<String, usize>);

impl Tally {
    fn add(&mut self, name: &str) {
        *self.0.entry(name.to_string()).or_default() += 1;
    }

    fn seen(&self, name: &str) -> usize {
        self.0.get(name).copied().unwrap_or(0)
    }

    fn planner(&mut self, bytes: &[u8], room: usize) {
        let sheet = decode(bytes).ok();
        let context = Context { sheet: sheet.as_ref(), source: None, start: Some(1_110) };
        let explained = explain::plan(bytes, room, &proved());
        let mut buffer = vec![0; room];
        let due = corrumai_tests::plan(bytes, &mut buffer);
        let kinds =
            checker::planner(bytes, due, &buffer[..room.min(due.1)], &explained.json(&context));
        for kind in kinds {
            self.add(&format!("{}: {kind}", due.0));
        }
        self.add(&due.0.to_string());
        self.add_repeated(due.0, sheet.as_ref());
        let text = explained.text(&context);
        assert!(text.contains("has checked itself"));
        // Where a release or a gap holds something back, the words say so.
        if text.contains("not before minute ") {
            self.add(&format!("{}: release", due.0));
        }
        if text.contains(" minutes after another job") {
            self.add(&format!("{}: gap", due.0));
        }
    }

    fn judge(&mut self, bytes: &[u8], list: &[u8]) {
        let sheet = decode(bytes).ok();
        let context = Context { sheet: sheet.as_ref(), source: None, start: None };
        let explained = explain::judge(bytes, list, &proved());
        let (due, _) = corrumai_tests::judge(bytes, list);
        for kind in checker::judge(bytes, list, due, &explained.json(&context)) {
            self.add(&format!("{due}: {kind}"));
        }
        self.add(&due.to_string());
        self.add_repeated(due, sheet.as_ref());
        assert!(explained.text(&context).contains("has checked itself"));
    }

    /// Counts a sheet that has a pair of events with several bounds.
    fn add_repeated(&mut self, number: u8, sheet: Option<&Sheet>) {
        let mut jobs = sheet.into_iter().flat_map(|sheet| &sheet.jobs);
        let twice = |two: &[Bound]| (two[0].e, two[0].d) == (two[1].e, two[1].d);
        if jobs.any(|job| job.bounds.windows(2).any(twice)) {
            self.add(&format!("{number}: repeated"));
        }
    }

    fn print(&self, name: &str) {
        let counts = self.0.iter().map(|(name, count)| format!("{name} {count}"));
        say(&format!("explain, {name}: {}", counts.collect::<Vec<String>>().join("; ")));
    }
}

/// A sheet of this kind, in which now and then jobs are retired.
fn with_retired(rng: &mut Rng, kind: fn(&mut Rng) -> Spec) -> Spec {
    let mut spec = kind(rng);
    for job in 0..spec.jobs.len() {
        let cause = *rng.pick(&Cause::ALL);
        if rng.chance(20) && cause.fits(&spec, job) {
            cause.put_on(&mut spec, job, 0);
        }
    }
    spec
}

#[test]
fn planner_answers() {
    let mut tally = Tally::default();
    for case in planner::cases() {
        tally.planner(&case.sheet, ROOM);
    }
    for spec in [ordinary::small(), ordinary::full(), ordinary::too_short(), examples::p9()] {
        tally.planner(&spec.bytes(), ROOM);
    }
    let mut rng = Rng::new(101);
    for round in 0..200_000 {
        let sheet = match round % 20 {
            0 => damage::damaged(&mut rng, &tiny::sheet(&mut Rng::new(round))),
            10 => damage::damaged(&mut rng, &tiny::sheet_2(&mut Rng::new(round))),
            1 => planned::any(&mut rng, planned::SMALL).spec.bytes(),
            11 => planned::any(&mut rng, planned::SMALL_2).spec.bytes(),
            2 if round % 1_000 == 2 => large::sheet(&mut rng).bytes(),
            2 if round % 1_000 == 502 => large::sheet_2(&mut rng).bytes(),
            3 if round % 1_000 == 3 => any_sheet(&mut rng).bytes(),
            4..=9 | 12..=17 => with_retired(&mut rng, tiny::sheet_2).bytes(),
            _ => with_retired(&mut rng, tiny::sheet).bytes(),
        };
        let room = if round % 10 == 9 { rng.below(20) } else { ROOM };
        let (number, _) = corrumai_tests::plan(&sheet, &mut vec![0; room]);
        // Frequent answers are explained now and then, rare ones always.
        let most = if number < 2 { 4 * ENOUGH } else { ENOUGH };
        if tally.seen(&number.to_string()) < most || round % 100 == 0 {
            tally.planner(&sheet, room);
        }
    }
    tally.print("planner");
    for number in [0, 1, 10, 11, 12, 13, 14, 20, 21, 22, 30] {
        assert!(tally.seen(&number.to_string()) >= ENOUGH, "{number}");
    }
    for kind in [
        "1: no-source",
        "1: goal-cleared",
        "1: no-times, chain",
        "1: no-times, circle",
        "1: no-source, absent",
        "0: absent, chain",
        "0: absent, circle",
        "1: absent, chain",
        "1: absent, circle",
        "20: absent, chain",
        "20: absent, circle",
        "21: absent, circle",
        "22: absent, circle",
        "0: release",
        "0: gap",
        "1: release",
        "1: gap",
        "0: repeated",
        "1: repeated",
        "20: repeated",
        "21: repeated",
        "22: repeated",
    ] {
        assert!(tally.seen(kind) >= 100, "{kind}");
    }
}

#[test]
fn judge_answers() {
    let mut tally = Tally::default();
    for case in cases::all() {
        tally.judge(&case.sheet, &case.list);
    }
    let mut rng = Rng::new(102);
    for round in 0..14_000 {
        let size = match round % 200 {
            0 => planned::LARGE,
            4 => planned::LARGE_2,
            place if place % 4 < 2 => planned::SMALL,
            _ => planned::SMALL_2,
        };
        let pair = match round % 3 {
            0 => planned::any(&mut rng, size),
            _ => planned::plan(&mut rng, size),
        };
        let (sheet, list) = match round % 2 {
            0 => near::miss(&mut rng, &pair),
            _ => pair.bytes(),
        };
        tally.judge(&sheet, &list);
    }
    tally.print("judge");
    for number in [0, 40, 41] {
        assert!(tally.seen(&number.to_string()) >= 1_000, "{number}");
    }
    assert!(tally.seen("0: repeated") >= 150);
    for kind in ["window", "release", "bound", "need", "clash", "unserved", "goal", "repeated"] {
        assert!(tally.seen(&format!("41: {kind}")) >= 150, "{kind}");
    }
}

/// What is said of the sheet, and of the list if there is one.
fn said(spec: &Spec, list: Option<&[u8]>) -> String {
    let bytes = spec.bytes();
    let sheet = decode(&bytes).unwrap();
    let context = Context { sheet: Some(&sheet), source: None, start: None };
    let explained = match list {
        None => explain::plan(&bytes, ROOM, &proved()),
        Some(list) => explain::judge(&bytes, list, &proved()),
    };
    let text = explained.text(&context);
    assert!(text.contains("has checked itself"), "{text}");
    text
}

#[track_caller]
fn assert_says(text: &str, words: &[&str]) {
    for word in words {
        assert!(text.contains(word), "'{word}' is not in\n{text}");
    }
}

/// P1 in both editions: where no gap is said it is two minutes, and edition 1 has one.
#[test]
fn the_default_gap_is_two_minutes() {
    let none = |horizon| examples::p1(horizon).with_gap(0);
    let default = "+2 min, 'fact1' is there 2 minutes, the default gap, after another job sets it";
    let one = "+1 min, 'fact1' is there a minute after another job sets it";
    let two = "+2 min, 'fact1' is there 2 minutes after another job sets it";
    assert_says(&said(&none(10), None), &["ANSWER 0 24", "over at minute 10,", default]);
    let late = ["ANSWER 1 0", "the last one is 1 minute past the horizon, 9:", default];
    assert_says(&said(&none(9), None), &late);
    let spec = examples::p1(9);
    for spec in [spec.clone(), spec.with_gap(1)] {
        assert_says(&said(&spec, None), &["ANSWER 0 24", "over at minute 9,", one]);
    }
    assert_says(&said(&examples::p1(10).with_gap(2), None), &["over at minute 10,", two]);
}

/// The list of edition 1 is a plan for the gap of one minute alone.
#[test]
fn the_judge_s_default_gap_is_two_minutes() {
    let list = Some(&examples::P1_LIST[..]);
    for spec in [examples::p1(100), examples::p1(100).with_gap(1)] {
        assert_says(&said(&spec, list), &["ANSWER 0 0"]);
    }
    for gap in [0, 2] {
        let text = said(&examples::p1(100).with_gap(gap), list);
        assert_says(&text, &["ANSWER 41 0", "at minute 5, serves other entries from minute 7 on"]);
    }
    let user = build::Job::new(10).needs(0).exactly(build::ends(0), build::begins(0), 5);
    let jobs = [user, build::Job::new(20).clears(0)];
    let spec = Spec::new(9, &[1], &jobs);
    // The need from 0 to 5, the clear at 6.
    let list = [1, 0, 2, 0, 10, 0, 12, 0, 20, 0, 16, 0, 0, 0, 5, 0, 6, 0];
    assert_says(&said(&spec, Some(&list)), &["ANSWER 0 0"]);
    assert_says(&said(&spec.clone().with_gap(1), Some(&list)), &["ANSWER 0 0"]);
    let within = "cleared by entry 1 ('job20') at minute 6, within the gap of 2 minutes";
    assert_says(&said(&spec.with_gap(0), Some(&list)), &["ANSWER 41 0", within]);
}

/// The dearest sheets that are known: each is explained, and quickly.
#[test]
fn hostile_sheets() {
    let mut tally = Tally::default();
    let mut longest = (0, "");
    let retired = hostile::retired().into_iter().map(|(name, spec, _)| (name, spec));
    for (name, spec) in hostile::sheets().into_iter().chain(retired) {
        let bytes = spec.bytes();
        let start = Instant::now();
        explain::plan(&bytes, ROOM, &proved());
        longest = longest.max((start.elapsed().as_millis(), name));
        tally.planner(&bytes, ROOM);
    }
    tally.print("hostile");
    say(&format!("explain, hostile: {} ms at most ({})", longest.0, longest.1));
    assert!(longest.0 < 2_000, "{longest:?}");
}

/// Where its answer is not the library's, an explanation says so and gives the bare answer.
#[test]
fn an_explanation_that_fails_its_check_is_not_given() {
    let sheet = examples::p1(100).bytes();
    let lies = [
        Proved { plan: |_, _| (1, 0), ..proved() },
        Proved { plan: |_, _| (0, 24), ..proved() },
        Proved { plan: |_, _| (21, 1), ..proved() },
    ];
    let decoded = decode(&sheet).unwrap();
    let context = Context { sheet: Some(&decoded), source: None, start: None };
    for (lie, answer) in lies.iter().zip(["ANSWER 1 0", "ANSWER 0 24", "ANSWER 21 1"]) {
        let explained = explain::plan(&sheet, ROOM, lie);
        let text = explained.text(&context);
        assert!(text.contains("did not pass its check") && text.contains(answer), "{text}");
        assert!(!text.contains("minute"), "{text}");
        let json = json::parse(&explained.json(&context));
        assert!(!json.get("checked").bool() && json.get("reasons").list().is_empty());
    }
    let judged = explain::judge(&sheet, &[], &Proved { judge: |_, _| (41, 0), ..proved() });
    assert!(judged.text(&context).contains("did not pass its check"));
}

/// The second checker is not blind: hardly any number in the reasons can be changed without its notice.
#[test]
fn the_checker_sees_changed_numbers() {
    let mut rng = Rng::new(103);
    let (mut changed, mut seen) = (0, 0);
    while changed < 400 {
        let spec = if rng.chance(50) { tiny::sheet(&mut rng) } else { tiny::sheet_2(&mut rng) };
        let sheet = spec.bytes();
        let decoded = decode(&sheet).unwrap();
        let context = Context { sheet: Some(&decoded), source: None, start: None };
        let json = explain::plan(&sheet, ROOM, &proved()).json(&context);
        let start = json.find("\"reasons\"").unwrap();
        let end = json.find("\"facts\":[\"").unwrap_or(json.len());
        let digits: Vec<usize> =
            (start..end).filter(|&at| json.as_bytes()[at].is_ascii_digit()).collect();
        if digits.is_empty() {
            continue;
        }
        let at = *rng.pick(&digits);
        let other =
            format!("{}{}{}", &json[..at], (json.as_bytes()[at] - b'0' + 1) % 10, &json[at + 1..]);
        let mut buffer = vec![0; ROOM];
        let due = corrumai_tests::plan(&sheet, &mut buffer);
        let list = buffer[..due.1.min(ROOM)].to_vec();
        let outcome = std::panic::catch_unwind(|| checker::planner(&sheet, due, &list, &other));
        changed += 1;
        seen += usize::from(outcome.is_err());
    }
    say(&format!("explain, checker: {seen} of {changed} changed numbers seen"));
    assert!(seen * 100 >= changed * 98, "{seen} of {changed}");
}

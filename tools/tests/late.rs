//! corrumai late: what it prints and why, that every reason passes its check, and that a run is followed as the library moves it.

mod common;

use common::{any_sheet, command, example, file, proved};
use corrumai_tests::cases::examples;
use corrumai_tests::generate::planned;
use corrumai_tests::rng::Rng;
use corrumai_tests::say;
use corrumai_tools::answers::{Answer, Proved, Run};
use corrumai_tools::decode::decode;
use corrumai_tools::encode::encode;
use corrumai_tools::explain::{self, Context, LateFault, PlanFault};
use corrumai_tools::list::{self, Entry};
use corrumai_tools::model::{Kind, Sheet};
use corrumai_tools::notation::parse;
use std::collections::BTreeMap;

/// Standard output, standard error and status of `late` with these words.
fn late(words: &[&str]) -> (String, String, u8) {
    let (out, aside, status) = command(&[&["late"], words].concat());
    (String::from_utf8(out).unwrap(), aside, status)
}

/// The answer to P1's list with these delays, and what is said of it.
fn p1(delays: &[&str]) -> (String, String, u8) {
    let (sheet, list) = (example("p1.txt"), example("p1.run"));
    late(&[&[sheet.as_str(), &list], delays].concat())
}

#[test]
fn the_answers_of_p1_and_their_reasons() {
    for (delays, answer, status, why) in [
        (&["0", "1"][..], "0 0", 0, ""),
        (&["0", "91"], "0 0", 0, ""),
        (
            &["1", "0"],
            "41 6",
            1,
            "corrumai: with these delays the run goes wrong at minute 6:\n  point 3, entry 1 ('job20'): needs 'fact1' from \
             minute 6 to 9, but the first set of it, by entry 0 ('job10') at minute 6, serves other entries from minute 7 on\n",
        ),
        (
            &["0", "92"],
            "41 100",
            1,
            "corrumai: with these delays no minute up to the horizon, 100, goes wrong, and the list is not a plan:\n  \
             entry 1 ('job20'): end of need 'fact1' is at minute 101, past the horizon, 100\n  \
             entry 1 ('job20'): set 'fact2' is at minute 101, past the horizon, 100\n",
        ),
        (&["601", "0"], "40 0", 1, "corrumai: the delay 601, of entry 0 ('job10'), is above 600 minutes\n"),
        (
            &["0", "99999999999999999999"],
            "40 0",
            1,
            "corrumai: the delay 99999999999999999999, of entry 1 ('job20'), is above 600 minutes\n",
        ),
        (
            &["0"],
            "40 0",
            1,
            "corrumai: the list has 2 instances, and 1 delay is given; it takes one for each, in their order: \
             entry 0 ('job10'), entry 1 ('job20')\n",
        ),
        (
            &["0", "0", "601"],
            "40 0",
            1,
            "corrumai: the list has 2 instances, and 3 delays are given; it takes one for each, in their order: \
             entry 0 ('job10'), entry 1 ('job20')\n  the delay 601 is above 600 minutes\n",
        ),
    ] {
        let due = (format!("ANSWER {answer}\n"), why.to_string(), status);
        assert_eq!(p1(delays), due, "{delays:?}");
        // Leading zeros are a matter of taste.
        let zeros: Vec<String> = delays.iter().map(|delay| format!("00{delay}")).collect();
        let zeros: Vec<&str> = zeros.iter().map(String::as_str).collect();
        assert_eq!(p1(&zeros).0, due.0, "{zeros:?}");
    }
}

#[test]
fn the_judge_comes_first() {
    let (sheet, list) = (example("p10.sheet"), example("p10.list"));
    for delays in [&["0", "0"][..], &[], &["601"]] {
        for option in [&[][..], &["--follow"]] {
            let said = late(&[option, &[sheet.as_str(), &list], delays].concat());
            let why = format!("corrumai: without any delay, the list is not a plan; 'corrumai explain {sheet} {list}' says why\n");
            assert_eq!(said, ("ANSWER 41 0\n".to_string(), why, 1));
        }
    }
    let other = file("late-other.list", &[1, 0, 1]);
    let said = late(&[&sheet, &other, "0"]);
    assert!(
        said.0 == "ANSWER 40 0\n" && said.1.contains("without any delay, this is no list"),
        "{said:?}"
    );
    let said = late(&["--follow", &list, &sheet]);
    assert!(
        said.0 == "ANSWER 10 0\n" && said.1.starts_with("corrumai: the contents of the sheet"),
        "{said:?}"
    );
    let said = late(&["--chart", &sheet, &list, "0", "0"]);
    assert!(
        said.0.is_empty() && said.1.starts_with("ANSWER 41 0\ncorrumai: without any delay, "),
        "{said:?}"
    );
}

#[test]
fn slips_are_named() {
    for (delay, hint) in [
        ("-5", "is no number of minutes from 0 to 600; an entry can start late, and not early\n"),
        ("5min", "is no number of minutes from 0 to 600\n"),
        ("+5", "is no number of minutes from 0 to 600\n"),
        ("", "is no number of minutes from 0 to 600\n"),
        ("1.5", "is no number of minutes from 0 to 600\n"),
        ("0,1", "is no number of minutes from 0 to 600; each delay is a word of its own\n"),
    ] {
        let said = p1(&["0", delay]);
        let due = format!("corrumai: the delay '{delay}' {hint}usage: corrumai late ");
        assert!(said.0.is_empty() && said.1.starts_with(&due) && said.2 == 2, "{said:?}");
    }
    // The list was forgotten.
    let said = late(&[&example("p1.txt"), "0", "1"]);
    assert!(said.1.ends_with("; the list comes before the delays") && said.2 == 2, "{said:?}");
    // A delay that delays nothing, and a warning of the sheet.
    let text =
        "horizon 9 min\nfact a initial goal\nfact b\njob 1 idle\njob 2 one\n  need a for 2 min\n";
    let (sheet, list) =
        (file("late-idle.txt", text.as_bytes()), file("late-idle.run", b"1\n\n2 B 0 1\n2 E 0 3\n"));
    let (out, aside, status) = late(&[&sheet, &list, "5", "6"]);
    assert_eq!((out.as_str(), status), ("ANSWER 0 0\n", 0), "{aside}");
    let warning = "corrumai: warning: the delay 5 of entry 0 ('idle') delays nothing: its job has no events\n";
    assert!(aside.ends_with(warning) && aside.matches("warning: ").count() > 1, "{aside}");
    assert!(!late(&[&sheet, &list, "0", "6"]).1.contains("delays nothing"));
    // Of many entries the first are named.
    let entries: Vec<Entry> = (0..9).map(|_| Entry { job: 0, times: vec![] }).collect();
    let list = file("late-many.list", &list::encode(&parse(text.as_bytes()).unwrap(), &entries));
    let said = late(&[&sheet, &list]).1;
    assert!(
        said.contains("the list has 9 instances, and 0 delays are given; it takes one for each, "),
        "{said}"
    );
    assert!(said.ends_with("entry 7 ('idle'), ..\n"), "{said}");
    let none = file("late-none.list", &[1, 0, 0, 0]);
    let said = late(&[&sheet, &none, "0"]).1;
    assert!(
        said.ends_with("the list has 0 instances, and 1 delay is given; it takes none\n"),
        "{said}"
    );
}

const LAMP: &str = "edition 2\nhorizon 40 min\ngap 3\nfact power initial goal\nfact light\njob 1 lamp\n  set light\n  clear light\n\
                    job 2 read\n  need light for 6 min\njob 3 cut\n  clear power\njob 4 mains\n  set power\n";
const LAMP_RUN: &str = "lamp S light 0\nlamp C light 12\nread B light 3\nread E light 9\ncut C power 20\nmains S power 21\n";

/// A reason of each kind, in the sheet's own names.
#[test]
fn what_goes_wrong_is_said_in_words() {
    let (sheet, list) = (file("lamp.txt", LAMP.as_bytes()), file("lamp.run", LAMP_RUN.as_bytes()));
    let wrong = |tick: u16| format!("with these delays the run goes wrong at minute {tick}:");
    let unmarked = "with these delays no minute up to the horizon, 40, goes wrong, and the list is not a plan:".to_string();
    for (delays, tick, head, line) in [
        (
            ["0", "1", "0", "0"],
            12,
            wrong(12),
            "point 3, entry 1 ('read'): needs 'light' from minute 4 to 10, but entry 0 ('lamp') clears it at minute 12, within the \
             gap of 3 minutes after it",
        ),
        (
            ["0", "5", "0", "0"],
            12,
            wrong(12),
            "point 3, entry 1 ('read'): needs 'light' from minute 8 to 14, but entry 0 ('lamp') clears it at minute 12",
        ),
        (
            ["0", "10", "0", "0"],
            13,
            wrong(13),
            "point 3, entry 1 ('read'): needs 'light' from minute 13 to 19, set by entry 0 ('lamp') at minute 0, but cleared by \
             entry 0 ('lamp') at minute 12",
        ),
        (
            ["1", "0", "0", "0"],
            3,
            wrong(3),
            "point 3, entry 1 ('read'): needs 'light' from minute 3 to 9, but the first set of it, by entry 0 ('lamp') at minute 1, \
             serves other entries from minute 4 on",
        ),
        (
            ["0", "0", "1", "0"],
            21,
            wrong(21),
            "point 2, minute 21: entry 3 ('mains') sets 'power' and entry 2 ('cut') clears in one minute",
        ),
        (
            ["0", "0", "2", "0"],
            40,
            unmarked.clone(),
            "point 4: 'power' is a goal, initial, but cleared by entry 2 ('cut') at minute 22; set by entry 3 ('mains') at minute 21, \
             but cleared by entry 2 ('cut') at minute 22",
        ),
        (
            ["0", "0", "0", "20"],
            40,
            unmarked,
            "entry 3 ('mains'): set 'power' is at minute 41, past the horizon, 40",
        ),
    ] {
        let (out, aside, status) = late(&[&[sheet.as_str(), &list], &delays[..]].concat());
        assert_eq!((out, status), (format!("ANSWER 41 {tick}\n"), 1), "{delays:?}");
        let aside = aside.split("corrumai: ").last().unwrap().to_string();
        assert_eq!(aside, format!("{head}\n  {line}\n"), "{delays:?}");
    }
}

/// Where its answer is not the library's, an explanation says so and gives the bare answer.
#[test]
fn an_explanation_that_fails_its_check_is_not_given() {
    let sheet = decode(&examples::p1(100).bytes()).unwrap();
    let entries = [vec![0, 5, 5], vec![6, 9, 9]].into_iter().enumerate();
    let entries: Vec<Entry> = entries.map(|(job, times)| Entry { job, times }).collect();
    let context = Context { sheet: Some(&sheet), source: None, start: None };
    let lies = [
        Proved { late: |_, _, _| (0, 0), ..proved() },
        Proved { late: |_, _, _| (41, 5), ..proved() },
        Proved { late: |_, _, _| (41, 100), ..proved() },
    ];
    for lie in lies {
        let late = explain::late(&encode(&sheet), &sheet, &entries, &[1, 0], &lie);
        assert_eq!(
            late.text(&context),
            "the explanation did not pass its check: it came to ANSWER 41 6\n"
        );
    }
}

/// A sheet in both editions with a plan for it, and delays that let events meet often.
fn any_trial(rng: &mut Rng) -> (Vec<u8>, Sheet, Vec<Entry>, Vec<u16>) {
    let size = *rng.pick(&[planned::SMALL, planned::SMALL_2]);
    let (bytes, list) = planned::plan(rng, size).bytes();
    let sheet = decode(&bytes).unwrap();
    let entries = list::decode(&sheet, &list).unwrap();
    let late = rng.below(101);
    let most = *rng.pick(&[2, 4, 12, 601]);
    let mut delay = |_: &Entry| if rng.chance(late) { rng.below(most) as u16 } else { 0 };
    let delays = entries.iter().map(&mut delay).collect();
    (bytes, sheet, entries, delays)
}

fn kind(fault: &LateFault) -> &'static str {
    match fault {
        // An instance's own clear would have broken its need without any delay.
        LateFault::Broken { entry, by, .. } if by.entry == *entry => panic!("{fault:?}"),
        LateFault::Broken { minutes, by, .. } if by.minute >= minutes.1 => "broken in the gap",
        LateFault::Broken { .. } => "broken",
        LateFault::Listed(PlanFault::Clash { .. }) => "clash",
        LateFault::Listed(PlanFault::Unserved { sources, .. }) if sources.is_empty() => "no source",
        LateFault::Listed(PlanFault::Unserved { .. }) => "spoiled",
        LateFault::Listed(PlanFault::Window { .. }) => "past the horizon",
        LateFault::Listed(PlanFault::Goal { .. }) => "goal",
        LateFault::Listed(_) => panic!("delays break nothing else: {fault:?}"),
    }
}

#[test]
fn every_reason_passes_its_check() {
    let mut rng = Rng::new(171);
    let mut kinds: BTreeMap<&str, usize> = BTreeMap::new();
    for _ in 0..12_000 {
        let (bytes, sheet, entries, delays) = any_trial(&mut rng);
        let late = explain::late(&bytes, &sheet, &entries, &delays, &proved());
        let faults =
            late.faults.as_ref().unwrap_or_else(|why| panic!("{why}: {entries:?} {delays:?}"));
        let Answer { number, .. } = late.answer;
        assert_eq!((number == 0, number == 41), (faults.is_empty(), !faults.is_empty()));
        let delayed = list::encode(&sheet, &late.entries);
        assert_eq!(proved().judge(&bytes, &delayed), Answer { number, detail: 0 });
        let context = Context { sheet: Some(&sheet), source: None, start: None };
        let lines = late.text(&context).lines().count();
        assert_eq!(lines, if number == 0 { 0 } else { 1 + faults.len().min(21) });
        *kinds.entry(faults.first().map_or("none", kind)).or_default() += 1;
    }
    say(&format!("late starts: {kinds:?}"));
    assert!(kinds.len() == 8 && kinds.values().all(|count| *count > 8), "{kinds:?}");
}

/// The facts held after a minute by what was set and cleared, a clear acting last; before minute 0, the initial facts.
fn held(sheet: &Sheet, entries: &[Entry], minute: Option<u16>) -> Vec<usize> {
    let last = |fact: usize, kind| {
        let steps = entries.iter().flat_map(|entry| entry.steps(sheet));
        let of_kind = steps.filter(move |(event, _)| (event.fact, event.kind) == (fact, kind));
        of_kind
            .map(|(_, tick)| tick)
            .filter(|tick| minute.is_some_and(|minute| *tick <= minute))
            .max()
    };
    let holds = |fact: &usize| match (last(*fact, Kind::Sets), last(*fact, Kind::Clears)) {
        (None, None) => sheet.facts[*fact].initial,
        (set, clear) => set > clear,
    };
    (0..sheet.facts.len()).filter(holds).collect()
}

/// Each line of `--follow` has the facts of its minute, and between two lines they do not change.
#[test]
fn runs_are_followed() {
    let mut rng = Rng::new(172);
    let (mut lines, mut failing) = (0, 0);
    for _ in 0..300 {
        let (bytes, sheet, entries, delays) = any_trial(&mut rng);
        let files = [
            file("followed.sheet", &bytes),
            file("followed.list", &list::encode(&sheet, &entries)),
        ];
        let mut words = vec!["--follow".to_string(), files[0].clone(), files[1].clone()];
        words.extend(delays.iter().map(u16::to_string));
        let (out, _, status) = late(&words.iter().map(String::as_str).collect::<Vec<&str>>());
        let answer = proved().late(&bytes, &list::encode(&sheet, &entries), &delays);
        let entries: Vec<Entry> =
            entries.iter().zip(&delays).map(|(entry, by)| entry.later(*by)).collect();
        let mut due: Vec<String> = Vec::new();
        let mut before = None;
        for minute in [None].into_iter().chain((0..=sheet.horizon).map(Some)) {
            let now = held(&sheet, &entries, minute);
            if before.as_ref() != Some(&now) {
                let facts = now.iter().map(|fact| format!(" {fact}")).collect::<String>();
                due.push(minute.map_or("-".to_string(), |minute| minute.to_string()) + &facts);
            }
            before = Some(now);
        }
        due.push(answer.to_string());
        assert_eq!(out, due.join("\n") + "\n", "{entries:?}");
        (lines, failing) = (lines + due.len(), failing + usize::from(status));
    }
    assert!(lines > 900 && failing > 100, "{lines} {failing}");
}

/// A run is followed through every state, also to the end of a week, and of any sheet's empty list.
#[test]
fn every_state_is_asked_for() {
    let mut rng = Rng::new(173);
    for _ in 0..40 {
        let bytes = any_sheet(&mut rng).bytes();
        let sheet = decode(&bytes).unwrap();
        let states = proved().states(&bytes, &[1, 0, 0, 0], &[]);
        let initial = (0..sheet.facts.len()).filter(|&fact| sheet.facts[fact].initial);
        let held = initial.map(|fact| 1u64 << fact).sum::<u64>();
        let is_plan = sheet.facts.iter().all(|fact| fact.initial || !fact.goal);
        let due = if is_plan { u64::from(sheet.horizon) + 2 } else { 0 };
        assert!(states == (0..due).map(|next| Run { next, held }).collect::<Vec<Run>>());
    }
}

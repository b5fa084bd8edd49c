//! Jobs without own times are absent for the planner, whatever the cause: a sheet gets what it gets without them, and no list
//! with one of them is a plan. The product is compared with itself here, with the model, and with brute force.

use corrumai_tests::brute;
use corrumai_tests::build::{list_of_rows, Spec};
use corrumai_tests::cases::examples::{P1_LIST, P5_LIST};
use corrumai_tests::cases::retired::{self, p1_and_retired};
use corrumai_tests::generate::{large, retire, tiny};
use corrumai_tests::model::list;
use corrumai_tests::model::sheet::{self, Edition, Sheet};
use corrumai_tests::planner_model::{absent_jobs, own_times, plan as model_plan, Study};
use corrumai_tests::retire::Cause;
use corrumai_tests::rng::Rng;
use corrumai_tests::wrong::of_absent_jobs;
use corrumai_tests::{judge, plan, said, say};
use std::collections::BTreeMap;
use std::fmt::Display;

/// Brute force is tried up to this many instances with own times, over all jobs.
const MOST: usize = 40;

/// How often something was seen, by name.
#[derive(Default)]
struct Tally {
    counts: BTreeMap<String, usize>,
}

impl Tally {
    fn add(&mut self, name: impl Display) {
        *self.counts.entry(name.to_string()).or_default() += 1;
    }

    fn print(&self, test: &str) {
        for (name, count) in &self.counts {
            say(&format!("retired jobs, {test}, {name}: {count}"));
        }
    }

    fn at_least(&self, least: usize, name: impl Display) {
        let count = self.counts.get(&name.to_string()).copied().unwrap_or(0);
        assert!(count >= least, "{name}: only {count}");
    }
}

fn read(spec: &Spec) -> Sheet {
    sheet::read(&spec.bytes()).expect("a retired job is no fault of form")
}

/// A tiny sheet with absent jobs, and their causes; of both editions in turn.
fn tiny_sheet(rng: &mut Rng, place: usize) -> (Spec, Vec<Cause>) {
    let generators = [tiny::sheet, tiny::sheet_2];
    some_sheet(rng, generators[place % 2])
}

fn some_sheet(rng: &mut Rng, generator: fn(&mut Rng) -> Spec) -> (Spec, Vec<Cause>) {
    loop {
        let mut spec = generator(rng);
        let causes = retire::retire(rng, &mut spec);
        if !causes.is_empty() {
            return (spec, causes);
        }
    }
}

/// Number, detail and buffer of the planner, with a long buffer and with a short one; and what the judge says of its list.
fn answers(sheet: &[u8]) -> impl PartialEq + std::fmt::Debug {
    let mut short: Vec<u8> = (0..20).collect();
    let number = plan(sheet, &mut short);
    (said(sheet, &[]), number, short)
}

/// The sheet without all its absent jobs, and without some of them, gets the same. Gives the number.
fn compare_without(spec: &Spec, absent: &[usize], rng: &mut Rng) -> u8 {
    let sheet = spec.bytes();
    let some: Vec<usize> = absent.iter().copied().filter(|_| rng.chance(50)).collect();
    for gone in [absent, &some] {
        let without = spec.clone().without(gone).bytes();
        assert_eq!(answers(&sheet), answers(&without), "{sheet:02x?}\n{without:02x?}");
    }
    let mut due = vec![0; 700];
    let answer = model_plan(&sheet, &mut due);
    let found = said(&sheet, &[]);
    assert_eq!(found.planned, answer, "product (left) and model\n{sheet:02x?}");
    let list = if answer.0 == 0 { answer.1 } else { 0 };
    assert_eq!(found.buffer[..list], due[..list], "product (left) and model\n{sheet:02x?}");
    answer.0
}

/// Number, list and fact are those of the sheet without its absent jobs.
#[test]
fn as_if_taken_out() {
    let mut tally = Tally::default();
    let rng = &mut Rng::new(60);
    for place in 0..16_000 {
        let large = if place % 2 == 0 { large::sheet } else { large::sheet_2 };
        let (spec, causes) =
            if place % 40 < 2 { some_sheet(rng, large) } else { tiny_sheet(rng, place) };
        let sheet = read(&spec);
        let absent = absent_jobs(&sheet);
        let number = compare_without(&spec, &absent, rng);
        tally.add(format!("answer {number}"));
        tally.add(format!("edition {}", spec.edition.number()));
        causes.iter().for_each(|cause| tally.add(format!("by {}", cause.name())));
        tally.add(if absent.len() == spec.jobs.len() { "all jobs" } else { "some jobs" });
        // Four stands for more, too.
        tally.add(format!("{} absent", absent.len().min(4)));
        let study = Study::of(&sheet);
        if absent.iter().any(|&job| study.would_be_wanted(job)) {
            tally.add(format!("answer {number}, one would be wanted"));
        }
    }
    tally.print("taken out");
    for (number, least) in [(20, 100), (21, 500), (22, 50), (1, 2_000), (0, 2_000)] {
        tally.at_least(least, format!("answer {number}"));
    }
    for (number, least) in [(20, 50), (21, 100), (22, 10), (1, 2_000), (0, 1_000)] {
        tally.at_least(least, format!("answer {number}, one would be wanted"));
    }
    [1, 2].iter().for_each(|edition| tally.at_least(5_000, format!("edition {edition}")));
    Cause::ALL.iter().for_each(|cause| tally.at_least(1_000, format!("by {}", cause.name())));
    (1..=4).for_each(|count| tally.at_least(200, format!("{count} absent")));
    ["all jobs", "some jobs"].iter().for_each(|which| tally.at_least(1_000, which));
}

/// The list with this entry more.
fn with_entry(sheet: &Sheet, list: &[u8], job: usize, ticks: &[i32]) -> Vec<u8> {
    let row = |job: usize, ticks: &[i32]| {
        (sheet.codes[job], ticks.iter().map(|&tick| tick as u16).collect())
    };
    let plan = list::read(sheet, list).expect("it was judged");
    let mut rows: Vec<(u16, Vec<u16>)> = plan.iter().map(|i| row(i.job, &i.times)).collect();
    rows.push(row(job, ticks));
    list_of_rows(&rows)
}

/// An absent job on every tick, and on ticks in a row, alone and beside the least list: no plan. Gives how many lists.
fn judge_absent(sheet: &Sheet, bytes: &[u8], least: &[u8]) -> usize {
    let mut lists = Vec::new();
    for job in absent_jobs(sheet) {
        let count = sheet.events_of(job).len() as i32;
        for (tick, step) in (0..=sheet.horizon).flat_map(|tick| [(tick, 0), (tick, 1)]) {
            let ticks: Vec<i32> = (0..count).map(|place| tick + step * place).collect();
            lists.extend([&P5_LIST, least].map(|list| with_entry(sheet, list, job, &ticks)));
        }
    }
    for list in &lists {
        assert_eq!(judge(bytes, list), (41, 0), "{bytes:02x?}\n{list:02x?}");
    }
    lists.len()
}

/// Brute force over all jobs finds what the product says of a tiny sheet with absent jobs, where it is inside the class; and
/// such sheets tell each wrong way to treat absent jobs.
#[test]
fn brute_force_over_all_jobs() {
    let mut tally = Tally::default();
    let rng = &mut Rng::new(61);
    let mut judged = 0;
    for place in 0..12_000 {
        let (spec, _) = tiny_sheet(rng, place);
        let (bytes, sheet) = (spec.bytes(), read(&spec));
        let mut buffer = vec![0; 700];
        let (number, detail) = plan(&bytes, &mut buffer);
        let least = (number == 0).then(|| buffer[..detail].to_vec());
        let entries = least.as_ref().and_then(|least| list::read(&sheet, least));
        judged += judge_absent(&sheet, &bytes, least.as_deref().unwrap_or(&P5_LIST));
        if number > 1 || !brute::compare(&sheet, entries.as_deref(), MOST) {
            continue;
        }
        tally.add(format!("compared, answer {number}"));
        for (name, wrong) in of_absent_jobs() {
            if place % 4 < 2 && wrong.plan(&bytes) != (number, detail, least.clone()) {
                tally.add(format!("wrong, {name}"));
            }
        }
    }
    tally.print("brute force");
    say(&format!("retired jobs, brute force, {judged} lists with an absent job judged"));
    [0, 1].iter().for_each(|number| tally.at_least(2_000, format!("compared, answer {number}")));
    for (name, _) in of_absent_jobs() {
        let silent = name == "a job without events is absent";
        tally.at_least(if silent { 0 } else { 20 }, format!("wrong, {name}"));
    }
    assert!(judged >= 10_000, "too few lists with an absent job");
}

fn released(spec: &Spec, job: usize, release: u16) -> Spec {
    let mut spec = spec.clone();
    spec.jobs[job].release = release;
    spec
}

/// The latest release with which a job has own times, and one tick more: it is there, and then it is not.
#[test]
fn the_last_release() {
    let mut tally = Tally::default();
    let rng = &mut Rng::new(62);
    for _ in 0..6_000 {
        let spec = tiny::sheet_2(rng);
        let job = rng.below(spec.jobs.len());
        let can_run =
            |release: &u16| own_times(&read(&released(&spec, job, *release)), job).is_some();
        let Some(latest) = (0..=spec.horizon).rev().find(can_run) else {
            continue;
        };
        let mut number = |release: u16| {
            let spec = released(&spec, job, release);
            let absent = absent_jobs(&read(&spec));
            assert_eq!(absent.contains(&job), release > latest && !spec.jobs[job].acts.is_empty());
            compare_without(&spec, &absent, rng)
        };
        let (there, gone) = (number(latest), number(latest + 1));
        tally.add(format!("{there} becomes {gone}"));
    }
    tally.print("the last release");
    for (change, least) in [("0 becomes 1", 500), ("20 becomes 0", 5), ("21 becomes 0", 5)] {
        tally.at_least(least, change);
    }
}

/// The hand-made sheets without their absent jobs.
#[test]
fn cases_taken_out() {
    let rng = &mut Rng::new(63);
    for retired in retired::cases() {
        let sheet = sheet::read(&retired.case.sheet).expect("it is well formed");
        assert_eq!(absent_jobs(&sheet), retired.absent, "{}", retired.case.name);
        let number = compare_without(&Spec::of(&sheet), &retired.absent, rng);
        assert_eq!(number, retired.case.number, "{}", retired.case.name);
    }
}

/// P1 beside a retired job has P1's plan, which 23 bytes cannot hold.
#[test]
fn room_for_p1() {
    for spec in Cause::ALL.map(p1_and_retired) {
        let both =
            if spec.edition == Edition::One { vec![spec.clone().with_gap(1)] } else { vec![] };
        for sheet in [vec![spec], both].concat().iter().map(Spec::bytes) {
            let mut buffer = [7; 25];
            assert_eq!(plan(&sheet, &mut buffer[..23]), (30, 24), "{sheet:02x?}");
            assert_eq!(buffer, [7; 25], "{sheet:02x?}");
            assert_eq!(plan(&sheet, &mut buffer), (0, 24), "{sheet:02x?}");
            assert_eq!((&buffer[..24], buffer[24]), (&P1_LIST[..], 7), "{sheet:02x?}");
        }
    }
}

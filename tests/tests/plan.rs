//! The product's planner against the model, in number, detail and every byte of the buffer.

use corrumai_tests::brute;
use corrumai_tests::build::Spec;
use corrumai_tests::cases::examples::{self, file};
use corrumai_tests::cases::{self, edition_2, hostile, ordinary};
use corrumai_tests::generate::{damage, large, planned, tiny};
use corrumai_tests::model;
use corrumai_tests::model::list::{self, Instance};
use corrumai_tests::model::sheet::{self, Sheet};
use corrumai_tests::planner_model::{verdict, NoPlan, Verdict};
use corrumai_tests::rng::Rng;
use corrumai_tests::say;
use std::collections::BTreeMap;

const TINY: usize = 100_000;
const TINY_2: usize = 40_000;
const LARGE: usize = 1_000;
const LARGE_2: usize = 500;

/// Brute force is tried up to this many instances with own times, over all jobs.
const MOST: usize = 40;

const ANSWERS: [u8; 11] = [10, 11, 12, 13, 14, 20, 21, 22, 1, 30, 0];
const REASONS: [&str; 3] = ["no ticks", "no source", "goal cleared"];

/// How often something was seen, by name; everything was answered alike by product and model.
#[derive(Default)]
struct Tally {
    answers: BTreeMap<u8, usize>,
    reasons: BTreeMap<&'static str, usize>,
    judged: usize,
}

impl Tally {
    /// Product and model agree on the sheet with several buffers. Gives the model's verdict.
    fn compare(&mut self, sheet: &[u8]) -> Verdict {
        let verdict = verdict(sheet);
        match &verdict {
            Verdict::Plan(list) => {
                let needed = list.len();
                self.try_buffers(sheet, &verdict, &[0, needed - 1, needed, needed + 1, 900]);
            }
            Verdict::NoPlan(reasons) => {
                self.add_reasons(*reasons);
                self.try_buffers(sheet, &verdict, &[900]);
            }
            Verdict::Refused(..) => self.try_buffers(sheet, &verdict, &[900]),
        }
        verdict
    }

    fn try_buffers(&mut self, sheet: &[u8], verdict: &Verdict, lengths: &[usize]) {
        for &length in lengths {
            self.try_buffer(sheet, verdict, pattern(length, 0));
            // No byte of these is the same, so that a byte written with its own value is seen.
            self.try_buffer(sheet, verdict, pattern(length, 255));
        }
    }

    fn try_buffer(&mut self, sheet: &[u8], verdict: &Verdict, mut buffer: Vec<u8>) {
        let mut expected = buffer.clone();
        let (number, detail) = due(verdict, &mut expected);
        let answer = corrumai_tests::plan(sheet, &mut buffer);
        assert_eq!(
            answer,
            (number, detail),
            "product (left) and model differ, buffer {}\nsheet {sheet:02x?}",
            buffer.len()
        );
        assert_eq!(buffer, expected, "buffer after {answer:?}\nsheet {sheet:02x?}");
        *self.answers.entry(number).or_default() += 1;
    }

    fn add_reasons(&mut self, reasons: NoPlan) {
        let held = [reasons.no_ticks, reasons.no_source, reasons.goal_cleared];
        if held.iter().filter(|held| **held).count() == 1 {
            let place = held.iter().position(|held| *held).unwrap();
            *self.reasons.entry(REASONS[place]).or_default() += 1;
        }
    }

    /// Both judges give this number.
    fn judge(&mut self, sheet: &[u8], list: &[u8], number: u8) {
        assert_eq!(model::judge(sheet, list), (number, 0), "{sheet:02x?} {list:02x?}");
        assert_eq!(corrumai_tests::judge(sheet, list), (number, 0), "{sheet:02x?} {list:02x?}");
        self.judged += 1;
    }

    /// The least list is a plan. No plan lacks one of its entries or has a step earlier.
    fn judge_least(&mut self, sheet: &[u8], list: &[u8], rng: &mut Rng, most: usize) {
        self.judge(sheet, list, 0);
        let entries = usize::from(list[2]);
        let mut places: Vec<usize> = (4 + 4 * entries..list.len()).step_by(2).collect();
        rng.shuffle(&mut places);
        for &place in places.iter().take(most) {
            let tick = u16::from_le_bytes([list[place], list[place + 1]]);
            if tick > 0 {
                let mut earlier = list.to_vec();
                earlier[place..place + 2].copy_from_slice(&(tick - 1).to_le_bytes());
                self.judge(sheet, &earlier, 41);
            }
        }
        if entries > 0 {
            self.judge(sheet, &without_entry(sheet, list, rng.below(entries)), 41);
        }
    }

    fn answered(&self, number: u8) -> usize {
        self.answers.get(&number).copied().unwrap_or(0)
    }

    fn print(&self, name: &str) {
        let answers = ANSWERS.map(|number| format!("{number}: {}", self.answered(number)));
        let total: usize = self.answers.values().sum();
        say(&format!("plan, {name}: {total} compared; {}", answers.join(", ")));
        let reasons = self.reasons.iter().map(|(name, count)| format!("{name}: {count}"));
        let reasons: Vec<String> = reasons.collect();
        say(&format!("plan, {name}: no plan for {}; {} judged", reasons.join(", "), self.judged));
    }

    fn at_least(&self, answers: &[u8], least: usize) {
        for &number in answers {
            let count = self.answered(number);
            assert!(count >= least, "answer {number} was given only {count} times");
        }
    }

    fn reasons_at_least(&self, least: usize) {
        for name in REASONS {
            let count = self.reasons.get(name).copied().unwrap_or(0);
            assert!(count >= least, "answer 1, {name} alone: only {count} sheets");
        }
    }
}

/// The answer that is due; a plan goes to the front of the buffer.
fn due(verdict: &Verdict, buffer: &mut [u8]) -> (u8, usize) {
    match verdict {
        Verdict::Refused(number, detail) => (*number, *detail),
        Verdict::NoPlan(_) => (1, 0),
        Verdict::Plan(list) if list.len() > buffer.len() => (30, list.len()),
        Verdict::Plan(list) => {
            buffer[..list.len()].copy_from_slice(list);
            (0, list.len())
        }
    }
}

fn pattern(length: usize, flip: u8) -> Vec<u8> {
    (0..length).map(|place| (place * 37 + 11) as u8 ^ flip).collect()
}

fn without_entry(sheet: &[u8], list: &[u8], entry: usize) -> Vec<u8> {
    let sheet = sheet::read(sheet).unwrap();
    let mut plan = list::read(&sheet, list).unwrap();
    plan.remove(entry);
    let rows: Vec<(u16, Vec<u16>)> = plan.iter().map(|i| row(&sheet, i)).collect();
    corrumai_tests::build::list_of_rows(&rows)
}

fn row(sheet: &Sheet, instance: &Instance) -> (u16, Vec<u16>) {
    let times = instance.times.iter().map(|&tick| tick as u16);
    (sheet.codes[instance.job], times.collect())
}

#[test]
fn cases_worked_out_by_hand() {
    let mut tally = Tally::default();
    for case in cases::planned().into_iter().chain(edition_2::planned_with_every_gap()) {
        let mut buffer = pattern(100, 0);
        let mut expected = case.list.unwrap_or_default();
        expected.extend_from_slice(&buffer[expected.len()..]);
        let answer = corrumai_tests::plan(&case.sheet, &mut buffer);
        assert_eq!(answer, (case.number, case.detail), "{}", case.name);
        assert_eq!(buffer, expected, "{}", case.name);
        tally.compare(&case.sheet);
    }
    for case in cases::all() {
        tally.compare(&case.sheet);
    }
    tally.print("by hand");
}

/// P1 to P9 from their files: number, detail and list to the byte.
#[test]
fn examples_from_files() {
    let due = [
        ("p1", 24, 0, 24),
        ("p2", 24, 0, 24),
        ("p3", 24, 1, 0),
        ("p4", 23, 30, 24),
        ("p5", 4, 0, 4),
        ("p6", 28, 0, 28),
        ("p7", 28, 1, 0),
        ("p8", 28, 21, 1),
        ("p9", 28, 21, 0),
    ];
    let mut tally = Tally::default();
    for (name, length, number, detail) in due {
        let sheet = file(&format!("{name}.sheet"));
        let mut buffer = pattern(length, 0);
        assert_eq!(corrumai_tests::plan(&sheet, &mut buffer), (number, detail), "{name}");
        let listed = if name == "p2" { "p1" } else { name };
        match number {
            0 => assert_eq!(buffer, file(&format!("{listed}.list")), "{name}"),
            _ => assert_eq!(buffer, pattern(length, 0), "{name}"),
        }
        tally.compare(&sheet);
    }
    tally.print("examples");
}

/// Every length of the buffer from none to well past the list.
#[test]
fn every_buffer_length() {
    let mut tally = Tally::default();
    let p6 = examples::p6(6, true);
    let p1_2 = examples::p1(15).with_gap(3).released(&[4]);
    let full_2 = ordinary::full().with_gap(1);
    let specs =
        [examples::p1(9), examples::p5(), p6, ordinary::small(), ordinary::full(), p1_2, full_2];
    for spec in specs {
        let sheet = spec.bytes();
        let verdict = tally.compare(&sheet);
        let Verdict::Plan(list) = &verdict else {
            panic!("this sheet has a plan");
        };
        let lengths: Vec<usize> = (0..list.len() + 40).collect();
        tally.try_buffers(&sheet, &verdict, &lengths);
        tally.judge_least(&sheet, list, &mut Rng::new(11), 512);
    }
    tally.print("every buffer length");
}

#[test]
fn sheets_at_the_limits() {
    let mut tally = Tally::default();
    let hostile = [hostile::sheets(), hostile::settled(), hostile::repeated()].concat().into_iter();
    let all = hostile.chain(ordinary::repeated()).chain(ordinary::half_retired());
    let mut sheets: Vec<Vec<u8>> = all.map(|(_, spec)| spec.bytes()).collect();
    sheets.extend(hostile::retired().iter().map(|(_, spec, _)| spec.bytes()));
    sheets.push(ordinary::half_wanted().bytes());
    sheets.push(ordinary::too_short().bytes());
    for sheet in sheets {
        if let Verdict::Plan(list) = tally.compare(&sheet) {
            tally.judge_least(&sheet, &list, &mut Rng::new(12), 20);
        }
    }
    tally.print("at the limits");
}

/// Brute force finds the list, or that there is no plan, where it can try the sheet.
fn compare_with_brute(bytes: &[u8], verdict: &Verdict) -> bool {
    let sheet = sheet::read(bytes).unwrap();
    let plan = match verdict {
        Verdict::Refused(..) => return false,
        Verdict::NoPlan(_) => None,
        Verdict::Plan(list) => list::read(&sheet, list),
    };
    brute::compare(&sheet, plan.as_deref(), MOST)
}

/// Product, model and, where it can try the sheet, brute force agree. Gives whether it could.
fn compare_tiny(tally: &mut Tally, sheet: &[u8], rng: &mut Rng) -> bool {
    let verdict = tally.compare(sheet);
    let tried = compare_with_brute(sheet, &verdict);
    if let Verdict::Plan(list) = verdict {
        tally.judge_least(sheet, &list, rng, 4);
    }
    tried
}

#[test]
fn tiny_sheets() {
    let mut tally = Tally::default();
    let mut rng = Rng::new(13);
    let mut tried = 0;
    for _ in 0..TINY {
        let sheet = tiny::sheet(&mut rng).bytes();
        tried += usize::from(compare_tiny(&mut tally, &sheet, &mut rng));
    }
    tally.print("tiny sheets");
    say(&format!("plan, tiny sheets: {tried} also found by brute force"));
    tally.at_least(&[20, 21, 22, 1, 30, 0], 500);
    tally.reasons_at_least(1_000);
    assert!(tried >= TINY / 4, "brute force tried only {tried} sheets");
}

/// The product's number, detail and buffer.
fn answer(spec: &Spec) -> (u8, usize, Vec<u8>) {
    let mut buffer = pattern(900, 0);
    let (number, detail) = corrumai_tests::plan(&spec.bytes(), &mut buffer);
    (number, detail, buffer)
}

/// How often the product's answer is another one than without the gap, and than without the releases.
#[derive(Default)]
struct Changes {
    by_gap: BTreeMap<(u8, u8), usize>,
    by_release: BTreeMap<(u8, u8), usize>,
}

impl Changes {
    fn add(&mut self, spec: &Spec) {
        let with = answer(spec);
        let without_gap = answer(&spec.clone().with_gap(1));
        if with != without_gap {
            *self.by_gap.entry((without_gap.0, with.0)).or_default() += 1;
        }
        let without_release = answer(&spec.clone().released(&[0; 32]));
        if with != without_release {
            *self.by_release.entry((without_release.0, with.0)).or_default() += 1;
        }
    }

    /// Each of these at least so often.
    fn at_least(&self, by_gap: &[(u8, u8)], by_release: &[(u8, u8)], least: usize) {
        for (name, counts, due) in
            [("gap", &self.by_gap, by_gap), ("release", &self.by_release, by_release)]
        {
            let total: usize = counts.values().sum();
            say(&format!("plan: {name} changed {total} answers, from and to: {counts:?}"));
            for change in due {
                let count = counts.get(change).copied().unwrap_or(0);
                assert!(count >= least, "{name} changed an answer from and to {change:?}: {count}");
            }
        }
    }
}

/// A gap and releases change answers, a release also from outside the class to inside.
#[test]
fn tiny_sheets_of_edition_2() {
    let mut tally = Tally::default();
    let mut changes = Changes::default();
    let mut rng = Rng::new(24);
    let mut tried = 0;
    for _ in 0..TINY_2 {
        let spec = tiny::sheet_2(&mut rng);
        tried += usize::from(compare_tiny(&mut tally, &spec.bytes(), &mut rng));
        changes.add(&spec);
    }
    tally.print("tiny sheets of edition 2");
    say(&format!("plan, tiny sheets of edition 2: {tried} also found by brute force"));
    tally.at_least(&[20, 21, 22, 1, 30, 0], 300);
    tally.reasons_at_least(1_000);
    assert!(tried >= TINY_2 / 2, "brute force tried only {tried} sheets");
    let into_the_class = [(21, 0), (21, 1), (22, 0)];
    let by_release = [&[(0, 0), (0, 1)], &into_the_class[..]].concat();
    changes.at_least(&[(0, 0), (0, 1)], &by_release, 5);
}

/// Every gap byte: above 60 there is no sheet, and byte 0 gets what byte 2 gets.
#[test]
fn every_gap_byte() {
    let mut tally = Tally::default();
    let mut rng = Rng::new(35);
    for _ in 0..200 {
        let spec = tiny::sheet_2(&mut rng);
        let wide = Spec { horizon: spec.horizon + rng.below(130) as u16, ..spec };
        let verdicts: Vec<Verdict> =
            (0..=255).map(|gap| tally.compare(&wide.clone().with_gap(gap).bytes())).collect();
        assert_eq!(verdicts[0], verdicts[2], "gap bytes 0 and 2 of {wide:?}");
        let bad = |verdict: &Verdict| *verdict == Verdict::Refused(11, 0);
        assert!(verdicts[61..].iter().all(bad), "a gap above 60 of {wide:?}");
    }
    tally.print("every gap byte");
    tally.at_least(&[11, 1, 0], 1_000);
}

/// The sheet as it is, and where it has a plan also with the least horizon and one tick less.
fn compare_horizons(tally: &mut Tally, spec: &Spec, rng: &mut Rng) {
    let sheet = spec.bytes();
    let Verdict::Plan(list) = tally.compare(&sheet) else {
        return;
    };
    tally.judge_least(&sheet, &list, rng, 4);
    let first = 4 + 4 * usize::from(list[2]);
    let ticks = list[first..].chunks(2).map(|t| u16::from_le_bytes([t[0], t[1]]));
    let last = ticks.max().unwrap_or(0);
    for horizon in [last, last.saturating_sub(1)] {
        let mut tight = spec.clone();
        tight.horizon = horizon;
        tally.compare(&tight.bytes());
    }
}

#[test]
fn large_sheets() {
    let mut tally = Tally::default();
    let mut rng = Rng::new(14);
    for _ in 0..LARGE {
        let spec = large::sheet(&mut rng);
        compare_horizons(&mut tally, &spec, &mut rng);
    }
    for _ in 0..LARGE / 4 {
        tally.compare(&planned::any(&mut rng, planned::LARGE).spec.bytes());
        tally.compare(&planned::any(&mut rng, planned::SMALL).spec.bytes());
    }
    tally.print("large sheets");
    tally.at_least(&[20, 21, 22, 1, 30, 0], 40);
    tally.reasons_at_least(10);
}

#[test]
fn large_sheets_of_edition_2() {
    let mut tally = Tally::default();
    let mut changes = Changes::default();
    let mut rng = Rng::new(25);
    for _ in 0..LARGE_2 {
        let spec = large::sheet_2(&mut rng);
        compare_horizons(&mut tally, &spec, &mut rng);
        changes.add(&spec);
    }
    for _ in 0..LARGE_2 / 4 {
        tally.compare(&planned::any(&mut rng, planned::LARGE_2).spec.bytes());
        tally.compare(&planned::any(&mut rng, planned::SMALL_2).spec.bytes());
    }
    tally.print("large sheets of edition 2");
    tally.at_least(&[20, 21, 22, 1, 30, 0], 10);
    changes.at_least(&[(0, 0)], &[(0, 0), (0, 1)], 5);
}

/// Every byte of the sheet changed to each of these, and every truncation.
fn every_byte(tally: &mut Tally, sheet: &[u8], more: &[u8]) {
    let mut changed = sheet.to_vec();
    for place in 0..sheet.len() {
        for more in more {
            changed[place] = sheet[place].wrapping_add(*more);
            tally.compare(&changed);
        }
        changed[place] = sheet[place];
        tally.compare(&sheet[..place]);
    }
}

/// A case of the planner with answer 22, which random sheets seldom get.
fn outside_by_rule_3() -> Spec {
    let case = cases::planned().into_iter().find(|case| case.number == 22).expect("there is one");
    Spec::of(&sheet::read(&case.sheet).unwrap())
}

#[test]
fn damaged_sheets() {
    let mut tally = Tally::default();
    let mut rng = Rng::new(15);
    let all: Vec<u8> = (1..=255).collect();
    let examples = [examples::p1(9), examples::p5(), examples::p6(6, true), examples::p9()];
    for spec in examples.into_iter().chain([outside_by_rule_3()]) {
        every_byte(&mut tally, &spec.bytes(), &all);
    }
    for _ in 0..60 {
        let sheet = tiny::sheet(&mut rng).bytes();
        every_byte(&mut tally, &sheet, &[1, 2, 4, 127, 128, 254, 255]);
    }
    for _ in 0..4_000 {
        let spec = tiny::sheet(&mut rng);
        tally.compare(&damage::damaged(&mut rng, &spec));
        tally.compare(&damage::noise(&mut rng));
    }
    for _ in 0..400 {
        let spec = large::sheet(&mut rng);
        tally.compare(&damage::damaged(&mut rng, &spec));
    }
    tally.print("damaged sheets");
    tally.at_least(&ANSWERS, 100);
    tally.at_least(&[10, 11, 12, 13, 14], 1_000);
}

#[test]
fn damaged_sheets_of_edition_2() {
    let mut tally = Tally::default();
    let mut rng = Rng::new(26);
    let all: Vec<u8> = (1..=255).collect();
    let p1 = examples::p1(15).revised(3, 258).released(&[4, 12]);
    let examples = [p1, examples::p6(8, true).with_gap(2), examples::p9().with_gap(60)];
    for spec in examples.into_iter().chain([outside_by_rule_3().with_gap(2)]) {
        every_byte(&mut tally, &spec.bytes(), &all);
    }
    for _ in 0..60 {
        let sheet = tiny::sheet_2(&mut rng).bytes();
        every_byte(&mut tally, &sheet, &[1, 2, 4, 127, 128, 254, 255]);
    }
    for _ in 0..4_000 {
        let spec = tiny::sheet_2(&mut rng);
        tally.compare(&damage::damaged(&mut rng, &spec));
    }
    for _ in 0..400 {
        let spec = large::sheet_2(&mut rng);
        tally.compare(&damage::damaged(&mut rng, &spec));
    }
    tally.print("damaged sheets of edition 2");
    tally.at_least(&ANSWERS, 100);
    tally.at_least(&[10, 11, 12, 13, 14], 1_000);
}

//! Several bounds of one pair of events: all apply. The product is compared with itself here, on sheets that say the same in
//! other rows, and with the model where rows are damaged.

use corrumai_tests::bounds::{narrowest, Pair, Span};
use corrumai_tests::build::{list_of_rows, Bodies, Spec};
use corrumai_tests::cases::examples::{self, P1_LIST};
use corrumai_tests::cases::repeated::{orders_of, p1_with};
use corrumai_tests::cases::{hostile, ordinary};
use corrumai_tests::generate::planned::{self, Size, LARGE, LARGE_2, SMALL, SMALL_2};
use corrumai_tests::generate::{damage, large, near, repeat, tiny};
use corrumai_tests::model::list::{self, Instance};
use corrumai_tests::model::sheet::{self, MAX_BOUNDS};
use corrumai_tests::planner_model::verdict;
use corrumai_tests::rng::Rng;
use corrumai_tests::{model, rewrite_model, said, say, Said};
use std::collections::BTreeMap;

const NONE: Span = (i16::MIN, i16::MAX);

/// Rows of a bound take so many bytes.
const ROW: usize = 6;

/// How often each answer was given, by name of the routine.
#[derive(Default)]
struct Tally {
    counts: BTreeMap<&'static str, BTreeMap<u8, usize>>,
}

impl Tally {
    fn add(&mut self, routine: &'static str, number: u8) {
        *self.counts.entry(routine).or_default().entry(number).or_default() += 1;
    }

    fn add_all(&mut self, said: &Said) {
        self.add("planned", said.number());
        said.judged.iter().for_each(|answer| self.add("judged", answer.0));
    }

    fn print(&self, name: &str) {
        for (routine, counts) in &self.counts {
            let total: usize = counts.values().sum();
            say(&format!("several rows, {name}: {routine} {total}: {counts:?}"));
        }
    }

    fn at_least(&self, routine: &str, numbers: &[u8], least: usize) {
        for number in numbers {
            let count =
                self.counts.get(routine).and_then(|counts| counts.get(number)).unwrap_or(&0);
            assert!(*count >= least, "{routine}: answer {number} was given only {count} times");
        }
    }
}

/// A sheet with lists for it.
type Listed = (Spec, Vec<Vec<u8>>);

/// A tiny or, one time in 100, a large sheet, in which some pairs have several rows.
fn sheet(rng: &mut Rng) -> Spec {
    let kinds: [fn(&mut Rng) -> Spec; 2] =
        if rng.chance(1) { [large::sheet, large::sheet_2] } else { [tiny::sheet, tiny::sheet_2] };
    loop {
        let mut spec = rng.pick(&kinds)(rng);
        if !spec.repeats() {
            repeat::repeat(rng, &mut spec);
        }
        if spec.repeats() {
            return spec;
        }
    }
}

/// A sheet with a plan and lists near it, in which some pairs have several rows.
fn listed(rng: &mut Rng) -> Listed {
    let sizes: [Size; 2] = if rng.chance(2) { [LARGE, LARGE_2] } else { [SMALL, SMALL_2] };
    loop {
        let size = *rng.pick(&sizes);
        let pair = planned::plan(rng, size);
        if pair.spec.repeats() {
            let (sheet, list) = pair.bytes();
            let misses = (0..6).map(|_| near::miss(rng, &pair));
            let misses = misses.filter(|miss| miss.0 == sheet).map(|miss| miss.1);
            let lists = [list].into_iter().chain(misses).collect();
            return (pair.spec, lists);
        }
    }
}

fn sheets(seed: u64, alone: usize, with_lists: usize) -> Vec<Listed> {
    let rng = &mut Rng::new(seed);
    let mut all: Vec<Listed> = (0..alone).map(|_| (sheet(rng), Vec::new())).collect();
    all.extend((0..with_lists).map(|_| listed(rng)));
    all
}

/// The jobs with a pair whose low is above its high.
fn crossing(tightest: &Spec) -> Vec<usize> {
    let crosses = |(_, (low, high)): &(Pair, Span)| low > high;
    let jobs = tightest.jobs.iter().enumerate();
    let jobs = jobs.filter(|(_, job)| job.bounds.iter().any(crosses));
    jobs.map(|(number, _)| number).collect()
}

/// With the tightest row alone for each pair a sheet gets the same answers, byte for byte, from the product and from the
/// model. Where there is no such row, the job is absent.
#[test]
fn tightest_row_alone() {
    let mut tally = Tally::default();
    let mut absent = 0;
    for (spec, lists) in sheets(50, 12_000, 3_000) {
        let tightest = spec.clone().tightest();
        let gone = crossing(&tightest);
        if !gone.is_empty() {
            compare_crossing(&spec, tightest, &gone, &lists);
            absent += 1;
            continue;
        }
        let (sheet, tight) = (spec.bytes(), tightest.bytes());
        let due = said(&tight, &lists);
        assert_eq!(said(&sheet, &lists), due, "{sheet:02x?}\n{tight:02x?}");
        assert_eq!(verdict(&sheet), verdict(&tight), "model: {sheet:02x?}\n{tight:02x?}");
        for list in &lists {
            assert_eq!(model::judge(&sheet, list), model::judge(&tight, list), "{sheet:02x?}");
        }
        tally.add_all(&due);
    }
    tally.print("tightest row alone");
    say(&format!("several rows, tightest row alone: {absent} sheets with rows that cross"));
    tally.at_least("planned", &[20, 21, 22, 1, 0], 100);
    tally.at_least("judged", &[40, 41, 0], 1_000);
    assert!(absent >= 400, "too few rows cross");
}

/// The sheet gets what it gets without the jobs whose rows cross; no list that uses one of them is a plan.
fn compare_crossing(spec: &Spec, tightest: Spec, gone: &[usize], lists: &[Vec<u8>]) {
    let (sheet, without) = (spec.bytes(), tightest.without(gone).bytes());
    let (answers, due) = (said(&sheet, lists), said(&without, lists));
    assert_eq!(answers.planned, due.planned, "{sheet:02x?}\n{without:02x?}");
    assert_eq!(answers.buffer, due.buffer, "{sheet:02x?}\n{without:02x?}");
    assert_eq!(verdict(&sheet), verdict(&without), "model: {sheet:02x?}\n{without:02x?}");
    let read = sheet::read(&sheet).expect("rows that cross are no fault of form");
    for (place, list) in lists.iter().enumerate() {
        let uses = |plan: Vec<Instance>| plan.iter().any(|i| gone.contains(&i.job));
        let uses = list::read(&read, list).is_some_and(uses);
        let due = if uses { (41, 0) } else { due.judged[place] };
        assert_eq!(answers.judged[place], due, "{sheet:02x?}\n{list:02x?}");
    }
    for (job, step) in gone.iter().flat_map(|job| [0, 1, 5].map(|step| (*job, step))) {
        let times = (0..spec.jobs[job].acts.len() as u16).map(|place| step * place).collect();
        let alone = list_of_rows(&[(spec.jobs[job].code, times)]);
        assert_eq!(corrumai_tests::judge(&sheet, &alone), (41, 0), "{sheet:02x?}\n{alone:02x?}");
    }
}

/// From the rows of a pair to other rows that say the same.
type Others = fn(&[Span]) -> Vec<Vec<Span>>;

/// Each pair in turn gets each of the others in the place of its rows: the answers stay.
fn compare_others(tally: &mut Tally, (mut spec, lists): Listed, others: Others) {
    let due = said(&spec.bytes(), &lists);
    for place in 0..spec.jobs.len() {
        for pair in spec.jobs[place].bounds.pairs() {
            let spans = spec.jobs[place].bounds.of(pair);
            for other in others(&spans) {
                spec.jobs[place].bounds.replace(pair, &other);
                let sheet = spec.bytes();
                assert_eq!(said(&sheet, &lists), due, "{sheet:02x?}");
                tally.add_all(&due);
            }
            spec.jobs[place].bounds.replace(pair, &spans);
        }
    }
}

/// The rows of one pair get the same answers in every order, up to four of them; more of them turned round.
#[test]
fn every_order_of_rows() {
    let mut tally = Tally::default();
    for listed in sheets(51, 2_000, 500) {
        compare_others(&mut tally, listed, |spans| {
            let turned = || vec![spans.iter().rev().copied().collect()];
            let mut orders = if spans.len() <= 4 { orders_of(spans) } else { turned() };
            orders.retain(|order| order != spans);
            orders
        });
    }
    tally.print("every order of rows");
    tally.at_least("planned", &[20, 21, 22, 1, 0], 30);
    tally.at_least("judged", &[41, 0], 1_000);
}

/// Some sheets without several rows too.
fn any_sheets(seed: u64, count: usize) -> Vec<Listed> {
    let rng = &mut Rng::new(seed);
    let mut all = sheets(seed + 1, count, count / 4);
    for _ in 0..count {
        all.push((tiny::sheet(rng), Vec::new()));
        all.push((tiny::sheet_2(rng), Vec::new()));
    }
    all.extend([ordinary::small(), examples::p6(6, true)].map(|spec| (spec, Vec::new())));
    all.extend(hostile::lists().into_iter().map(|(_, spec, list)| (spec, vec![list])));
    all.retain(|(spec, _)| spec.bound_count() < MAX_BOUNDS);
    all
}

/// A row that says nothing, anywhere among the rows of any pair, changes nothing.
#[test]
fn none_never_loosens() {
    let mut tally = Tally::default();
    for listed in any_sheets(52, 400) {
        compare_others(&mut tally, listed, |spans| {
            let places = (0..=spans.len()).step_by(1 + spans.len() / 8);
            places.map(|at| [&spans[..at], &[NONE], &spans[at..]].concat()).collect()
        });
    }
    tally.print("none never loosens");
    tally.at_least("planned", &[20, 21, 22, 1, 0], 20);
    tally.at_least("judged", &[41, 0], 1_000);
}

/// P1 with up to 253 rows for its first bound, of which one alone says the low and one the high.
#[test]
fn up_to_253_rows() {
    let most = MAX_BOUNDS - 3;
    let mut compared = 0;
    for count in 1..=most {
        let places = if count == most { 0..count } else { count - 1..count };
        for low_at in places {
            let mut spans = vec![(-2, 9); count];
            spans[low_at].0 = 5;
            spans[count - 1 - low_at].1 = 5;
            compared += compare_with_p1(&p1_with(&spans));
            compared += compare_with_p1(&p1_with(&spans).with_gap(1));
        }
    }
    say(&format!("several rows, up to {most} rows of one pair: {compared} sheets"));
    let over = p1_with(&vec![(5, 5); most + 1]);
    for sheet in [over.bytes(), over.with_gap(1).bytes()] {
        let answers = said(&sheet, &[P1_LIST.to_vec()]);
        assert_eq!((answers.planned, answers.judged), ((14, 0), vec![(14, 0); 2]));
    }
}

/// It has P1's plan, and its first need lasts neither longer nor shorter.
fn compare_with_p1(spec: &Spec) -> usize {
    let list = |length: u16| {
        let (begin, end) = (length + 1, length + 4);
        list_of_rows(&[(10, vec![0, length, length]), (20, vec![begin, end, end])])
    };
    let answers = said(&spec.bytes(), &[list(4), list(6)]);
    assert_eq!(answers.planned, (0, 24), "{spec:?}");
    assert_eq!(answers.buffer[..24], P1_LIST, "{spec:?}");
    assert_eq!(answers.judged, [(41, 0), (41, 0), (0, 0)], "{spec:?}");
    1
}

/// Every routine of the product refuses the bounds.
fn refused(sheet: &[u8]) -> bool {
    let due = [(14, 0), (14, 0)];
    let answers = said(sheet, &[]);
    let there = corrumai_tests::to_edition_2(sheet, &mut []);
    let back = corrumai_tests::to_edition_1(sheet, &mut []);
    let rewriting = if sheet[0] == 1 { there } else { back };
    [answers.planned, answers.judged[0]] == due && rewriting == (14, 0)
}

/// The pair of each row.
fn keys(bounds: &[u8]) -> Vec<[u8; 2]> {
    bounds.chunks_exact(ROW).map(|row| [row[0], row[1]]).collect()
}

/// The bounds with two of their rows exchanged, and whether that leaves each pair in its place.
fn swapped(bounds: &[u8]) -> Vec<(Vec<u8>, bool)> {
    let keys = keys(bounds);
    let places = (0..keys.len()).flat_map(|k| (0..k).map(move |m| (m, k)));
    let swap = |(one, other): (usize, usize)| {
        let mut bounds = bounds.to_vec();
        (0..ROW).for_each(|byte| bounds.swap(ROW * one + byte, ROW * other + byte));
        (bounds, keys[one] == keys[other])
    };
    places.map(swap).collect()
}

/// The bounds with one of their rows once more, and whether it stands beside its pair.
fn copied(bounds: &[u8]) -> Vec<(Vec<u8>, bool)> {
    let keys = keys(bounds);
    let places = (0..keys.len()).flat_map(|k| (0..=keys.len()).map(move |m| (k, m)));
    let copy = |(from, to): (usize, usize)| {
        let row = bounds[ROW * from..ROW * (from + 1)].to_vec();
        let mut longer = bounds.to_vec();
        longer.splice(ROW * to..ROW * to, row);
        let beside = &keys[to.saturating_sub(1)..keys.len().min(to + 1)];
        (longer, beside.contains(&keys[from]))
    };
    places.map(copy).collect()
}

/// Where rows are exchanged within a pair, or repeated beside it, nothing changes. All else is 14.
#[test]
fn every_damage_to_the_order() {
    let mut tally = Tally::default();
    for (spec, lists) in sheets(54, 2_000, 500) {
        if !(3..=14).contains(&spec.bound_count()) {
            continue;
        }
        let right = spec.bodies();
        let due = said(&right.bytes(), &lists);
        for (what, all) in [("swapped", swapped(&right.bounds)), ("copied", copied(&right.bounds))]
        {
            for (bounds, same) in all {
                let sheet = Bodies { bounds, ..right.clone() }.bytes();
                let found = if same { said(&sheet, &lists) == due } else { refused(&sheet) };
                assert!(found, "{what}, the same: {same}\n{sheet:02x?}");
                tally.add(what, if same { due.number() } else { 14 });
            }
        }
    }
    tally.print("every damage to the order");
    for what in ["swapped", "copied"] {
        tally.at_least(what, &[14, 21, 1, 0], 100);
    }
}

/// One byte of one row's pair becomes another: planner, judge and rewriting answer as the model does.
#[test]
fn every_pair_changed() {
    let mut tally = Tally::default();
    for (spec, lists) in sheets(55, 700, 200) {
        let right = spec.bodies();
        if right.bounds.len() > 14 * ROW {
            continue;
        }
        let places = (0..right.bounds.len()).filter(|place| place % ROW < 2);
        for (place, more) in places.flat_map(|place| [1, 2, 254, 255].map(|more| (place, more))) {
            let mut bodies = right.clone();
            bodies.bounds[place] = bodies.bounds[place].wrapping_add(more);
            let sheet = bodies.bytes();
            tally.add_all(&as_the_model(&sheet, &lists));
        }
    }
    tally.print("every pair changed");
    tally.at_least("planned", &[14, 21, 1, 0], 100);
    tally.at_least("judged", &[14, 41, 0], 100);
}

/// What the product says; the model says the same.
fn as_the_model(sheet: &[u8], lists: &[Vec<u8>]) -> Said {
    let answers = said(sheet, lists);
    let mut buffer = vec![0; 700];
    let due = corrumai_tests::planner_model::plan(sheet, &mut buffer);
    assert_eq!(answers.planned, due, "product (left) and model\n{sheet:02x?}");
    if due.0 == 0 {
        assert_eq!(answers.buffer[..due.1], buffer[..due.1], "{sheet:02x?}");
    }
    for (list, answer) in lists.iter().zip(&answers.judged) {
        assert_eq!(*answer, model::judge(sheet, list), "{sheet:02x?}\n{list:02x?}");
    }
    answers
}

/// Rewriting copies the rows as they stand, there and back.
#[test]
fn rewriting_keeps_the_rows() {
    let mut count = 0;
    for (spec, _) in sheets(56, 3_000, 500) {
        let old = spec.plain();
        let (bytes, bounds) = (old.bytes(), old.bodies().bounds);
        let mut buffer = vec![0; 3_000];
        let (number, length) = corrumai_tests::to_edition_2(&bytes, &mut buffer);
        assert_eq!(number, 0, "{bytes:02x?}");
        let new = buffer[..length].to_vec();
        let read = Bodies::of(&new).expect("the contents are right");
        assert_eq!(read.bounds, bounds, "{bytes:02x?}");
        let (number, length) = corrumai_tests::to_edition_1(&new, &mut buffer);
        assert_eq!((number, &buffer[..length]), (0, &bytes[..]), "there and back");
        let mut due = vec![0; 3_000];
        let answer = rewrite_model::to_edition_2(&bytes, &mut due);
        assert_eq!((answer, &due[..answer.1]), ((0, new.len()), &new[..]), "model");
        count += 1;
    }
    say(&format!("several rows, rewriting: {count} sheets there and back"));
}

/// What makes the rows of a pair worth looking at.
type Feature = (&'static str, fn(&[Span]) -> bool);

const FEATURES: [Feature; 6] = [
    ("several rows", |spans| spans.len() > 1),
    ("10 rows and more", |spans| spans.len() >= 10),
    ("low and high in two rows", |spans| !spans.contains(&narrowest(spans))),
    ("none between others", |spans| spans[1..].contains(&NONE)),
    ("tightest neither first nor last", |spans| {
        let ends = [spans[0], spans[spans.len() - 1]];
        spans.contains(&narrowest(spans)) && !ends.contains(&narrowest(spans))
    }),
    ("rows that cross", |spans| narrowest(spans).0 > narrowest(spans).1),
];

/// Of a hundred sheets of each generator at least 60 have no pair with several rows and at least 8 have one, in all the ways
/// that matter.
#[test]
fn generators_repeat_rows() {
    let plans: fn(&mut Rng) -> Spec = |rng| planned::plan(rng, SMALL_2).spec;
    let all = [
        ("tiny", tiny::sheet as fn(&mut Rng) -> Spec, 4_000),
        ("tiny, edition 2", tiny::sheet_2, 4_000),
        ("large", large::sheet, 1_000),
        ("plans", plans, 3_000),
    ];
    for (name, generator, count) in all {
        let rng = &mut Rng::new(57);
        let specs: Vec<Spec> = (0..count).map(|_| generator(rng)).collect();
        let strict = specs.iter().filter(|spec| !spec.repeats()).count();
        let has = |spec: &Spec, holds: fn(&[Span]) -> bool| {
            let mut bounds = spec.jobs.iter().map(|job| &job.bounds);
            bounds.any(|bounds| bounds.pairs().iter().any(|pair| holds(&bounds.of(*pair))))
        };
        let counts = FEATURES
            .map(|(feature, holds)| (feature, specs.iter().filter(|s| has(s, holds)).count()));
        say(&format!("several rows, {name}: of {count} sheets {strict} without, {counts:?}"));
        assert!(100 * strict >= 60 * count && 100 * counts[0].1 >= 8 * count, "{name}");
        assert!(counts.iter().all(|(_, met)| 1_000 * met >= count), "{name}: {counts:?}");
    }
}

/// Damage leaves well-formed sheets with several rows of a pair, and sheets in which nothing but the order of rows is wrong.
#[test]
fn damage_to_rows_is_common() {
    let rng = &mut Rng::new(58);
    let (mut repeated, mut disordered, count) = (0, 0, 20_000);
    for _ in 0..count {
        let spec = tiny::sheet(rng);
        let Some(damaged) = Bodies::of(&damage::damaged(rng, &spec)) else {
            continue;
        };
        let mut sorted: Vec<&[u8]> = damaged.bounds.chunks(ROW).collect();
        sorted.sort_by_key(|row| row[..row.len().min(2)].to_vec());
        let sorted = Bodies { bounds: sorted.concat(), ..damaged.clone() };
        let right = sheet::read(&sorted.bytes());
        disordered += usize::from(right.is_ok() && sheet::read(&damaged.bytes()) == Err(14));
        repeated += usize::from(!spec.repeats() && right.is_ok_and(|sheet| sheet.repeats()));
    }
    say(&format!(
        "several rows, {count} damaged sheets: {repeated} repeat, {disordered} disordered"
    ));
    assert!(100 * repeated >= count && 100 * disordered >= count, "too few");
}

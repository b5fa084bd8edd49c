//! The planner's model against a brute-force planner on tiny sheets. No product is called.

use corrumai_tests::brute;
use corrumai_tests::build::Spec;
use corrumai_tests::cases::{self, edition_2, examples};
use corrumai_tests::generate::tiny;
use corrumai_tests::model::list::{self, Instance};
use corrumai_tests::model::sheet::{self, Bound, Kind, Sheet};
use corrumai_tests::planner_model::{own_times, verdict, NoPlan, Study, Verdict};
use corrumai_tests::rng::Rng;
use corrumai_tests::say;
use corrumai_tests::wrong::{of_edition_1, of_edition_2, of_several_rows, Wrong};
use std::collections::BTreeMap;

const SHEETS: usize = 100_000;
const SHEETS_2: usize = 60_000;

/// Brute force is tried up to this many instances with own times, over all jobs.
const MOST: usize = 40;

/// And up to this many facts, each set of which is looked at.
const MOST_FACTS: usize = 10;

/// A sheet inside the class, with what the model found.
struct View<'a> {
    sheet: &'a Sheet,
    study: Study<'a>,
    /// The least list; empty if there is no plan.
    plan: Vec<Instance>,
}

impl View<'_> {
    /// The present jobs.
    fn jobs(&self, kind: Kind, fact: usize) -> Vec<usize> {
        let jobs = (0..self.sheet.codes.len()).filter(|&job| self.study.present[job]);
        jobs.filter(|&job| self.sheet.event(job, kind, fact).is_some()).collect()
    }

    fn wanted(&self, kind: Kind, fact: usize) -> Vec<usize> {
        let mut jobs = self.jobs(kind, fact);
        jobs.retain(|&job| self.study.wanted_jobs[job]);
        jobs
    }

    /// Some wanted job does both.
    fn one_job(&self, one: Kind, other: Kind, fact: usize) -> bool {
        let others = self.wanted(other, fact);
        self.wanted(one, fact).iter().any(|job| others.contains(job))
    }

    /// Some instance of the least list does both on one tick.
    fn one_tick(&self, one: Kind, other: Kind, fact: usize) -> bool {
        let tick = |instance: &Instance, kind| {
            let event = self.sheet.event(instance.job, kind, fact)?;
            let events = self.sheet.events_of(instance.job);
            Some(instance.times[events.iter().position(|k| *k == event)?])
        };
        let mut both = self.plan.iter().filter(|i| tick(i, one).is_some());
        both.any(|i| tick(i, one) == tick(i, other))
    }

    fn set_and_cleared(&self, fact: usize) -> bool {
        !self.wanted(Kind::Sets, fact).is_empty() && !self.wanted(Kind::Clears, fact).is_empty()
    }

    fn first_only(&self, fact: usize) -> bool {
        let first = self.study.cleared_first[fact] && !self.study.cleared_last[fact];
        first && self.set_and_cleared(fact)
    }

    fn initial_and_cleared(&self, fact: usize) -> bool {
        let wanted = self.study.wanted_facts[fact] && self.sheet.facts[fact].initial;
        wanted && !self.wanted(Kind::Clears, fact).is_empty()
    }
}

/// What makes a fact of a sheet worth looking at.
type Feature = (&'static str, fn(&View, usize) -> bool);

const OF_THE_SHEET: [Feature; 9] = [
    ("set and cleared, shown last", |view, fact| {
        view.set_and_cleared(fact) && view.study.cleared_last[fact]
    }),
    ("set and cleared, shown first", |view, fact| view.first_only(fact)),
    ("needed, shown first", |view, fact| {
        view.first_only(fact) && !view.wanted(Kind::Begins, fact).is_empty()
    }),
    ("set and cleared by one job", |view, fact| view.one_job(Kind::Sets, Kind::Clears, fact)),
    ("needed and cleared by one job", |view, fact| view.one_job(Kind::Begins, Kind::Clears, fact)),
    ("set and needed by one job", |view, fact| view.one_job(Kind::Sets, Kind::Begins, fact)),
    ("initial, cleared, set by an unwanted job", |view, fact| {
        let unwanted = view.jobs(Kind::Sets, fact).len() > view.wanted(Kind::Sets, fact).len();
        view.initial_and_cleared(fact) && unwanted
    }),
    ("initial, cleared, set by a wanted job", |view, fact| {
        view.initial_and_cleared(fact) && view.set_and_cleared(fact)
    }),
    ("not wanted, set and cleared", |view, fact| {
        view.set_and_cleared(fact) && !view.study.wanted_facts[fact]
    }),
];

const OF_THE_TICKS: [Feature; 2] = [
    ("own clear at the need's end", |view, fact| view.one_tick(Kind::Ends, Kind::Clears, fact)),
    ("own set at the need's begin", |view, fact| view.one_tick(Kind::Begins, Kind::Sets, fact)),
];

/// How often something was seen, by name.
#[derive(Default)]
struct Tally {
    counts: BTreeMap<String, usize>,
}

impl Tally {
    fn add(&mut self, name: &str) {
        *self.counts.entry(name.to_string()).or_default() += 1;
    }

    fn add_reasons(&mut self, reasons: NoPlan) {
        let all = [
            ("no ticks", reasons.no_ticks),
            ("no source", reasons.no_source),
            ("goal cleared", reasons.goal_cleared),
        ];
        let held: Vec<&str> = all.iter().filter(|r| r.1).map(|r| r.0).collect();
        for name in &held {
            self.add(&format!("answer 1, {name}"));
        }
        if held.len() == 1 {
            self.add(&format!("answer 1, {} alone", held[0]));
        }
    }

    fn add_features(&mut self, view: &View, answer: u8) {
        for (name, holds) in OF_THE_SHEET.iter().chain(&OF_THE_TICKS) {
            if (0..view.sheet.facts.len()).any(|fact| holds(view, fact)) {
                self.add(&format!("answer {answer}, {name}"));
            }
        }
        let wanted = view.study.wanted_jobs.iter().filter(|w| **w).count();
        self.add(&format!("answer {answer}, {wanted} wanted jobs"));
    }

    fn at_least(&self, name: &str, least: usize) {
        let count = self.counts.get(name).copied().unwrap_or(0);
        assert!(count >= least, "too few tiny sheets: {name}: {count}");
    }

    /// Sheets with absent jobs were compared, with a plan and without.
    fn absent_at_least(&self, least: usize) {
        for answer in [0, 1] {
            self.at_least(&format!("compared, absent jobs, answer {answer}"), least);
        }
    }

    /// Sheets with several bounds of a pair were compared, with a plan and without, and told so many of each planner that
    /// takes them wrong.
    fn several_rows_at_least(&self, least: usize) {
        for answer in [0, 1] {
            let name = format!("compared, several bounds of a pair, answer {answer}");
            self.at_least(&name, 10 * least);
        }
        let silent = "the judge by the first row";
        for (name, _) in of_several_rows().iter().filter(|(name, _)| *name != silent) {
            self.at_least(&format!("wrong, {name}"), least);
        }
    }

    fn print(&self, sheets: &str) {
        for (name, count) in &self.counts {
            say(&format!("{sheets}, {name}: {count}"));
        }
    }
}

/// Brute force finds what the model said of a sheet inside the class. Gives whether it could be tried.
fn compare(tally: &mut Tally, sheet: &Sheet, verdict: &Verdict) -> bool {
    let (answer, _, list) = answer(verdict);
    tally.add(&format!("answer {answer}"));
    if matches!(verdict, Verdict::Refused(..)) {
        return false;
    }
    let plan = list::read(sheet, list);
    if !brute::compare(sheet, plan.as_deref(), MOST) {
        tally.add(&format!("answer {answer}, not compared"));
        return false;
    }
    tally.add("compared");
    if sheet.repeats() {
        tally.add(&format!("compared, several bounds of a pair, answer {answer}"));
    }
    if let Verdict::NoPlan(reasons) = verdict {
        tally.add_reasons(*reasons);
    }
    let view = View { sheet, study: Study::of(sheet), plan: plan.unwrap_or_default() };
    if view.study.present.contains(&false) {
        tally.add(&format!("compared, absent jobs, answer {answer}"));
    }
    tally.add_features(&view, answer);
    true
}

#[test]
fn model_and_brute_force_agree() {
    let mut tally = Tally::default();
    let mut rng = Rng::new(7);
    let wrong = of_edition_1();
    for place in 0..SHEETS {
        let bytes = tiny::sheet(&mut rng).bytes();
        let sheet = sheet::read(&bytes).unwrap();
        let verdict = verdict(&bytes);
        if compare(&mut tally, &sheet, &verdict) {
            add_wrong(&mut tally, &wrong, &bytes, &verdict);
            if sheet.repeats() && place < SHEETS / 4 {
                add_wrong(&mut tally, &of_several_rows(), &bytes, &verdict);
            }
        }
    }
    tally.print("tiny sheets");
    tally.several_rows_at_least(200);
    for (name, _) in wrong {
        tally.at_least(&format!("wrong, {name}"), 1_000);
    }
    tally.absent_at_least(200);
    for answer in [20, 21, 22, 1, 0] {
        tally.at_least(&format!("answer {answer}"), 500);
    }
    for reason in ["no ticks", "no source", "goal cleared"] {
        tally.at_least(&format!("answer 1, {reason} alone"), 1_000);
    }
    for (name, _) in OF_THE_SHEET {
        tally.at_least(&format!("answer 1, {name}"), 100);
    }
    for (name, _) in OF_THE_SHEET.iter().chain(&OF_THE_TICKS) {
        tally.at_least(&format!("answer 0, {name}"), 100);
    }
}

/// Number, detail and list.
fn answer(verdict: &Verdict) -> (u8, usize, &[u8]) {
    match verdict {
        Verdict::Refused(number, detail) => (*number, *detail, &[]),
        Verdict::NoPlan(_) => (1, 0, &[]),
        Verdict::Plan(list) => (0, list.len(), list),
    }
}

/// Whether the model's answer is another one than for the sheet without this.
fn add_change(tally: &mut Tally, what: &str, verdict: &Verdict, without: Spec) {
    let without = corrumai_tests::planner_model::verdict(&without.bytes());
    let (before, after) = (answer(&without), answer(verdict));
    if before != after {
        tally.add(&format!("{what} changed the answer"));
        tally.add(&format!("{what} changed the answer from {} to {}", before.0, after.0));
    }
}

#[test]
fn edition_2_and_brute_force_agree() {
    let mut tally = Tally::default();
    let mut rng = Rng::new(22);
    let wrong = of_edition_2();
    for place in 0..SHEETS_2 {
        let spec = tiny::sheet_2(&mut rng);
        let bytes = spec.bytes();
        let sheet = sheet::read(&bytes).unwrap();
        let verdict = verdict(&bytes);
        let compared = compare(&mut tally, &sheet, &verdict);
        add_change(&mut tally, "gap", &verdict, spec.clone().with_gap(1));
        add_change(&mut tally, "release", &verdict, spec.released(&[0; 32]));
        if compared && place < SHEETS_2 / 6 {
            add_wrong(&mut tally, &wrong, &bytes, &verdict);
        }
        if compared && sheet.repeats() && place < SHEETS_2 / 4 {
            add_wrong(&mut tally, &of_several_rows(), &bytes, &verdict);
        }
    }
    tally.print("tiny sheets, edition 2");
    tally.several_rows_at_least(100);
    tally.absent_at_least(100);
    for answer in [20, 21, 22, 1, 0] {
        tally.at_least(&format!("answer {answer}"), 400);
    }
    tally.at_least("compared", SHEETS_2 / 2);
    for (what, from, to, least) in CHANGES {
        tally.at_least(&format!("{what} changed the answer from {from} to {to}"), least);
    }
    for (name, _) in wrong {
        tally.at_least(&format!("wrong, {name}"), 10);
    }
}

/// What gap and release must have changed, so many times at least. A gap never leads into the class or out of it, a
/// release never out of it. A release too late takes jobs out, a second setter among them.
const CHANGES: [(&str, u8, u8, usize); 8] = [
    ("gap", 0, 0, 1_000),
    ("gap", 0, 1, 300),
    ("release", 0, 0, 5_000),
    ("release", 0, 1, 500),
    ("release", 20, 0, 10),
    ("release", 21, 0, 20),
    ("release", 21, 1, 200),
    ("release", 22, 0, 10),
];

/// Which wrong planners brute force finds out by this sheet.
fn add_wrong(tally: &mut Tally, wrong: &[(&str, Wrong)], bytes: &[u8], right: &Verdict) {
    for (name, wrong) in wrong {
        let (number, detail, list) = wrong.plan(bytes);
        if (number, detail, &list.unwrap_or_default()[..]) != answer(right) {
            tally.add(&format!("wrong, {name}"));
        }
    }
}

/// Brute force agrees with the sheets worked out by hand, where it can try them.
#[test]
fn cases_worked_out_by_hand() {
    let mut tried = 0;
    let cases = cases::planned().into_iter().chain(edition_2::planned_with_every_gap());
    for case in cases.filter(|case| case.number < 10) {
        let sheet = sheet::read(&case.sheet).unwrap();
        let plan = case.list.as_ref().and_then(|list| list::read(&sheet, list));
        let small = sheet.facts.len() <= MOST_FACTS;
        tried += usize::from(small && brute::compare(&sheet, plan.as_deref(), MOST));
    }
    assert!(tried >= 60, "too few cases are small enough: {tried}");
}

/// P1 by brute force alone: the tick on which job 20 begins, if there is a plan.
#[test]
fn p1_by_brute_force() {
    let begin = |spec: Spec| {
        let sheet = sheet::read(&spec.bytes()).unwrap();
        let instances = brute::instances(&sheet, MOST).expect("P1 is small enough");
        let rows = brute::least_list(&sheet, &instances)?;
        let first = (10, [0, 5, 5].map(Some).to_vec());
        assert_eq!((rows.len(), &rows[0], rows[1].0), (2, &first, 20));
        rows[1].1[0]
    };
    assert_eq!(begin(examples::p1(9)), Some(6));
    assert_eq!(begin(examples::p1(8)), None);
    assert_eq!(begin(examples::p1(9).with_gap(1)), Some(6));
    assert_eq!(begin(examples::p1(8).with_gap(1)), None);
    assert_eq!(begin(examples::p1(10).with_gap(0)), Some(7));
    assert_eq!(begin(examples::p1(9).with_gap(0)), None);
    assert_eq!(begin(examples::p1(10).with_gap(2)), Some(7));
    assert_eq!(begin(examples::p1(9).with_gap(2)), None);
}

/// Tiny sheets of both editions in turn.
fn tiny_sheets(seed: u64, count: usize) -> impl Iterator<Item = Vec<u8>> {
    let mut rng = Rng::new(seed);
    (0..count).map(move |place| {
        let sheet = if place % 2 == 0 { tiny::sheet } else { tiny::sheet_2 };
        sheet(&mut rng).bytes()
    })
}

/// Those jobs are absent for which enumeration finds no own times, and for the others the closure gives the greatest
/// differences over all own times.
#[test]
fn closure_and_enumeration_agree() {
    let (mut jobs_with, mut jobs_without, mut crossing) = (0, 0, 0);
    for bytes in tiny_sheets(8, 40_000) {
        let sheet = sheet::read(&bytes).unwrap();
        let jobs = 0..sheet.codes.len();
        let all: Option<Vec<_>> = jobs.map(|job| brute::own_times(&sheet, job, MOST)).collect();
        let Some(all) = all else {
            continue;
        };
        for (job, times) in all.iter().enumerate() {
            compare_own_times(&sheet, job, times);
            jobs_with += usize::from(!times.is_empty());
            jobs_without += usize::from(times.is_empty());
            crossing += usize::from(times.is_empty() && crosses(&sheet, job));
        }
        let present: Vec<bool> = all.iter().map(|times| !times.is_empty()).collect();
        assert_eq!(Study::of(&sheet).present, present, "{sheet:?}");
    }
    say(&format!(
        "own times: {jobs_with} jobs have them, {jobs_without} have none, {crossing} by bounds of one pair"
    ));
    assert!(jobs_with >= 10_000 && jobs_without >= 100 && crossing >= 50, "too few jobs");
}

/// Two bounds of one pair of the job's events cannot both hold.
fn crosses(sheet: &Sheet, job: usize) -> bool {
    let above = |low: &Bound, high: &Bound| {
        let both = low.low.zip(high.high);
        (low.e, low.d) == (high.e, high.d) && both.is_some_and(|(low, high)| low > high)
    };
    sheet.bounds_of(job).any(|one| sheet.bounds_of(job).any(|other| above(one, other)))
}

fn compare_own_times(sheet: &Sheet, job: usize, all: &[Vec<i32>]) {
    let Some(closure) = own_times(sheet, job) else {
        assert!(all.is_empty(), "job {job} of {sheet:?}");
        return;
    };
    let count = sheet.events_of(job).len();
    for (x, y) in (0..count).flat_map(|x| (0..count).map(move |y| (x, y))) {
        let greatest = all.iter().map(|times| times[x] - times[y]).max();
        assert_eq!(Some(closure.greatest(x, y)), greatest, "{x} {y} of job {job} of {sheet:?}");
    }
}

/// The fixpoint gives the wanted jobs of the least set of facts.
#[test]
fn wanted_jobs_agree() {
    let (mut some, mut all, mut absent) = (0, 0, 0);
    for bytes in tiny_sheets(9, 40_000) {
        let sheet = sheet::read(&bytes).unwrap();
        let Some(instances) = brute::instances(&sheet, MOST) else {
            continue;
        };
        let (study, jobs) = (Study::of(&sheet), 0..sheet.codes.len());
        let wanted: Vec<usize> = jobs.clone().filter(|&job| study.wanted_jobs[job]).collect();
        assert_eq!(wanted, brute::wanted_jobs(&sheet, &instances), "{sheet:?}");
        all += usize::from(wanted.len() == sheet.codes.len());
        some += usize::from(!wanted.is_empty() && wanted.len() < sheet.codes.len());
        absent += usize::from(jobs.into_iter().any(|job| study.would_be_wanted(job)));
    }
    say(&format!(
        "wanted jobs: {some} sheets with some, {all} with all, {absent} but for an absent one"
    ));
    assert!(some >= 1_000 && all >= 1_000 && absent >= 100, "too few sheets");
}

/// The search misses no plan, and no plan needs an entry twice.
#[test]
fn search_and_every_list_agree() {
    let (mut plans, mut none) = (0, 0);
    for bytes in tiny_sheets(10, 40_000) {
        let sheet = sheet::read(&bytes).unwrap();
        let Some(instances) = brute::instances(&sheet, 8) else {
            continue;
        };
        let found = brute::in_some_plan(&sheet, &instances);
        assert_eq!(found, brute::in_some_list(&sheet, &instances, 1), "{sheet:?}");
        if instances.len() <= 5 {
            assert_eq!(found, brute::in_some_list(&sheet, &instances, 2), "{sheet:?}");
        }
        plans += usize::from(found.is_some());
        none += usize::from(found.is_none());
    }
    say(&format!("every list tried: {plans} sheets with a plan, {none} without"));
    assert!(plans >= 1_000 && none >= 1_000, "too few sheets");
}

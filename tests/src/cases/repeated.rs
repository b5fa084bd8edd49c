//! Several bounds of one pair of events, by hand: mostly P1, whose first bound says that its first need lasts 5 ticks.

use super::examples::{p1, P1_LIST, P5_LIST};
use super::planner::{self, PlannerCase};
use super::Case;
use crate::bounds::{Pair, Span};
use crate::build::{begins, bound_row, clears, ends, list_of_rows, sets, Bodies, Spec};
use crate::model::sheet::{self, MAX_BOUNDS};

const NO_LOW: i16 = i16::MIN;
const NO_HIGH: i16 = i16::MAX;
const NONE: Span = (NO_LOW, NO_HIGH);

/// The events of P1's first bound.
fn first() -> Pair {
    (ends(0), begins(0))
}

/// P1 with these rows for its first bound.
pub fn p1_with(spans: &[Span]) -> Spec {
    with_rows(&p1(100), 0, first(), spans)
}

/// The sheet with these rows for a pair of the job's events.
fn with_rows(spec: &Spec, job: usize, pair: Pair, spans: &[Span]) -> Spec {
    let mut spec = spec.clone();
    spec.jobs[job].bounds.replace(pair, spans);
    spec
}

/// The same sheet with all the rows that there may be: the bounds get looser ones before them in turn, so that each row of
/// a pair is tighter than the one before it.
pub fn filled(mut spec: Spec) -> Spec {
    let mut room = MAX_BOUNDS - spec.bound_count();
    for slack in 1.. {
        for bounds in spec.jobs.iter_mut().map(|job| &mut job.bounds) {
            for pair in bounds.pairs() {
                if room == 0 {
                    return spec;
                }
                let mut spans = bounds.of(pair);
                spans.insert(0, looser(spans[spans.len() - 1], slack));
                bounds.replace(pair, &spans);
                room -= 1;
            }
        }
    }
    unreachable!("a pair has at most 256 rows")
}

/// So many ticks looser on each side that it has.
fn looser((low, high): Span, slack: i16) -> Span {
    let low = if low == NO_LOW { low } else { (low - slack).max(-10_080) };
    (low, if high == NO_HIGH { high } else { (high + slack).min(10_080) })
}

/// A list for P1: the first need lasts so long, and the second job begins a tick later.
fn p1_list(length: u16) -> Vec<u8> {
    let end = length + 4;
    list_of_rows(&[(10, vec![0, length, length]), (20, vec![length + 1, end, end])])
}

/// Every order of these rows.
pub fn orders_of(spans: &[Span]) -> Vec<Vec<Span>> {
    if spans.is_empty() {
        return vec![Vec::new()];
    }
    let mut all = Vec::new();
    for place in 0..spans.len() {
        let mut rest = spans.to_vec();
        let first = rest.remove(place);
        all.extend(orders_of(&rest).into_iter().map(|rest| [vec![first], rest].concat()));
    }
    all
}

/// Such as "5..none, none..5".
fn words(spans: &[Span]) -> String {
    let side = |ticks| match ticks {
        NO_LOW | NO_HIGH => String::from("none"),
        ticks => ticks.to_string(),
    };
    let spans = spans.iter().map(|(low, high)| format!("{}..{}", side(*low), side(*high)));
    spans.collect::<Vec<_>>().join(", ")
}

/// The cases for the planner, in both editions.
pub fn planned() -> Vec<PlannerCase> {
    let mut cases = Vec::new();
    for (name, spec) in as_p1() {
        cases.push(planner::planned(&format!("{name}: planned"), &spec, P1_LIST.to_vec()));
    }
    for (name, spec) in crossing() {
        cases.push(planner::refused(&format!("{name}: planned"), &spec, 1, 0));
    }
    for (name, bodies, number) in bad_forms() {
        let case = planner::refused(name, &p1(100), number, 0);
        cases.push(PlannerCase { sheet: bodies.bytes(), ..case });
    }
    cases.extend(shown_orders());
    let again =
        |case: &PlannerCase| PlannerCase { sheet: in_edition_2(&case.sheet), ..case.clone() };
    let again: Vec<PlannerCase> = cases.iter().map(again).collect();
    [cases, again].concat()
}

/// The cases for the judge, in both editions.
pub fn judged() -> Vec<Case> {
    let mut cases = Vec::new();
    let mut with_ticks = |name: &str, spec: &Spec, length: u16, number| {
        let name = format!("{name}: {length} ticks");
        cases.push(Case::new(&name, spec.bytes(), p1_list(length), number));
    };
    for (name, spec) in as_p1() {
        for (length, number) in [(5, 0), (4, 41), (6, 41), (0, 41), (40, 41)] {
            with_ticks(&name, &spec, length, number);
        }
    }
    for (name, spec) in crossing() {
        [5, 6, 3, 0].iter().for_each(|length| with_ticks(&name, &spec, *length, 41));
    }
    for (name, bodies, number) in bad_forms() {
        cases.push(Case::new(name, bodies.bytes(), P1_LIST.to_vec(), number));
    }
    cases.extend(without_the_job());
    let again = |case: &Case| Case { sheet: in_edition_2(&case.sheet), ..case.clone() };
    let again: Vec<Case> = cases.iter().map(again).collect();
    [cases, again].concat()
}

/// With gap byte 1 it gets what it gets in edition 1.
pub(super) fn in_edition_2(sheet: &[u8]) -> Vec<u8> {
    Bodies::of(sheet).expect("the contents are right").with_gap(1).bytes()
}

fn named(spans: &[Span]) -> (String, Spec) {
    (format!("P1 with {}", words(spans)), p1_with(spans))
}

/// P1 with its first bound in other words: the same plan.
fn as_p1() -> Vec<(String, Spec)> {
    let mut cases = Vec::new();
    for spans in [
        &[(5, 5), (5, 5)][..],
        &[(5, NO_HIGH), (NO_LOW, 5)],
        &[(5, 9), (0, 7), (2, 5)],
        &[(5, 5), NONE],
        &[(5, NO_HIGH), NONE, (NO_LOW, 5)],
        &[(5, 10_080), (-10_080, 5)],
    ] {
        cases.extend(orders_of(spans).iter().map(|spans| named(spans)));
    }
    // time(begin) − time(end): now the high alone makes the need so long.
    let (e, d) = first();
    for spans in orders_of(&[(-9, -5), (-5, NO_HIGH)]) {
        let name = format!("P1 turned round with {}", words(&spans));
        cases.push((name, with_rows(&p1_with(&[]), 0, (d, e), &spans)));
    }
    let both_ways = with_rows(&p1(100), 0, (d, e), &[(-5, -5)]);
    cases.push((String::from("P1 and, turned round, -5..-5"), both_ways));
    cases.extend(many_rows());
    cases
}

/// P1 with as many rows as there may be, on one pair or on all four.
fn many_rows() -> Vec<(String, Spec)> {
    let last = MAX_BOUNDS - p1(100).bound_count();
    let on_one = |low_at: usize, high_at: usize| {
        let mut spans = vec![(-3, 9); last + 1];
        spans[low_at].0 = 5;
        spans[high_at].1 = 5;
        (format!("253 rows, low in {low_at}, high in {high_at}"), p1_with(&spans))
    };
    let mut on_all = p1(100);
    for job in &mut on_all.jobs {
        for pair in job.bounds.pairs() {
            let spans = [job.bounds.of(pair), vec![NONE; MAX_BOUNDS / 4 - 1]].concat();
            job.bounds.replace(pair, &spans);
        }
    }
    let places = [(0, last), (last, 0), (last, last), (0, 0), (last - 1, last / 2)];
    let cases = places.into_iter().map(|(low_at, high_at)| on_one(low_at, high_at));
    cases.chain([(String::from("64 rows of each pair"), on_all)]).collect()
}

/// P1 with rows of a pair that cannot all hold: a wanted fact is set by nobody who could run.
fn crossing() -> Vec<(String, Spec)> {
    let mut cases = Vec::new();
    for spans in [
        &[(5, 5), (6, 6)][..],
        &[(5, NO_HIGH), (NO_LOW, 4)],
        &[(3, 5), (6, 9)],
        &[(5, 5), (6, 6), NONE],
        &[(0, 9), (0, 4), (5, 9)],
    ] {
        cases.extend(orders_of(spans).iter().map(|spans| named(spans)));
    }
    let in_second = |spec: &Spec| with_rows(spec, 1, (ends(1), begins(1)), &[(3, 3), (4, 4)]);
    cases.push((String::from("3..3, 4..4 in job 1"), in_second(&p1(100))));
    let in_both = in_second(&p1_with(&[(6, 6), (5, 5)]));
    cases.push((String::from("crossing rows in both jobs"), in_both));
    // As before there were repeated bounds: (e, d) and (d, e) are two pairs.
    let (e, d) = first();
    let both_ways = with_rows(&p1(100), 0, (d, e), &[(5, 5)]);
    cases.push((String::from("P1 and, turned round, 5..5"), both_ways));
    cases
}

/// P1 with fact 1 initial, so that the second job alone is a plan, and with rows of the first job that cross.
fn without_the_job() -> Vec<Case> {
    let crossing = p1_with(&[(5, 5), (6, 6)]);
    let spec = Spec { marks: vec![1, 1, 2], ..crossing.clone() };
    let idle = Spec { marks: vec![1, 1, 0], ..crossing };
    let alone = list_of_rows(&[(20, vec![0, 3, 3])]);
    let beside = list_of_rows(&[(10, vec![0, 5, 5]), (20, vec![0, 3, 3])]);
    vec![
        Case::new("crossing rows of a job that is not listed", spec.bytes(), alone, 0),
        Case::new("crossing rows of a job that is listed", spec.bytes(), beside, 41),
        Case::new("crossing rows, no entries", idle.bytes(), P5_LIST.to_vec(), 0),
    ]
}

/// P1 with one rule of form broken.
fn bad_forms() -> Vec<(&'static str, Bodies, u8)> {
    let with = |name, change: &dyn Fn(&mut Bodies), number| {
        let mut bodies = p1(100).bodies();
        change(&mut bodies);
        (name, bodies, number)
    };
    let before = |place: usize, low, high| {
        let row = bound_row(1, 0, low, high);
        move |bodies: &mut Bodies| drop(bodies.bounds.splice(6 * place..6 * place, row))
    };
    let many = |bodies: &mut Bodies| {
        let rows = bodies.bounds.chunks_exact(6).flat_map(|row| row.repeat(MAX_BOUNDS / 4));
        bodies.bounds = rows.collect();
        bodies.bounds.extend(bound_row(5, 4, 0, 0));
    };
    let too_many = p1_with(&[(5, 5); MAX_BOUNDS - 2]).bodies();
    vec![
        with("5..5 and a row 6..5", &before(1, 6, 5), 14),
        with("a row 6..5 and 5..5", &before(0, 6, 5), 14),
        with("5..5 and a row 5..10,081", &before(1, 5, 10_081), 14),
        with("the first bound again behind the second", &before(2, 5, 5), 14),
        with("the first bound again at the end", &before(4, 5, 5), 14),
        with("the second bound before the first", &|b| b.bounds[..12].rotate_left(6), 14),
        with("the last bound before all", &|b| b.bounds.rotate_right(6), 14),
        ("257 rows, 254 of one pair", too_many, 14),
        with("257 rows of four pairs", &many, 14),
        with("codes 10 and 10", &|b| b.jobs[2] = 10, 12),
        with("the last event twice", &|b| b.events.extend([1, 2, 2]), 13),
    ]
}

/// Orders that the tighter of two rows shows and the looser one does not. Take the cleaner's clear: job 1 clears facts 0
/// and 1, and fact 0 is to show that job 0 sets fact 1 before that. It does if the clear of fact 0 comes no later after the
/// clear of fact 1 than job 0's need of fact 0 ends after its set, which is 0 ticks. With the row 0..1 alone it may come a
/// tick later, and the answer is 21 for fact 1. With 0..0 alone there is a plan, and so with both, in either order.
#[rustfmt::skip]
fn shown_orders() -> Vec<PlannerCase> {
    let of = |job, e, d| (job, (e, d));
    let all = [
        Shown { name: "the cleaner's clear", base: "an unwanted fact orders",
            of: of(1, clears(0), begins(1)), loose: (0, 1), tight: (0, 0), refusal: (21, 1) },
        Shown { name: "the end of the setter's need", base: "an unwanted fact orders",
            of: of(0, ends(0), sets(1)), loose: (-1, 0), tight: (0, 0), refusal: (21, 1) },
        Shown { name: "the end of the cleaner's need", base: "goal cleared first",
            of: of(0, ends(2), clears(0)), loose: (-1, 0), tight: (0, 0), refusal: (21, 0) },
        Shown { name: "the clear of an unwanted fact", base: "greatest and least taken apart",
            of: of(0, clears(1), clears(0)), loose: (1, 3), tight: (1, 1), refusal: (22, 1) },
    ];
    all.iter().flat_map(Shown::cases).collect()
}

/// A case of the planner whose answer hangs on one pair of a job's events: with the loose row alone it is refused so, with
/// the tight one it has a plan.
struct Shown {
    name: &'static str,
    base: &'static str,
    of: (usize, Pair),
    loose: Span,
    tight: Span,
    refusal: (u8, usize),
}

impl Shown {
    fn cases(&self) -> Vec<PlannerCase> {
        let base = planner::cases().into_iter().find(|case| case.name == self.base);
        let base = base.expect("there is one");
        // The case with 22 has no list: there all comes at once, but for the clear of the fact, a tick later.
        let list = base.list.unwrap_or_else(|| list_of_rows(&[(1, vec![0, 0, 0, 0, 1, 0])]));
        let spec = Spec::of(&sheet::read(&base.sheet).expect("it is well formed"));
        let with = |spans: &[Span]| with_rows(&spec, self.of.0, self.of.1, spans);
        let name = |what: &str| format!("{}, {what}", self.name);
        let (loose, tight) = (self.loose, self.tight);
        let (low, high) = ((tight.0, NO_HIGH), (NO_LOW, tight.1));
        let (number, detail) = self.refusal;
        let mut cases =
            vec![planner::refused(&name("loose alone"), &with(&[loose]), number, detail)];
        for (what, spans) in [
            ("tight alone", &[tight][..]),
            ("loose, tight", &[loose, tight]),
            ("tight, loose", &[tight, loose]),
            ("low, high", &[low, high]),
            ("high, low", &[high, low]),
        ] {
            cases.push(planner::planned(&name(what), &with(spans), list.clone()));
        }
        cases
    }
}

//! What a run costs, by hand: document 01's examples with rates, small sheets for one thing each, and which answer comes first.

use super::examples::{p1, p5, P1_LIST, P5_LIST};
use super::late::{p10_listed, p1_listed, p1_with_gap_2, p6_listed, p9_listed, Listed};
use crate::build::{list_of_rows, Bodies, Job, Spec};
use crate::model::sheet::MAX_HORIZON;
use crate::Bill;

/// A sheet, a list with rates, and number and bill for them.
#[derive(Clone, Debug)]
pub struct CostCase {
    pub name: String,
    pub sheet: Vec<u8>,
    pub list: Vec<u8>,
    pub rates: Vec<u32>,
    pub expected: (u8, Bill),
}

/// Rates, and number, cents and sixtieths for them.
type Answered = (&'static [u32], (u8, u64, u64));

/// Number and bill of a refusal.
const BAD_RATES: (u8, u64, u64) = (51, 0, 0);
const NO_PLAN: (u8, u64, u64) = (41, 0, 0);

pub fn cases() -> Vec<CostCase> {
    [examples(), editions(), lengths(), repeated(), of_jobs(), sums(), limits(), in_order()]
        .concat()
}

fn case(
    name: &str,
    (sheet, list): (&[u8], &[u8]),
    (rates, expected): &(&[u32], (u8, u64, u64)),
) -> CostCase {
    let (number, cents, sixtieths) = *expected;
    CostCase {
        name: format!("{name}, rates {}", shown(rates)),
        sheet: sheet.to_vec(),
        list: list.to_vec(),
        rates: rates.to_vec(),
        expected: (number, Bill { cents, sixtieths }),
    }
}

/// Of many rates the first and the last.
fn shown(rates: &[u32]) -> String {
    match rates {
        [first, _, _, .., last] if rates.len() > 3 => {
            format!("{first} to {last}, {} in all", rates.len())
        }
        rates => format!("{rates:?}"),
    }
}

fn named(name: &str, (spec, list): &Listed, answers: &[Answered]) -> Vec<CostCase> {
    let sheet = spec.bytes();
    answers.iter().map(|answered| case(name, (&sheet, list), answered)).collect()
}

/// P1: job 10 takes 5 minutes, job 20 takes 3.
fn examples() -> Vec<CostCase> {
    let exchanged = list_of_rows(&[(20, vec![6, 9, 9]), (10, vec![0, 5, 5])]);
    [
        named("P1", &p1_listed(), &P1),
        named(
            "P1 exchanged",
            &(p1(100), exchanged),
            &[
                (&[60, 60], (0, 8, 0)),
                (&[7, 11], (0, 1, 8)),
                (&[1, 0], (0, 0, 5)),
                (&[0, 1], (0, 0, 3)),
            ],
        ),
        named(
            "P10",
            &p10_listed(),
            &[
                (&[], NO_PLAN),
                (&[60, 60], NO_PLAN),
                (&[60], NO_PLAN),
                (&[60, 60, 60], NO_PLAN),
                (&[1_000_001, 0], NO_PLAN),
                (&[0, u32::MAX], NO_PLAN),
            ],
        ),
        named("P6", &p6_listed(), &[(&[10, 0], (0, 1, 0)), (&[0, 15], (0, 1, 0))]),
        named("P9", &p9_listed(), &[(&[1_000_000, 1_000_000], (0, 0, 0)), (&[60], BAD_RATES)]),
    ]
    .concat()
}

const P1: [Answered; 26] = [
    (&[60, 60], (0, 8, 0)),
    (&[7, 11], (0, 1, 8)),
    (&[6, 10], (0, 1, 0)),
    (&[1_000_000, 1_000_000], (0, 133_333, 20)),
    (&[999_999, 999_999], (0, 133_333, 12)),
    (&[1_000_000, 0], (0, 83_333, 20)),
    (&[0, 1_000_000], (0, 50_000, 0)),
    (&[0, 0], (0, 0, 0)),
    (&[1, 0], (0, 0, 5)),
    (&[0, 1], (0, 0, 3)),
    (&[1, 1], (0, 0, 8)),
    (&[12, 0], (0, 1, 0)),
    (&[4, 13], (0, 0, 59)),
    (&[7, 9], (0, 1, 2)),
    (&[1_000_001, 0], BAD_RATES),
    (&[0, 1_000_001], BAD_RATES),
    (&[u32::MAX, 0], BAD_RATES),
    (&[0, u32::MAX], BAD_RATES),
    // Small numbers in their last bytes.
    (&[60, 1 << 31], BAD_RATES),
    (&[(1 << 24) + 60, 60], BAD_RATES),
    (&[60], BAD_RATES),
    (&[], BAD_RATES),
    (&[60, 60, 60], BAD_RATES),
    (&[60, 60, 0], BAD_RATES),
    (&[60, 60, 1_000_001], BAD_RATES),
    (&[1_000_001], BAD_RATES),
];

fn editions() -> Vec<CostCase> {
    // From its release, 4, job 10 would take 5 minutes, and job 20, released at 0, 9.
    let released = setters(&[2, 2]).with_gap(60).released(&[4]);
    let released = (released, list_of_rows(&[(10, vec![6, 9]), (20, vec![7, 9])]));
    [
        named(
            "P1 with gap 2",
            &p1_with_gap_2(),
            &[(&[60, 60], (0, 8, 0)), (&[7, 11], (0, 1, 8)), (&[60], BAD_RATES)],
        ),
        named("released", &released, &[(&[1, 100], (0, 3, 23)), (&[1, 1_000_001], BAD_RATES)]),
    ]
    .concat()
}

/// Jobs 10, 20 and so on with so many sets each, as late as there may be. Every list of them is a plan.
fn setters(counts: &[usize]) -> Spec {
    let most = counts.iter().max().copied().unwrap_or(0);
    let job = |(place, count): (usize, &usize)| {
        (0..*count).fold(Job::new(10 * (place as u16 + 1)), Job::sets)
    };
    let jobs: Vec<Job> = counts.iter().enumerate().map(job).collect();
    Spec::new(MAX_HORIZON as u16, &vec![0; most], &jobs)
}

/// One job with a set for each time.
fn one(times: &[u16]) -> Listed {
    (setters(&[times.len()]), list_of_rows(&[(10, times.to_vec())]))
}

/// The minutes of one instance.
fn lengths() -> Vec<CostCase> {
    // A set before its need of an initial fact, and a clear behind it.
    let needs = Spec::new(100, &[1, 0], &[Job::new(10).needs(0).sets(1).clears(1)]);
    let needs = (needs, list_of_rows(&[(10, vec![3, 8, 1, 10])]));
    [
        named("in order", &one(&[2, 7]), &[(&[12], (0, 1, 0)), (&[1], (0, 0, 5))]),
        named("turned round", &one(&[7, 2]), &[(&[12], (0, 1, 0)), (&[1], (0, 0, 5))]),
        named("last within", &one(&[5, 1, 3]), &[(&[1], (0, 0, 4))]),
        named("first within", &one(&[5, 1, 9]), &[(&[1], (0, 0, 8))]),
        named("both at the ends", &one(&[5, 9, 5]), &[(&[1], (0, 0, 4))]),
        named("at once", &one(&[7, 7, 7]), &[(&[1_000_000], (0, 0, 0))]),
        named("one event", &one(&[7]), &[(&[1_000_000], (0, 0, 0)), (&[], BAD_RATES)]),
        named("no event", &one(&[]), &[(&[1_000_000], (0, 0, 0)), (&[1_000_001], BAD_RATES)]),
        named("from 0", &one(&[0, 3]), &[(&[1], (0, 0, 3))]),
        named("a set before and a clear behind", &needs, &[(&[1], (0, 0, 9))]),
    ]
    .concat()
}

fn repeated() -> Vec<CostCase> {
    let of = |rows: &[&[u16]]| {
        let rows: Vec<_> = rows.iter().map(|times| (10, times.to_vec())).collect();
        (setters(&[2]), list_of_rows(&rows))
    };
    let no_events = (setters(&[0]), list_of_rows(&[(10, vec![]), (10, vec![]), (10, vec![])]));
    [
        named("twice the same", &of(&[&[5, 36], &[5, 36]]), &[(&[1], (0, 1, 2))]),
        named("twice, the first longer", &of(&[&[0, 30], &[8, 10]]), &[(&[1], (0, 0, 32))]),
        named("twice, the last longer", &of(&[&[8, 10], &[30, 0]]), &[(&[1], (0, 0, 32))]),
        named("three times, apart", &of(&[&[0, 1], &[90, 80], &[50, 52]]), &[(&[1], (0, 0, 13))]),
        named("three times no event", &no_events, &[(&[1_000_000], (0, 0, 0))]),
    ]
    .concat()
}

/// Rates go by the job's number. Job 10 takes 3 minutes, 20 takes 10 and 30 takes 7.
fn of_jobs() -> Vec<CostCase> {
    let row = |code| match code {
        10 => (10, vec![0, 3]),
        20 => (20, vec![20, 10]),
        _ => (30, vec![0, 7]),
    };
    let of = |codes: &[u16]| {
        let rows: Vec<_> = codes.iter().map(|code| row(*code)).collect();
        (setters(&[2, 2, 2]), list_of_rows(&rows))
    };
    let no_jobs = (setters(&[]), P5_LIST.to_vec());
    [
        named("the last job", &of(&[30]), &[(&[1, 2, 4], (0, 0, 28)), (&[60, 0, 0], (0, 0, 0))]),
        named("the last job first", &of(&[30, 10]), &[(&[1, 2, 4], (0, 0, 31))]),
        named("the last job twice", &of(&[30, 10, 30]), &[(&[1, 2, 4], (0, 0, 59))]),
        named("more entries than jobs", &of(&[20, 20, 10, 20]), &[(&[1, 1, 90], (0, 0, 33))]),
        named(
            "the first job alone",
            &of(&[10]),
            &[
                (&[20, 7, 9], (0, 1, 0)),
                (&[20, 1_000_001, 0], BAD_RATES),
                (&[20, 0, 1_000_001], BAD_RATES),
                (&[20, 0, u32::MAX], BAD_RATES),
                (&[20], BAD_RATES),
                (&[20, 0], BAD_RATES),
            ],
        ),
        named(
            "P5 without entries",
            &(p5(), P5_LIST.to_vec()),
            &[
                (&[60, 60], (0, 0, 0)),
                (&[1_000_000, 1_000_000], (0, 0, 0)),
                (&[1_000_001, 0], BAD_RATES),
                (&[0, 1_000_001], BAD_RATES),
                (&[60], BAD_RATES),
                (&[], BAD_RATES),
            ],
        ),
        named("no jobs", &no_jobs, &[(&[], (0, 0, 0)), (&[0], BAD_RATES), (&[60], BAD_RATES)]),
    ]
    .concat()
}

/// So many instances of job 10, each from 0 to its minutes.
fn of_minutes(minutes: &[u16]) -> Listed {
    let rows: Vec<_> = minutes.iter().map(|minutes| (10, vec![*minutes, 0])).collect();
    (setters(&[2]), list_of_rows(&rows))
}

/// Formed first, and divided once.
fn sums() -> Vec<CostCase> {
    [
        named("twice 59", &of_minutes(&[59, 59]), &[(&[1], (0, 1, 58)), (&[60], (0, 118, 0))]),
        named("60 times 1", &of_minutes(&[1; 60]), &[(&[1], (0, 1, 0)), (&[59], (0, 59, 0))]),
        named("59 times 1", &of_minutes(&[1; 59]), &[(&[1], (0, 0, 59)), (&[2], (0, 1, 58))]),
        named("8,192 minutes", &of_minutes(&[8_192]), &[(&[524_288], (0, 71_582_788, 16))]),
        named("10,080 minutes", &of_minutes(&[10_080]), &[(&[1_000_000], (0, 168_000_000, 0))]),
    ]
    .concat()
}

/// As much as there may be of everything.
fn limits() -> Vec<CostCase> {
    let mut one_less = [10_080; 64];
    one_less[63] = 10_079;
    // 32 jobs, each twice, and a rate for each; then the same with the last one too high.
    let row = |k: u16| (10 * (k % 32 + 1), vec![10_080, 0]);
    let of_32 = (setters(&[2; 32]), list_of_rows(&(0..64).map(row).collect::<Vec<_>>()));
    [
        named(
            "64 of 10,080 minutes",
            &of_minutes(&[10_080; 64]),
            &[
                (&[1_000_000], (0, 10_752_000_000, 0)),
                (&[999_999], (0, 10_751_989_248, 0)),
                (&[1], (0, 10_752, 0)),
                (&[0], (0, 0, 0)),
                (&[1_000_001], BAD_RATES),
            ],
        ),
        named(
            "64, a minute less",
            &of_minutes(&one_less),
            &[(&[999_999], (0, 10_751_972_581, 21))],
        ),
        named(
            "64 of 32 jobs",
            &of_32,
            &[
                (&[1_000_000; 32], (0, 10_752_000_000, 0)),
                (&LAST_ALONE, (0, 336_000_000, 0)),
                (&LAST_TOO_HIGH, BAD_RATES),
                (&[1_000_000; 31], BAD_RATES),
                (&[1_000_000; 33], BAD_RATES),
                (&[1_000_000; 64], BAD_RATES),
            ],
        ),
    ]
    .concat()
}

const LAST_ALONE: [u32; 32] = with_last(1_000_000);
const LAST_TOO_HIGH: [u32; 32] = with_last(1_000_001);

const fn with_last(rate: u32) -> [u32; 32] {
    let mut rates = [0; 32];
    rates[31] = rate;
    rates
}

/// P1 with each fault of the sheet alone, in the order of the answers, each with the list of P1, with one that is none and with that
/// of P10; then a good sheet with those. Every one with good rates and bad ones.
fn in_order() -> Vec<CostCase> {
    type Change = fn(&mut Bodies);
    let faults: [(u8, Change); 6] = [
        (10, |bodies| bodies.edition = 3),
        (11, |bodies| bodies.facts.push(0)),
        (12, |bodies| bodies.jobs.push(0)),
        (13, |bodies| bodies.events.push(0)),
        (14, |bodies| bodies.bounds.push(0)),
        (0, |_| ()),
    ];
    let lists = [
        ("its list", 0, P1_LIST.to_vec()),
        ("no list", 40, P1_LIST[..23].to_vec()),
        ("P10's list", 41, p10_listed().1),
    ];
    let mut cases = Vec::new();
    for (fault, change) in faults {
        let mut bodies = p1(100).bodies();
        change(&mut bodies);
        for (which, number, list) in &lists {
            let number = if fault == 0 { *number } else { fault };
            let name = format!("P1 of {fault}, {which}");
            for rates in [&[60, 60][..], &[60], &[60, 60, 60], &[1_000_001, 0], &[0, u32::MAX]] {
                let good = rates == [60, 60];
                let due = match number {
                    0 if good => (0, 8, 0),
                    0 => BAD_RATES,
                    number => (number, 0, 0),
                };
                cases.push(case(&name, (&bodies.bytes(), list), &(rates, due)));
            }
        }
    }
    cases
}

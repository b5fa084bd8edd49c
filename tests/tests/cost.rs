//! What a run costs: the product against the model of N6, in number, cents and sixtieths.

use corrumai_tests::build::{list_of_instances, Job, Spec};
use corrumai_tests::cases::cost::{cases, CostCase};
use corrumai_tests::cases::examples::file;
use corrumai_tests::cases::{self, distances, edition_2};
use corrumai_tests::cost_model::{self, sum, sum_of_bill, Manner, NOTHING, RIGHT};
use corrumai_tests::generate::accepted::{self, Accepted, FAMILIES};
use corrumai_tests::generate::rates::{self, EDGES, MOST, TOO_HIGH};
use corrumai_tests::generate::{delays, near};
use corrumai_tests::late_model;
use corrumai_tests::model::list::{Instance, MAX_INSTANCES};
use corrumai_tests::model::plan::is_plan;
use corrumai_tests::model::sheet::{self, MAX_HORIZON, MAX_JOBS};
use corrumai_tests::natural::Natural;
use corrumai_tests::rng::Rng;
use corrumai_tests::tally::Tally;
use corrumai_tests::wrong::of_costs;
use corrumai_tests::{model, say, Bill};
use std::collections::BTreeMap;

/// Stands in cents and sixtieths before a call.
const OLD: Bill = Bill { cents: 0x5AA5_0FF0_3CC3_9669, sixtieths: 0x1EE1_C33C_0FF0_A55B };

/// The product's answer, which it stores over any two numbers: over the old ones, and over those that share no bit with them.
fn billed(sheet: &[u8], list: &[u8], rates: &[u32]) -> (u8, Bill) {
    let call = |mut bill: Bill| (corrumai_tests::cost(sheet, list, rates, &mut bill), bill);
    let answer = call(OLD);
    let other = call(Bill { cents: !OLD.cents, sixtieths: !OLD.sixtieths });
    let shown = || format!("sheet {sheet:02x?}\nlist {list:02x?}\nrates {rates:?}");
    assert_eq!(answer, other, "over other numbers (right)\n{}", shown());
    answer
}

#[test]
fn cases_worked_out_by_hand() {
    for case in cases() {
        let CostCase { name, sheet, list, rates, expected } = &case;
        assert_eq!(cost_model::cost(sheet, list, rates), *expected, "model: {name}");
        assert_eq!(billed(sheet, list, rates), *expected, "{name}");
    }
}

/// The examples of the request on the files of document 01.
#[test]
fn examples_from_files() {
    let cost = |sheet: &str, list: &str, rates: &[u32]| {
        let (sheet, list) = (file(&format!("{sheet}.sheet")), file(&format!("{list}.list")));
        let (number, bill) = billed(&sheet, &list, rates);
        (number, bill.cents, bill.sixtieths)
    };
    for (rates, due) in [
        (&[60, 60][..], (0, 8, 0)),
        (&[7, 11], (0, 1, 8)),
        (&[6, 10], (0, 1, 0)),
        (&[1_000_000, 1_000_000], (0, 133_333, 20)),
        (&[1_000_001, 0], (51, 0, 0)),
        (&[60], (51, 0, 0)),
    ] {
        assert_eq!(cost("p1", "p1", rates), due, "P1 {rates:?}");
        assert_eq!(cost("p1-edition2", "p1-edition2", rates), due, "P1 in edition 2 {rates:?}");
    }
    assert_eq!(cost("p10", "p10", &[]), (41, 0, 0));
    assert_eq!(cost("p5", "p5", &[60, 60]), (0, 0, 0));
}

fn shown(on: &Accepted, rates: &[u32]) -> String {
    on.shown(&format!("rates {rates:?}"))
}

/// Product and model say the same of good rates, and the bill is exactly the sum, also minute by minute.
fn compare(tally: &mut Tally, on: &Accepted, rates: &[u32]) -> Bill {
    let (number, bill) = billed(&on.sheet, &on.list, rates);
    let due = cost_model::cost(&on.sheet, &on.list, rates);
    assert_eq!((number, bill), due, "product (left) and model\n{}", shown(on, rates));
    assert_eq!(number, 0, "the rates are good\n{}", shown(on, rates));
    let lines = cost_model::lines_of(&on.said, &on.plan, rates);
    assert_eq!(sum_of_bill(bill), sum(&lines), "the sum (right)\n{}", shown(on, rates));
    let by_the_minute = cost_model::by_the_minute(&on.plan, rates);
    let exact = 60 * u128::from(bill.cents) + u128::from(bill.sixtieths);
    assert_eq!(exact, by_the_minute, "minute by minute (right)\n{}", shown(on, rates));
    assert!(bill.sixtieths < 60, "{}", shown(on, rates));
    tally.one("0");
    tally.one_if("with cents", bill.cents > 0);
    tally.one_if("with sixtieths", bill.sixtieths > 0);
    tally.one_if("nothing to pay", bill == NOTHING);
    for rate in EDGES {
        tally.one_if(&format!("a rate of {rate}"), rates.contains(&rate));
    }
    bill
}

/// Refused with this number, by product and model, and nothing to pay.
fn refuse(tally: &mut Tally, (sheet, list): (&[u8], &[u8]), rates: &[u32], due: u8) {
    let shown = || format!("sheet {sheet:02x?}\nlist {list:02x?}\nrates {rates:?}");
    assert_eq!(cost_model::cost(sheet, list, rates), (due, NOTHING), "model\n{}", shown());
    assert_eq!(billed(sheet, list, rates), (due, NOTHING), "{}", shown());
    tally.one(&due.to_string());
}

/// Bad rates for an accepted list: 51.
fn refuse_rates(tally: &mut Tally, on: &Accepted, bad: &[u32]) {
    refuse(tally, (&on.sheet, &on.list), bad, 51);
    tally.one(match bad.len().cmp(&on.said.codes.len()) {
        std::cmp::Ordering::Less => "too few rates",
        std::cmp::Ordering::Equal => "a rate too high",
        std::cmp::Ordering::Greater => "too many rates",
    });
    for rate in [MOST + 1, u32::MAX] {
        tally.one_if(&format!("a rate of {rate}"), bad.contains(&rate));
    }
}

/// What kind of list it is.
fn note(tally: &mut Tally, on: &Accepted) {
    let plan = &on.plan;
    let repeated = |entry: usize| plan[..entry].iter().any(|other| other.job == plan[entry].job);
    let of = |count: usize| plan.iter().any(|instance| instance.times.len() == count);
    let ends =
        |times: &[i32]| times.first().zip(times.last()).map_or(0, |(one, other)| other - one);
    let in_order = |i: &Instance| ends(&i.times) as u64 == cost_model::minutes(&i.times);
    tally.one("lists");
    tally.one_if("lists with a repeated job", (0..plan.len()).any(repeated));
    tally.one_if("lists with no event of an entry", of(0));
    tally.one_if("lists with one event of an entry", of(1));
    tally.one_if("lists with events out of order", !plan.iter().all(in_order));
    tally.one_if("lists that leave jobs out", jobs_of(plan).len() < on.said.codes.len());
    tally.one_if("lists without entries", plan.is_empty());
}

fn jobs_of(plan: &[Instance]) -> Vec<usize> {
    let mut jobs: Vec<usize> = plan.iter().map(|instance| instance.job).collect();
    jobs.sort();
    jobs.dedup();
    jobs
}

/// The entries in any order cost the same.
fn shuffle(tally: &mut Tally, rng: &mut Rng, on: &Accepted, (rates, bill): (&[u32], Bill)) {
    let mut plan = on.plan.clone();
    rng.shuffle(&mut plan);
    let list = list_of_instances(&on.said, &plan);
    assert_eq!(billed(&on.sheet, &list, rates), (0, bill), "shuffled\n{}", shown(on, rates));
    tally.one_if("shuffled", plan != on.plan);
}

/// Delays that the judge accepts leave the cost as it is.
fn delay(tally: &mut Tally, rng: &mut Rng, on: &Accepted, (rates, bill): (&[u32], Bill)) {
    let delays = delays::some(rng, &on.said, &on.plan);
    let Ok(tried) = late_model::tried(&on.sheet, &on.list, &delays, &late_model::RIGHT) else {
        panic!("the delays are good\n{}", shown(on, rates));
    };
    if tried.answer() == (0, 0) {
        let answer = billed(&on.sheet, &tried.bytes(), rates);
        assert_eq!(answer, (0, bill), "delays {delays:?}\n{}", shown(on, rates));
        tally.one_if("delayed", delays.iter().any(|delay| *delay > 0));
    }
}

/// The sums of two groups add up to the whole: by the model of any groups, and by the product of those that are plans.
fn split(tally: &mut Tally, rng: &mut Rng, on: &Accepted, (rates, bill): (&[u32], Bill)) {
    let marked = *rng.pick(&[10, 50, 90]);
    let (one, other): (Vec<Instance>, Vec<Instance>) =
        on.plan.iter().cloned().partition(|_| rng.chance(marked));
    let of = |group: &[Instance]| sum(&cost_model::lines_of(&on.said, group, rates));
    let whole = sum_of_bill(bill);
    assert_eq!(of(&one).plus(&of(&other)), whole, "two groups\n{}", shown(on, rates));
    tally.one_if("split", !one.is_empty() && !other.is_empty());
    let mut plans = 0;
    let mut added = Natural::default();
    for group in [&one, &other] {
        if is_plan(&on.said, group) {
            let list = list_of_instances(&on.said, group);
            let (number, part) = billed(&on.sheet, &list, rates);
            assert_eq!((number, sum_of_bill(part)), (0, of(group)), "{}", shown(on, rates));
            added = added.plus(&sum_of_bill(part));
            plans += 1;
        }
    }
    let told = plans == 2 && !one.is_empty() && !other.is_empty();
    assert!(plans < 2 || added == whole, "two plans\n{}", shown(on, rates));
    tally.one_if("split in two plans", told);
    tally.add("groups that are plans", plans);
}

fn try_rates(tally: &mut Tally, rng: &mut Rng, on: &Accepted) {
    let rates = rates::some(rng, on.said.codes.len());
    let bill = compare(tally, on, &rates);
    shuffle(tally, rng, on, (&rates, bill));
    delay(tally, rng, on, (&rates, bill));
    split(tally, rng, on, (&rates, bill));
    refuse_rates(tally, on, &rates::bad(rng, &rates));
}

/// How many rates are tried for each list.
const RATES: usize = 4;

/// How often each must be met in an edition, so that no test runs empty.
const FLOORS: [(&str, usize); 26] = [
    ("lists", 6_000),
    ("lists with a repeated job", 3_000),
    ("lists with no event of an entry", 200),
    ("lists with one event of an entry", 3_000),
    ("lists with events out of order", 2_000),
    ("lists that leave jobs out", 3_000),
    ("lists without entries", 50),
    ("0", 25_000),
    ("with cents", 10_000),
    ("with sixtieths", 10_000),
    ("nothing to pay", 3_000),
    ("a rate of 0", 5_000),
    ("a rate of 1", 3_000),
    ("a rate of 999999", 3_000),
    ("a rate of 1000000", 3_000),
    ("a rate of 1000001", 2_000),
    ("a rate of 4294967295", 2_000),
    ("51", 25_000),
    ("a rate too high", 10_000),
    ("too few rates", 3_000),
    ("too many rates", 5_000),
    ("shuffled", 10_000),
    ("delayed", 5_000),
    ("split", 10_000),
    ("split in two plans", 1_000),
    ("groups that are plans", 10_000),
];

fn agree(edition: u8) {
    let mut tally = Tally::default();
    for (place, (_, family, count)) in FAMILIES.into_iter().enumerate() {
        let rng = &mut Rng::new(160 + 10 * u64::from(edition) + place as u64);
        for _ in 0..count {
            if let Some(on) = family(rng, edition).and_then(Accepted::new) {
                note(&mut tally, &on);
                (0..RATES).for_each(|_| try_rates(&mut tally, rng, &on));
            }
        }
    }
    tally.print(&format!("costs, edition {edition}"));
    tally.at_least(&FLOORS);
}

#[test]
fn product_and_model_agree() {
    agree(1);
}

#[test]
fn product_and_model_agree_on_edition_2() {
    agree(2);
}

/// Sheets and lists that the judge refuses, with good rates and with bad ones: its number comes first.
#[test]
fn every_refusal() {
    let rng = &mut Rng::new(192);
    let mut tally = Tally::default();
    for round in 0..6_000 {
        let pair = accepted::small_pair(rng, 1 + (round % 2) as u8);
        for (sheet, list) in near::misses(rng, &pair) {
            let (due, _) = model::judge(&sheet, &list);
            let good = rates::some(rng, pair.spec.jobs.len());
            let bad = rates::bad(rng, &good);
            if due != 0 {
                refuse(&mut tally, (&sheet, &list), &good, due);
                refuse(&mut tally, (&sheet, &list), &bad, due);
            }
        }
    }
    tally.print("costs, every refusal");
    for number in [10, 11, 12, 13, 14, 40, 41] {
        tally.at_least(&[(&number.to_string(), 500)]);
    }
}

/// All that is judged by hand, with good rates and with bad ones.
#[test]
fn every_case_of_the_judge() {
    let mut tally = Tally::default();
    let all = [cases::all(), edition_2::lists_with_every_gap(), distances::cases()].concat();
    for case in all {
        let jobs = sheet::read(&case.sheet).map_or(2, |sheet| sheet.codes.len());
        let good = vec![60; jobs];
        let bad =
            [vec![60; jobs + 1], [&good[..], &[MOST + 1]].concat(), vec![MOST + 1; jobs.max(1)]];
        for rates in &bad {
            let due = if case.expected == 0 { 51 } else { case.expected };
            refuse(&mut tally, (&case.sheet, &case.list), rates, due);
        }
        let (number, bill) = billed(&case.sheet, &case.list, &good);
        let due = cost_model::cost(&case.sheet, &case.list, &good);
        assert_eq!((number, bill), due, "{}", case.name);
        assert_eq!(number, case.expected, "{}", case.name);
        tally.one(&number.to_string());
    }
    tally.print("costs, cases of the judge");
    tally.at_least(&[("0", 100), ("51", 300), ("40", 100), ("41", 300)]);
}

/// So many jobs that set two facts each; of them every list is a plan.
fn setters(jobs: usize, edition: u8) -> Spec {
    let job = |code| Job::new(code as u16).sets(0).sets(1);
    let spec = Spec::new(MAX_HORIZON as u16, &[0, 0], &(0..jobs).map(job).collect::<Vec<_>>());
    if edition == 1 {
        spec
    } else {
        spec.with_gap(60)
    }
}

/// As many instances as there may be, mostly as long as they may be.
fn full(rng: &mut Rng, edition: u8) -> Accepted {
    let jobs = *rng.pick(&[1, 2, 3, 31, MAX_JOBS]);
    let sheet = setters(jobs, edition).bytes();
    let said = sheet::read(&sheet).expect("it is well formed");
    let shortest = rng.chance(50);
    let tick = |rng: &mut Rng| *rng.pick(&[0, 1, MAX_HORIZON - 1, MAX_HORIZON]);
    let instance = |rng: &mut Rng| {
        let times = if shortest { vec![tick(rng), tick(rng)] } else { vec![MAX_HORIZON, 0] };
        Instance { job: rng.below(jobs), times }
    };
    let plan: Vec<Instance> = (0..MAX_INSTANCES).map(|_| instance(rng)).collect();
    let list = list_of_instances(&said, &plan);
    Accepted::new((sheet, list)).expect("all of them are plans")
}

/// 64 instances of up to 10,080 minutes.
#[test]
fn full_lists() {
    let rng = &mut Rng::new(193);
    let mut tally = Tally::default();
    for round in 0..400 {
        let on = full(rng, 1 + (round % 2) as u8);
        note(&mut tally, &on);
        let dearest = vec![MOST; on.said.codes.len()];
        let bill = compare(&mut tally, &on, &dearest);
        tally.one_if("10,752,000,000 cents", bill.cents == 10_752_000_000);
        tally.one_if("more than 32 bits of cents", bill.cents > u64::from(u32::MAX));
        try_rates(&mut tally, rng, &on);
    }
    tally.print("costs, full lists");
    tally.at_least(&[
        ("lists", 400),
        ("10,752,000,000 cents", 100),
        ("more than 32 bits of cents", 300),
        ("split in two plans", 300),
    ]);
}

/// Each job's rate in turn, whether the list names the job or not: at each limit the bill is due, and above it 51.
#[test]
fn every_rate() {
    let mut tally = Tally::default();
    for (edition, jobs) in [(1, MAX_JOBS), (2, MAX_JOBS), (1, 3), (2, 1)] {
        let sheet = setters(jobs, edition).bytes();
        let said = sheet::read(&sheet).expect("it is well formed");
        let instance = |job| Instance { job, times: vec![job as i32, 100] };
        let none: Vec<Instance> = Vec::new();
        let half: Vec<Instance> = (0..jobs).step_by(2).map(instance).collect();
        for plan in [none, half, (0..jobs).rev().map(instance).collect()] {
            let list = list_of_instances(&said, &plan);
            let on = Accepted::new((sheet.clone(), list)).expect("all of them are plans");
            for job in 0..jobs {
                let with = |rate| {
                    let mut rates = vec![7; jobs];
                    rates[job] = rate;
                    rates
                };
                for rate in EDGES {
                    compare(&mut tally, &on, &with(rate));
                }
                for rate in TOO_HIGH {
                    refuse_rates(&mut tally, &on, &with(rate));
                }
            }
            for count in (0..70).chain([jobs + 256, jobs + 65_536]).filter(|count| *count != jobs) {
                refuse_rates(&mut tally, &on, &vec![60; count]);
            }
        }
    }
    tally.print("costs, every rate");
    tally.at_least(&[("0", 500), ("a rate too high", 1_000), ("too few rates", 200)]);
}

/// How the names of the cases start that tell each wrong program apart.
#[rustfmt::skip]
const TOLD_BY: [(&str, &[&str]); 52] = [
    ("a minute too many", &["P1, rates [60, 60]", "one event, rates [1000000]", "three times no event"]),
    ("a minute too many, with events", &["P1, rates [1, 0]", "one event, rates [1000000]", "P9, rates [1000000"]),
    ("a minute too few", &["P1, rates [60, 60]", "in order", "59 times 1"]),
    ("last less first in sheet order", &["turned round", "last within", "twice, the last longer"]),
    ("between first and last in sheet order", &["last within", "first within", "both at the ends", "a set before"]),
    ("from tick 0", &["P1, rates [0, 1]", "released, rates [1, 100]", "at once"]),
    ("from the release", &["P1, rates [0, 1]", "released, rates [1, 100]"]),
    ("needs alone", &["in order", "a set before", "P6, rates [10, 0]"]),
    ("sets alone", &["P1, rates [1, 0]", "a set before"]),
    ("the first instance of a job alone", &["twice", "three times, apart", "the last job twice"]),
    ("the last instance of a job alone", &["twice", "three times, apart", "the last job twice"]),
    ("equal instances once", &["twice the same", "the last job twice", "60 times 1"]),
    ("a job from its first instance to its last", &["twice", "three times, apart"]),
    ("the last entry left out", &["P1, rates [0, 1]", "P1 exchanged, rates [1, 0]", "in order"]),
    ("63 entries", &["64 of 10,080 minutes, rates [1]", "64, a minute less"]),
    ("rates by entry", &["P1 exchanged, rates [7, 11]", "the last job", "more entries than jobs"]),
    ("rates by entry, one for each", &["P1 exchanged, rates [7, 11]", "twice the same", "more entries than jobs"]),
    ("the rate of the job before", &["P1, rates [7, 11]", "P1, rates [0, 1]", "the last job first"]),
    ("rates by listed job", &["the last job, rates", "the last job first", "the last job twice"]),
    ("cents rounded for each instance", &["P1, rates [7, 11]", "P1, rates [6, 10]", "twice 59, rates [1]"]),
    ("cents rounded up for each instance", &["P1, rates [1, 1]", "59 times 1, rates [1]"]),
    ("the remainder of the last instance", &["P1, rates [7, 11]", "P1, rates [1, 1]", "twice 59, rates [1]"]),
    ("remainders not carried", &["P1, rates [7, 11]", "P1, rates [6, 10]", "60 times 1, rates [1]"]),
    ("cents rounded up", &["P1, rates [7, 11]", "P1, rates [4, 13]"]),
    ("cents to the nearest", &["P1, rates [4, 13]", "twice 59, rates [1]"]),
    ("products of 32 bits", &["8,192 minutes", "10,080 minutes"]),
    ("a sum of 32 bits", &["8,192 minutes", "10,080 minutes"]),
    ("cents of 32 bits", &["64 of 10,080 minutes, rates [1000000]", "64, a minute less"]),
    ("hundredths", &["P1, rates [7, 11]", "P1, rates [1000000, 1000000]"]),
    ("sixtieths left out", &["P1, rates [7, 11]", "P1, rates [1000000, 1000000]"]),
    ("cents and sixtieths exchanged", &["P1, rates [7, 11]", "P1, rates [6, 10]"]),
    ("1,000,000 is refused", &["P1, rates [1000000, 1000000]", "P5 without entries, rates [1000000"]),
    ("1,000,001 is taken", &["P1, rates [1000001, 0]", "P1, rates [0, 1000001]", "no event, rates [1000001]"]),
    ("every rate is taken", &["P1, rates [4294967295", "P1, rates [0, 4294967295]", "P1, rates [16777276"]),
    ("rates of unlisted jobs not looked at",
        &["the first job alone, rates [20, 1000001", "the first job alone, rates [20, 0, ", "P5 without entries, rates [1000001"]),
    ("the first rate alone looked at", &["P1, rates [0, 1000001]", "64 of 32 jobs, rates 0 to 1000001"]),
    ("the last rate not looked at", &["P1, rates [0, 1000001]", "64 of 32 jobs, rates 0 to 1000001"]),
    ("too many rates taken", &["P1, rates [60, 60, 60]", "no jobs, rates [0]", "64 of 32 jobs, rates 1000000 to 1000000, 33"]),
    ("too few rates taken", &["P1, rates [60]", "P1, rates []", "64 of 32 jobs, rates 1000000 to 1000000, 31"]),
    ("rates as many as entries", &["the last job first", "the first job alone, rates [20]", "twice the same"]),
    ("no rates are refused", &["no jobs, rates []"]),
    ("any rates for an empty list", &["P5 without entries, rates [60]", "P5 without entries, rates []"]),
    ("51 before 41", &["P10, rates []", "P10, rates [60]", "P10, rates [1000001", "P1 of 0, P10's list, rates [0,"]),
    ("51 before 40", &["P1 of 0, no list, rates [60]", "P1 of 0, no list, rates [1000001"]),
    ("51 before 10 to 14", &["P1 of 10, its list, rates [1000001", "P1 of 14, P10's list, rates [0,"]),
    ("40 for the rates", &["P1, rates [60]", "P1, rates [1000001"]),
    ("50 for the rates", &["P1, rates [60]", "P1, rates [1000001"]),
    ("cents not stored with a refusal", &["P1, rates [60]", "P10", "P1 of 1", "P1 of 0, no list"]),
    ("sixtieths not stored with a refusal", &["P1, rates [60]", "P10", "P1 of 1", "P1 of 0, no list"]),
    ("nothing stored with 51", &["P1, rates [60]", "P1, rates [1000001"]),
    ("nothing stored with 41", &["P10", "P1 of 0, P10's list"]),
    ("nothing stored with a sheet's fault", &["P1 of 1"]),
];

/// The wrong program gives another answer than is due.
fn tells(case: &CostCase, wrong: &Manner) -> bool {
    cost_model::cost_by(&case.sheet, &case.list, &case.rates, OLD, wrong) != case.expected
}

/// Each wrong program is told by each of the cases that are named for it, and the right one by none.
#[test]
fn told_apart() {
    let cases = cases();
    let told_by: BTreeMap<&str, &[&str]> = TOLD_BY.into();
    for (name, wrong) in of_costs() {
        for start in told_by[name] {
            let named: Vec<_> = cases.iter().filter(|case| case.name.starts_with(start)).collect();
            assert!(!named.is_empty(), "{name}: no case {start}");
            named.iter().for_each(|case| assert!(tells(case, &wrong), "{name}: {}", case.name));
        }
    }
    for case in &cases {
        assert!(!tells(case, &RIGHT), "{}", case.name);
    }
    let count = of_costs().len();
    assert_eq!(count, told_by.len());
    say(&format!("{count} wrong ones told apart by {} cases of costs", cases.len()));
}

/// The list with good rates and with bad ones; and with bad ones a list that is no plan, one that is none, and no sheet.
fn trials(rng: &mut Rng, on: &Accepted) -> Vec<CostCase> {
    let good = rates::some(rng, on.said.codes.len());
    let bad = rates::bad(rng, &good);
    let (sheet, list) = (&on.sheet[..], &on.list[..]);
    let no_plan = on.with_a_time_above();
    let one = |sheet: &[u8], list: &[u8], rates: &[u32]| CostCase {
        name: String::new(),
        sheet: sheet.to_vec(),
        list: list.to_vec(),
        rates: rates.to_vec(),
        expected: cost_model::cost(sheet, list, rates),
    };
    vec![
        one(sheet, list, &good),
        one(sheet, list, &bad),
        one(sheet, &no_plan, &bad),
        one(sheet, &list[..list.len() - 1], &bad),
        one(&sheet[..sheet.len() - 1], list, &bad),
    ]
}

/// Random lists and rates tell each wrong program apart, often.
#[test]
fn random_lists_tell() {
    let rng = &mut Rng::new(194);
    let mut told: BTreeMap<&str, usize> = BTreeMap::new();
    for round in 0..2_000 {
        let edition = 1 + (round / 4 % 2) as u8;
        let on = match round % 4 {
            0 => full(rng, edition),
            family => {
                let families = [accepted::in_turn, accepted::small, accepted::twins];
                families[family - 1](rng, edition).and_then(Accepted::new).expect("a plan")
            }
        };
        let trials = trials(rng, &on);
        for (name, wrong) in of_costs() {
            let differs = trials.iter().any(|case| tells(case, &wrong));
            *told.entry(name).or_default() += usize::from(differs);
        }
    }
    say(&format!("costs, wrong ones told by 2,000 random lists: {told:?}"));
    assert!(told.values().all(|count| *count >= 20), "a wrong one is told too seldom");
    assert_eq!(told.len(), of_costs().len());
}

//! Wrong ways to say what a run costs: the model of N6 with one thing changed.

use crate::cost_model::{bill_of, minutes, sum, Before, Line, Manner, HOUR, NOTHING, RIGHT};
use crate::model::list::Instance;
use crate::model::sheet::{Kind, Sheet};
use crate::natural::Natural;
use crate::Bill;

pub fn of_costs() -> Vec<(&'static str, Manner)> {
    [wrong_minutes(), wrong_entries(), wrong_sums(), wrong_rates(), wrong_refusals()].concat()
}

fn wrong_minutes() -> Vec<(&'static str, Manner)> {
    let taking = |minutes| Manner { minutes, ..RIGHT };
    vec![
        ("a minute too many", taking(|_, p, e| minutes(&p[e].times) + 1)),
        (
            "a minute too many, with events",
            taking(|_, p, e| minutes(&p[e].times) + u64::from(!p[e].times.is_empty())),
        ),
        ("a minute too few", taking(|_, p, e| minutes(&p[e].times).saturating_sub(1))),
        (
            "last less first in sheet order",
            taking(|_, p, e| in_sheet_order(&p[e].times).max(0) as u64),
        ),
        (
            "between first and last in sheet order",
            taking(|_, p, e| in_sheet_order(&p[e].times).unsigned_abs().into()),
        ),
        ("from tick 0", taking(|_, p, e| p[e].times.iter().max().map_or(0, |tick| *tick as u64))),
        ("from the release", taking(from_release)),
        ("needs alone", taking(|s, p, e| of_kinds(s, &p[e], &[Kind::Begins, Kind::Ends]))),
        ("sets alone", taking(|s, p, e| of_kinds(s, &p[e], &[Kind::Sets]))),
    ]
}

fn in_sheet_order(times: &[i32]) -> i32 {
    times.last().unwrap_or(&0) - times.first().unwrap_or(&0)
}

fn from_release(sheet: &Sheet, plan: &[Instance], entry: usize) -> u64 {
    let Instance { job, times } = &plan[entry];
    times.iter().max().map_or(0, |last| (last - sheet.releases[*job]) as u64)
}

/// From the first to the last event of these kinds.
fn of_kinds(sheet: &Sheet, instance: &Instance, kinds: &[Kind]) -> u64 {
    let events = sheet.events_of(instance.job);
    let events = events.iter().zip(&instance.times);
    let kept = events.filter(|(event, _)| kinds.contains(&sheet.events[**event].kind));
    minutes(&kept.map(|(_, tick)| *tick).collect::<Vec<_>>())
}

fn wrong_entries() -> Vec<(&'static str, Manner)> {
    let passing = |minutes| Manner { minutes, ..RIGHT };
    vec![
        ("the first instance of a job alone", passing(|_, p, e| billed(p, e, is_first(p, e)))),
        ("the last instance of a job alone", passing(|_, p, e| billed(p, e, is_last(p, e)))),
        ("equal instances once", passing(|_, p, e| billed(p, e, !p[..e].contains(&p[e])))),
        ("a job from its first instance to its last", passing(|_, p, e| of_job(p, e))),
        ("the last entry left out", passing(|_, p, e| billed(p, e, e + 1 < p.len()))),
        ("63 entries", passing(|_, p, e| billed(p, e, e < 63))),
        ("rates by entry", Manner { rate_at: |_, entry| entry, ..RIGHT }),
        (
            "rates by entry, one for each",
            Manner { rate_at: |_, entry| entry, fits: |count, _, p| count == p.len(), ..RIGHT },
        ),
        ("the rate of the job before", Manner { rate_at: |p, e| p[e].job.max(1) - 1, ..RIGHT }),
        ("rates by listed job", Manner { rate_at: place_of_job, ..RIGHT }),
    ]
}

fn billed(plan: &[Instance], entry: usize, counts: bool) -> u64 {
    minutes(&plan[entry].times) * u64::from(counts)
}

fn is_first(plan: &[Instance], entry: usize) -> bool {
    !plan[..entry].iter().any(|other| other.job == plan[entry].job)
}

fn is_last(plan: &[Instance], entry: usize) -> bool {
    !plan[entry + 1..].iter().any(|other| other.job == plan[entry].job)
}

/// Billed with the first instance.
fn of_job(plan: &[Instance], entry: usize) -> u64 {
    let twins = plan.iter().filter(|other| other.job == plan[entry].job);
    let times: Vec<i32> = twins.flat_map(|other| &other.times).copied().collect();
    minutes(&times) * u64::from(is_first(plan, entry))
}

/// How many jobs with a lower number are listed.
fn place_of_job(plan: &[Instance], entry: usize) -> usize {
    let mut lower: Vec<usize> = plan.iter().map(|other| other.job).collect();
    lower.retain(|job| *job < plan[entry].job);
    lower.sort();
    lower.dedup();
    lower.len()
}

fn wrong_sums() -> Vec<(&'static str, Manner)> {
    let billing = |bill| Manner { bill, ..RIGHT };
    vec![
        ("cents rounded for each instance", billing(|lines| rounded(lines, 0))),
        ("cents rounded up for each instance", billing(|lines| rounded(lines, HOUR - 1))),
        (
            "the remainder of the last instance",
            billing(|lines| Bill { sixtieths: sixtieths_of_last(lines), ..bill_of(&sum(lines)) }),
        ),
        ("remainders not carried", billing(not_carried)),
        ("cents rounded up", billing(|lines| rounded_once(lines, HOUR - 1))),
        ("cents to the nearest", billing(|lines| rounded_once(lines, HOUR / 2))),
        ("products of 32 bits", billing(|lines| bill_of(&sum_within_32_bits(lines, true)))),
        ("a sum of 32 bits", billing(|lines| bill_of(&sum_within_32_bits(lines, false)))),
        ("cents of 32 bits", billing(cents_of_32_bits)),
        ("hundredths", billing(hundredths)),
        ("sixtieths left out", billing(|lines| Bill { sixtieths: 0, ..bill_of(&sum(lines)) })),
        ("cents and sixtieths exchanged", billing(exchanged)),
    ]
}

/// Cents and sixtieths of each line, so many sixtieths more.
fn of_each(lines: &[Line], more: u32) -> Vec<Bill> {
    let more = Natural::of(more.into());
    lines.iter().map(|line| bill_of(&sum(&[*line]).plus(&more))).collect()
}

fn rounded(lines: &[Line], more: u32) -> Bill {
    Bill { cents: of_each(lines, more).iter().map(|bill| bill.cents).sum(), ..bill_of(&sum(lines)) }
}

fn sixtieths_of_last(lines: &[Line]) -> u64 {
    of_each(lines, 0).last().map_or(0, |bill| bill.sixtieths)
}

fn not_carried(lines: &[Line]) -> Bill {
    let each = of_each(lines, 0);
    let cents = each.iter().map(|bill| bill.cents).sum();
    Bill { cents, sixtieths: each.iter().map(|bill| bill.sixtieths).sum() }
}

fn rounded_once(lines: &[Line], more: u32) -> Bill {
    let sum = sum(lines);
    Bill { cents: bill_of(&sum.plus(&Natural::of(more.into()))).cents, ..bill_of(&sum) }
}

/// The last 32 bits of each product, or of the sum.
fn sum_within_32_bits(lines: &[Line], each: bool) -> Natural {
    let product = |line: &Line| line.minutes * u64::from(line.rate);
    let whole = lines.iter().map(product);
    let last = |number: u64| u64::from(number as u32);
    Natural::of(if each { whole.map(last).sum() } else { last(whole.sum()) })
}

fn cents_of_32_bits(lines: &[Line]) -> Bill {
    let bill = bill_of(&sum(lines));
    Bill { cents: u64::from(bill.cents as u32), ..bill }
}

fn hundredths(lines: &[Line]) -> Bill {
    let bill = bill_of(&sum(lines));
    Bill { sixtieths: bill.sixtieths * 100 / u64::from(HOUR), ..bill }
}

fn exchanged(lines: &[Line]) -> Bill {
    let Bill { cents, sixtieths } = bill_of(&sum(lines));
    Bill { cents: sixtieths, sixtieths: cents }
}

fn wrong_rates() -> Vec<(&'static str, Manner)> {
    let looking = |looks_at| Manner { looks_at, ..RIGHT };
    let fitting = |fits| Manner { fits, ..RIGHT };
    vec![
        ("1,000,000 is refused", Manner { most: 999_999, ..RIGHT }),
        ("1,000,001 is taken", Manner { most: 1_000_001, ..RIGHT }),
        ("every rate is taken", looking(|_, _, _| false)),
        (
            "rates of unlisted jobs not looked at",
            looking(|place, _, plan| plan.iter().any(|instance| instance.job == place)),
        ),
        ("the first rate alone looked at", looking(|place, _, _| place == 0)),
        ("the last rate not looked at", looking(|place, sheet, _| place + 1 < sheet.codes.len())),
        ("too many rates taken", fitting(|count, sheet, _| count >= sheet.codes.len())),
        ("too few rates taken", fitting(|count, sheet, _| count <= sheet.codes.len())),
        ("rates as many as entries", fitting(|count, _, plan| count == plan.len())),
        (
            "no rates are refused",
            fitting(|count, sheet, _| count > 0 && count == sheet.codes.len()),
        ),
        ("any rates for an empty list", fitting(any_for_none)),
    ]
}

fn any_for_none(count: usize, sheet: &Sheet, plan: &[Instance]) -> bool {
    plan.is_empty() || count == sheet.codes.len()
}

fn wrong_refusals() -> Vec<(&'static str, Manner)> {
    let storing = |stores| Manner { stores, ..RIGHT };
    let saying = |says| Manner { says, ..RIGHT };
    vec![
        ("51 before 41", Manner { tests_rates: Before::Plan, ..RIGHT }),
        ("51 before 40", Manner { tests_rates: Before::Form, ..RIGHT }),
        ("51 before 10 to 14", saying(|n, rates| if n < 40 && too_high(rates) { 51 } else { n })),
        ("40 for the rates", saying(|n, _| if n == 51 { 40 } else { n })),
        ("50 for the rates", saying(|n, _| if n == 51 { 50 } else { n })),
        ("cents not stored with a refusal", storing(|_, from| Bill { sixtieths: 0, ..from })),
        ("sixtieths not stored with a refusal", storing(|_, from| Bill { cents: 0, ..from })),
        ("nothing stored with 51", storing(|n, from| if n == 51 { from } else { NOTHING })),
        ("nothing stored with 41", storing(|n, from| if n == 41 { from } else { NOTHING })),
        (
            "nothing stored with a sheet's fault",
            storing(|n, from| if n < 40 { from } else { NOTHING }),
        ),
    ]
}

fn too_high(rates: &[u32]) -> bool {
    rates.iter().any(|rate| *rate > RIGHT.most)
}

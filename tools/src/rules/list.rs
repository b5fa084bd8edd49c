//! The rules that the least list meets: own times, and the orders between jobs.

use super::orders::Orders;
use super::wanted::Wanted;
use super::{own, Rule, Why};
use crate::model::{Kind, Sheet};

/// The minutes that lie at least between a set and a clear of one fact, in one job too.
const APART: i32 = 1;

/// The rules over the events of the wanted jobs.
pub fn rules(sheet: &Sheet, wanted: &Wanted, orders: &Orders) -> Vec<Rule> {
    let jobs = (0..sheet.jobs.len()).filter(|&job| wanted.is_wanted(job));
    let mut rules: Vec<Rule> = jobs.flat_map(|job| own::rules(sheet, job)).collect();
    let (settled, apart) = ((0, sheet.gap()), (APART, APART));
    for fact in 0..sheet.facts.len() {
        let mut add = |first, second, minutes, why| {
            rules.extend(between(sheet, wanted, fact, (first, second), minutes, why));
        };
        if wanted.facts[fact].is_some() && !sheet.facts[fact].initial {
            add(Kind::Sets, Kind::Begins, settled, Why::SetBeforeNeed);
        }
        if orders.last[fact] {
            add(Kind::Sets, Kind::Clears, apart, Why::SetBeforeClear);
            add(Kind::Ends, Kind::Clears, settled, Why::NeedBeforeClear);
        }
        if orders.first[fact] {
            add(Kind::Clears, Kind::Sets, apart, Why::ClearBeforeSet);
        }
    }
    rules
}

/// Among wanted jobs, the first kind so many minutes before the second: within one job, and between two.
fn between(
    sheet: &Sheet,
    wanted: &Wanted,
    fact: usize,
    (first, second): (Kind, Kind),
    (same, other): (i32, i32),
    why: Why,
) -> Vec<Rule> {
    let events = |kind: Kind| {
        let jobs = (0..sheet.jobs.len()).filter(|&job| wanted.is_wanted(job));
        let of =
            |job: usize| Some((job, sheet.first_event(job) + sheet.jobs[job].place(kind, fact)?));
        jobs.filter_map(of).collect::<Vec<(usize, usize)>>()
    };
    let mut rules = Vec::new();
    for (one, from) in events(first) {
        for &(next, to) in &events(second) {
            let minutes = if one == next { same } else { other };
            rules.push(Rule { from: Some(from), to, minutes, why });
        }
    }
    rules
}

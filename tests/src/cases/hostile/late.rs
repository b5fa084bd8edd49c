//! Lists with delays that are dear to try. The list given is easy to judge: its entries lie apart and in order. The delays bring
//! them together, so that each need has many sets close before it that do not serve, or into an order that is slow to sort.

use super::FAR;
use crate::build::{list_of_rows, Job, Spec};
use crate::model::list::MAX_INSTANCES;

/// A list that is a plan, with delays for it.
#[derive(Clone)]
pub struct LateList {
    pub name: String,
    pub spec: Spec,
    pub list: Vec<u8>,
    pub delays: Vec<u16>,
    /// A tick at which much changes.
    pub tick: u16,
}

const COUNT: u16 = MAX_INSTANCES as u16;

/// The ticks from an entry to the next, in the list given.
const APART: u16 = 9;

/// The tick at which the last entry of the list given starts.
const LAST: u16 = APART * (COUNT - 1);

pub fn late() -> Vec<LateList> {
    let mut all = vec![
        served(2, 1, 0, |_| LAST, "64 entries on one tick"),
        served(2, 60, 0, |_| LAST, "64 entries on one tick, gap 60"),
        served(2, 12, 6, |k| LAST + 6 * column(k) / 8, "64 entries in 6 ticks, gap 12"),
        served(2, 60, 30, |k| LAST + 30 * column(k) / 8, "64 entries in 30 ticks, gap 60"),
        served(2, 60, 30, |k| LAST + (COUNT - k) / 2, "64 entries turned round, gap 60"),
        served_by_two(60, 30, |k| LAST + 30 * column(k) / 8, "the same, 510 rows"),
    ];
    for (what, role) in [("sets", sets as Role), ("clears", clears)] {
        let orders: [(&str, Start); 3] = [
            ("slow to sort", |k| COUNT + 8 * column(k) + 7 - k / 8),
            ("turned round", |k| 2 * COUNT - k),
            ("on one tick", |_| COUNT),
        ];
        for (order, to) in orders {
            all.push(changes(role, to, &format!("512 {what} {order}")));
        }
    }
    all
}

/// From 7 down to 0, again and again: rows so stay far from their places when they are in order at a distance of 8. No order of
/// 64 rows takes more steps, as far as a search could find: 1,232.
fn column(k: u16) -> u16 {
    7 - k % 8
}

/// What a job does with a fact.
type Role = fn(Job, usize) -> Job;

/// The tick at which an entry starts, delayed.
type Start = fn(u16) -> u16;

fn sets(job: Job, fact: usize) -> Job {
    job.sets(fact)
}

fn clears(job: Job, fact: usize) -> Job {
    job.clears(fact)
}

fn job(code: u16, facts: usize, role: impl Fn(Job, usize) -> Job) -> Job {
    (0..facts).fold(Job::new(code), role)
}

/// Entries that set facts, and need them so many ticks later. Each starts at the tick that `to` says.
fn served(facts: usize, gap: u8, later: u16, to: Start, name: &str) -> LateList {
    let jobs = [job(1, facts, |job, fact| job.needs(fact).sets(fact))];
    let spec = Spec::new(FAR, &vec![0; facts], &jobs).with_gap(gap);
    let rows: Vec<_> = (0..COUNT).map(|k| (1, times(facts, k, later))).collect();
    late_list(name, spec, &rows, |k| to(k) - APART * k, LAST)
}

fn times(facts: usize, k: u16, later: u16) -> Vec<u16> {
    let (set, need) = (APART * k, APART * k + later);
    [need, need, set].repeat(facts)
}

/// The same with three facts for as many entries as there is room for.
fn served_by_two(gap: u8, later: u16, to: Start, name: &str) -> LateList {
    const OF_THREE: u16 = 42;
    let both = [3, 2].map(|facts| job(facts as u16, facts, |job, fact| job.needs(fact).sets(fact)));
    let jobs = [both[1].clone(), both[0].clone()];
    let spec = Spec::new(FAR, &[0; 3], &jobs).with_gap(gap);
    let row = |k: u16| {
        let facts = if k < OF_THREE { 3 } else { 2 };
        (facts as u16, times(facts, k, later))
    };
    let rows: Vec<_> = (0..COUNT).map(row).collect();
    late_list(name, spec, &rows, |k| to(k) - APART * k, LAST)
}

/// Entries that change 8 facts each, in order.
fn changes(role: Role, to: Start, name: &str) -> LateList {
    const FACTS: usize = 8;
    let spec = Spec::new(FAR, &[1; FACTS], &[job(1, FACTS, role)]);
    let rows: Vec<_> = (0..COUNT).map(|k| (1, vec![k; FACTS])).collect();
    late_list(name, spec, &rows, |k| to(k) - k, COUNT)
}

fn late_list(
    name: &str,
    spec: Spec,
    rows: &[(u16, Vec<u16>)],
    delay: impl Fn(u16) -> u16,
    tick: u16,
) -> LateList {
    let delays = (0..COUNT).map(delay).collect();
    LateList { name: name.to_string(), spec, list: list_of_rows(rows), delays, tick }
}

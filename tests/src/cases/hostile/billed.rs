//! Lists that are cheap to judge beside what it takes to bill them: no entries, entries without events or with few, and as many
//! rows as there may be in all orders of ticks, so that the first event and the last are found anew again and again.

use super::FAR;
use crate::build::{list_of_rows, Job, Spec};
use crate::model::list::{MAX_INSTANCES, MAX_TIMES};
use crate::model::sheet::MAX_JOBS;
use crate::rng::Rng;

/// A sheet and a list that is a plan for it, with a name.
type Named = (String, Spec, Vec<u8>);

/// What a job does with a fact.
type Role = fn(Job, usize) -> Job;

/// The tick of an event of an entry, by the places of both.
type Tick = fn(u16, u16) -> u16;

const RISING: Tick = |k, e| 20 * k + e;

pub fn billed() -> Vec<Named> {
    let mut all = vec![
        changes("no entries", (0, Job::sets), [1, 0], RISING),
        changes("no entries", (0, Job::sets), [MAX_JOBS, 0], RISING),
    ];
    for jobs in [1, 2, MAX_JOBS] {
        for (what, facts) in [("without events", 0), ("of one event", 1), ("of two events", 2)] {
            let name = format!("64 entries {what}");
            all.push(changes(&name, (facts, Job::sets), [jobs, MAX_INSTANCES], RISING));
        }
    }
    all.extend([("sets", Job::sets as Role), ("clears", Job::clears)].into_iter().flat_map(rows));
    all.extend(dearest());
    all
}

/// 512 rows, 8 in each entry.
fn rows((what, role): (&str, Role)) -> Vec<Named> {
    let ways: [(&str, Tick, usize); 6] = [
        ("rising", RISING, 1),
        ("rising", RISING, MAX_JOBS),
        ("falling", |k, e| 20 * k + 8 - e, 1),
        ("outward", |k, e| 20 * k + if e % 2 == 0 { 8 + e } else { 8 - e }, 1),
        ("rising, entries turned round", |k, e| RISING(64 - k, e), 1),
        ("in any order", any_tick, 1),
    ];
    let facts = MAX_TIMES / MAX_INSTANCES;
    let of = |(way, tick, jobs): (&str, Tick, usize)| {
        changes(&format!("512 {what} {way}"), (facts, role), [jobs, MAX_INSTANCES], tick)
    };
    ways.into_iter().map(of).collect()
}

/// That for which billing takes most beside judging, as far as a search could find, in both editions.
fn dearest() -> [Named; 2] {
    const FACTS: usize = 16;
    let clears = (FACTS, Job::clears as Role);
    let (name, spec, list) = changes("16 clears each", clears, [1, MAX_TIMES / FACTS], RISING);
    let again = (format!("{name}, gap 1"), spec.clone().with_gap(1), list.clone());
    [(name, spec, list), again]
}

fn any_tick(k: u16, e: u16) -> u16 {
    Rng::new(u64::from(8 * k + e)).below(usize::from(FAR)) as u16
}

/// So many entries of so many jobs in turn, each of which changes so many facts.
fn changes(
    name: &str,
    (facts, role): (usize, Role),
    [jobs, entries]: [usize; 2],
    tick: Tick,
) -> Named {
    let job = |code: usize| (0..facts).fold(Job::new(code as u16), role);
    let spec = Spec::new(FAR, &vec![0; facts], &(0..jobs).map(job).collect::<Vec<_>>());
    let times = |k: u16| (0..facts as u16).map(|event| tick(k, event)).collect();
    let row = |k: u16| (k % jobs as u16, times(k));
    let rows: Vec<(u16, Vec<u16>)> = (0..entries as u16).map(row).collect();
    let of = if jobs == 1 { "1 job".to_string() } else { format!("{jobs} jobs") };
    (format!("{name}, {of}"), spec, list_of_rows(&rows))
}

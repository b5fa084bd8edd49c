//! Well-formed sheets and lists that are as dear as we could make them, part by part.

mod billed;
mod late;
mod retired;

pub use billed::billed;
pub use late::{late, LateList};
pub use retired::retired;

use super::repeated::filled;
use crate::build::{begins, clears, ends, list_of_rows, sets, Act, Job, Spec};
use crate::model::sheet::{Kind, MAX_BOUNDS, MAX_HORIZON};
use crate::rng::Rng;
use std::collections::BTreeMap;

const FAR: u16 = MAX_HORIZON as u16;

/// All sheets, each with a name.
pub fn sheets() -> Vec<(&'static str, Spec)> {
    vec![
        ("own times: ring of 256 events, gains 1", ring(64, 1)),
        ("own times: ring of 256 events, level", ring(64, 0)),
        ("own times: two events, gain 1 a turn", two_events()),
        ("own times: 256 events, one too far away", too_far()),
        ("orders: 63 facts guard in a chain", guard_chain(false)),
        ("orders: the same, one bound loose", guard_chain(true)),
        ("class test: one job, 256 bounds, tangled", tangle()),
        ("orders: every row goes round a zigzag", round_zigzag()),
        ("orders: 62 facts cleared first", cleared_first()),
        ("orders: 2 jobs, 61 facts in both orders", both_orders()),
        ("orders: 2 jobs, 60 unwanted facts so", both_orders_unwanted()),
        ("orders: 64 facts along one path", long_path()),
        ("orders: 256 events tied loosely to one", loose_star()),
        ("orders: 32 jobs set and clear 2 facts", crowd(1, false)),
        ("orders: the same, the last pair fails", crowd(1, true)),
        ("list rules: 5,120 pairs, no ticks", crowd(0, false)),
        ("list rules: ring of jobs, gains 1", job_ring(1, -1, 1)),
        ("list rules: long ring of jobs, gains 1", job_ring(1, 300, 1)),
        ("list rules: long ring of jobs, level", job_ring(0, 300, 1)),
        ("list rules: a zigzag lifts 1,083 pairs", lifted_pairs()),
        ("wanted: 32 jobs in a line, last first", job_line()),
        ("writing: 256 events, no bounds", no_bounds()),
    ]
}

/// Sheets of edition 2, with gaps and releases.
pub fn settled() -> Vec<(&'static str, Spec)> {
    let last_start = FAR - RING_LENGTH;
    vec![
        (
            "own times: ring of 256 events, level, late",
            ring(64, 0).with_gap(60).released(&[last_start]),
        ),
        ("own times: 252 events, released a tick too late", in_window(1)),
        ("orders: 256 events tied loosely, late", staggered(loose_star())),
        ("orders: 63 facts guard by the window", in_window(0)),
        ("orders: 2 jobs, 60 unwanted facts, late", staggered(both_orders_unwanted())),
        ("list rules: 3,072 pairs, staggered releases", staggered(crowd(60, false))),
        ("list rules: ring of jobs, gap 60, gains 1", job_ring(1, 240, 60).with_gap(60)),
        ("list rules: ring of jobs, gap 60, level", job_ring(0, 240, 60).with_gap(60)),
        ("list rules: a late zigzag lifts 1,083 pairs", staggered(lifted_pairs())),
    ]
}

/// Sheets with several bounds of some pairs, 256 rows in all.
pub fn repeated() -> Vec<(&'static str, Spec)> {
    vec![
        ("own times: two events, gain 1, 256 rows", filled(two_events())),
        ("own times: ring of 128 events, level, 256 rows", filled(ring(32, 0))),
        ("own times: 256 events, the last two rows cross", crossing_last()),
        ("orders: 63 facts guard in a chain, 256 rows", filled(guard_chain(false))),
        ("orders: every row round a zigzag, 256 rows", filled(round_zigzag())),
        ("orders: 2 jobs, 60 unwanted facts, 256 rows", filled(both_orders_unwanted())),
        ("orders: 256 events tied loosely, 256 rows", filled(loose_star())),
        ("orders: 32 jobs set and clear, 256 rows", filled(crowd(1, false))),
        ("list rules: 5,120 pairs, 256 rows", filled(crowd(0, false))),
        ("list rules: ring of jobs, 256 rows", filled(job_ring(1, -1, 1))),
        ("list rules: a zigzag lifts pairs, 256 rows", filled(lifted_pairs())),
    ]
}

/// The loose star with the rows of its last pair filled up, the last of which crosses the others.
fn crossing_last() -> Spec {
    let mut spec = loose_star();
    let bounds = &mut spec.jobs[0].bounds;
    let &(pair, (low, high)) = bounds.iter().next_back().expect("there are bounds");
    let mut spans = vec![(low, high); MAX_BOUNDS + 1 - bounds.len()];
    *spans.last_mut().expect("there is one") = (high + 1, high + 1);
    bounds.replace(pair, &spans);
    spec
}

/// With gap 60, and released one tick after the other, the first job last.
fn staggered(spec: Spec) -> Spec {
    let releases: Vec<u16> = (0..32).map(|k| 2_000 - k).collect();
    spec.with_gap(60).released(&releases)
}

/// Every event of the facts, in sheet order.
fn all_acts(facts: usize) -> Vec<Act> {
    (0..facts).flat_map(|f| [begins(f), ends(f), sets(f), clears(f)]).collect()
}

/// The ticks from the first event of the ring of 64 facts to the last.
const RING_LENGTH: u16 = 191 * 50;

/// One ring of all events of so many facts, each at least 50 ticks after the one behind it, so that a sweep in sheet
/// order settles one event. With a gain of one tick a turn it could climb for long.
fn ring(facts: usize, gain: i16) -> Spec {
    let mut acts = all_acts(facts);
    acts.reverse();
    Spec::new(FAR, &vec![2; facts], &[ring_job(1, &acts, 50, gain)])
}

/// Each event comes at least so many ticks after the one before it, and the first one `gain` ticks later than a turn allows.
fn ring_job(code: u16, acts: &[Act], step: i16, gain: i16) -> Job {
    let mut job = Job::new(code);
    job.acts = acts.iter().copied().collect();
    let mut total = 0;
    for pair in acts.windows(2) {
        // A need of no length is as much as a ring allows that has its end first.
        let step =
            if pair[0].kind == Kind::Ends && pair[1] == begins(pair[0].fact) { 0 } else { step };
        job = job.bound(pair[1], pair[0], step, i16::MAX);
        total += step;
    }
    job.bound(acts[0], acts[acts.len() - 1], gain - total, i16::MAX)
}

fn two_events() -> Spec {
    let job = Job::new(1).sets(0).sets(1);
    let job = job.bound(sets(1), sets(0), 1, i16::MAX).bound(sets(0), sets(1), 0, i16::MAX);
    Spec::new(FAR, &[2, 2], &[job])
}

/// One job of 256 events, two of which lie further apart than the horizon: absent after a single rule.
fn too_far() -> Spec {
    let mut job = Job::new(1);
    job.acts = all_acts(64).into_iter().collect();
    Spec::new(10, &[2; 64], &[job.bound(sets(0), begins(0), 11, i16::MAX)])
}

/// The job with an exact bound from each event to the next, in an order that helps nobody.
fn path(offsets: &BTreeMap<Act, i16>, seed: u64) -> Job {
    let mut acts: Vec<Act> = offsets.keys().copied().collect();
    let mut job = Job::new(1);
    job.acts = acts.iter().copied().collect();
    Rng::new(seed).shuffle(&mut acts);
    for pair in acts.windows(2) {
        job = job.exactly(pair[1], pair[0], offsets[&pair[1]] - offsets[&pair[0]]);
    }
    job
}

/// Fact 62 is initial, fact 63 the goal.
fn chain_marks() -> [u8; 64] {
    let mut marks = [0; 64];
    marks[62] = 1;
    marks[63] = 2;
    marks
}

/// The job of `guard_chain`, each event bound to come so long after the one before it and no longer bound to come soon.
/// From release to H there is just room for them, less so many ticks.
fn in_window(less: u16) -> Spec {
    let mut acts: Vec<(i16, Act)> = guard_offsets().iter().map(|(act, at)| (*at, *act)).collect();
    acts.sort();
    let mut job = Job::new(1);
    job.acts = acts.iter().map(|(_, act)| *act).collect();
    for two in acts.windows(2) {
        job = job.bound(two[1].1, two[0].1, two[1].0 - two[0].0, i16::MAX);
    }
    let length = acts[acts.len() - 1].0 - acts[0].0;
    Spec::new(FAR, &chain_marks(), &[job.not_before(FAR - length as u16 + less)]).with_gap(60)
}

/// One job. Fact p guards fact f if (clear − end of p) ≤ (clear − set of f): here p ≤ f + 1. So each
/// round of the orders shows one fact more, from the highest down.
fn guard_chain(loose: bool) -> Spec {
    let mut job = path(&guard_offsets(), 1);
    if loose {
        let (_, bound) = job.bounds.spans_mut().next().expect("there are bounds");
        bound.1 += 1;
    }
    Spec::new(FAR, &chain_marks(), &[job])
}

fn guard_offsets() -> BTreeMap<Act, i16> {
    let mut offsets = BTreeMap::from([(sets(63), 100)]);
    for fact in 0..63 {
        let end = 100 - fact as i16;
        offsets.extend([(begins(fact), end), (ends(fact), end), (clears(fact), 100)]);
        offsets.insert(sets(fact), end - 1);
    }
    offsets.remove(&sets(62));
    offsets
}

/// The same job with as many bounds as there may be, none of them exact.
fn tangle() -> Spec {
    let mut rng = Rng::new(2);
    let mut job = guard_chain(false).jobs.remove(0);
    let acts: Vec<Act> = job.acts.iter().copied().collect();
    for (_, (low, high)) in job.bounds.spans_mut() {
        *low -= rng.below(40) as i16;
        *high += rng.below(40) as i16;
    }
    while job.bounds.len() < MAX_BOUNDS {
        let (e, d) = (*rng.pick(&acts), *rng.pick(&acts));
        if e != d && job.bounds.of((e, d)).is_empty() {
            job = job.bound(e, d, -500, 500);
        }
    }
    Spec::new(FAR, &chain_marks(), &[job])
}

/// One job that clears each fact before it sets it, by the guard of fact 62 alone.
fn cleared_first() -> Spec {
    let mut offsets = BTreeMap::from([(sets(63), 9)]);
    offsets.extend([(begins(62), 5), (ends(62), 5), (clears(62), 5)]);
    for fact in 0..62 {
        offsets.extend([(clears(fact), 5), (sets(fact), 6)]);
    }
    Spec::new(FAR, &chain_marks(), &[path(&offsets, 3)])
}

/// The first, the last, the second, the last but one and so on: neither rising nor falling numbers follow it.
fn zigzag(acts: &[Act]) -> Vec<Act> {
    let n = acts.len();
    (0..n).map(|k| acts[if k % 2 == 0 { k / 2 } else { n - 1 - k / 2 }]).collect()
}

/// low ≤ time(e) − time(d) ≤ high, with the later event of the sheet first: so a search takes the way by rising numbers.
fn tie(job: Job, e: Act, d: Act, low: i16, high: i16) -> Job {
    if e > d {
        job.bound(e, d, low, high)
    } else {
        job.bound(d, e, -high, -low)
    }
}

/// The job with steps of 30 ticks along a way, and shortcuts of two steps that fall one tick short. All that lies ahead
/// is lifted at once, and then again by a tick with each step of the way that is made good.
fn with_shortcuts(mut job: Job, way: &[Act]) -> Job {
    job.acts.extend(way);
    for two in way.windows(2) {
        job = tie(job, two[1], two[0], 30, 40);
    }
    for three in way.windows(3) {
        job = tie(job, three[2], three[0], 59, 81);
    }
    job
}

/// One job of 128 events. Fact 0, which it needs and clears, is tried as a guard of each of the others, so that each set
/// and each clear is asked for its row; a bound from the end of the way to its start sends every row the whole way round.
fn round_zigzag() -> Spec {
    let mut acts = vec![begins(0), ends(0), clears(0)];
    acts.extend((1..63).flat_map(|fact| [sets(fact), clears(fact)]));
    acts.push(sets(63));
    let way = zigzag(&acts);
    let job = with_shortcuts(Job::new(1), &way);
    let job = tie(job, way[127], way[0], -9_000, 127 * 30);
    let mut marks = [0; 64];
    (marks[0], marks[63]) = (1, 2);
    Spec::new(FAR, &marks, &[job])
}

/// One job that needs, sets and clears each of 64 facts, all 256 events tied exactly along one path.
fn long_path() -> Spec {
    let ticks =
        |fact| [(begins(fact), 0), (ends(fact), 100), (sets(fact), 10), (clears(fact), 200)];
    let offsets: BTreeMap<Act, i16> = (0..64).flat_map(ticks).collect();
    Spec::new(FAR, &[2; 64], &[path(&offsets, 1)])
}

/// One job whose events are tied to one of them, some ticks more or less, so that a row lifts each to a height of its own
/// and a planner that orders them by it has the most to do. Few facts are not set, and so guard the others or fail.
/// Numbers and seed come from a search for the dearest sheet.
fn loose_star() -> Spec {
    Spec::new(FAR, &[2; 64], &[loose_star_job(64)])
}

fn loose_star_job(facts: usize) -> Job {
    let mut rng = Rng::new(20);
    let mut offsets = BTreeMap::new();
    for fact in 0..facts {
        let need = fact as i16;
        offsets.extend([(begins(fact), need), (ends(fact), need)]);
        if fact % 32 != 0 {
            offsets.insert(sets(fact), rng.below(11) as i16);
        }
        offsets.insert(clears(fact), 180 + rng.below(11) as i16);
    }
    let acts: Vec<Act> = offsets.keys().copied().collect();
    let centre = *rng.pick(&acts);
    let mut job = Job::new(1);
    job.acts = acts.iter().copied().collect();
    for &act in acts.iter().filter(|&&act| act != centre) {
        let gap = offsets[&act] - offsets[&centre];
        let (less, more) = (rng.below(31) as i16, rng.below(31) as i16);
        job = job.bound(act, centre, gap - less, gap + more);
    }
    job
}

/// Two jobs of 128 events, all on one tick: fact 62 guards every pair of facts 1 to 61 in both orders, and it is the last
/// that is tried. Both jobs set the goals.
fn both_orders() -> Spec {
    let jobs: Vec<Job> = (0..2)
        .map(|k| {
            let job = Job::new(k).needs(0).clears(0).needs(62).clears(62);
            let job = job.exactly(ends(62), begins(62), 0).exactly(clears(62), ends(62), 0);
            (1..62).fold(job, |job, fact| {
                let job = job.sets(fact).clears(fact);
                job.exactly(sets(fact), ends(62), 0).exactly(clears(fact), ends(62), 0)
            })
        })
        .collect();
    let mut marks = [2; 63];
    (marks[0], marks[62]) = (1, 1);
    Spec::new(FAR, &marks, &jobs)
}

/// The same for facts that nobody wants, so that no rule on setters stands before the orders: facts 1 to 60 are guarded by
/// fact 61, and each job has a goal of its own.
fn both_orders_unwanted() -> Spec {
    let jobs: Vec<Job> = (0..2)
        .map(|k| {
            let goal = sets(62 + usize::from(k));
            let job = Job::new(k).needs(0).clears(0).needs(61).clears(61).sets(goal.fact);
            let centre = sets(31);
            let tied = [begins(61), ends(61), clears(61), goal];
            let facts = (1..61).flat_map(|fact| [sets(fact), clears(fact)]);
            tied.into_iter().chain(facts).fold(job, |mut job, act| {
                job.acts.insert(act);
                if act == centre {
                    job
                } else {
                    job.exactly(act, centre, 0)
                }
            })
        })
        .collect();
    let mut marks = [0; 64];
    (marks[0], marks[61], marks[62], marks[63]) = (1, 1, 2, 2);
    Spec::new(FAR, &marks, &jobs)
}

/// Job 0 lifts the start of a zigzag in job 1, whose end is the set of fact 3; 19 jobs need that fact, and between them
/// there are 361 pairs for each of facts 0, 1 and 2.
fn lifted_pairs() -> Spec {
    let starter = Job::new(0).clears(5).sets(4).bound(sets(4), clears(5), 500, i16::MAX);
    let mut acts = vec![begins(4), ends(4)];
    acts.extend((25..34).flat_map(|fact| [begins(fact), ends(fact), clears(fact)]));
    acts.extend((34..64).map(clears));
    let mut way = zigzag(&acts);
    way.push(sets(3));
    let mut jobs = vec![starter, with_shortcuts(Job::new(1), &way)];
    jobs.extend((6..25).map(follower));
    let mut marks = [1; 64];
    marks[1..5].fill(0);
    marks[6..25].fill(2);
    Spec::new(FAR, &marks, &jobs)
}

/// Facts 0 and 1 are cleared last, fact 2 first.
fn follower(goal: usize) -> Job {
    let job = Job::new(goal as u16).needs(3).needs(0).clears(0).sets(1).clears(1).clears(2).sets(2);
    let job = job.sets(goal).bound(sets(goal), sets(2), 1, 100);
    let job = job.bound(begins(0), begins(3), 1, 50).exactly(ends(0), begins(0), 0);
    let job = job.exactly(sets(1), ends(0), 0).exactly(clears(2), ends(0), 0);
    job.exactly(clears(1), clears(0), 0).exactly(sets(2), clears(0), 0)
}

/// 32 jobs that need and clear fact 0 and set and clear facts 1 and 2, `gap` ticks later. Without a gap
/// both orders are shown, and no ticks meet the pairs.
fn crowd(gap: i16, last_fails: bool) -> Spec {
    let mut jobs: Vec<Job> = (0..32).map(|k| crowd_job(k, gap)).collect();
    if last_fails {
        jobs[31].bounds.replace((clears(0), begins(0)), &[(gap, gap + 1)]);
    }
    let mut marks = vec![1, 0, 0];
    marks.extend([2; 32]);
    Spec::new(FAR, &marks, &jobs)
}

fn crowd_job(k: usize, gap: i16) -> Job {
    let job = Job::new(k as u16).needs(0).clears(0).sets(1).clears(1).sets(2).clears(2).sets(3 + k);
    let mut job = job.exactly(ends(0), begins(0), 0);
    for fact in [1, 2] {
        job = job.exactly(sets(fact), begins(0), 0);
    }
    for fact in [0, 1, 2] {
        job = job.exactly(clears(fact), begins(0), gap);
    }
    job
}

/// Each of 32 jobs needs what the next one sets, against the order of the sheet; tools lengthen the way
/// within a job. Once round the ring the ticks gain `gain`.
fn job_ring(gain: i16, step: i16, gap: i16) -> Spec {
    let total = 31 * (step + gap) + gap;
    let jobs: Vec<Job> = (0..32)
        .map(|k| {
            let length = if k == 0 { gain - total } else { step };
            let (need, tool, other) = ((k + 1) % 32, 32 + k, 32 + (k + 1) % 32);
            Job::new(k as u16)
                .needs(need)
                .needs(tool)
                .needs(other)
                .sets(k)
                .bound(begins(tool), ends(need), i16::MIN, i16::MAX)
                .bound(ends(tool), begins(need), 0, 9)
                .bound(begins(other), ends(tool), 0, i16::MAX)
                .bound(ends(other), begins(other), 0, 9)
                .exactly(sets(k), begins(need), length)
        })
        .collect();
    let mut marks = vec![2; 32];
    marks.extend([1; 32]);
    Spec::new(FAR, &marks, &jobs)
}

/// Job k needs what job k + 1 sets; only the first product is a goal.
fn job_line() -> Spec {
    let jobs: Vec<Job> = (0..32)
        .map(|k| {
            let job = Job::new(k as u16).sets(k).clears(32 + k);
            let job = (k + 1..32).take(3).fold(job, |job, fact| job.needs(fact));
            job.bound(clears(32 + k), sets(k), 0, 300)
        })
        .collect();
    let mut marks = vec![0; 64];
    marks[0] = 2;
    Spec::new(FAR, &marks, &jobs)
}

/// 32 jobs of 8 events: the longest list.
fn no_bounds() -> Spec {
    let jobs: Vec<Job> = (0..32)
        .map(|k| {
            let job = Job::new(k as u16).sets(k).clears(32 + k);
            [1, 2, 3].iter().fold(job, |job, more| job.needs(32 + (k + more) % 32))
        })
        .collect();
    let mut marks = vec![2; 32];
    marks.extend([1; 32]);
    Spec::new(FAR, &marks, &jobs)
}

/// Lists for the judge: 12, 32 and 64 entries of one job that needs, sets and clears two facts, and one of many bounds.
pub fn lists() -> Vec<(String, Spec, Vec<u8>)> {
    let job = Job::new(1).needs(0).sets(0).clears(0).needs(1).sets(1).clears(1);
    let spec = Spec::new(FAR, &[0, 0], &[job]);
    let in_turn = |k: u16| (4 * k, 4 * k, 4 * k + 1, 4 * k + 2);
    let at_once = |k: u16| (k, 100, 200, 300 + k);
    let mut lists = Vec::new();
    for count in [12, 32, 64] {
        let of = |way| format!("list: {count} entries {way}");
        lists.push((of("in turn"), spec.clone(), crowded_list(count, &in_turn)));
        lists.push((of("at once"), spec.clone(), crowded_list(count, &at_once)));
    }
    let (spec, list) = bounded_list(4, 32);
    lists.push((String::from("list: 32 entries of 240 bounds"), spec, list));
    lists
}

/// Lists for sheets of 256 rows on some pairs.
pub fn repeated_lists() -> Vec<(String, Spec, Vec<u8>)> {
    let rows = |name: &str, (spec, list)| (format!("list: 256 rows on {name}"), filled(spec), list);
    let (mut one_pair, one_pair_list) = bounded_list(2, 64);
    one_pair.jobs[0].bounds = one_pair.jobs[0].bounds.iter().take(1).copied().collect();
    vec![
        rows("1 pair, 64 entries", (one_pair, one_pair_list)),
        rows("56 pairs, 64 entries", bounded_list(2, 64)),
        rows("240 pairs, 32 entries", bounded_list(4, 32)),
    ]
}

/// So many entries of a job that needs, sets and clears so many facts, with a bound for any two of its events either way.
/// With four facts and 32 entries no list has more to be tested: 7,680 bounds.
fn bounded_list(facts: usize, entries: u16) -> (Spec, Vec<u8>) {
    let acts = all_acts(facts);
    let mut job = Job::new(1);
    job.acts = acts.iter().copied().collect();
    for &e in &acts {
        for &d in acts.iter().filter(|&&d| d != e) {
            job = job.bound(e, d, -1_000, 1_000);
        }
    }
    let spec = Spec::new(FAR, &vec![0; facts], &[job]);
    let times = |k: u16| [100, 200, k, 300 + k].repeat(facts);
    let rows: Vec<(u16, Vec<u16>)> = (0..entries).rev().map(|k| (1, times(k))).collect();
    (spec, list_of_rows(&rows))
}

/// Set, begin, end and clear of each entry, later entries first.
fn crowded_list(count: u16, ticks: &dyn Fn(u16) -> (u16, u16, u16, u16)) -> Vec<u8> {
    let rows: Vec<(u16, Vec<u16>)> = (0..count)
        .rev()
        .map(|k| {
            let (set, begin, end, clear) = ticks(k);
            (1, [begin, end, set, clear].repeat(2))
        })
        .collect();
    list_of_rows(&rows)
}

#[cfg(test)]
mod tests {
    use super::*;
    use crate::cases::ordinary;
    use crate::late_model;
    use crate::model;
    use crate::planner_model::{verdict, Study, Verdict};

    fn number(spec: &Spec) -> (u8, usize) {
        match verdict(&spec.bytes()) {
            Verdict::Refused(number, detail) => (number, detail),
            Verdict::NoPlan(_) => (1, 0),
            Verdict::Plan(list) => (0, list.len()),
        }
    }

    /// Each is well formed, and all its jobs are absent but for those that are to be planned.
    #[test]
    fn retired_sheets() {
        for (name, spec, present) in retired() {
            let sheet = model::sheet::read(&spec.bytes()).expect(name);
            let there = Study::of(&sheet).present.iter().filter(|present| **present).count();
            assert_eq!(there, present, "{name}");
        }
    }

    /// A dear sheet is dear only if it gets as far as it was built for.
    #[test]
    fn answers() {
        let numbers: Vec<u8> = sheets().iter().map(|(_, spec)| number(spec).0).collect();
        assert_eq!(
            numbers,
            [1, 21, 1, 1, 0, 0, 21, 22, 0, 20, 1, 21, 21, 0, 22, 1, 1, 1, 0, 0, 0, 0]
        );
        assert!(lists().iter().all(|(_, spec, list)| model::judge(&spec.bytes(), list).0 == 0));
        let numbers: Vec<u8> = settled().iter().map(|(_, spec)| number(spec).0).collect();
        assert_eq!(numbers, [21, 1, 21, 0, 1, 0, 1, 0, 0]);
        let numbers: Vec<u8> = repeated().iter().map(|(_, spec)| number(spec).0).collect();
        assert_eq!(numbers, [1, 21, 1, 0, 22, 1, 21, 0, 1, 1, 0]);
        let of_256 = |spec: &Spec| spec.bound_count() == MAX_BOUNDS && spec.repeats();
        assert!(repeated().iter().chain(&ordinary::repeated()).all(|(_, spec)| of_256(spec)));
        for (name, spec, list) in repeated_lists() {
            assert!(of_256(&spec) && model::judge(&spec.bytes(), &list).0 == 0, "{name}");
        }
    }

    /// Each is a plan, and so are the delayed lists: no test ends early.
    #[test]
    fn late_lists() {
        for LateList { name, spec, list, delays, .. } in late() {
            assert_eq!(late_model::late(&spec.bytes(), &list, &delays), (0, 0), "{name}");
        }
    }

    /// Each is a plan: its cost is no refusal.
    #[test]
    fn billed_lists() {
        for (name, spec, list) in billed() {
            assert_eq!(model::judge(&spec.bytes(), &list), (0, 0), "{name}");
        }
    }

    #[test]
    fn ordinary_sheets() {
        assert_eq!(number(&ordinary::small()).0, 0);
        assert_eq!(number(&ordinary::full()).0, 0);
        assert_eq!(number(&ordinary::half_wanted()).0, 0);
        assert_eq!(number(&ordinary::too_short()).0, 1);
        assert_eq!(number(&ordinary::unordered()), (21, ordinary::LAST_USED));
        assert!(ordinary::repeated().iter().all(|(_, spec)| number(spec).0 == 0));
        for (place, (name, spec)) in ordinary::half_retired().iter().enumerate() {
            let sheet = model::sheet::read(&spec.bytes()).expect(name);
            let absent = Study::of(&sheet).present.iter().filter(|present| !**present).count();
            assert_eq!((absent, spec.jobs.len(), spec.event_count()), (16, 32, 256), "{name}");
            assert_eq!(number(spec).0, u8::from(place < 2), "{name}");
        }
        for (_, chain) in ordinary::chains() {
            assert_eq!((number(&chain).0, chain.event_count()), (0, 256));
        }
        let mut full = ordinary::too_short();
        full.horizon += 1;
        assert_eq!(number(&full).0, 0);
        assert_eq!((full.event_count(), full.bound_count(), full.marks.len()), (256, 256, 64));
    }
}

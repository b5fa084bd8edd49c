//! Sheets such as an office writes: a line of jobs that hand products on, with tools in between.

use super::examples::p1;
use super::repeated::filled;
use crate::build::{clears, sets, Act, Job, Spec};
use crate::model::sheet::{Kind, MAX_JOBS};
use crate::rng::Rng;

/// 12 jobs of 6 events.
pub fn small() -> Spec {
    line(12, false, 200)
}

/// 32 jobs of 8 events, 64 facts, 256 bounds, the longest horizon.
pub fn full() -> Spec {
    line(32, true, 10_080)
}

/// The full sheet with only the first half of its jobs wanted.
pub fn half_wanted() -> Spec {
    let mut spec = full();
    spec.marks[31] = 0;
    spec.marks[15] = 2;
    spec
}

/// The full sheet with one tick too few for its plan.
pub fn too_short() -> Spec {
    Spec { horizon: LENGTH_OF_FULL - 1, ..full() }
}

/// The full sheet with one tool cleared whenever its job likes, so that it no longer guards: 21 for the last
/// product that is used up. The call ends with the class test.
pub fn unordered() -> Spec {
    let loose = clears(32 + LAST_USED);
    let mut spec = full();
    let user = spec.jobs.iter_mut().find(|job| job.acts.contains(&clears(LAST_USED)));
    for ((e, d), limits) in user.expect("one job uses it up").bounds.spans_mut() {
        if e == loose || d == loose {
            *limits = (i16::MIN, i16::MAX);
        }
    }
    spec
}

/// The name of the full sheet in the table of the benchmark.
pub const FULL: &str = "32 jobs of 8 events";

/// Sheets of 32 jobs of 8 events, of which half are retired.
pub fn half_retired() -> Vec<(&'static str, Spec)> {
    let odd: Vec<usize> = (1..MAX_JOBS).step_by(2).collect();
    vec![
        ("every other job retired", crossing(full(), &odd)),
        ("every other job retired by a ring", ringed(full(), &odd)),
        ("the unwanted half retired", crossing(half_wanted(), &unwanted_half())),
        ("16 jobs beside 16 retired ones", beside_retired()),
    ]
}

fn unwanted_half() -> Vec<usize> {
    (MAX_JOBS / 2..MAX_JOBS).collect()
}

/// The sheet of which half is wanted, with the other half retired by rings.
pub fn unwanted_rings() -> Spec {
    ringed(half_wanted(), &unwanted_half())
}

/// The sheet with these jobs retired: the row of one pair gives way to another of the first pair, which crosses it.
fn crossing(mut spec: Spec, jobs: &[usize]) -> Spec {
    for &job in jobs {
        let bounds = &mut spec.jobs[job].bounds;
        let pairs = bounds.pairs();
        let (_, high) = bounds.of(pairs[0])[0];
        bounds.remove(pairs[pairs.len() - 1]);
        bounds.insert(pairs[0], (high + 1, high + 1));
    }
    spec
}

/// The sheet with these jobs retired: the bounds of each, a ring, are a tick too long in one place.
fn ringed(mut spec: Spec, jobs: &[usize]) -> Spec {
    for &job in jobs {
        let (_, span) = spec.jobs[job].bounds.spans_mut().next().expect("there are bounds");
        *span = (span.0 + 1, span.1 + 1);
    }
    spec
}

/// A line of 16 jobs, and beside each a retired one that does the same.
fn beside_retired() -> Spec {
    let mut spec = line(16, true, 10_080);
    let twins: Vec<Job> =
        spec.jobs.iter().map(|job| Job { code: job.code - 5, ..job.clone() }).collect();
    spec.jobs.extend(twins);
    spec.jobs.sort_by_key(|job| job.code);
    let twins: Vec<usize> = (0..32).step_by(2).collect();
    crossing(spec, &twins)
}

/// Sheets of 256 rows on few pairs.
pub fn repeated() -> Vec<(&'static str, Spec)> {
    vec![
        ("256 rows on the 4 pairs of P1", filled(p1(100))),
        ("256 rows on the 72 pairs of 12 jobs", filled(small())),
        ("256 rows on 32 pairs, 32 jobs of 8 events", filled(one_pair_each())),
    ]
}

/// The full sheet without clears, and with one bound alone for each job: from the begin of its first need to the set of
/// its product.
fn one_pair_each() -> Spec {
    let mut spec = full();
    for (product, job) in spec.jobs.iter_mut().enumerate() {
        let begin = job.acts.iter().find(|act| act.kind == Kind::Begins).expect("it needs a tool");
        let bounds = [((sets(product), *begin), (5, 300))];
        job.bounds = bounds.into_iter().collect();
        job.acts.retain(|act| act.kind != Kind::Clears);
    }
    spec
}

/// The highest product that a job of the full sheet uses up.
pub const LAST_USED: usize = 29;

/// The last tick of the full sheet's plan.
pub const LENGTH_OF_FULL: u16 = 281;

/// A chain of 32 jobs of 8 events, its job numbers along it rising, falling, and in an order that helps nobody.
pub fn chains() -> Vec<(&'static str, Spec)> {
    let rising: Vec<usize> = (0..MAX_JOBS).collect();
    let falling: Vec<usize> = rising.iter().rev().copied().collect();
    let mut mixed = rising.clone();
    Rng::new(11).shuffle(&mut mixed);
    vec![
        ("chain of 32 jobs, numbers rising", chain(&rising)),
        ("chain of 32 jobs, numbers falling", chain(&falling)),
        ("chain of 32 jobs, numbers at random", chain(&mixed)),
    ]
}

/// `numbers` has the job numbers along the chain, by which tools (the first half of the facts) and products go, too. Each
/// job needs what the one before it sets, and two tools; the next one clears its own tool at its start.
fn chain(numbers: &[usize]) -> Spec {
    let count = numbers.len();
    let tool = |place: usize| numbers[place];
    let product = |place: usize| count + numbers[place];
    let mut jobs = vec![None; count];
    for (place, &number) in numbers.iter().enumerate() {
        let job = Job::new(code(number)).sets(product(place)).needs(tool(place));
        let job = match place {
            0 => job.needs(tool(2)).sets(tool(count - 1)),
            _ => job.needs(product(place - 1)).clears(tool(place - 1)),
        };
        let more = if place + 1 < count { tool(place + 1) } else { product(place - 3) };
        jobs[number] = Some(tied(job.needs(more), count, 5 + (place % 7) as i16));
    }
    let jobs: Vec<Job> = jobs.into_iter().flatten().collect();
    let mut marks = vec![1; count];
    marks[tool(count - 1)] = 0;
    marks.extend(vec![0; count]);
    marks[product(count - 1)] = 2;
    Spec::new(10_080, &marks, &jobs)
}

/// Every event a fixed time after the first begin: needs begin and tools are cleared at once, all else comes `length`
/// ticks later.
fn tied(mut job: Job, tools: usize, length: i16) -> Job {
    let acts: Vec<Act> = job.acts.iter().copied().collect();
    let start = acts.iter().find(|act| act.kind == Kind::Begins).expect("it needs a tool");
    for act in acts.iter().filter(|act| *act != start) {
        let at_once = act.kind == Kind::Begins || act.kind == Kind::Clears && act.fact < tools;
        job = job.exactly(*act, *start, if at_once { 0 } else { length });
    }
    job
}

/// Job k makes product k from product k − 1. Each other job uses its input up, which tool k − 1 puts
/// after the job that made it: that one needs the tool to its end, this one clears it at its start.
/// The first job also brings the last one's tool.
fn line(count: usize, wide: bool, horizon: u16) -> Spec {
    let jobs = (0..count).map(|k| {
        let job = match k {
            0 => first_job(count, wide),
            _ if k % 2 == 0 => using_job(k, count, wide),
            _ => making_job(k, count, wide),
        };
        timed(job, count, 5 + (k % 7) as i16)
    });
    let jobs: Vec<Job> = jobs.collect();
    let mut marks = vec![0; count];
    marks[count - 1] = 2;
    marks.extend(vec![1; count - 1]);
    marks.push(0);
    Spec::new(horizon, &marks, &jobs)
}

fn code(k: usize) -> u16 {
    10 * (k as u16 + 1)
}

fn first_job(count: usize, wide: bool) -> Job {
    let job = Job::new(code(0)).sets(0).sets(2 * count - 1).needs(count).needs(count + 2);
    if wide {
        job.needs(count + 4)
    } else {
        job
    }
}

fn using_job(k: usize, count: usize, wide: bool) -> Job {
    let job = Job::new(code(k)).sets(k).needs(k - 1).clears(k - 1).clears(count + k - 1);
    if wide {
        let earlier = if k > 2 { k - 3 } else { 0 };
        job.needs(count + k).clears(count + earlier)
    } else {
        job.clears(count + k.max(4))
    }
}

fn making_job(k: usize, count: usize, wide: bool) -> Job {
    let job = Job::new(code(k)).sets(k).needs(k - 1).needs(count + k).clears(count + k - 1);
    match wide {
        true if k > 2 => job.needs(k - 3),
        true => job.needs(count + 3),
        false => job,
    }
}

/// Needs begin and tools are cleared at the start; all else comes `length` ticks later. As many bounds
/// as events: from each to the next, and from the first to the last.
fn timed(mut job: Job, products: usize, length: i16) -> Job {
    let offset = |act: Act| match act.kind {
        Kind::Begins => 0,
        Kind::Clears if act.fact >= products => 0,
        _ => length,
    };
    let acts: Vec<Act> = job.acts.iter().copied().collect();
    for (place, &d) in acts.iter().enumerate() {
        let e = acts[(place + 1) % acts.len()];
        job = job.exactly(e, d, offset(e) - offset(d));
    }
    job
}

//! Corner cases of "What a plan is".

use super::Case;
use crate::build::{begins, clears, ends, list_bytes, sets, Act, Entry, Job, Spec};

const H: u16 = 20;

fn case(name: &str, spec: &Spec, entries: &[Entry], expected: u8) -> Case {
    Case::new(name, spec.bytes(), list_bytes(spec, entries), expected)
}

fn entry(job: usize, ticks: &[(Act, u16)]) -> Entry {
    Entry::new(job, ticks)
}

pub fn cases() -> Vec<Case> {
    let mut cases = window_and_bounds();
    cases.extend(clashes());
    cases.extend(own_clear());
    cases.extend(twin_clear());
    cases.extend(others_clear());
    cases.extend(set_and_need());
    cases.extend(twin_set());
    cases.extend(several_sources());
    cases.extend(initial_state());
    cases.extend(goals());
    cases.extend(small_lists());
    cases
}

/// A job that needs fact 0, with this bound from the need's begin to its end.
fn bounded(low: i16, high: i16) -> Spec {
    let job = Job::new(7).needs(0).bound(ends(0), begins(0), low, high);
    Spec::new(H, &[1], &[job])
}

fn window_and_bounds() -> Vec<Case> {
    let from = |b, e| [entry(0, &[(begins(0), b), (ends(0), e)])];
    let (no_low, no_high) = (i16::MIN, i16::MAX);
    let mut both = bounded(2, 2);
    both.jobs[0] = both.jobs[0].clone().exactly(begins(0), ends(0), -3);
    vec![
        case("time exactly H", &bounded(no_low, no_high), &from(H, H), 0),
        case("time above H", &bounded(no_low, no_high), &from(H, H + 1), 41),
        case("greatest time", &bounded(no_low, no_high), &from(0, 65_535), 41),
        case("need of no length", &bounded(no_low, no_high), &from(3, 3), 0),
        case("need begins late", &bounded(no_low, no_high), &from(4, 3), 41),
        case("need begins late, allowed", &bounded(-5, 5), &from(4, 3), 41),
        case("gap at low", &bounded(2, 4), &from(3, 5), 0),
        case("gap below low", &bounded(2, 4), &from(3, 4), 41),
        case("gap at high", &bounded(2, 4), &from(3, 7), 0),
        case("gap above high", &bounded(2, 4), &from(3, 8), 41),
        case("no low", &bounded(no_low, 4), &from(3, 3), 0),
        case("no low, above high", &bounded(no_low, 4), &from(3, 8), 41),
        case("no high", &bounded(2, no_high), &from(3, 20), 0),
        case("no high, below low", &bounded(2, no_high), &from(3, 4), 41),
        case("negative high", &bounded(-9, -1), &from(3, 3), 41),
        case("(e, d) and (d, e)", &both, &from(3, 5), 41),
        case("(d, e) and (e, d)", &both, &from(3, 6), 41),
    ]
}

fn clashes() -> Vec<Case> {
    let one = Spec::new(H, &[0, 0], &[Job::new(7).sets(0).clears(0).clears(1)]);
    let at = |s, c, other| entry(0, &[(sets(0), s), (clears(0), c), (clears(1), other)]);
    let two = Spec::new(H, &[0], &[Job::new(7).sets(0), Job::new(8).clears(0)]);
    let pair = |s, c| [entry(0, &[(sets(0), s)]), entry(1, &[(clears(0), c)])];
    let set = entry(0, &[(sets(0), 4)]);
    let clear = entry(1, &[(clears(0), 4)]);
    vec![
        case("own set and clear on one tick", &one, &[at(4, 4, 9)], 41),
        case("own set and clear apart", &one, &[at(4, 5, 9)], 0),
        case("own clear and set apart", &one, &[at(4, 3, 9)], 0),
        case("clear of another fact", &one, &[at(4, 5, 4)], 0),
        case("twin's clear on the set's tick", &one, &[at(1, 3, 9), at(3, 5, 9)], 41),
        case("twins apart", &one, &[at(1, 3, 9), at(4, 5, 9)], 0),
        case("equal twins apart", &one, &[at(1, 3, 9), at(1, 3, 9)], 0),
        case("another's clear on the set's tick", &two, &pair(4, 4), 41),
        case("another's clear at tick 0", &two, &pair(0, 0), 41),
        case("another's clear one later", &two, &pair(4, 5), 0),
        case("another's clear one earlier", &two, &pair(4, 3), 0),
        case("two sets on one tick", &two, &[set.clone(), set], 0),
        case("two clears on one tick", &two, &[clear.clone(), clear], 0),
    ]
}

/// A job that needs and clears the initial fact 0, and one that clears it.
fn user_and_cleaner() -> Spec {
    let user = Job::new(7).needs(0).clears(0);
    Spec::new(H, &[1], &[user, Job::new(8).clears(0)])
}

fn user(begin: u16, end: u16, clear: u16) -> Entry {
    entry(0, &[(begins(0), begin), (ends(0), end), (clears(0), clear)])
}

fn own_clear() -> Vec<Case> {
    let spec = user_and_cleaner();
    let cleaner = |tick| entry(1, &[(clears(0), tick)]);
    vec![
        case("own clear at the end", &spec, &[user(1, 5, 5)], 0),
        case("own clear at the end, at H", &spec, &[user(H, H, H)], 0),
        case("own clear at the end, tick 0", &spec, &[user(0, 0, 0)], 0),
        case("own clear before the end", &spec, &[user(1, 5, 4)], 41),
        case("own clear at the begin", &spec, &[user(1, 5, 1)], 41),
        case("own clear before the begin", &spec, &[user(1, 5, 0)], 41),
        case("own clear after the end", &spec, &[user(1, 5, 6)], 0),
        case("and another's at the end", &spec, &[user(1, 5, 5), cleaner(5)], 41),
        case("and another's one later", &spec, &[user(1, 5, 5), cleaner(6)], 0),
    ]
}

fn twin_clear() -> Vec<Case> {
    let spec = user_and_cleaner();
    vec![
        case("twin's clear at the end", &spec, &[user(1, 5, 6), user(0, 3, 5)], 41),
        case("twin's clear one later", &spec, &[user(1, 5, 7), user(0, 3, 6)], 0),
        case("equal twins' clears at the end", &spec, &[user(1, 5, 5), user(1, 5, 5)], 41),
        case("equal twins' clears later", &spec, &[user(1, 5, 6), user(1, 5, 6)], 0),
        case("twin listed first", &spec, &[user(0, 3, 5), user(1, 5, 6)], 41),
    ]
}

fn others_clear() -> Vec<Case> {
    let spec = user_and_cleaner();
    let at = |tick| [user(2, 5, 9), entry(1, &[(clears(0), tick)])];
    vec![
        case("another's clear at the end", &spec, &at(5), 41),
        case("another's clear one after the end", &spec, &at(6), 0),
        case("another's clear within", &spec, &at(3), 41),
        case("another's clear at the begin", &spec, &at(2), 41),
        case("another's clear before the begin", &spec, &at(1), 41),
        case("another's clear at tick 0", &spec, &at(0), 41),
    ]
}

/// Jobs 0 and 1: one sets fact 0 and needs it, the other only needs it.
fn setter_and_user() -> Spec {
    let setter = Job::new(7).sets(0).needs(0);
    Spec::new(H, &[0], &[setter, Job::new(8).needs(0)])
}

fn setter(set: u16, begin: u16, end: u16) -> Entry {
    entry(0, &[(sets(0), set), (begins(0), begin), (ends(0), end)])
}

fn set_and_need() -> Vec<Case> {
    let spec = setter_and_user();
    let need = |b, e| entry(1, &[(begins(0), b), (ends(0), e)]);
    vec![
        case("own set at the begin", &spec, &[setter(3, 3, 5)], 0),
        case("own set at tick 0", &spec, &[setter(0, 0, 0)], 0),
        case("own set before the begin", &spec, &[setter(2, 3, 5)], 0),
        case("own set after the begin", &spec, &[setter(4, 3, 5)], 41),
        case("another's set at the begin", &spec, &[setter(3, 3, 5), need(3, 5)], 41),
        case("another's set one earlier", &spec, &[setter(3, 3, 5), need(4, 5)], 0),
        case("need without a set", &spec, &[need(4, 5)], 41),
        case("need listed before the set", &spec, &[need(4, 5), setter(3, 3, 5)], 0),
    ]
}

fn twin_set() -> Vec<Case> {
    let spec = setter_and_user();
    vec![
        case("twin's set at the begin", &spec, &[setter(3, 4, 5), setter(9, 3, 5)], 41),
        case("twin's set one earlier", &spec, &[setter(3, 4, 5), setter(9, 4, 5)], 0),
        case("equal twins", &spec, &[setter(3, 3, 5), setter(3, 3, 5)], 0),
        case("equal twins, own set late", &spec, &[setter(4, 3, 5), setter(4, 3, 5)], 41),
    ]
}

/// Sets at these ticks, a clear at 5, and a need.
fn renewed(marks: u8, ticks: &[u16], begin: u16, end: u16) -> (Spec, Vec<Entry>) {
    let jobs = [Job::new(7).sets(0), Job::new(8).clears(0), Job::new(9).needs(0)];
    let mut entries = vec![entry(2, &[(begins(0), begin), (ends(0), end)])];
    entries.extend(ticks.iter().map(|&t| entry(0, &[(sets(0), t)])));
    entries.push(entry(1, &[(clears(0), 5)]));
    (Spec::new(H, &[marks], &jobs), entries)
}

fn several_sources() -> Vec<Case> {
    let with = |name, ticks: &[u16], begin, end, expected| {
        let (spec, entries) = renewed(0, ticks, begin, end);
        case(name, &spec, &entries, expected)
    };
    vec![
        with("set renewed after the clear", &[2, 7], 8, 9, 0),
        with("set renewed, listed first", &[7, 2], 8, 9, 0),
        with("need begins on the renewal", &[2, 7], 7, 9, 41),
        with("need before the clear", &[2, 7], 3, 4, 0),
        with("need ends on the clear", &[2, 7], 3, 5, 41),
        with("need across clear and renewal", &[2, 7], 3, 9, 41),
        with("set before the clear only", &[2], 8, 9, 41),
        with("set on the clear's tick", &[2, 5], 8, 9, 41),
        with("set just after the clear", &[6], 7, 7, 0),
        with("renewed within the need", &[2, 7, 8], 7, 9, 41),
    ]
}

fn initial_state() -> Vec<Case> {
    let with = |name, ticks: &[u16], begin, end, expected| {
        let (spec, entries) = renewed(1, ticks, begin, end);
        case(name, &spec, &entries, expected)
    };
    vec![
        with("initial, need at tick 0", &[], 0, 0, 0),
        with("initial, need up to the clear", &[], 0, 4, 0),
        with("initial, need ends on the clear", &[], 0, 5, 41),
        with("initial, need after the clear", &[], 6, 7, 41),
        with("initial, set again", &[6], 7, 8, 0),
        with("initial, set again on the begin", &[6], 6, 8, 41),
        with("initial, set before the clear", &[4], 6, 8, 41),
    ]
}

fn goals() -> Vec<Case> {
    let jobs = [Job::new(7).sets(0), Job::new(8).clears(0)];
    let with = |name, mark: u8, set: &[u16], clear: &[u16], expected| {
        let spec = Spec::new(H, &[mark], &jobs);
        let mut entries: Vec<Entry> = set.iter().map(|&t| entry(0, &[(sets(0), t)])).collect();
        entries.extend(clear.iter().map(|&t| entry(1, &[(clears(0), t)])));
        case(name, &spec, &entries, expected)
    };
    vec![
        with("goal, nothing done", 2, &[], &[], 41),
        with("goal set", 2, &[4], &[], 0),
        with("goal set, then cleared", 2, &[4], &[5], 41),
        with("goal cleared, then set", 2, &[4], &[3], 0),
        with("goal set, cleared, set", 2, &[9, 1], &[3], 0),
        with("goal set, set, cleared", 2, &[1, 9], &[10], 41),
        with("initial goal", 3, &[], &[], 0),
        with("initial goal cleared at tick 0", 3, &[], &[0], 41),
        with("initial goal cleared at H", 3, &[], &[H], 41),
        with("initial goal cleared, then set", 3, &[2], &[0], 0),
        with("initial goal set, then cleared", 3, &[0], &[2], 41),
        with("initial, no goal, cleared", 1, &[], &[0], 0),
        with("no goal, cleared", 0, &[], &[0], 0),
    ]
}

fn small_lists() -> Vec<Case> {
    let empty_job = Spec::new(0, &[], &[Job::new(0), Job::new(65_535)]);
    let idle = |job| entry(job, &[]);
    let nothing = Spec::new(0, &[], &[]);
    let late = Job::new(7).needs(0).exactly(ends(0), begins(0), 9);
    let no_own_times = Spec::new(8, &[1], &[late]);
    let from = entry(0, &[(begins(0), 0), (ends(0), 8)]);
    vec![
        case("a job without own times", &no_own_times, &[], 0),
        case("and an instance of it", &no_own_times, &[from], 41),
        case("nothing at all", &nothing, &[], 0),
        case("a job without events", &empty_job, &[idle(0)], 0),
        case("jobs without events, falling", &empty_job, &[idle(1), idle(0), idle(1)], 0),
        case("no goals, empty list", &setter_and_user(), &[], 0),
        case("64 idle instances", &empty_job, &vec![idle(1); 64], 0),
        case("65 idle instances", &empty_job, &vec![idle(1); 65], 40),
    ]
}

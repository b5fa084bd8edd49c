//! Lists at their limits, and full lists with one fault in the last place.

use super::marks;
use crate::build::{begins, clears, ends, list_bytes, list_of_rows, sets, Act, Entry, Job, Spec};
use crate::cases::Case;

const H: u16 = 100;

pub fn cases() -> Vec<Case> {
    let mut cases = last_entry();
    cases.extend(last_time());
    cases.extend(last_bound());
    cases.extend(fact_63());
    cases.extend(counts());
    cases
}

fn case(name: &str, spec: &Spec, entries: &[Entry], expected: u8) -> Case {
    Case::new(name, spec.bytes(), list_bytes(spec, entries), expected)
}

fn entry(job: usize, ticks: &[(Act, u16)]) -> Entry {
    Entry::new(job, ticks)
}

/// 63 entries and then this one.
fn with_last(entries: Vec<Entry>, last: Entry) -> Vec<Entry> {
    assert_eq!(entries.len(), 63);
    [entries, vec![last]].concat()
}

fn last_entry() -> Vec<Case> {
    let bounded = Job::new(7).needs(0).exactly(ends(0), begins(0), 2);
    let bounded = Spec::new(H, &[1], &[bounded]);
    let with_bound = |name, begin, end, expected| {
        let lasting = |b, e| entry(0, &[(begins(0), b), (ends(0), e)]);
        case(name, &bounded, &with_last(vec![lasting(4, 6); 63], lasting(begin, end)), expected)
    };
    let jobs = [Job::new(7).sets(0), Job::new(8).needs(0), Job::new(9).clears(0)];
    let (set, clear) = (|t| entry(0, &[(sets(0), t)]), |t| entry(2, &[(clears(0), t)]));
    let need = |b| entry(1, &[(begins(0), b), (ends(0), 9)]);
    let with = |name, mark, entries: Vec<Entry>, last, expected| {
        case(name, &Spec::new(H, &[mark], &jobs), &with_last(entries, last), expected)
    };
    let used = |users| [vec![set(3); 63 - users], vec![need(4); users]].concat();
    vec![
        with_bound("64th entry keeps its bound", 4, 6, 0),
        with_bound("64th entry alone below its bound", 4, 5, 41),
        with_bound("64th entry alone above its bound", 4, 7, 41),
        with_bound("64th entry alone ends above H", H - 1, H + 1, 41),
        with("64th entry alone needs too soon", 0, used(62), need(3), 41),
        with("64th entry alone ends before it begins", 0, used(62), need(10), 41),
        with("64th entry alone sets what is needed", 0, vec![need(4); 63], set(3), 0),
        with("64th entry alone clears what is needed", 0, used(1), clear(9), 41),
        with("64th entry clears it a tick later", 0, used(1), clear(10), 0),
        with("64th entry alone clears on a set's tick", 0, vec![set(5); 63], clear(5), 41),
        with("64th entry alone sets on a clear's tick", 0, vec![clear(5); 63], set(5), 41),
        with("64th entry alone sets the goal", 2, vec![clear(2); 63], set(3), 0),
        with("64th entry alone clears the goal", 2, vec![set(2); 63], clear(3), 41),
    ]
}

/// 64 entries of 8 events, or 2 of 256: the last time decides.
fn last_time() -> Vec<Case> {
    let of_eight = (0..8).fold(Job::new(7), |job, fact| job.sets(fact));
    let of_eight = of_eight.bound(sets(7), sets(6), 0, 9);
    let eight = Spec::new(H, &[2; 8], &[of_eight]);
    let last = |rows: usize, events: usize, tick: u16, time: u16| {
        let mut rows = vec![(7, vec![tick; events]); rows];
        *rows.last_mut().unwrap().1.last_mut().unwrap() = time;
        list_of_rows(&rows)
    };
    let eights = |name, tick, time, expected| {
        Case::new(name, eight.bytes(), last(64, 8, tick, time), expected)
    };
    let all = (0..64).fold(Job::new(7), |job, fact| job.needs(fact).sets(fact).clears(fact));
    let all = Spec::new(H, &[1; 64], &[all]);
    // Each fact is set at 3, needed from 3 to 5 and cleared at 6, but for the last clear.
    let pair = |name, clear, expected| {
        let whole = [3, 5, 3, 6].repeat(64);
        let mut last = whole.clone();
        last[255] = clear;
        Case::new(name, all.bytes(), list_of_rows(&[(7, whole), (7, last)]), expected)
    };
    vec![
        eights("512th time at H", H, H, 0),
        eights("512th time alone above H", H, H + 1, 41),
        eights("512th time at its bound", 20, 29, 0),
        eights("512th time alone above its bound", 20, 30, 41),
        eights("512th time alone below its bound", 20, 19, 41),
        pair("512th time clears after all", 6, 0),
        pair("512th time alone clears on a set's tick", 3, 41),
        pair("512th time alone clears as a need ends", 5, 41),
    ]
}

/// A job of 64 events with 256 bounds, of which the last alone says something.
fn last_bound() -> Vec<Case> {
    let mut job = (0..64).fold(Job::new(7), |job, fact| job.sets(fact));
    for fact in 0..64 {
        for more in 1..5 {
            job = job.bound(sets(fact), sets((fact + more) % 64), i16::MIN, i16::MAX);
        }
    }
    let &(last, _) = job.bounds.iter().next_back().expect("there are 256");
    let spec = Spec::new(H, &[2; 64], &[job.now_exactly(last.0, last.1, 2)]);
    let with = |name, gap, expected| {
        let times = |gap: u16| [vec![20; 63], vec![20 + gap]].concat();
        let rows = [vec![(7, times(2)); 7], vec![(7, times(gap))]].concat();
        Case::new(name, spec.bytes(), list_of_rows(&rows), expected)
    };
    vec![
        with("bound 255 kept", 2, 0),
        with("bound 255 alone not reached", 1, 41),
        with("bound 255 alone exceeded", 3, 41),
    ]
}

/// Job 0 sets fact 63, job 1 clears it, job 2 needs it.
fn fact_63() -> Vec<Case> {
    let jobs = [Job::new(7).sets(63), Job::new(8).clears(63), Job::new(9).needs(63)];
    let with = |name, mark, entries: &[Entry], expected| {
        case(name, &Spec::new(H, &marks(&[(63, mark)]), &jobs), entries, expected)
    };
    let (set, clear) = (|t| entry(0, &[(sets(63), t)]), |t| entry(1, &[(clears(63), t)]));
    let need = |b, e| entry(2, &[(begins(63), b), (ends(63), e)]);
    vec![
        with("fact 63 set and cleared on one tick", 0, &[set(4), clear(4)], 41),
        with("fact 63 needed without a source", 0, &[need(4, 5)], 41),
        with("fact 63 needed after its set", 0, &[set(3), need(4, 5)], 0),
        with("fact 63 needed on the tick of its set", 0, &[set(4), need(4, 5)], 41),
        with("fact 63 cleared as its need ends", 0, &[set(3), need(4, 5), clear(5)], 41),
        with("fact 63 initial, needed", 1, &[need(0, 5), clear(6)], 0),
        with("fact 63 cleared, then needed", 1, &[need(0, 5), clear(0)], 41),
        with("fact 63 needed from 5 to 4", 1, &[need(5, 4)], 41),
        with("fact 63 the goal, not set", 2, &[], 41),
        with("fact 63 the goal, set and cleared", 2, &[set(4), clear(5)], 41),
        with("fact 63 the goal, cleared and set", 2, &[clear(4), set(5)], 0),
        with("fact 63 initial, the goal", 3, &[], 0),
        with("fact 63 the goal, initial, cleared", 3, &[clear(9)], 41),
    ]
}

/// Jobs that only set facts, as many as their code says. There is no goal, so that any list of right form is a plan.
fn counts() -> Vec<Case> {
    let sizes = [0, 1, 4, 7, 8, 9, 57, 64];
    let job = |&size: &usize| (0..size).fold(Job::new(size as u16), |job, fact| job.sets(fact));
    let jobs: Vec<Job> = sizes.iter().map(job).collect();
    let spec = Spec::new(H, &marks(&[]), &jobs);
    let list = |name, entries: &[(usize, usize)], expected| {
        let rows = entries
            .iter()
            .flat_map(|&(count, size)| vec![(size as u16, (0..size as u16).collect()); count]);
        let rows: Vec<(u16, Vec<u16>)> = rows.collect();
        Case::new(name, spec.bytes(), list_of_rows(&rows), expected)
    };
    vec![
        list("64 entries, no times", &[(64, 0)], 0),
        list("64 entries, 64 times", &[(64, 1)], 0),
        list("64 entries of 7, 8 and 9 times", &[(8, 7), (48, 8), (8, 9)], 0),
        list("65 entries, no times", &[(65, 0)], 40),
        list("65 entries, 65 times", &[(65, 1)], 40),
        list("65 entries, 512 times", &[(63, 8), (2, 4)], 40),
        list("65 entries, 512 times, one idle", &[(64, 8), (1, 0)], 40),
        list("512 times, 8 entries", &[(8, 64)], 0),
        list("512 times, 12 entries", &[(7, 64), (1, 57), (1, 4), (3, 1)], 0),
        list("512 times, 9 entries, one idle", &[(8, 64), (1, 0)], 0),
        list("513 times, 9 entries", &[(8, 64), (1, 1)], 40),
        list("513 times, 9 entries of 57", &[(9, 57)], 40),
        list("513 times, 64 entries of 8 and 9", &[(63, 8), (1, 9)], 40),
    ]
}

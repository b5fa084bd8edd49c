//! Edition 2 by hand, from document 02: its layout, the settling gap in point 3 and in the list rules, and releases.

use super::examples::{p1, p6, p6_entries, P1_LIST, P5_LIST};
use super::planner::{self, at_once, PlannerCase};
use super::Case;
use crate::build::{
    begins, clears, ends, facts_body_in, list_bytes, list_of_rows, sets, Act, Bodies, Entry, Job,
    Spec,
};
use crate::model::sheet::Edition;

/// The cases for the judge.
pub fn judged() -> Vec<Case> {
    let mut cases = gap_to_sets();
    cases.extend(gap_to_clears());
    cases.extend(set_anew());
    cases.extend(no_gap());
    cases.extend(default_gap());
    cases.extend(one_tick());
    cases.extend(releases());
    cases.extend(lists_of_p1());
    cases
}

/// Sheets of right and wrong form, for the judge.
pub fn forms_judged() -> Vec<Case> {
    forms().into_iter().map(|form| form.judged()).collect()
}

/// The cases for the planner.
pub fn planned() -> Vec<PlannerCase> {
    let mut cases = p1_with_gaps();
    cases.extend(p1_with_releases());
    cases.extend(p6_with_gaps());
    cases.extend(within_one_job());
    cases.extend(late_releases());
    cases.extend(into_the_class());
    cases
}

/// Sheets of right and wrong form, for the planner.
pub fn forms_planned() -> Vec<PlannerCase> {
    forms().into_iter().map(|form| form.planned()).collect()
}

fn planned_case(name: &str, spec: &Spec, rows: &[(u16, Vec<u16>)]) -> PlannerCase {
    planner::planned(name, spec, list_of_rows(rows))
}

fn refused(name: &str, spec: &Spec, number: u8, detail: usize) -> PlannerCase {
    planner::refused(name, spec, number, detail)
}

fn p1_with_gaps() -> Vec<PlannerCase> {
    let spec = |horizon, gap| p1(horizon).with_gap(gap);
    let list = |name, spec: &Spec, begin: u16| {
        let second = vec![begin, begin + 3, begin + 3];
        planned_case(name, spec, &[(10, vec![0, 5, 5]), (20, second)])
    };
    vec![
        planner::planned("P1, gap byte 1", &spec(100, 1), P1_LIST.to_vec()),
        planner::planned("P1, gap byte 1, H 9", &spec(9, 1), P1_LIST.to_vec()),
        refused("P1, gap byte 1, H 8", &spec(8, 1), 1, 0),
        list("P1, gap byte 0", &spec(100, 0), 7),
        list("P1, gap byte 0, H 10", &spec(10, 0), 7),
        refused("P1, gap byte 0, H 9", &spec(9, 0), 1, 0),
        refused("P1, gap byte 0, H 8", &spec(8, 0), 1, 0),
        planner::planned("P1, greatest revision", &p1(9).revised(1, 65_535), P1_LIST.to_vec()),
        list("P1, gap 2", &spec(100, 2), 7),
        list("P1, gap 2, H 10", &spec(10, 2), 7),
        refused("P1, gap 2, H 9", &spec(9, 2), 1, 0),
        list("P1, gap 3", &spec(100, 3), 8),
        list("P1, gap 3, H 11", &spec(11, 3), 8),
        refused("P1, gap 3, H 10", &spec(10, 3), 1, 0),
        list("P1, gap 60, H 68", &spec(68, 60), 65),
        refused("P1, gap 60, H 67", &spec(67, 60), 1, 0),
    ]
}

/// The ticks that a gap byte stands for.
pub(super) fn ticks(gap: u8) -> u16 {
    if gap == 0 {
        2
    } else {
        u16::from(gap)
    }
}

/// Sheets with this gap byte, at most 60.
pub fn planned_with(gap: u8) -> Vec<PlannerCase> {
    let mut cases = p1_with(gap);
    cases.extend(p6_with(gap));
    cases.extend(own_with(gap));
    cases
}

/// The same with every gap byte; above 60 there is no sheet.
pub fn planned_with_every_gap() -> Vec<PlannerCase> {
    let bad = |gap| refused("P1 with this gap is no sheet", &p1(100).with_gap(gap), 11, 0);
    (0..=60).flat_map(planned_with).chain((61..=255).map(bad)).collect()
}

/// Job 20 begins so many ticks after job 10's set, and its end just fits or does not.
fn p1_with(gap: u8) -> Vec<PlannerCase> {
    let (begin, end) = (5 + ticks(gap), 8 + ticks(gap));
    let spec = |horizon| p1(horizon).with_gap(gap);
    let rows = [(10, vec![0, 5, 5]), (20, vec![begin, end, end])];
    vec![
        planned_case("P1 with this gap just fits", &spec(end), &rows),
        refused("P1 with this gap, a tick too few", &spec(end - 1), 1, 0),
    ]
}

/// Job 20 begins so many ticks after job 10's set and ends so many before its clear, or does not.
fn p6_with(gap: u8) -> Vec<PlannerCase> {
    let clear = 4 + 2 * ticks(gap);
    let spec = |clear| Spec { horizon: clear, ..p6_2(clear, gap) };
    vec![
        planner::planned("P6 with this gap just fits", &spec(clear), p6_list(clear, ticks(gap))),
        refused("P6 with this gap, a tick too few", &spec(clear - 1), 1, 0),
    ]
}

/// The gap is not asked within a job.
fn own_with(gap: u8) -> Vec<PlannerCase> {
    let rows = [(1, vec![0, 0, 0, 0])];
    vec![
        planned_case("own set on the begin with this gap", &own_set(gap), &rows),
        planned_case("own clear on the end with this gap", &own_clear(gap), &rows),
    ]
}

/// Lists for P1 with every gap byte, with which job 20 begins as soon as it may, or a tick sooner.
pub fn lists_with_every_gap() -> Vec<Case> {
    let list =
        |begin: u16| list_of_rows(&[(10, vec![0, 5, 5]), (20, vec![begin, begin + 3, begin + 3])]);
    let case = |gap, begin, expected| {
        let name = format!("list for P1 with gap byte {gap}, job 20 at {begin}");
        Case::new(&name, p1(100).with_gap(gap).bytes(), list(begin), expected)
    };
    let both = |gap| [case(gap, 5 + ticks(gap), 0), case(gap, 4 + ticks(gap), 41)];
    let bad = |gap| case(gap, 7, 11);
    (0..=60).flat_map(both).chain((61..=255).map(bad)).collect()
}

fn p1_with_releases() -> Vec<PlannerCase> {
    let spec = |gap, releases: &[u16]| p1(100).with_gap(gap).released(releases);
    let list = |name, spec: &Spec, first: u16, second: u16| {
        let rows =
            [(10, vec![first, first + 5, first + 5]), (20, vec![second, second + 3, second + 3])];
        planned_case(name, spec, &rows)
    };
    let mut with_idle = spec(1, &[]);
    with_idle.jobs.push(Job::new(30).not_before(65_535));
    vec![
        list("P1, release 4 for job 10", &spec(1, &[4]), 4, 10),
        list("P1, gap 3, release 4 for job 10", &spec(3, &[4]), 4, 12),
        list("P1, gap 3, release 8 for job 20", &spec(3, &[0, 8]), 0, 8),
        list("P1, gap 3, release 9 for job 20", &spec(3, &[0, 9]), 0, 9),
        list("P1, release 97 for job 20", &spec(1, &[0, 97]), 0, 97),
        refused("P1, release 98 for job 20", &spec(1, &[0, 98]), 1, 0),
        list("P1, release 91 for job 10", &spec(1, &[91]), 91, 97),
        refused("P1, release 92 for job 10", &spec(1, &[92]), 1, 0),
        refused("P1, release 256 for job 10", &spec(1, &[256]), 1, 0),
        refused("P1, release 65,535 for job 10", &spec(1, &[65_535]), 1, 0),
        refused("P1, late releases for both", &spec(1, &[65_535, 65_535]), 1, 0),
        planner::planned("a late release for a job without events", &with_idle, P1_LIST.to_vec()),
    ]
}

/// P6 in edition 2, with its clear of fact 1 at `clear`.
fn p6_2(clear: u16, gap: u8) -> Spec {
    p6(clear as i16, true).with_gap(gap)
}

/// The list with which job 20 begins at `begin`.
fn p6_list(clear: u16, begin: u16) -> Vec<u8> {
    let mut entries = p6_entries(clear, true);
    let second = [(begins(1), begin), (ends(1), begin + 4), (sets(2), begin + 4)];
    entries[1] = Entry::new(1, &second);
    list_bytes(&p6(clear as i16, true), &entries)
}

/// P6 with gap byte 0, and its least list: job 20 settles two ticks after job 10's set, and two before its clear.
pub fn p6_by_default() -> (Spec, Vec<u8>) {
    (p6_2(8, 0), p6_list(8, 2))
}

fn p6_with_gaps() -> Vec<PlannerCase> {
    let list = |name, clear: u16, gap: u8, begin: u16| {
        planner::planned(name, &p6_2(clear, gap), p6_list(clear, begin))
    };
    let (by_default, its_list) = p6_by_default();
    vec![
        list("P6, gap byte 1, 6 ticks", 6, 1, 1),
        refused("P6, gap byte 1, 5 ticks", &p6_2(5, 1), 1, 0),
        planner::planned("P6, gap byte 0, 8 ticks", &by_default, its_list),
        refused("P6, gap byte 0, 7 ticks", &p6_2(7, 0), 1, 0),
        refused("P6, gap 2, 7 ticks", &p6_2(7, 2), 1, 0),
        list("P6, gap 2, 8 ticks", 8, 2, 2),
        refused("P6, gap 60, 123 ticks", &Spec { horizon: 200, ..p6_2(123, 60) }, 1, 0),
    ]
}

/// A job that sets what it needs when the need begins.
fn own_set(gap: u8) -> Spec {
    let job = Job::new(1).needs(0).sets(0).sets(1).exactly(sets(0), begins(0), 0);
    Spec::new(9, &[0, 2], &[job]).with_gap(gap)
}

/// A job that clears what it needs when the need ends.
fn own_clear(gap: u8) -> Spec {
    let job = Job::new(1).needs(0).clears(0).sets(1).exactly(clears(0), ends(0), 0);
    Spec::new(9, &[1, 2], &[job]).with_gap(gap)
}

/// The gap is not asked within a job, nor between a set and a clear.
fn within_one_job() -> Vec<PlannerCase> {
    let apart = Job::new(1)
        .needs(0)
        .clears(0)
        .sets(1)
        .clears(1)
        .sets(2)
        .exactly(ends(0), begins(0), 0)
        .exactly(clears(0), begins(0), 0)
        .exactly(sets(2), begins(0), 0);
    let set_first = apart.clone().exactly(sets(1), begins(0), 0).bound(clears(1), sets(1), 0, 3);
    let set_first = Spec::new(9, &[1, 0, 2], &[set_first]).with_gap(3);
    let clear_first = apart.exactly(clears(1), begins(0), 0).bound(sets(1), clears(1), 0, 3);
    let clear_first = Spec::new(9, &[1, 0, 2], &[clear_first]).with_gap(3);
    vec![
        planned_case("own set on the begin's tick, gap 9", &own_set(9), &[(1, vec![0, 0, 0, 0])]),
        planned_case("own clear on the end's tick, gap 9", &own_clear(9), &[(1, vec![0, 0, 0, 0])]),
        planned_case(
            "own clear a tick after the set, gap 3",
            &set_first,
            &[(1, vec![0, 0, 0, 0, 1, 0])],
        ),
        planned_case(
            "own set a tick after the clear, gap 3",
            &clear_first,
            &[(1, vec![0, 0, 0, 1, 0, 0])],
        ),
    ]
}

/// One job sets the goal; another is idle or wanted by nobody.
fn late_releases() -> Vec<PlannerCase> {
    let spec = |first, second| {
        let jobs = [Job::new(1).sets(0).not_before(first), Job::new(2).sets(1).not_before(second)];
        Spec::new(9, &[2, 0], &jobs).with_gap(1)
    };
    vec![
        planned_case("release at H", &spec(9, 0), &[(1, vec![9])]),
        refused("release one above H", &spec(10, 0), 1, 0),
        planned_case("an unwanted job released at H", &spec(0, 9), &[(1, vec![0])]),
        planned_case("an unwanted job released one above H", &spec(0, 10), &[(1, vec![0])]),
        refused("both released above H", &spec(65_535, 10), 1, 0),
    ]
}

/// The window from release to H alone holds the job's clears together, as the one from 0 to H does in edition 1.
fn into_the_class() -> Vec<PlannerCase> {
    let spec = |horizon, releases: &[u16]| {
        planner::tight_by_the_window(horizon).with_gap(1).released(releases)
    };
    let list = |spec: &Spec, first: u16, set: u16| {
        let mut entry = at_once(spec, 1, first);
        entry.ticks.insert(sets(2), set);
        list_bytes(spec, &[entry])
    };
    let released = spec(4, &[0, 1]);
    let late = spec(100, &[0, 97]);
    vec![
        refused("in no order before the release", &spec(4, &[]), 21, 1),
        planner::planned("in order by the release", &released, list(&released, 1, 4)),
        planner::planned("in order by a late release", &late, list(&late, 97, 100)),
        refused("in no order by a release too early", &spec(100, &[0, 96]), 21, 1),
        refused("in no order by the other job's release", &spec(4, &[1, 0]), 21, 1),
        refused("no own times by a release too late", &spec(4, &[0, 2]), 1, 0),
    ]
}

const H: u16 = 100;

/// Job 0 sets fact 0, job 1 clears it, job 2 needs it, job 3 sets and needs it, job 4 needs and clears it.
pub(super) fn five_jobs(mark: u8, gap: u8) -> Spec {
    let jobs = [
        Job::new(1).sets(0),
        Job::new(2).clears(0),
        Job::new(3).needs(0),
        Job::new(4).sets(0).needs(0),
        Job::new(5).needs(0).clears(0),
    ];
    Spec::new(H, &[mark], &jobs).with_gap(gap)
}

pub(super) fn set(tick: u16) -> Entry {
    Entry::new(0, &[(sets(0), tick)])
}

pub(super) fn clear(tick: u16) -> Entry {
    Entry::new(1, &[(clears(0), tick)])
}

pub(super) fn need(begin: u16, end: u16) -> Entry {
    Entry::new(2, &[(begins(0), begin), (ends(0), end)])
}

/// Entries that need the fact, with a set or a clear of their own.
pub(super) fn setting(begin: u16, end: u16, set: u16) -> Entry {
    Entry::new(3, &[(begins(0), begin), (ends(0), end), (sets(0), set)])
}

pub(super) fn clearing(begin: u16, end: u16, clear: u16) -> Entry {
    Entry::new(4, &[(begins(0), begin), (ends(0), end), (clears(0), clear)])
}

pub(super) fn case(name: &str, spec: &Spec, entries: &[Entry], expected: u8) -> Case {
    Case::new(name, spec.bytes(), list_bytes(spec, entries), expected)
}

fn gap_to_sets() -> Vec<Case> {
    let with =
        |name, gap, entries: &[Entry], expected| case(name, &five_jobs(0, gap), entries, expected);
    vec![
        with("gap 4, another's set 4 ticks before", 4, &[set(3), need(7, 9)], 0),
        with("gap 4, another's set 3 ticks before", 4, &[set(3), need(6, 9)], 41),
        with("gap 4, another's set one tick before", 4, &[set(3), need(4, 9)], 41),
        with("gap 4, own set at the begin", 4, &[setting(7, 9, 7)], 0),
        with("gap 4, own set a tick before", 4, &[setting(7, 9, 6)], 0),
        with("gap 4, own set after the begin", 4, &[setting(7, 9, 8)], 41),
        with("gap 4, twin's set 4 ticks before", 4, &[setting(3, 9, 3), setting(7, 9, 8)], 0),
        with("gap 4, twin's set 3 ticks before", 4, &[setting(3, 9, 3), setting(6, 9, 8)], 41),
        with("gap 60, another's set 60 ticks before", 60, &[set(0), need(60, 60)], 0),
        with("gap 60, another's set 59 ticks before", 60, &[set(0), need(59, 59)], 41),
        with("gap 4, a late set does no harm", 4, &[set(0), set(3), need(4, 9)], 0),
        with("gap 4, a late set is no source", 4, &[set(1), set(3), need(4, 9)], 41),
        with(
            "gap 4, only the late set is not cleared",
            4,
            &[set(0), clear(2), set(3), need(4, 9)],
            41,
        ),
    ]
}

fn gap_to_clears() -> Vec<Case> {
    let with =
        |name, gap, entries: &[Entry], expected| case(name, &five_jobs(1, gap), entries, expected);
    let twins = |first, second| [clearing(1, 5, first), clearing(0, 3, second)];
    vec![
        with("gap 4, own clear at the end", 4, &[clearing(1, 5, 5)], 0),
        with("gap 4, own clear before the end", 4, &[clearing(1, 5, 4)], 41),
        with("gap 4, own clear a tick after", 4, &[clearing(1, 5, 6)], 0),
        with("gap 4, twin's clear 4 ticks after", 4, &twins(9, 9), 0),
        with("gap 4, twin's clear 3 ticks after", 4, &twins(9, 8), 41),
        with("gap 4, the other twin's clear 3 ticks after", 4, &twins(6, 9), 41),
        with("gap 4, the other twin's clear 4 ticks after", 4, &twins(7, 9), 0),
        with("gap 4, equal twins' clears 4 ticks after", 4, &vec![clearing(1, 5, 9); 2], 0),
        with("gap 4, equal twins' clears 3 ticks after", 4, &vec![clearing(1, 5, 8); 2], 41),
        with("gap 4, another's clear 4 ticks after", 4, &[need(1, 5), clear(9)], 0),
        with("gap 4, another's clear 3 ticks after", 4, &[need(1, 5), clear(8)], 41),
        with("gap 4, another's clear a tick after", 4, &[need(1, 5), clear(6)], 41),
        with("gap 60, another's clear 60 ticks after", 60, &[need(1, 5), clear(65)], 0),
        with("gap 60, another's clear 59 ticks after", 60, &[need(1, 5), clear(64)], 41),
    ]
}

/// A clear within the gap is after the source, whatever was set in between; one before the source does no harm.
fn set_anew() -> Vec<Case> {
    let with = |name, mark, entries: &[Entry], expected| {
        case(name, &five_jobs(mark, 4), entries, expected)
    };
    vec![
        with(
            "gap 4, set anew, cleared 3 ticks after",
            0,
            &[set(0), need(4, 5), set(6), clear(8)],
            41,
        ),
        with(
            "gap 4, set anew, cleared 4 ticks after",
            0,
            &[set(0), need(4, 5), set(6), clear(9)],
            0,
        ),
        with(
            "gap 4, initial, set anew, cleared 3 ticks after",
            1,
            &[need(0, 5), set(6), clear(8)],
            41,
        ),
        with("gap 4, cleared a tick before the source", 0, &[clear(3), set(4), need(8, 9)], 0),
        with("gap 4, cleared, then set too late", 1, &[clear(1), set(2), need(5, 5)], 41),
        with("gap 4, cleared, then set in time", 1, &[clear(1), set(2), need(6, 6)], 0),
        with(
            "gap 4, two needs, the second set anew",
            0,
            &[set(0), need(4, 5), clear(9), set(10), need(14, 15)],
            0,
        ),
        with(
            "gap 4, two needs, the second set too late",
            0,
            &[set(0), need(4, 5), clear(9), set(11), need(14, 15)],
            41,
        ),
    ]
}

/// The initial state precedes tick 0 and never waits; points 2 and 4 keep their one tick.
fn no_gap() -> Vec<Case> {
    let with = |name, mark, entries: &[Entry], expected| {
        case(name, &five_jobs(mark, 60), entries, expected)
    };
    vec![
        with("gap 60, initial, needed at tick 0", 1, &[need(0, 0)], 0),
        with("gap 60, initial, a late set does no harm", 1, &[set(3), need(4, 5)], 0),
        with("gap 60, cleared a tick after the set", 0, &[set(4), clear(5)], 0),
        with("gap 60, set a tick after the clear", 0, &[clear(4), set(5)], 0),
        with("gap 60, set and cleared on one tick", 0, &[set(4), clear(4)], 41),
        with("gap 60, goal set a tick after the clear", 2, &[clear(4), set(5)], 0),
        with("gap 60, goal set at H", 2, &[set(H)], 0),
        with("gap 60, goal cleared a tick after the set", 2, &[set(4), clear(5)], 41),
        with("gap 60, initial goal", 3, &[], 0),
    ]
}

/// Two ticks, and no more within a job or between a set and a clear.
fn default_gap() -> Vec<Case> {
    let with = |name, mark, entries: &[Entry], expected| {
        case(name, &five_jobs(mark, 0), entries, expected)
    };
    vec![
        with("gap byte 0, set two ticks before", 0, &[set(2), need(4, 5)], 0),
        with("gap byte 0, set a tick before", 0, &[set(3), need(4, 5)], 41),
        with("gap byte 0, set on the begin's tick", 0, &[set(4), need(4, 5)], 41),
        with("gap byte 0, own set on the begin's tick", 0, &[setting(4, 5, 4)], 0),
        with("gap byte 0, cleared two ticks after", 1, &[need(4, 5), clear(7)], 0),
        with("gap byte 0, cleared a tick after", 1, &[need(4, 5), clear(6)], 41),
        with("gap byte 0, cleared on the end's tick", 1, &[need(4, 5), clear(5)], 41),
        with("gap byte 0, own clear on the end's tick", 1, &[clearing(4, 5, 5)], 0),
        with("gap byte 0, a clear one tick after the set", 0, &[set(4), clear(5)], 0),
        with("gap byte 0, initial, needed at tick 0", 1, &[need(0, 0)], 0),
    ]
}

/// One tick, as in edition 1.
fn one_tick() -> Vec<Case> {
    let with = |name, mark, entries: &[Entry], expected| {
        case(name, &five_jobs(mark, 1), entries, expected)
    };
    vec![
        with("gap byte 1, set a tick before", 0, &[set(3), need(4, 5)], 0),
        with("gap byte 1, set on the begin's tick", 0, &[set(4), need(4, 5)], 41),
        with("gap byte 1, cleared a tick after", 1, &[need(4, 5), clear(6)], 0),
        with("gap byte 1, cleared on the end's tick", 1, &[need(4, 5), clear(5)], 41),
    ]
}

/// Job 0 needs fact 0 and sets fact 1; job 1 has no events.
fn releases() -> Vec<Case> {
    let with = |name, releases: &[u16], ticks: [u16; 3], expected| {
        let jobs = [Job::new(1).needs(0).sets(1), Job::new(2)];
        let spec = Spec::new(H, &[1, 0], &jobs).with_gap(1).released(releases);
        let acts: [Act; 3] = [begins(0), ends(0), sets(1)];
        let ticks: Vec<(Act, u16)> = acts.into_iter().zip(ticks).collect();
        case(name, &spec, &[Entry::new(0, &ticks), Entry::new(1, &[])], expected)
    };
    let late = |name, listed: usize, expected| {
        let spec = Spec::new(H, &[1], &[Job::new(1).needs(0), Job::new(2)]).with_gap(1);
        let spec = spec.released(&[H + 1, 65_535]);
        let entries = [Entry::new(1, &[]), Entry::new(0, &[(begins(0), H + 1), (ends(0), H + 1)])];
        case(name, &spec, &entries[..listed], expected)
    };
    vec![
        with("all on the release", &[4], [4, 4, 4], 0),
        with("all a tick before the release", &[4], [3, 3, 3], 41),
        with("the begin before the release", &[4], [3, 4, 4], 41),
        with("the set before the release", &[4], [4, 5, 3], 41),
        with("the begin on the release, all else after", &[4], [4, 6, 7], 0),
        with("release at H", &[H], [H, H, H], 0),
        with("a tick before a release at H", &[H], [H, H, H - 1], 41),
        with("a late release of a job without events", &[0, 65_535], [0, 0, 0], 0),
        with("release 256, ticks 1", &[256], [1, 1, 1], 41),
        late("a release above H, nothing listed", 0, 0),
        late("a release above H, the job without events listed", 1, 0),
        late("a release above H, the job listed", 2, 41),
    ]
}

fn lists_of_p1() -> Vec<Case> {
    let by_default = list_of_rows(&[(10, vec![0, 5, 5]), (20, vec![7, 10, 10])]);
    let settled = list_of_rows(&[(10, vec![0, 5, 5]), (20, vec![8, 11, 11])]);
    let with = |name, spec: &Spec, list: &[u8], expected| {
        Case::new(name, spec.bytes(), list.to_vec(), expected)
    };
    vec![
        with("list for P1 in edition 2", &p1(100).with_gap(1), &P1_LIST, 0),
        with("list for P1, gap byte 0, P1's list", &p1(100).with_gap(0), &P1_LIST, 41),
        with("list for P1, gap byte 0, its own list", &p1(100).with_gap(0), &by_default, 0),
        with("list for P1, gap byte 0, H 10", &p1(10).with_gap(0), &by_default, 0),
        with("list for P1, gap 2, the list for byte 0", &p1(100).with_gap(2), &by_default, 0),
        with("list for P1, gap 2, P1's list", &p1(100).with_gap(2), &P1_LIST, 41),
        with("list for P1, gap 3, its own list", &p1(100).with_gap(3), &settled, 0),
        with("list for P1, gap 4, the list for 3", &p1(100).with_gap(4), &settled, 41),
        with(
            "list for P1, released at its ticks",
            &p1(100).with_gap(1).released(&[0, 6]),
            &P1_LIST,
            0,
        ),
        with(
            "list for P1, released a tick late",
            &p1(100).with_gap(1).released(&[0, 7]),
            &P1_LIST,
            41,
        ),
        with(
            "list for P1, first job released a tick late",
            &p1(100).with_gap(1).released(&[1]),
            &P1_LIST,
            41,
        ),
        with("list for P1, any revision", &p1(100).revised(1, 513), &P1_LIST, 0),
    ]
}

/// A sheet with the answer that is due for its form: 0 if it is well formed. There are no goals, so that the empty list
/// is a plan.
struct Form {
    name: &'static str,
    sheet: Vec<u8>,
    number: u8,
}

impl Form {
    fn judged(self) -> Case {
        Case::new(self.name, self.sheet, P5_LIST.to_vec(), self.number)
    }

    fn planned(self) -> PlannerCase {
        let list = (self.number == 0).then(|| P5_LIST.to_vec());
        let detail = list.as_ref().map_or(0, Vec::len);
        PlannerCase {
            name: self.name.to_string(),
            sheet: self.sheet,
            number: self.number,
            detail,
            list,
        }
    }
}

fn forms() -> Vec<Form> {
    let mut forms = editions();
    forms.extend(facts_bodies());
    forms.extend(jobs_bodies());
    forms.extend(which_first());
    forms
}

/// P1 without goals in edition 2.
fn p5_2() -> Spec {
    Spec { marks: vec![1, 0, 0], ..p1(100) }.with_gap(1)
}

fn editions() -> Vec<Form> {
    let with = |name, spec: &Spec, edition, number| {
        let mut sheet = spec.bytes();
        sheet[0] = edition;
        Form { name, sheet, number }
    };
    let old = p5_2().plain();
    let mut bad_gap = p5_2().with_gap(61);
    bad_gap.horizon = 10_081;
    vec![
        with("P5 in edition 2", &p5_2(), 2, 0),
        with("edition 2 bytes under byte 0 = 1", &p5_2(), 1, 11),
        with("edition 1 bytes under byte 0 = 2", &old, 2, 11),
        with("edition 2 bytes under byte 0 = 0", &p5_2(), 0, 10),
        with("edition 2 bytes under byte 0 = 3", &p5_2(), 3, 10),
        with("edition 2 bytes under byte 0 = 255", &p5_2(), 255, 10),
        with("a bad facts body under byte 0 = 3", &bad_gap, 3, 10),
    ]
}

fn facts_bodies() -> Vec<Form> {
    let with = |name, facts: Vec<u8>, number| {
        let bodies = Bodies { edition: 2, facts, ..Bodies::default() };
        Form { name, sheet: bodies.bytes(), number }
    };
    let body = |horizon, gap, revision, marks: &[u8]| {
        facts_body_in(Edition::Two { gap, revision }, horizon, marks)
    };
    vec![
        with("no facts body in edition 2", vec![], 11),
        with("three bytes of facts in edition 2", vec![0; 3], 11),
        with("five bytes of facts", vec![0; 5], 11),
        with("six bytes of facts", vec![0; 6], 0),
        with("seven bytes of facts, F 0", vec![0; 7], 11),
        with("six bytes of facts, F 1", vec![1, 0, 0, 0, 0, 0], 11),
        with("six bytes of facts, F 3", vec![3, 0, 0, 1, 0, 1], 11),
        with("edition 2, 64 facts", body(0, 0, 0, &[1; 64]), 0),
        with("edition 2, 65 facts", body(0, 0, 0, &[1; 65]), 11),
        with("edition 2, H 10,080", body(10_080, 60, 0, &[]), 0),
        with("edition 2, H 10,081", body(10_081, 60, 0, &[]), 11),
        with("gap 59", body(9, 59, 0, &[1]), 0),
        with("gap 60", body(9, 60, 0, &[1]), 0),
        with("gap 61", body(9, 61, 0, &[1]), 11),
        with("gap 64", body(9, 64, 0, &[1]), 11),
        with("gap 128", body(9, 128, 0, &[1]), 11),
        with("gap 255", body(9, 255, 0, &[1]), 11),
        with("revision 1", body(9, 0, 1, &[1]), 0),
        with("revision 256", body(9, 0, 256, &[1]), 0),
        with("revision 65,535", body(9, 0, 65_535, &[1]), 0),
        with("edition 2, mark 4 of the first fact", body(9, 0, 0, &[4, 1]), 11),
        with("edition 2, mark 4 of the last fact", body(9, 0, 0, &[1, 4]), 11),
    ]
}

/// Rows of code and release.
fn job_rows(rows: &[(u16, u16)]) -> Vec<u8> {
    rows.iter()
        .flat_map(|(code, release)| [code.to_le_bytes(), release.to_le_bytes()].concat())
        .collect()
}

fn jobs_bodies() -> Vec<Form> {
    let with = |name, jobs: Vec<u8>, number| {
        let bodies = Bodies { jobs, ..Spec::new(9, &[1], &[]).with_gap(0).bodies() };
        Form { name, sheet: bodies.bytes(), number }
    };
    let rows = |name, rows: &[(u16, u16)], number| with(name, job_rows(rows), number);
    let many = |count: u16| job_rows(&(0..count).map(|k| (k, 32 - k.min(32))).collect::<Vec<_>>());
    vec![
        with("one byte of jobs in edition 2", vec![1], 12),
        with("two bytes of jobs in edition 2", vec![1, 0], 12),
        with("three bytes of jobs", vec![1, 0, 0], 12),
        with("six bytes of jobs in edition 2", vec![1, 0, 2, 0, 3, 0], 12),
        rows("codes 10 and 10, releases 0 and 1", &[(10, 0), (10, 1)], 12),
        rows("codes 20 and 10, releases 0 and 1", &[(20, 0), (10, 1)], 12),
        rows("codes 10 and 20, releases 1 and 0", &[(10, 1), (20, 0)], 0),
        rows("codes 10 and 20, releases 65,535 and 9", &[(10, 65_535), (20, 9)], 0),
        rows("codes 10, 20 and 20", &[(10, 0), (20, 0), (20, 0)], 12),
        rows("codes by the high byte in edition 2", &[(1, 0), (256, 0)], 0),
        rows("a release above H is no fault of form", &[(10, 10)], 0),
        with("edition 2, 32 jobs", many(32), 0),
        with("edition 2, 33 jobs", many(33), 12),
        with("edition 2, 64 jobs", many(64), 12),
    ]
}

/// Every set of broken bodies of an edition 2 sheet: the first decides.
fn which_first() -> Vec<Form> {
    let mut forms = Vec::new();
    for broken in 1..16usize {
        let mut bodies = p5_2().bodies();
        for part in (0..4).filter(|part| broken >> part & 1 == 1) {
            bodies.part(part).push(9);
        }
        let number = 11 + broken.trailing_zeros() as u8;
        forms.push(Form { name: "bodies broken in edition 2", sheet: bodies.bytes(), number });
    }
    let mut gap_and_codes = p5_2().with_gap(61);
    gap_and_codes.jobs.reverse();
    forms.push(Form { name: "gap 61 and falling codes", sheet: gap_and_codes.bytes(), number: 11 });
    forms
}

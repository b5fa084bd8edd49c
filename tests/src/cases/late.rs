//! Late starts, by hand: document 01's examples with delays, and small sheets for one thing each.

use super::examples::{p1, p5, p6, p6_entries, p9, P1_LIST, P5_LIST};
use crate::build::{clears, list_bytes, list_of_rows, Entry, Job, Spec};
use crate::Run;

/// A sheet, a list with delays, and number and detail for them.
#[derive(Clone, Debug)]
pub struct LateCase {
    pub name: String,
    pub sheet: Vec<u8>,
    pub list: Vec<u8>,
    pub delays: Vec<u16>,
    pub expected: (u8, usize),
}

/// The same with a state, and number and state after one move.
#[derive(Clone, Debug)]
pub struct MoveCase {
    pub name: String,
    pub sheet: Vec<u8>,
    pub list: Vec<u8>,
    pub delays: Vec<u16>,
    pub from: Run,
    pub expected: (u8, Run),
}

/// A sheet with a list for it.
pub(super) type Listed = (Spec, Vec<u8>);

/// Delays, and number and detail for them.
type Answered = (&'static [u16], (u8, usize));

pub fn cases() -> Vec<LateCase> {
    let mut cases = examples();
    cases.extend(with_gaps());
    cases.extend(of_twins());
    cases.extend(at_the_end());
    cases
}

fn named(name: &str, (spec, list): &Listed, answers: &[Answered]) -> Vec<LateCase> {
    let case = |(delays, expected): &Answered| LateCase {
        name: format!("{name}, delays {delays:?}"),
        sheet: spec.bytes(),
        list: list.clone(),
        delays: delays.to_vec(),
        expected: *expected,
    };
    answers.iter().map(case).collect()
}

pub(super) fn p1_listed() -> Listed {
    (p1(100), P1_LIST.to_vec())
}

/// P1 with job 20 on the tick of job 10's set: no plan.
pub(super) fn p10_listed() -> Listed {
    (p1(100), list_of_rows(&[(10, vec![0, 5, 5]), (20, vec![5, 8, 8])]))
}

/// P1 with gap 2: job 20 begins at 7.
pub(super) fn p1_with_gap_2() -> Listed {
    (p1(100).with_gap(2), list_of_rows(&[(10, vec![0, 5, 5]), (20, vec![7, 10, 10])]))
}

pub(super) fn p6_listed() -> Listed {
    (p6(6, true), list_bytes(&p6(6, true), &p6_entries(6, true)))
}

/// P6 with gap 2: job 20 needs fact 1 from 2 to 6, and job 10 clears it at 8.
fn p6_with_gap_2() -> Listed {
    let spec = p6(8, true).with_gap(2);
    let mut entries = p6_entries(8, true);
    entries[1].ticks.values_mut().for_each(|tick| *tick += 1);
    let list = list_bytes(&spec, &entries);
    (spec, list)
}

/// P9: job 10 clears fact 0 at 0, job 20 sets it at 1.
pub(super) fn p9_listed() -> Listed {
    (p9(), list_of_rows(&[(10, vec![0, 0]), (20, vec![1])]))
}

fn examples() -> Vec<LateCase> {
    let p5_listed = (p5(), P5_LIST.to_vec());
    [
        named(
            "P1",
            &p1_listed(),
            &[
                (&[0, 0], (0, 0)),
                (&[0, 1], (0, 0)),
                (&[1, 0], (41, 6)),
                (&[1, 1], (0, 0)),
                (&[0, 91], (0, 0)),
                (&[0, 92], (41, 100)),
                (&[96, 0], (41, 6)),
                (&[600, 0], (41, 6)),
                (&[0, 600], (41, 100)),
                (&[601, 0], (40, 0)),
                (&[0, 601], (40, 0)),
                (&[0, 65_535], (40, 0)),
                (&[0], (40, 0)),
                (&[0, 0, 0], (40, 0)),
                (&[], (40, 0)),
            ],
        ),
        named(
            "P10",
            &p10_listed(),
            &[
                (&[0, 0], (41, 0)),
                (&[0, 1], (41, 0)),
                (&[601, 0], (41, 0)),
                (&[0], (41, 0)),
                (&[], (41, 0)),
            ],
        ),
        named("P5 without entries", &p5_listed, &[(&[], (0, 0)), (&[0], (40, 0))]),
        named(
            "P6",
            &p6_listed(),
            &[
                (&[0, 0], (0, 0)),
                (&[0, 1], (41, 6)),
                (&[0, 4], (41, 6)),
                (&[0, 5], (41, 6)),
                (&[0, 6], (41, 7)),
                (&[1, 0], (41, 1)),
                (&[1, 1], (0, 0)),
            ],
        ),
        named(
            "P9",
            &p9_listed(),
            &[
                (&[0, 0], (0, 0)),
                (&[0, 99], (0, 0)),
                (&[0, 100], (41, 100)),
                (&[1, 0], (41, 1)),
                (&[2, 0], (41, 100)),
            ],
        ),
    ]
    .concat()
}

fn with_gaps() -> Vec<LateCase> {
    [
        named(
            "P1 with gap 2",
            &p1_with_gap_2(),
            &[(&[0, 0], (0, 0)), (&[1, 0], (41, 7)), (&[2, 0], (41, 7)), (&[1, 1], (0, 0))],
        ),
        named(
            "P6 with gap 2",
            &p6_with_gap_2(),
            &[
                (&[0, 0], (0, 0)),
                (&[0, 1], (41, 8)),
                (&[0, 2], (41, 8)),
                (&[0, 3], (41, 8)),
                (&[0, 6], (41, 8)),
                (&[0, 7], (41, 9)),
                (&[1, 0], (41, 2)),
                (&[2, 2], (0, 0)),
            ],
        ),
    ]
    .concat()
}

/// A job that sets, needs and clears fact 0, twice: from 0 to 2 and from 4 to 6.
fn twins() -> Listed {
    let spec = Spec::new(20, &[0], &[Job::new(1).needs(0).sets(0).clears(0)]);
    (spec, list_of_rows(&[(1, vec![0, 2, 0, 2]), (1, vec![4, 6, 4, 6])]))
}

/// Fact 0 is initial, and cleared at 3. A job needs it at 0, and sets it at 5 for its twin, which needs it at 6.
fn twins_in_turn() -> Listed {
    let jobs = [Job::new(1).needs(0).sets(0), Job::new(2).clears(0)];
    let rows = [(1, vec![0, 0, 5]), (2, vec![3]), (1, vec![6, 6, 8])];
    (Spec::new(20, &[1], &jobs), list_of_rows(&rows))
}

fn of_twins() -> Vec<LateCase> {
    let (spec, list) = twins();
    let with_gap_3 = (spec.with_gap(3), list);
    [
        named(
            "twins",
            &twins(),
            &[
                (&[0, 0], (0, 0)),
                (&[0, 5], (0, 0)),
                (&[1, 0], (0, 0)),
                (&[2, 0], (41, 4)),
                (&[3, 0], (41, 5)),
                (&[4, 0], (41, 6)),
                (&[5, 0], (41, 6)),
                (&[6, 0], (41, 6)),
                (&[7, 0], (0, 0)),
            ],
        ),
        named(
            "twins with gap 3",
            &with_gap_3,
            &[
                (&[0, 0], (0, 0)),
                (&[1, 0], (0, 0)),
                (&[5, 0], (41, 6)),
                (&[7, 0], (0, 0)),
                (&[8, 0], (0, 0)),
            ],
        ),
        named(
            "twins in turn",
            &twins_in_turn(),
            &[
                (&[0, 0, 0], (0, 0)),
                (&[1, 0, 0], (41, 6)),
                (&[1, 0, 1], (0, 0)),
                (&[0, 2, 0], (41, 5)),
                (&[0, 3, 0], (41, 6)),
                (&[3, 0, 3], (41, 3)),
                (&[4, 0, 4], (41, 4)),
            ],
        ),
    ]
    .concat()
}

/// Job 1 sets fact 0 at 0, jobs 2 and 3 need it at 1 and at 5.
fn two_needs(horizon: u16) -> Listed {
    let jobs = [Job::new(1).sets(0), Job::new(2).needs(0), Job::new(3).needs(0)];
    let rows = [(1, vec![0]), (2, vec![1, 1]), (3, vec![5, 5])];
    (Spec::new(horizon, &[0], &jobs), list_of_rows(&rows))
}

fn at_the_end() -> Vec<LateCase> {
    let goal_at_0 = Spec::new(0, &[2], &[Job::new(1).sets(0)]);
    let goal_at_0 = (goal_at_0, list_of_rows(&[(1, vec![0])]));
    let p1_at_9 = (p1(9), P1_LIST.to_vec());
    [
        named(
            "two needs",
            &two_needs(50),
            &[
                (&[9, 0, 0], (41, 1)),
                (&[9, 9, 0], (41, 5)),
                (&[9, 9, 5], (0, 0)),
                (&[1, 1, 0], (0, 0)),
            ],
        ),
        named(
            "two needs up to H",
            &two_needs(5),
            &[
                (&[0, 4, 0], (0, 0)),
                (&[0, 5, 0], (41, 5)),
                (&[4, 5, 0], (41, 5)),
                (&[5, 4, 0], (41, 5)),
                (&[5, 5, 1], (41, 5)),
                (&[6, 7, 7], (41, 5)),
                (&[6, 5, 1], (41, 5)),
            ],
        ),
        named(
            "P1 up to H",
            &p1_at_9,
            &[
                (&[0, 1], (41, 9)),
                (&[600, 600], (41, 9)),
                (&[10, 9], (41, 9)),
                (&[5, 0], (41, 6)),
                (&[10, 0], (41, 6)),
            ],
        ),
        named("H 0", &goal_at_0, &[(&[0], (0, 0)), (&[1], (41, 0)), (&[600], (41, 0))]),
    ]
    .concat()
}

/// A state before and after.
type Moved = ((u64, u64), (u8, (u64, u64)));

fn moves(name: &str, (spec, list): &Listed, delays: &[u16], moved: &[Moved]) -> Vec<MoveCase> {
    let run = |(next, held): (u64, u64)| Run { next, held };
    let case = |(from, (number, to)): &Moved| MoveCase {
        name: format!("{name}, delays {delays:?}, from {from:?}"),
        sheet: spec.bytes(),
        list: list.clone(),
        delays: delays.to_vec(),
        from: run(*from),
        expected: (*number, run(*to)),
    };
    moved.iter().map(case).collect()
}

pub fn moved() -> Vec<MoveCase> {
    const MOST: u64 = u64::MAX;
    const ABOVE: u64 = MOST << 3;
    [
        moves(
            "P1",
            &p1_listed(),
            &[0, 0],
            &[
                ((0, 1), (0, (1, 1))),
                ((4, 1), (0, (5, 1))),
                ((5, 1), (0, (6, 3))),
                ((5, ABOVE | 1), (0, (6, ABOVE | 3))),
                ((5, 0), (0, (6, 2))),
                ((9, 3), (0, (10, 7))),
                ((99, 7), (0, (100, 7))),
                ((100, 7), (0, (101, 7))),
                ((101, 7), (0, (101, 7))),
                ((101, 1), (0, (101, 1))),
                ((102, 5), (0, (102, 5))),
                ((MOST, MOST), (0, (MOST, MOST))),
                // The same as 5 in its last bytes.
                ((65_541, 1), (0, (65_541, 1))),
                (((1 << 32) + 5, 1), (0, ((1 << 32) + 5, 1))),
            ],
        ),
        moves(
            "P1 that fails",
            &p1_listed(),
            &[1, 0],
            &[((5, 1), (0, (6, 1))), ((6, 1), (0, (7, 3))), ((100, 7), (0, (101, 7)))],
        ),
        moves(
            "P1 above H",
            &p1_listed(),
            &[0, 92],
            &[((100, 3), (0, (101, 3))), ((101, 3), (0, (101, 3)))],
        ),
        moves("P1 at H", &p1_listed(), &[0, 91], &[((100, 3), (0, (101, 7)))]),
        moves("P1 with a bad delay", &p1_listed(), &[0, 601], &[((5, 1), (40, (5, 1)))]),
        moves("P1 with one delay", &p1_listed(), &[0], &[((5, 1), (40, (5, 1)))]),
        moves("P10", &p10_listed(), &[0, 0], &[((5, 1), (41, (5, 1)))]),
        moves("P10 with a bad delay", &p10_listed(), &[0, 601], &[((5, 1), (41, (5, 1)))]),
        moves(
            "P6",
            &p6_listed(),
            &[0, 0],
            &[
                ((0, 1), (0, (1, 2))),
                ((0, 0), (0, (1, 2))),
                ((5, 2), (0, (6, 6))),
                ((6, 6), (0, (7, 4))),
                ((6, 4), (0, (7, 4))),
            ],
        ),
        moves(
            "twins, set and clear at once",
            &twins(),
            &[2, 0],
            &[((4, 1), (0, (5, 0))), ((4, 0), (0, (5, 0))), ((4, MOST), (0, (5, MOST - 1)))],
        ),
    ]
    .concat()
}

/// Fact 63 is set at 3 by one job and cleared at 5 by another, the last of 64 facts.
pub fn fact_63() -> Vec<MoveCase> {
    let jobs = [Job::new(1).sets(63), Job::new(2).clears(63)];
    let spec = Spec::new(20, &[0; 64], &jobs);
    let entries =
        [Entry::new(0, &[(crate::build::sets(63), 3)]), Entry::new(1, &[(clears(63), 5)])];
    let listed = (spec.clone(), list_bytes(&spec, &entries));
    const LAST: u64 = 1 << 63;
    moves(
        "fact 63",
        &listed,
        &[1, 1],
        &[
            ((3, 0), (0, (4, 0))),
            ((4, 0), (0, (5, LAST))),
            ((4, 9), (0, (5, LAST + 9))),
            ((6, u64::MAX), (0, (7, LAST - 1))),
            ((6, 0), (0, (7, 0))),
        ],
    )
}

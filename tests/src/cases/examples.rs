//! P1 to P10 of document 01, as far as the judge is concerned.

use super::Case;
use crate::build::{begins, clears, ends, list_bytes, sets, Entry, Job, Spec};
use std::fs;
use std::path::Path;

/// A file of the folder `examples`.
pub fn file(name: &str) -> Vec<u8> {
    let folder = Path::new(env!("CARGO_MANIFEST_DIR")).join("../examples");
    fs::read(folder.join(name)).unwrap_or_else(|error| panic!("{name}: {error}"))
}

/// P1 with a horizon of 100, P2 with 9, P3 with 8.
pub fn p1(horizon: u16) -> Spec {
    let first =
        Job::new(10).needs(0).sets(1).exactly(ends(0), begins(0), 5).exactly(sets(1), ends(0), 0);
    let second =
        Job::new(20).needs(1).sets(2).exactly(ends(1), begins(1), 3).exactly(sets(2), ends(1), 0);
    Spec::new(horizon, &[1, 0, 2], &[first, second])
}

/// The 24 bytes that document 01 prints.
pub const P1_LIST: [u8; 24] = [
    0x01, 0x00, 0x02, 0x00, 0x0A, 0x00, 0x0C, 0x00, 0x14, 0x00, 0x12, 0x00, //
    0x00, 0x00, 0x05, 0x00, 0x05, 0x00, 0x06, 0x00, 0x09, 0x00, 0x09, 0x00,
];

pub const P5_LIST: [u8; 4] = [1, 0, 0, 0];

/// P1 without goals.
pub fn p5() -> Spec {
    Spec { marks: vec![1, 0, 0], ..p1(100) }
}

/// P6 with a gap of 6 ticks, P7 with 5; in P8 job 10 does not clear fact 0.
pub fn p6(gap: i16, clears_0: bool) -> Spec {
    let mut first = Job::new(10)
        .needs(0)
        .sets(1)
        .clears(1)
        .exactly(ends(0), begins(0), 0)
        .exactly(sets(1), begins(0), 0)
        .exactly(clears(1), sets(1), gap);
    if clears_0 {
        first = first.clears(0).exactly(clears(0), begins(0), 0);
    }
    let second =
        Job::new(20).needs(1).sets(2).exactly(ends(1), begins(1), 4).exactly(sets(2), ends(1), 0);
    Spec::new(100, &[1, 0, 2], &[first, second])
}

/// Job 10 at tick 0, its clear of fact 1 at `clear`, and job 20 from tick 1 to 5.
pub fn p6_entries(clear: u16, clears_0: bool) -> [Entry; 2] {
    let mut first = Entry::new(0, &[(begins(0), 0), (ends(0), 0), (sets(1), 0)]);
    first.ticks.insert(clears(1), clear);
    if clears_0 {
        first.ticks.insert(clears(0), 0);
    }
    let second = Entry::new(1, &[(begins(1), 1), (ends(1), 5), (sets(2), 5)]);
    [first, second]
}

pub fn p9() -> Spec {
    let first = Job::new(10).sets(1).clears(0);
    let second = Job::new(20).sets(0);
    Spec::new(100, &[3, 2], &[first, second])
}

/// Job 10 at `first`, and job 20 at each of the ticks in `others`.
fn p9_list(first: u16, others: &[u16]) -> Vec<u8> {
    let mut entries = vec![Entry::new(0, &[(clears(0), first), (sets(1), first)])];
    entries.extend(others.iter().map(|&t| Entry::new(1, &[(sets(0), t)])));
    list_bytes(&p9(), &entries)
}

pub fn cases() -> Vec<Case> {
    let p1_list = P1_LIST.to_vec();
    let mut p10_list = P1_LIST.to_vec();
    for (place, time) in [(18, 5), (20, 8), (22, 8)] {
        p10_list[place] = time;
    }
    let p6_case = |name, gap: i16, clears_0, expected| {
        let spec = p6(gap, clears_0);
        let list = list_bytes(&spec, &p6_entries(gap as u16, clears_0));
        Case::new(name, spec.bytes(), list, expected)
    };
    vec![
        Case::new("P1", p1(100).bytes(), p1_list.clone(), 0),
        Case::new("P2", p1(9).bytes(), p1_list.clone(), 0),
        Case::new("P3, P1's list", p1(8).bytes(), p1_list.clone(), 41),
        Case::new("P5", p5().bytes(), P5_LIST.to_vec(), 0),
        Case::new("P5, P1's list", p5().bytes(), p1_list, 0),
        Case::new("P1, empty list", p1(100).bytes(), P5_LIST.to_vec(), 41),
        p6_case("P6", 6, true, 0),
        p6_case("P7, P6's ticks", 5, true, 41),
        p6_case("P8, P6's ticks", 6, false, 0),
        Case::new("P9, 10 then 20", p9().bytes(), p9_list(0, &[1]), 0),
        Case::new("P9, 10 and 20 at once", p9().bytes(), p9_list(1, &[1]), 41),
        Case::new("P9, 20 then 10", p9().bytes(), p9_list(1, &[0]), 41),
        Case::new("P9, 10 alone", p9().bytes(), p9_list(0, &[]), 41),
        Case::new("P9, 20 before and after", p9().bytes(), p9_list(1, &[0, 2]), 0),
        Case::new("P10", p1(100).bytes(), p10_list, 41),
    ]
}

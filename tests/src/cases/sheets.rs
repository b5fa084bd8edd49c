//! Corner cases of "The sheet": each rule broken alone, the limits, and which answer comes first.

use super::examples::{p1, P1_LIST};
use super::Case;
use crate::build::{bound_row, facts_body, free_bound_row, Bodies, Spec};

pub fn cases() -> Vec<Case> {
    let mut cases = contents();
    cases.extend(sizes());
    cases.extend(empty_bodies());
    cases.extend(long_sheets());
    cases.extend(facts());
    cases.extend(jobs());
    cases.extend(events());
    cases.extend(event_limits());
    cases.extend(bounds());
    cases.extend(bound_values());
    cases.extend(bound_limits());
    cases.extend(which_first());
    cases
}

fn empty_list() -> Vec<u8> {
    vec![1, 0, 0, 0]
}

/// P1 with some bytes replaced, judged with P1's list.
fn patched(name: &str, bytes: &[(usize, u8)], expected: u8) -> Case {
    let mut sheet = p1(100).bytes();
    for &(place, byte) in bytes {
        sheet[place] = byte;
    }
    Case::new(name, sheet, P1_LIST.to_vec(), expected)
}

/// P1 with some bodies replaced, judged with P1's list.
fn altered(name: &str, change: impl Fn(&mut Bodies), expected: u8) -> Case {
    let mut bodies = p1(100).bodies();
    change(&mut bodies);
    Case::new(name, bodies.bytes(), P1_LIST.to_vec(), expected)
}

fn sizes() -> Vec<Case> {
    let sheet = p1(100).bytes();
    let cut = |name, end: usize| Case::new(name, sheet[..end].to_vec(), P1_LIST.to_vec(), 10);
    let mut longer = sheet.clone();
    longer.push(0);
    vec![
        cut("no bytes", 0),
        cut("25 bytes", 25),
        cut("26 bytes", 26),
        cut("last byte missing", 77),
        Case::new("a byte more", longer, P1_LIST.to_vec(), 10),
    ]
}

/// The least sheet, and its parts elsewhere.
fn empty_bodies() -> Vec<Case> {
    let with = |name, bytes: &[(usize, u8)], expected| {
        let mut sheet = Spec::new(0, &[], &[]).bytes();
        bytes.iter().for_each(|(place, byte)| sheet[*place] = *byte);
        Case::new(name, sheet, empty_list(), expected)
    };
    vec![
        with("29 bytes, nothing in it", &[], 0),
        with("first body elsewhere", &[(4, 27)], 10),
        with("empty body elsewhere", &[(16, 30)], 10),
        with("empty body earlier", &[(16, 26)], 10),
        with("last empty body elsewhere", &[(22, 28)], 10),
    ]
}

fn contents() -> Vec<Case> {
    vec![
        patched("edition 0", &[(0, 0)], 10),
        patched("edition 2 in the first byte alone", &[(0, 2)], 11),
        patched("edition 3", &[(0, 3)], 10),
        patched("edition 255", &[(0, 255)], 10),
        patched("three parts", &[(1, 3)], 10),
        patched("five parts", &[(1, 5)], 10),
        patched("kinds exchanged", &[(2, 2), (8, 1)], 10),
        patched("no zero byte", &[(9, 1)], 10),
        patched("offset one less", &[(10, 31)], 10),
        patched("offset one more", &[(10, 33)], 10),
        patched("length one less", &[(6, 5)], 10),
        patched("last length one more", &[(24, 25)], 10),
        patched("last length one less", &[(24, 23)], 10),
        patched("length with a high byte", &[(25, 1)], 10),
    ]
}

/// Sheets over 65,535 bytes are no case of their own.
fn long_sheets() -> Vec<Case> {
    let small = Spec::new(0, &[], &[]);
    let mut many_bounds = small.bodies();
    many_bounds.bounds = vec![0; 65_532];
    let mut long_facts = small.bodies();
    long_facts.facts = vec![0; 65_500];
    let mut trailing = small.bytes();
    trailing.resize(70_000, 0);
    let mut wrapped = small.bodies();
    wrapped.facts.resize(40_000, 0);
    wrapped.jobs.resize(40_000, 0);
    vec![
        Case::new("last body past 65,535", many_bounds.bytes(), empty_list(), 14),
        Case::new("facts body past any use", long_facts.bytes(), empty_list(), 11),
        Case::new("bytes after the last body", trailing, empty_list(), 10),
        Case::new("offset modulo 65,536", wrapped.bytes(), empty_list(), 10),
        Case::new("length modulo 65,536", length_wrapped(), empty_list(), 10),
    ]
}

/// 65,536 bytes of bounds that the contents take for none.
fn length_wrapped() -> Vec<u8> {
    let mut bodies = Spec::new(0, &[], &[]).bodies();
    bodies.bounds = vec![0; 65_536];
    bodies.bytes()
}

fn facts() -> Vec<Case> {
    let with = |name, body: Vec<u8>, expected| {
        let facts = body;
        let bodies = Bodies { facts, ..Bodies::default() };
        Case::new(name, bodies.bytes(), empty_list(), expected)
    };
    let mut cases = vec![
        with("64 facts", facts_body(0, &[3; 64]), 0),
        with("65 facts", facts_body(0, &[3; 65]), 11),
        with("255 facts", facts_body(0, &[1; 255]), 11),
        with("H 10,080", facts_body(10_080, &[1]), 0),
        with("H 10,081", facts_body(10_081, &[1]), 11),
        with("H 65,535", facts_body(65_535, &[]), 11),
        with("count too small", vec![1, 0, 0, 1, 1], 11),
        with("count too great", vec![3, 0, 0, 1, 1], 11),
        with("two bytes", vec![0, 0], 11),
        with("one byte", vec![0], 11),
        with("no facts body", Vec::new(), 11),
    ];
    for mark in 0..=255 {
        let expected = match mark {
            0 | 1 | 3 => 0,
            2 => 41,
            _ => 11,
        };
        cases.push(with("mark", facts_body(0, &[mark]), expected));
    }
    cases
}

fn codes(codes: &[u16]) -> Vec<u8> {
    codes.iter().flat_map(|code| code.to_le_bytes()).collect()
}

fn jobs() -> Vec<Case> {
    let with = |name, jobs: Vec<u8>, expected| {
        let facts = facts_body(0, &[]);
        let bodies = Bodies { facts, jobs, ..Bodies::default() };
        Case::new(name, bodies.bytes(), empty_list(), expected)
    };
    let rising = |count: u16| codes(&(0..count).collect::<Vec<_>>());
    vec![
        with("32 jobs", rising(32), 0),
        with("33 jobs", rising(33), 12),
        with("codes by the high byte", codes(&[1, 256, 258, 513]), 0),
        with("equal codes", codes(&[5, 7, 7]), 12),
        with("falling codes", codes(&[5, 8, 7]), 12),
        with("falling, low bytes rise", codes(&[0x0201, 0x0102]), 12),
        with("codes 0 and 65,535", codes(&[0, 65_535]), 0),
        with("odd jobs body", vec![1, 0, 2], 12),
        with("one byte of jobs", vec![1], 12),
    ]
}

/// Three facts, two jobs, and these rows: job, type, fact.
fn with_events(name: &str, rows: &[[u8; 3]], expected: u8) -> Case {
    let bodies = Bodies {
        facts: facts_body(9, &[1, 0, 0]),
        jobs: codes(&[5, 6]),
        events: rows.concat(),
        ..Bodies::default()
    };
    Case::new(name, bodies.bytes(), empty_list(), expected)
}

fn events() -> Vec<Case> {
    let mut cases = vec![
        with_events("all types", &[[0, 0, 0], [0, 1, 0], [0, 2, 0], [0, 3, 0]], 0),
        with_events("fact before type", &[[0, 3, 0], [0, 2, 1]], 0),
        with_events("type before fact", &[[0, 2, 1], [0, 3, 0]], 13),
        with_events("job before fact", &[[0, 2, 2], [1, 2, 0]], 0),
        with_events("jobs fall", &[[1, 2, 0], [0, 2, 1]], 13),
        with_events("types fall", &[[0, 3, 0], [0, 2, 0]], 13),
        with_events("event twice", &[[0, 2, 0], [0, 2, 0]], 13),
        with_events("job does not exist", &[[2, 2, 0]], 13),
        with_events("fact does not exist", &[[0, 2, 3]], 13),
        with_events("type 4", &[[0, 4, 0]], 13),
        with_events("type 255", &[[0, 255, 0]], 13),
        with_events("begin alone", &[[0, 0, 0]], 13),
        with_events("end alone", &[[0, 1, 0]], 13),
        with_events("begin, then set", &[[0, 0, 0], [0, 2, 0]], 13),
        with_events("end, then set", &[[0, 1, 0], [0, 2, 0]], 13),
        with_events("ends of two facts", &[[0, 0, 0], [0, 1, 1]], 13),
        with_events("ends of two jobs", &[[0, 0, 0], [1, 1, 0]], 13),
        with_events("begins, then ends", &[[0, 0, 0], [0, 0, 1], [0, 1, 0], [0, 1, 1]], 13),
    ];
    for extra in 1..3 {
        let cut = |bodies: &mut Bodies| bodies.events.truncate(18 - extra);
        let add = |bodies: &mut Bodies| bodies.events.extend(vec![2; extra]);
        cases.push(altered("events body cut", cut, 13));
        cases.push(altered("events body longer", add, 13));
    }
    cases
}

/// `count` events over 64 facts and two jobs, all four types of a fact in turn.
fn many_events(count: usize) -> Bodies {
    let row = |k: usize| [(k / 256) as u8, (k % 4) as u8, (k / 4 % 64) as u8];
    Bodies {
        facts: facts_body(0, &[0; 64]),
        jobs: codes(&[5, 6]),
        events: (0..count).flat_map(row).collect(),
        ..Bodies::default()
    }
}

fn event_limits() -> Vec<Case> {
    let with =
        |name, count, expected| Case::new(name, many_events(count).bytes(), empty_list(), expected);
    let mut one_more = many_events(256);
    one_more.events.extend([1, 2, 0]);
    vec![
        with("254 events", 254, 0),
        with("256 events", 256, 0),
        with("260 events", 260, 13),
        Case::new("257 events", one_more.bytes(), empty_list(), 13),
    ]
}

fn bounds() -> Vec<Case> {
    let with = |name, rows: &[[u8; 6]], expected| {
        altered(name, |bodies| bodies.bounds = rows.concat(), expected)
    };
    let free = free_bound_row;
    let mut cases = vec![
        with("no bounds", &[], 0),
        with("both orders of a pair", &[free(0, 1), free(1, 0)], 0),
        with("pairs by e, then d", &[free(0, 2), free(1, 0), free(2, 0)], 0),
        with("pair twice", &[free(0, 1), free(0, 1)], 0),
        with("pair again behind another", &[free(0, 1), free(0, 2), free(0, 1)], 14),
        with("pairs fall by d", &[free(0, 2), free(0, 1)], 14),
        with("pairs fall by e", &[free(1, 0), free(0, 1)], 14),
        with("e is d", &[free(1, 1)], 14),
        with("e does not exist", &[free(6, 4)], 14),
        with("d does not exist", &[free(4, 6)], 14),
        with("neither exists", &[free(254, 255)], 14),
        with("events of two jobs", &[free(2, 3)], 14),
        with("events of two jobs, other way", &[free(3, 2)], 14),
        with("low above high", &[bound_row(1, 0, 6, 5)], 14),
        with("low above high by sign", &[bound_row(1, 0, 5, -5)], 14),
        with("low below high by sign", &[bound_row(1, 0, -5, 5)], 0),
    ];
    for extra in 1..6 {
        let cut = |bodies: &mut Bodies| bodies.bounds.truncate(24 - extra);
        let add = |bodies: &mut Bodies| bodies.bounds.extend(vec![0; extra]);
        cases.push(altered("bounds body cut", cut, 14));
        cases.push(altered("bounds body longer", add, 14));
    }
    cases
}

/// P1 with one bound: job 10 needs fact 0 from tick 0 to 5.
fn bound_values() -> Vec<Case> {
    let with = |name, low, high, expected| {
        let row = bound_row(1, 0, low, high).to_vec();
        altered(name, |bodies| bodies.bounds = row.clone(), expected)
    };
    vec![
        with("neither low nor high", -32_768, 32_767, 0),
        with("low none", -32_768, 5, 0),
        with("low none, high less", -32_768, 4, 41),
        with("high none", 5, 32_767, 0),
        with("high none, low more", 6, 32_767, 41),
        with("low -10,080", -10_080, 10_080, 0),
        with("low -10,081", -10_081, 10_080, 14),
        with("low 10,080", 10_080, 32_767, 41),
        with("low 10,081", 10_081, 32_767, 14),
        with("high 10,081", -10_080, 10_081, 14),
        with("high -10,080", -32_768, -10_080, 41),
        with("high -10,081", -32_768, -10_081, 14),
        with("low 32,767", 32_767, 32_767, 14),
        with("high -32,768", -32_768, -32_768, 14),
        with("low one above none", -32_767, 5, 14),
        with("high one below none", 5, 32_766, 14),
    ]
}

fn bound_limits() -> Vec<Case> {
    let pairs = (0..=255u8).flat_map(|e| (0..=255u8).map(move |d| (e, d)));
    let pairs: Vec<(u8, u8)> = pairs.filter(|(e, d)| e != d).collect();
    let with = |name, rows: &[(u8, u8)], expected| {
        let mut bodies = many_events(256);
        bodies.bounds = rows.iter().flat_map(|(e, d)| free_bound_row(*e, *d)).collect();
        Case::new(name, bodies.bytes(), empty_list(), expected)
    };
    let last = pairs.len();
    vec![
        with("256 bounds", &pairs[..256], 0),
        with("257 bounds", &pairs[..257], 14),
        with("last 256 bounds", &pairs[last - 256..], 0),
        with("last 257 bounds", &pairs[last - 257..], 14),
    ]
}

/// Every set of broken bodies, with a list that is broken too: the first body decides.
fn which_first() -> Vec<Case> {
    let mut cases = Vec::new();
    for broken in 1..16usize {
        let mut bodies = p1(100).bodies();
        for part in (0..4).filter(|part| broken >> part & 1 == 1) {
            bodies.part(part).push(9);
        }
        let expected = 11 + broken.trailing_zeros() as u8;
        let sheet = bodies.bytes();
        cases.push(Case::new("bodies broken", sheet.clone(), vec![0], expected));
        let mut contents = sheet;
        contents[0] = 0;
        cases.push(Case::new("and the contents", contents, vec![0], 10));
    }
    let sheet = p1(100).bytes();
    cases.push(Case::new("list broken alone", sheet, vec![0], 40));
    cases
}

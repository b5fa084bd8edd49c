//! Which sheet counts, by hand: P1 in edition 2 with other revisions and contents, and which answer comes first.

use super::examples::p1;
use super::limits::sheets::largest;
use super::rewriting::{GAP_AT, P1_NEW, P1_OLD};
use crate::build::{sets, Job, Spec};
use crate::newer_model::Verdict::{
    self, BadFirst, BadSecond, FirstHigher, OtherBytes, SameBytes, SecondHigher,
};

/// Two sheets, and what is said of them.
#[derive(Clone, Debug)]
pub struct NewerCase {
    pub name: String,
    pub first: Vec<u8>,
    pub second: Vec<u8>,
    pub expected: Verdict,
}

pub fn cases() -> Vec<NewerCase> {
    [revisions(), contents(), forms(), in_order()].concat()
}

fn case(name: &str, first: &[u8], second: &[u8], expected: Verdict) -> NewerCase {
    let (first, second) = (first.to_vec(), second.to_vec());
    NewerCase { name: name.to_string(), first, second, expected }
}

/// The gap byte of the cases where it does not matter.
const GAP: u8 = 2;

/// P1 with this revision.
fn p1_of(revision: u16) -> Vec<u8> {
    p1(100).revised(GAP, revision).bytes()
}

fn revisions() -> Vec<NewerCase> {
    let pair = |one: u16, other: u16, due| {
        case(&format!("revisions {one} and {other}, P1"), &p1_of(one), &p1_of(other), due)
    };
    let of_other = |one: u16, other: u16, due| {
        let first = p1(99).revised(GAP, one).bytes();
        case(&format!("revisions {one} and {other}, H 99 and 100"), &first, &p1_of(other), due)
    };
    vec![
        pair(1, 2, SecondHigher),
        pair(2, 1, FirstHigher),
        pair(1, 1, SameBytes),
        pair(0, 0, SameBytes),
        pair(65_535, 65_535, SameBytes),
        pair(32_768, 32_767, FirstHigher),
        pair(32_767, 32_768, SecondHigher),
        pair(255, 256, SecondHigher),
        pair(256, 255, FirstHigher),
        // Bytes 1, 0 and 0, 1.
        pair(0x0001, 0x0100, SecondHigher),
        pair(0x0100, 0x0001, FirstHigher),
        pair(0x0102, 0x0201, SecondHigher),
        pair(256, 257, SecondHigher),
        pair(512, 256, FirstHigher),
        pair(0, 65_535, SecondHigher),
        pair(65_535, 0, FirstHigher),
        of_other(1, 2, SecondHigher),
        of_other(2, 1, FirstHigher),
        of_other(0, 65_535, SecondHigher),
        of_other(32_768, 32_767, FirstHigher),
    ]
}

/// P1 with a third job, which does nothing.
fn with_another_job(revision: u16) -> Vec<u8> {
    let mut spec = p1(100).revised(GAP, revision);
    spec.jobs.push(Job::new(30));
    spec.bytes()
}

/// P1 with a fourth fact, which is one byte more.
fn with_another_fact() -> Vec<u8> {
    let mut spec = p1(100).revised(GAP, 1);
    spec.marks.push(0);
    spec.bytes()
}

/// The high byte of the last high, where there is a bound.
pub fn with_last_byte(mut sheet: Vec<u8>, byte: u8) -> Vec<u8> {
    *sheet.last_mut().expect("there is one") = byte;
    sheet
}

/// Of one revision, and longer sheets of a lower one.
fn contents() -> Vec<NewerCase> {
    let gap = |gap: u8| p1(100).revised(gap, 1).bytes();
    let released = p1(100).revised(GAP, 1).released(&[0, 1]).bytes();
    let (p1_of_1, longer) = (p1_of(1), with_another_job(1));
    // The last bound, 0 to 0, becomes 0 to 256.
    let last_bound = with_last_byte(p1_of(1), 1);
    let full = largest().revised(GAP, 7).bytes();
    // The last high is none, 0x7FFF, and becomes 255 minutes.
    let other = with_last_byte(full.clone(), 0);
    vec![
        case("H 100 and 99", &p1_of_1, &p1(99).revised(GAP, 1).bytes(), OtherBytes),
        case("H 99 and 100", &p1(99).revised(GAP, 1).bytes(), &p1_of_1, OtherBytes),
        case("gap bytes 0 and 2", &gap(0), &gap(2), OtherBytes),
        case("gap bytes 2 and 0", &gap(2), &gap(0), OtherBytes),
        case("gap bytes 0 and 0", &gap(0), &gap(0), SameBytes),
        case("a release", &p1_of_1, &released, OtherBytes),
        case("the last byte", &p1_of_1, &last_bound, OtherBytes),
        case("another job in the second", &p1_of_1, &longer, OtherBytes),
        case("another job in the first", &longer, &p1_of_1, OtherBytes),
        case("another fact in the second", &p1_of_1, &with_another_fact(), OtherBytes),
        case("another job in the lower", &with_another_job(1), &p1_of(2), SecondHigher),
        case("another job in the higher", &with_another_job(2), &p1_of_1, FirstHigher),
        case("the largest sheet twice", &full, &full, SameBytes),
        case("the largest sheet, the last byte", &full, &other, OtherBytes),
    ]
}

/// Sheets of edition 1, and equal sheets that are ill formed.
fn forms() -> Vec<NewerCase> {
    let mut bad_facts = P1_OLD;
    // A gap byte of edition 2 is read here as a mark.
    bad_facts[GAP_AT] = 4;
    // The last high becomes -256, below its low.
    let bad_bound = with_last_byte(p1_of(1), 255);
    let plain = P1_NEW.to_vec();
    let cut = &plain[..plain.len() - 1];
    let behind = [&plain[..], &[0]].concat();
    vec![
        case("edition 1 as the second", &plain, &P1_OLD, BadSecond(10)),
        case("edition 1 as the first", &P1_OLD, &plain, BadFirst(10)),
        case("edition 1 as both", &P1_OLD, &P1_OLD, BadFirst(10)),
        case("edition 1 with a facts fault as the first", &bad_facts, &plain, BadFirst(10)),
        case("edition 1 with a facts fault as the second", &plain, &bad_facts, BadSecond(10)),
        case("equal, a bad bound", &bad_bound, &bad_bound, BadFirst(14)),
        case("equal, a byte too few", cut, cut, BadFirst(10)),
        case("equal, no bytes", &[], &[], BadFirst(10)),
        case("a byte too few as the second", &plain, cut, BadSecond(10)),
        case("a byte too many as the second", &plain, &behind, BadSecond(10)),
        case("a byte too many as the first", &behind, &plain, BadFirst(10)),
        case("a bad bound as the second", &p1_of(1), &bad_bound, BadSecond(14)),
        case("a bad bound of a lower revision", &p1_of(2), &bad_bound, BadSecond(14)),
        case("a bad bound of a higher revision", &bad_bound, &p1_of(0), BadFirst(14)),
    ]
}

/// How many sets of faults there are: of the contents, and of each body.
pub const FAULTS: u8 = 1 << 5;

/// P1 in an edition with this set of faults, bit 0 for the contents and one for each body; and the number of the sheet.
pub fn faulty(edition: u8, faults: u8) -> (Vec<u8>, u8) {
    let spec = p1(100);
    let mut bodies = if edition == 1 { spec.bodies() } else { spec.revised(GAP, 1).bodies() };
    for part in (0..4).filter(|part| faults >> (part + 1) & 1 == 1) {
        bodies.part(part).push(9);
    }
    let mut sheet = bodies.bytes();
    if faults & 1 == 1 {
        // The count of its parts.
        sheet[1] = 5;
    }
    let number = match faults {
        _ if edition == 1 => 10,
        0 => 0,
        faults => 10 + faults.trailing_zeros() as u8,
    };
    (sheet, number)
}

/// What is said of two such sheets of edition 2 with these numbers.
pub fn by_numbers(first: u8, second: u8) -> Verdict {
    match (first, second) {
        (0, 0) => SameBytes,
        (0, number) => BadSecond(number),
        (number, _) => BadFirst(number),
    }
}

/// Each fault alone, and none, beside each.
fn in_order() -> Vec<NewerCase> {
    let alone: Vec<_> = (0..=5).map(|fault| faulty(2, (1 << fault) >> 1)).collect();
    let mut cases = Vec::new();
    for (first, one) in &alone {
        for (second, other) in &alone {
            let name = format!("faults {one} and {other}");
            cases.push(case(&name, first, second, by_numbers(*one, *other)));
        }
    }
    cases
}

/// The first bytes of every sheet of edition 2.
const HEAD: [u8; 6] = [2, 4, 1, 0, 26, 0];

/// Two sheets in one buffer that share these bytes: the last bound of the first, time(2) − time(4) from 1 to 26, is the
/// head of the second. Gives the buffer, the end of the first, and the start of the second.
pub fn overlapping(one: u16, other: u16) -> (Vec<u8>, usize, usize) {
    let job = (0..5).fold(Job::new(10), Job::sets).bound(sets(2), sets(4), 1, 26);
    let first = Spec::new(100, &[0; 5], &[job]).revised(GAP, one).bytes();
    let second = p1_of(other);
    assert!(first.ends_with(&HEAD) && second.starts_with(&HEAD), "they share no head");
    let (end, start) = (first.len(), first.len() - HEAD.len());
    ([first, second[HEAD.len()..].to_vec()].concat(), end, start)
}

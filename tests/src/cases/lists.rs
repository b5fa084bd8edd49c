//! Corner cases of "The list": form and limits.

use super::examples::{p1, P1_LIST};
use super::Case;
use crate::build::{list_of_rows, sets, Job, Spec};

pub fn cases() -> Vec<Case> {
    let mut cases = form();
    cases.extend(rows());
    cases.extend(short_and_long());
    cases.extend(limits());
    cases
}

fn on_p1(name: &str, list: Vec<u8>, expected: u8) -> Case {
    Case::new(name, p1(100).bytes(), list, expected)
}

/// P1's list with some bytes replaced.
fn patched(name: &str, bytes: &[(usize, u8)], expected: u8) -> Case {
    let mut list = P1_LIST.to_vec();
    for &(place, byte) in bytes {
        list[place] = byte;
    }
    on_p1(name, list, expected)
}

fn form() -> Vec<Case> {
    vec![
        patched("byte 0 is 0", &[(0, 0)], 40),
        patched("byte 0 is 2", &[(0, 2)], 40),
        patched("byte 1 is 1", &[(1, 1)], 40),
        patched("count one less", &[(2, 1)], 40),
        patched("count one more", &[(2, 3)], 40),
        patched("count 0", &[(2, 0)], 40),
        patched("count with a high byte", &[(3, 1)], 40),
        patched("greatest count", &[(2, 255), (3, 255)], 40),
        patched("unknown code", &[(4, 11)], 40),
        patched("unknown code in the high byte", &[(5, 1)], 40),
        patched("first offset one less", &[(6, 11)], 40),
        patched("first offset one more", &[(6, 13)], 40),
        patched("first offset with a high byte", &[(7, 1)], 40),
        patched("last offset one less", &[(10, 17)], 40),
        patched("last offset one more", &[(10, 19)], 40),
        patched("offsets exchanged", &[(6, 18), (10, 12)], 40),
        patched("time above H", &[(23, 1)], 41),
        patched("time above H and unknown code", &[(23, 1), (8, 21)], 40),
        patched("no plan and broken form", &[(18, 5), (10, 19)], 40),
        patched("codes exchanged without bodies", &[(4, 20), (8, 10)], 41),
        patched("one code twice", &[(8, 10)], 41),
    ]
}

fn rows() -> Vec<Case> {
    let first = (10, vec![0, 5, 5]);
    let second = (20, vec![6, 9, 9]);
    let list = |rows: &[&(u16, Vec<u16>)]| {
        let rows: Vec<_> = rows.iter().map(|row| (*row).clone()).collect();
        list_of_rows(&rows)
    };
    let early = (10, vec![1, 6, 6]);
    let late = (20, vec![97, 100, 100]);
    let too_long = (20, vec![6, 9, 9, 9]);
    let too_short = (20, vec![6, 9]);
    vec![
        on_p1("built to the byte", list(&[&first, &second]), 0),
        on_p1("entries exchanged with bodies", list(&[&second, &first]), 0),
        on_p1("first entry repeated", list(&[&first, &second, &first]), 0),
        on_p1("last entry repeated", list(&[&second, &first, &second]), 0),
        on_p1("both starts", list(&[&early, &first, &second]), 0),
        on_p1("last one at H", list(&[&first, &late]), 0),
        on_p1("first one late", list(&[&early, &second]), 41),
        on_p1("first entry only", list(&[&first]), 41),
        on_p1("last entry only", list(&[&second]), 41),
        on_p1("a time too many", list(&[&first, &too_long]), 40),
        on_p1("a time too few", list(&[&first, &too_short]), 40),
    ]
}

fn short_and_long() -> Vec<Case> {
    let mut cases: Vec<Case> =
        (0..P1_LIST.len()).map(|end| on_p1("P1's list cut", P1_LIST[..end].to_vec(), 40)).collect();
    for extra in 1..5 {
        let mut list = P1_LIST.to_vec();
        list.extend(vec![0; extra]);
        cases.push(on_p1("P1's list with more bytes", list, 40));
    }
    let mut list = vec![1, 0, 0, 0, 0];
    cases.push(on_p1("empty list with a byte more", list.clone(), 40));
    list.truncate(4);
    cases.push(on_p1("empty list", list, 41));
    cases
}

/// Two jobs that set facts from 0 on: job 1 sets eight of them, job 2 sets nine.
fn eight_and_nine() -> Spec {
    let job = |code, count| (0..count).fold(Job::new(code), |job, fact| job.sets(fact));
    let mut nine = job(2, 9);
    nine = nine.exactly(sets(8), sets(0), 1);
    Spec::new(10_080, &[2; 9], &[job(1, 8), nine])
}

fn limits() -> Vec<Case> {
    let spec = eight_and_nine();
    let eight = (1, vec![10_080; 8]);
    let mut nine = (2, vec![10_079; 9]);
    nine.1[8] = 10_080;
    let list = |name, eights: usize, nines: usize, expected| {
        let mut rows = vec![eight.clone(); eights];
        rows.extend(vec![nine.clone(); nines]);
        Case::new(name, spec.bytes(), list_of_rows(&rows), expected)
    };
    let mut cases = vec![
        list("64 instances, 512 times, no plan", 64, 0, 41),
        list("64 instances, 513 times", 63, 1, 40),
        list("57 instances, 512 times", 1, 56, 0),
        list("57 instances, 513 times", 0, 57, 40),
        list("56 instances, 504 times", 0, 56, 0),
        list("65 instances, 520 times", 65, 0, 40),
    ];
    cases.push(full_list("64 instances, 512 times", 64, 0));
    cases.push(full_list("65 instances of 7 times", 65, 40));
    cases.push(idle_list("16,383 idle instances", 16_383));
    cases.push(idle_list("16,384 idle instances", 16_384));
    cases.push(idle_list("65,535 idle instances", 65_535));
    cases
}

/// Far more entries than a list can hold, offsets modulo 65,536.
fn idle_list(name: &str, count: usize) -> Case {
    let spec = Spec::new(0, &[], &[Job::new(9)]);
    let list = list_of_rows(&vec![(9, Vec::new()); count]);
    Case::new(name, spec.bytes(), list, 40)
}

/// Instances of a job with eight (or, for 65 instances, seven) events, all of them goals.
fn full_list(name: &str, count: usize, expected: u8) -> Case {
    let events = 512 / count;
    let job = (0..events).fold(Job::new(9), |job, fact| job.sets(fact));
    let spec = Spec::new(5, &vec![2; events], &[job]);
    let rows = vec![(9, vec![5; events]); count];
    Case::new(name, spec.bytes(), list_of_rows(&rows), expected)
}

//! Which sheet counts: the product against the model of N11, in number, detail, which sheet and how much of it; the part
//! handed back by its place as well as by its bytes.

use corrumai_tests::build::Spec;
use corrumai_tests::cases::limits::sheets::largest;
use corrumai_tests::cases::newer::{by_numbers, cases, faulty, overlapping, NewerCase, FAULTS};
use corrumai_tests::cases::rewriting::{GAP_AT, P1_NEW, P1_OLD};
use corrumai_tests::cases::{examples, ordinary};
use corrumai_tests::generate::corrected::{self, REVISIONS};
use corrumai_tests::generate::{damage, large, tiny};
use corrumai_tests::newer_model::{newer_by, verdict, Manner, Verdict, RIGHT};
use corrumai_tests::rng::Rng;
use corrumai_tests::tally::Tally;
use corrumai_tests::wrong::of_two_sheets;
use corrumai_tests::{say, Handed};
use std::collections::BTreeMap;
use Verdict::{BadFirst, BadSecond, FirstHigher, OtherBytes, SameBytes, SecondHigher};

/// Stands in what is lent before a call.
const OLD: Handed =
    Handed { detail: 0x5AA5_0FF0_3CC3_9669, which: 0x5A, part_len: 0x1EE1_C33C_0FF0_A55B };

/// Where the revision stands in a sheet of edition 2.
const REVISION_AT: usize = GAP_AT + 1;

fn shown(first: &[u8], second: &[u8]) -> String {
    format!("first {first:02x?}\nsecond {second:02x?}")
}

/// The product's number and what it stores, over the old numbers and over those that share no bit with them. The part is
/// the sheet that is due, at its place; both sheets stay.
fn handed(first: &[u8], second: &[u8], due: Verdict) -> (u8, Handed) {
    let kept = [first.to_vec(), second.to_vec()];
    let call = |mut handed: Handed| {
        let (number, part) = corrumai_tests::newer(first, second, &mut handed);
        let whole = due.part(first, second);
        let placed = part.is_empty() && whole.is_empty() || std::ptr::eq(part, whole);
        assert!(placed && part == whole, "another part\n{}", shown(first, second));
        (number, handed)
    };
    let answer = call(OLD);
    let Handed { detail, which, part_len } = OLD;
    let other = call(Handed { detail: !detail, which: !which, part_len: !part_len });
    assert_eq!(answer, other, "over other numbers (right)\n{}", shown(first, second));
    assert!(kept == [first, second], "a sheet is changed\n{}", shown(first, second));
    answer
}

/// Product and model say the same.
fn compare(tally: &mut Tally, first: &[u8], second: &[u8]) -> Verdict {
    let due = verdict(first, second);
    let (number, found) = handed(first, second, due);
    let expected = (due.number(), due.handed(first, second));
    assert_eq!((number, found), expected, "product (left), {due:?}\n{}", shown(first, second));
    tally.one(&format!("{due:?}"));
    due
}

/// Exchanged, two well-formed sheets get the same number, and the other place where the revisions differ; the one that
/// counts has no lower revision; and each with itself gives the first.
fn both_ways(tally: &mut Tally, first: &[u8], second: &[u8]) {
    let due = compare(tally, first, second);
    let other = compare(tally, second, first);
    match due {
        FirstHigher => assert_eq!(other, SecondHigher, "{}", shown(first, second)),
        SecondHigher => assert_eq!(other, FirstHigher, "{}", shown(first, second)),
        SameBytes | OtherBytes => assert_eq!(other, due, "{}", shown(first, second)),
        BadFirst(_) | BadSecond(_) => return,
    }
    let [one, other] = [first, second].map(revision);
    let higher = match due {
        FirstHigher => one > other,
        SecondHigher => other > one,
        _ => one == other,
    };
    assert!(higher, "{due:?} of revisions {one} and {other}\n{}", shown(first, second));
    for sheet in [first, second] {
        assert_eq!(compare(tally, sheet, sheet), SameBytes, "{}", shown(sheet, sheet));
    }
}

/// As it stands in a sheet of edition 2.
fn revision(sheet: &[u8]) -> usize {
    usize::from(sheet[REVISION_AT]) + 256 * usize::from(sheet[REVISION_AT + 1])
}

fn with_revision(mut sheet: Vec<u8>, revision: u16) -> Vec<u8> {
    sheet[REVISION_AT..REVISION_AT + 2].copy_from_slice(&revision.to_le_bytes());
    sheet
}

#[test]
fn cases_worked_out_by_hand() {
    for NewerCase { name, first, second, expected } in &cases() {
        assert_eq!(verdict(first, second), *expected, "model: {name}");
        let due = (expected.number(), expected.handed(first, second));
        assert_eq!(handed(first, second, *expected), due, "{name}");
    }
}

/// Every set of faults in both sheets, of both editions: the first fault of the first sheet comes first.
#[test]
fn every_combination_of_faults() {
    let mut tally = Tally::default();
    let all: Vec<_> = [1, 2]
        .into_iter()
        .flat_map(|edition| (0..FAULTS).map(move |f| faulty(edition, f)))
        .collect();
    for (first, one) in &all {
        for (second, other) in &all {
            let due = by_numbers(*one, *other);
            assert_eq!(compare(&mut tally, first, second), due, "{}", shown(first, second));
        }
    }
    tally.print("two sheets, every combination of faults");
    tally.at_least(&[("SameBytes", 1)]);
    for number in 10..=14 {
        tally.at_least(&[
            (&format!("BadFirst({number})"), 64),
            (&format!("BadSecond({number})"), 1),
        ]);
    }
}

/// Each revision beside each, with the same contents and with others.
#[test]
fn every_revision() {
    let mut tally = Tally::default();
    let sheets = [examples::p1(100), examples::p1(99), ordinary::small(), Spec::new(0, &[], &[])];
    for (spec, other) in sheets.iter().flat_map(|one| sheets.iter().map(move |two| (one, two))) {
        let same = spec.bytes() == other.bytes();
        for one in REVISIONS {
            for two in REVISIONS {
                let (first, second) = (spec.clone().revised(2, one), other.clone().revised(2, two));
                let (first, second) = (first.bytes(), second.bytes());
                let due = match one.cmp(&two) {
                    std::cmp::Ordering::Greater => FirstHigher,
                    std::cmp::Ordering::Less => SecondHigher,
                    _ if same => SameBytes,
                    _ => OtherBytes,
                };
                assert_eq!(verdict(&first, &second), due, "{one} and {two}");
                both_ways(&mut tally, &first, &second);
            }
        }
    }
    tally.print("two sheets, every revision");
    tally.at_least(&[("FirstHigher", 1_000), ("SecondHigher", 1_000)]);
    tally.at_least(&[("SameBytes", 1_000), ("OtherBytes", 100)]);
}

/// Every byte changed in turn to these others, under the same revision and under others.
fn every_byte(tally: &mut Tally, sheet: &[u8], others: impl Iterator<Item = u8> + Clone) {
    let (lower, higher) = (with_revision(sheet.to_vec(), 256), with_revision(sheet.to_vec(), 769));
    let mut changed = sheet.to_vec();
    for place in 0..sheet.len() {
        for more in others.clone() {
            changed[place] = sheet[place] ^ more;
            [sheet, &lower, &higher].iter().for_each(|other| {
                compare(tally, &changed, other);
                compare(tally, other, &changed);
            });
        }
        changed[place] = sheet[place];
    }
}

#[test]
fn every_byte_changed() {
    let mut tally = Tally::default();
    let p6 = examples::p6(6, true).revised(0, 513).bytes();
    for sheet in [with_revision(P1_NEW.to_vec(), 513), p6] {
        every_byte(&mut tally, &sheet, 1..=255);
    }
    tally.print("two sheets, every byte");
    tally.at_least(&[("FirstHigher", 1_000), ("SecondHigher", 1_000), ("OtherBytes", 1_000)]);
    for number in 10..=14 {
        tally.at_least(&[(&format!("BadFirst({number})"), 500)]);
        tally.at_least(&[(&format!("BadSecond({number})"), 500)]);
    }
}

/// The largest sheet, each byte changed in turn, so that no byte is passed over.
#[test]
fn every_byte_of_the_largest_sheet() {
    let mut tally = Tally::default();
    let sheet = largest().revised(2, 513).bytes();
    let mut changed = sheet.clone();
    for place in 0..sheet.len() {
        changed[place] = sheet[place] ^ 1;
        compare(&mut tally, &sheet, &changed);
        changed[place] = sheet[place];
    }
    tally.print("two sheets, every byte of the largest");
    tally.at_least(&[("OtherBytes", 500), ("BadSecond(14)", 500)]);
}

/// Every prefix of a sheet and sheets with bytes behind them, beside the whole sheet, nothing and themselves.
#[test]
fn other_lengths() {
    let mut tally = Tally::default();
    for sheet in [P1_NEW.to_vec(), P1_OLD.to_vec(), ordinary::small().revised(0, 9).bytes()] {
        let long = [&sheet[..], &sheet].concat();
        for length in 0..=long.len() {
            let slice = &long[..length];
            let due = if length == sheet.len() && sheet[0] == 2 { 0 } else { 10 };
            assert_eq!(compare(&mut tally, slice, slice).number(), due);
            for other in [&sheet[..], &[], &long] {
                both_ways(&mut tally, slice, other);
            }
        }
    }
    tally.print("two sheets, other lengths");
    tally.at_least(&[("BadFirst(10)", 1_000), ("BadSecond(10)", 300), ("SameBytes", 4)]);
}

/// Slices of one buffer that overlap, one well-formed sheet in the other's tail among them.
#[test]
fn overlapping_slices() {
    let mut tally = Tally::default();
    for (one, other, due) in [(7, 7, OtherBytes), (8, 7, FirstHigher), (255, 256, SecondHigher)] {
        let (buffer, end, start) = overlapping(one, other);
        assert_eq!(compare(&mut tally, &buffer[..end], &buffer[start..]), due);
        both_ways(&mut tally, &buffer[..end], &buffer[start..]);
        for place in 0..buffer.len() {
            for slice in [&buffer[place..], &buffer[..place]] {
                both_ways(&mut tally, slice, &buffer[..end]);
                both_ways(&mut tally, slice, &buffer[start..]);
            }
        }
    }
    tally.print("two sheets, overlapping");
    tally.at_least(&[("FirstHigher", 1), ("SecondHigher", 1), ("OtherBytes", 1), ("SameBytes", 1)]);
}

/// Any two sheets that were sent: one and its correction, two of their own, noise, or one of them twice.
fn some_pair(rng: &mut Rng, big: bool) -> [Vec<u8>; 2] {
    let sheet = |rng: &mut Rng| match (big, rng.chance(50)) {
        (false, false) => tiny::sheet(rng),
        (false, true) => tiny::sheet_2(rng),
        (true, false) => large::sheet(rng),
        (true, true) => large::sheet_2(rng),
    };
    let spec = sheet(rng);
    match rng.below(10) {
        0 => [spec.bytes(), sheet(rng).bytes()],
        1 => [spec.with_gap(0).bytes(), sheet(rng).with_gap(0).bytes()],
        2 => [damage::damaged(rng, &spec), damage::noise(rng)],
        _ => corrected::pair(rng, &spec),
    }
}

#[test]
fn product_and_model_agree() {
    let rng = &mut Rng::new(210);
    let mut tally = Tally::default();
    for round in 0..20_000 {
        let [first, second] = some_pair(rng, round % 50 == 0);
        both_ways(&mut tally, &first, &second);
    }
    tally.print("two sheets, at random");
    tally.at_least(&[("FirstHigher", 2_000), ("SecondHigher", 2_000)]);
    tally.at_least(&[("SameBytes", 2_000), ("OtherBytes", 2_000)]);
    for number in 10..=14 {
        tally.at_least(&[(&format!("BadFirst({number})"), 200)]);
        tally.at_least(&[(&format!("BadSecond({number})"), 50)]);
    }
}

/// How the names of the cases start that tell each wrong program apart.
#[rustfmt::skip]
const TOLD_BY: [(&str, &[&str]); 40] = [
    ("the lower revision", &["revisions 1 and 2,", "revisions 2 and 1,", "another job in the lower", "another job in the higher"]),
    ("big-endian revisions", &["revisions 255 and 256,", "revisions 1 and 256,", "revisions 256 and 1,", "revisions 258 and 513,"]),
    ("signed revisions", &["revisions 32768 and 32767,", "revisions 32767 and 32768,", "revisions 0 and 65535,"]),
    ("revisions that start again behind the last", &["revisions 0 and 65535,", "revisions 65535 and 0,"]),
    ("the low byte of the revision", &["revisions 255 and 256,", "revisions 512 and 256,"]),
    ("the high byte of the revision", &["revisions 1 and 2,", "revisions 256 and 257,"]),
    ("any bytes are the same", &["H 100 and 99", "gap bytes 0 and 2", "the last byte", "another job in the second"]),
    ("no bytes are the same", &["revisions 1 and 1,", "gap bytes 0 and 0", "faults 0 and 0"]),
    ("lengths alone", &["H 100 and 99", "gap bytes 0 and 2", "the last byte", "a release"]),
    ("the last byte not compared", &["the last byte", "the largest sheet, the last byte"]),
    ("64 bytes compared", &["the last byte", "the largest sheet, the last byte"]),
    ("gaps that plan alike", &["gap bytes 0 and 2", "gap bytes 2 and 0"]),
    ("the second of two equal sheets", &["revisions 1 and 1,", "revisions 0 and 0,", "the largest sheet twice", "faults 0 and 0"]),
    ("the longer of two others", &["another job in the second", "another job in the first", "another fact"]),
    ("other revisions of other lengths", &["another job in the lower", "another job in the higher"]),
    ("other revisions of other contents", &["another job in the lower", "revisions 1 and 2, H 99"]),
    ("other revisions of the same contents", &["revisions 1 and 2, P1", "revisions 0 and 65535, P1"]),
    ("edition 1 read", &["edition 1 as"]),
    ("edition 1 refused behind 11 to 14", &["edition 1 with a facts fault"]),
    ("10 for every fault", &["equal, a bad bound", "faults 11 and 0", "faults 0 and 14"]),
    ("14 not tested", &["equal, a bad bound", "a bad bound as the second", "faults 0 and 14"]),
    ("the second sheet tested first", &["faults 14 and 10", "faults 12 and 13"]),
    ("the lower number of both", &["faults 14 and 10", "faults 13 and 12"]),
    ("the second sheet not tested", &["edition 1 as the second", "faults 0 and 1", "a bad bound of a lower revision"]),
    ("the first sheet not tested", &["edition 1 as the first", "faults 10 and 0", "a bad bound of a higher revision"]),
    ("contents before form", &["equal", "edition 1 as both", "faults 12 and 12"]),
    ("56 before the second's form", &["a bad bound as the second", "faults 0 and 11"]),
    ("50 for other bytes", &["H 100 and 99"]),
    ("0 for other bytes", &["H 100 and 99", "gap bytes 0 and 2"]),
    ("56 for the same bytes", &["revisions 1 and 1,", "faults 0 and 0"]),
    ("a part with 56", &["H 100 and 99", "another job in the first"]),
    ("the part without its last byte", &["revisions 1 and 1,", "revisions 1 and 2,", "the largest sheet twice"]),
    ("the length not stored", &["revisions 1 and 1,", "revisions 1 and 2,", "H 100 and 99", "faults 14 and 0"]),
    ("which not stored", &["revisions 1 and 1,", "revisions 1 and 2,", "H 100 and 99", "faults 0 and 14"]),
    ("the detail not stored", &["revisions 1 and 1,", "revisions 1 and 2,", "H 100 and 99", "faults 0 and 14"]),
    ("nothing stored with 56", &["H 100 and 99"]),
    ("nothing stored with a fault", &["faults 0 and 1", "faults 1", "equal"]),
    ("the length as the detail", &["revisions 1 and 1,", "revisions 1 and 2,"]),
    ("2 for the second", &["revisions 1 and 2,"]),
    ("which of the ill-formed sheet", &["faults 0 and 1"]),
];

/// The wrong program gives another answer than is due.
fn tells(first: &[u8], second: &[u8], due: Verdict, wrong: &Manner) -> bool {
    newer_by(first, second, OLD, wrong) != (due.number(), due.handed(first, second))
}

/// Each wrong program is told by each of the cases that are named for it, and the right one by none.
#[test]
fn told_apart() {
    let cases = cases();
    let told_by: BTreeMap<&str, &[&str]> = TOLD_BY.into();
    let told =
        |case: &NewerCase, wrong: &Manner| tells(&case.first, &case.second, case.expected, wrong);
    for (name, wrong) in of_two_sheets() {
        for start in told_by[name] {
            let named: Vec<_> = cases.iter().filter(|case| case.name.starts_with(start)).collect();
            assert!(!named.is_empty(), "{name}: no case {start}");
            named.iter().for_each(|case| assert!(told(case, &wrong), "{name}: {}", case.name));
        }
    }
    cases.iter().for_each(|case| assert!(!told(case, &RIGHT), "{}", case.name));
    let count = of_two_sheets().len();
    assert_eq!(count, told_by.len());
    say(&format!("{count} wrong ones told apart by {} cases of two sheets", cases.len()));
}

/// Random pairs tell each wrong program apart, often.
#[test]
fn random_pairs_tell() {
    let rng = &mut Rng::new(211);
    let mut told: BTreeMap<&str, usize> = BTreeMap::new();
    for round in 0..4_000 {
        let [first, second] = some_pair(rng, round % 10 == 0);
        let due = verdict(&first, &second);
        for (name, wrong) in of_two_sheets() {
            *told.entry(name).or_default() += usize::from(tells(&first, &second, due, &wrong));
        }
    }
    say(&format!("two sheets, wrong ones told by 4,000 random pairs: {told:?}"));
    assert!(told.values().all(|count| *count >= 20), "a wrong one is told too seldom");
    assert_eq!(told.len(), of_two_sheets().len());
}

//! Sheets rewritten to the other edition, held against the tool's own reading and writing of both.

mod common;

use common::{any_sheet, command, proved};
use corrumai_tests::build::Spec;
use corrumai_tests::cases::examples;
use corrumai_tests::generate::damage;
use corrumai_tests::rng::Rng;
use corrumai_tools::answers::{self, Answer};
use corrumai_tools::decode::decode;
use corrumai_tools::encode::encode;
use corrumai_tools::layout::LONGEST_SHEET;
use corrumai_tools::model::{Edition, Sheet};
use corrumai_tools::notation::print;
use std::collections::BTreeMap;
use std::fs;
use std::path::PathBuf;

/// The two ways, as the command calls them.
const THERE: &str = "to-edition2";
const BACK: &str = "to-edition1";

/// What the command makes of these bytes, or of a text: what it writes, what it says, and its status.
fn rewritten(way: &str, bytes: &[u8]) -> (Vec<u8>, String, u8) {
    // Each test has a file of its own.
    let test = std::thread::current().name().unwrap_or("").to_string();
    let file = PathBuf::from(env!("CARGO_TARGET_TMPDIR")).join(format!("{test}.sheet"));
    fs::write(&file, bytes).unwrap();
    command(&["sheet", way, file.to_str().unwrap()])
}

/// The sheet in edition 2, with nothing that edition 1 does not say.
fn second(sheet: &Sheet) -> Sheet {
    Sheet { edition: Edition::Two { gap: 1, revision: 0 }, ..sheet.clone() }
}

const DEFAULT: &str = "gap 0 (the default, 2 minutes; edition 1 has 1)";

/// What is said where nothing but the default gap stands against edition 1.
const MENDING: &str = "before 0.4.0 gap 0 meant 1 minute, and sheets rewritten then have it: \
                       to mend one, let its text say 'gap 1', or set byte 29 to 1";

/// What edition 1 cannot say of a sheet of edition 2.
fn beyond(sheet: &Sheet) -> Vec<String> {
    let Edition::Two { gap, revision } = sheet.edition else { panic!("edition 1") };
    let mut said = Vec::new();
    match gap {
        0 => said.push(DEFAULT.to_string()),
        1 => {}
        _ => said.push(format!("gap {gap}")),
    }
    said.extend((revision > 0).then(|| format!("revision {revision}")));
    for job in sheet.jobs.iter().filter(|job| job.release > 0) {
        said.push(format!("'{}' not before minute {}", job.name, job.release));
    }
    said
}

/// What the library writes, or its answer.
fn written(way: &str, bytes: &[u8]) -> Result<Vec<u8>, Answer> {
    let writer = if way == THERE { proved().to_edition2 } else { proved().to_edition1 };
    let (answer, bytes) = answers::written(writer, bytes, LONGEST_SHEET);
    if answer.number == 0 {
        return Ok(bytes);
    }
    Err(answer)
}

/// A sheet with what it is in the other edition, or what stands against that.
fn check(sheet: &Sheet, through_files: bool) -> bool {
    let bytes = encode(sheet);
    let (way, other, due, beyond) = match sheet.edition {
        Edition::One => (THERE, BACK, second(sheet), vec![]),
        Edition::Two { .. } => {
            (BACK, THERE, Sheet { edition: Edition::One, ..sheet.clone() }, beyond(sheet))
        }
    };
    // No sheet is of two editions.
    let refused = |number| Err(Answer { number, detail: 0 });
    assert_eq!(written(other, &bytes), refused(10));
    if beyond.is_empty() {
        // There and back the bytes are the same, whichever way is first.
        assert_eq!(written(way, &bytes).as_ref(), Ok(&encode(&due)));
        assert_eq!(written(other, &encode(&due)).as_ref(), Ok(&bytes));
        let second = if way == THERE { encode(&due) } else { bytes.clone() };
        assert_eq!(second[29..32], [1, 0, 0]);
    } else {
        assert_eq!(written(way, &bytes), refused(50));
    }
    if through_files {
        let said = match beyond.join(", ") {
            words if words.is_empty() => String::new(),
            words => {
                let mending =
                    if words == DEFAULT { format!("\ncorrumai: {MENDING}") } else { String::new() };
                format!("ANSWER 50 0\ncorrumai: edition 1 cannot say what the sheet says: {words}{mending}")
            }
        };
        let out = written(way, &bytes).unwrap_or_default();
        assert_eq!(rewritten(way, &bytes), (out.clone(), said, u8::from(!beyond.is_empty())));
        assert_eq!(rewritten(way, print(sheet).as_bytes()).0, out);
        let edition = sheet.edition.form().edition;
        let said = format!("ANSWER 10 0\ncorrumai: the sheet is of edition {edition} already");
        assert_eq!(rewritten(other, &bytes), (vec![], said, 1));
    }
    beyond.is_empty()
}

#[test]
fn any_sheet_there_and_back() {
    let mut rng = Rng::new(121);
    let mut tally: BTreeMap<(u8, bool), usize> = BTreeMap::new();
    for round in 0..3_000 {
        let spec = any_sheet(&mut rng);
        let gap = *rng.pick(&[0, 1, 1, 2]);
        let spec = if round % 2 == 0 { spec.plain().with_gap(gap) } else { spec };
        let sheet = decode(&spec.bytes()).unwrap();
        let goes = check(&sheet, round % 50 < 4);
        *tally.entry((sheet.edition.form().edition, goes)).or_default() += 1;
    }
    assert_eq!(tally.len(), 3, "{tally:?}");
    assert!(tally.values().all(|count| *count > 500), "{tally:?}");
}

#[test]
fn other_bytes_are_refused_by_their_number() {
    let mut rng = Rng::new(122);
    let mut tally: BTreeMap<u8, usize> = BTreeMap::new();
    for round in 0..4_000 {
        let spec = any_sheet(&mut rng);
        let bytes = damage::damaged(&mut rng, &spec);
        // A first byte from 9 on begins a text.
        let Err(fault) = decode(&bytes) else { continue };
        if bytes.first().is_some_and(|byte| *byte >= b'\t') {
            continue;
        }
        let (way, edition) = *rng.pick(&[(THERE, 1), (BACK, 2)]);
        let number = if bytes.first() == Some(&edition) { fault.number } else { 10 };
        assert_eq!(written(way, &bytes), Err(Answer { number, detail: 0 }));
        if round % 20 == 0 {
            let (out, said, status) = rewritten(way, &bytes);
            let due = format!("ANSWER {number} 0\ncorrumai: {}: ", fault.place());
            assert!(said.starts_with(&due) && out.is_empty() && status == 1, "{said}");
        }
        *tally.entry(number).or_default() += 1;
    }
    assert_eq!(tally.keys().copied().collect::<Vec<u8>>(), [10, 11, 12, 13, 14], "{tally:?}");
    assert!(tally.values().all(|count| *count > 100), "{tally:?}");
}

/// 14 stands before 50.
#[test]
fn a_bad_bound_comes_before_a_revision() {
    let mut bytes = examples::p1(100).revised(1, 1).bytes();
    assert!(rewritten(BACK, &bytes).1.starts_with("ANSWER 50 0\n"));
    let last = bytes.len() - 5;
    bytes[last] = 5;
    assert!(rewritten(BACK, &bytes).1.starts_with("ANSWER 14 0\n"));
}

/// The byte counts, not the minutes that it stands for: 0 and 2 mean the same, and neither is that of edition 1.
#[test]
fn one_gap_byte_goes_back() {
    let first = examples::p1(100).bytes();
    for gap in 0..=u8::MAX {
        let bytes = examples::p1(100).with_gap(gap).bytes();
        assert_eq!(bytes[29], gap);
        let due = match gap {
            1 => Ok(first.clone()),
            0 | 2..=60 => Err(Answer { number: 50, detail: 0 }),
            61.. => Err(Answer { number: 11, detail: 0 }),
        };
        assert_eq!(written(BACK, &bytes), due, "{gap}");
        // Without a buffer only that one asks for it.
        let bare = due.map_or_else(|answer| (answer.number, answer.detail), |_| (30, 78));
        assert_eq!((proved().to_edition1)(&bytes, &mut []), bare, "{gap}");
    }
}

#[test]
fn the_default_gap_is_told_with_its_mending() {
    let said = |spec: Spec| rewritten(BACK, &spec.bytes()).1;
    let open = "ANSWER 50 0\ncorrumai: edition 1 cannot say what the sheet says: ";
    let p1 = || examples::p1(100);
    assert_eq!(said(p1().with_gap(0)), format!("{open}{DEFAULT}\ncorrumai: {MENDING}"));
    assert_eq!(said(p1().with_gap(2)), format!("{open}gap 2"));
    assert_eq!(said(p1().revised(0, 7)), format!("{open}{DEFAULT}, revision 7"));
    let released = p1().with_gap(0).released(&[0, 4]);
    assert_eq!(said(released), format!("{open}{DEFAULT}, 'job20' not before minute 4"));
    let mut mended = p1().with_gap(0).bytes();
    mended[29] = 1;
    assert_eq!(rewritten(BACK, &mended), (p1().bytes(), String::new(), 0));
}

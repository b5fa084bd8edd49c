//! The product's rewriting to edition 2 and back against the model, in number, detail and every byte of the buffer; and
//! what both ways keep: old to new to old gives the same bytes, and so does new to old to new; the plans stay.

use corrumai_tests::build::{Bodies, Spec};
use corrumai_tests::cases::rewriting::{self, RewritingCase, GAP_AT, P1_FORMER, P1_NEW, P1_OLD};
use corrumai_tests::cases::{self, examples, hostile, limits, ordinary};
use corrumai_tests::generate::planned::{self, LARGE, SMALL};
use corrumai_tests::generate::{damage, large, near, tiny};
use corrumai_tests::model;
use corrumai_tests::model::sheet::{self, Edition};
use corrumai_tests::planner_model;
use corrumai_tests::rewrite_model;
use corrumai_tests::rng::Rng;
use corrumai_tests::{said, say};
use std::collections::BTreeMap;

/// From a sheet into a buffer: number and detail.
type Rewriter = fn(&[u8], &mut [u8]) -> (u8, usize);
type Planner = Rewriter;

/// Both ways of rewriting: of the product, of the model, or wrong ones.
#[derive(Clone, Copy)]
struct Ways {
    there: Rewriter,
    back: Rewriter,
}

const PRODUCT: Ways =
    Ways { there: corrumai_tests::to_edition_2, back: corrumai_tests::to_edition_1 };
const MODEL: Ways = Ways { there: rewrite_model::to_edition_2, back: rewrite_model::to_edition_1 };

/// Longer than any sheet.
const ROOM: usize = 3_000;

fn pattern(length: usize, flip: u8) -> Vec<u8> {
    (0..length).map(|place| (place * 37 + 11) as u8 ^ flip).collect()
}

/// The sheet that is written, if the buffer is long enough.
fn rewritten(rewriter: Rewriter, sheet: &[u8]) -> Option<Vec<u8>> {
    let mut buffer = pattern(ROOM, 0);
    let (number, length) = rewriter(sheet, &mut buffer);
    (number == 0).then(|| buffer[..length].to_vec())
}

/// How often each answer was given, by way; the first difference, if there was one.
#[derive(Default)]
struct Tally {
    there: BTreeMap<u8, usize>,
    back: BTreeMap<u8, usize>,
    difference: Option<String>,
}

impl Tally {
    /// Each way answers as the model does, with buffers around the length that is needed.
    fn compare(&mut self, ways: Ways, sheet: &[u8]) {
        let (_, there) = (MODEL.there)(sheet, &mut []);
        let (_, back) = (MODEL.back)(sheet, &mut []);
        for (needed, there) in [(there, true), (back, false)] {
            let mut lengths = vec![0, needed, needed + 1, needed + 40];
            lengths.extend(needed.checked_sub(1));
            self.compare_lengths(ways, there, sheet, &lengths);
        }
    }

    fn compare_lengths(&mut self, ways: Ways, there: bool, sheet: &[u8], lengths: &[usize]) {
        let pick = |ways: Ways| if there { ways.there } else { ways.back };
        for (&length, flip) in lengths.iter().flat_map(|length| [(length, 0), (length, 255)]) {
            // No byte of the two is the same, so that a byte written with its own value is seen.
            let (mut buffer, mut expected) = (pattern(length, flip), pattern(length, flip));
            let due = pick(MODEL)(sheet, &mut expected);
            let answer = pick(ways)(sheet, &mut buffer);
            if (answer, &buffer) != (due, &expected) {
                let way = if there { "to edition 2" } else { "to edition 1" };
                let text =
                    format!("{way}: {answer:?}, due {due:?}, buffer of {length}\n{sheet:02x?}");
                self.difference.get_or_insert(text);
            }
            let counts = if there { &mut self.there } else { &mut self.back };
            *counts.entry(due.0).or_default() += 1;
        }
    }

    fn agree(&self, name: &str) {
        let Tally { there, back, difference } = self;
        say(&format!("rewriting, {name}: to edition 2 {there:?}, to edition 1 {back:?}"));
        assert_eq!(*difference, None, "{name}");
    }

    fn at_least(&self, there: &[u8], back: &[u8], least: usize) {
        for (counts, due) in [(&self.there, there), (&self.back, back)] {
            for number in due {
                let count = counts.get(number).copied().unwrap_or(0);
                assert!(count >= least, "answer {number}: only {count}");
            }
        }
    }
}

fn by_hand(rewriter: Rewriter, cases: Vec<RewritingCase>) {
    for case in cases {
        let mut buffer = pattern(case.room, 0);
        let mut expected = case.bytes.clone();
        expected.extend_from_slice(&buffer[expected.len()..]);
        assert_eq!(rewriter(&case.sheet, &mut buffer), case.due, "{}", case.name);
        assert_eq!(buffer, expected, "{}", case.name);
    }
}

#[test]
fn model_by_hand() {
    by_hand(MODEL.there, rewriting::to_edition_2());
    by_hand(MODEL.back, rewriting::to_edition_1());
    by_hand(MODEL.back, rewriting::every_gap_byte());
}

#[test]
fn product_by_hand() {
    by_hand(PRODUCT.there, rewriting::to_edition_2());
    by_hand(PRODUCT.back, rewriting::to_edition_1());
    by_hand(PRODUCT.back, rewriting::every_gap_byte());
}

/// Sheets of both editions, well formed and not.
fn any_sheets() -> Vec<Vec<u8>> {
    let mut sheets: Vec<Vec<u8>> = cases::all().into_iter().map(|case| case.sheet).collect();
    sheets.extend(cases::planned().into_iter().map(|case| case.sheet));
    sheets.extend(limits::judged().into_iter().map(|case| case.sheet));
    sheets.extend(rewriting::to_edition_2().into_iter().map(|case| case.sheet));
    sheets.extend(rewriting::to_edition_1().into_iter().map(|case| case.sheet));
    let old: Vec<Vec<u8>> = sheets.clone();
    for bodies in old.iter().filter_map(|sheet| Bodies::of(sheet)).filter(|b| b.edition == 1) {
        sheets.extend([0, 1, 2].map(|gap| bodies.clone().with_gap(gap).bytes()));
    }
    let mut rng = Rng::new(29);
    for _ in 0..2_000 {
        let (old, new) = (tiny::sheet(&mut rng), tiny::sheet_2(&mut rng));
        sheets.push(damage::damaged(&mut rng, &old));
        sheets.push(damage::damaged(&mut rng, &new));
        let plain = old.with_gap(rng.below(3) as u8);
        sheets.push(damage::damaged(&mut rng, &plain));
        sheets.extend([new.bytes(), damage::noise(&mut rng)]);
    }
    for _ in 0..100 {
        let (old, new) = (large::sheet(&mut rng), large::sheet_2(&mut rng));
        sheets.extend([old.bytes(), new.bytes(), damage::damaged(&mut rng, &new)]);
    }
    sheets
}

#[test]
fn product_and_model_agree() {
    let mut tally = Tally::default();
    for sheet in any_sheets() {
        tally.compare(PRODUCT, &sheet);
    }
    tally.agree("sheets of every kind");
    tally.at_least(&[10, 11, 12, 13, 14, 30, 0], &[10, 11, 12, 13, 14, 50, 30, 0], 500);
}

/// Every single byte changed to every value, and every truncation, both ways.
fn every_byte(tally: &mut Tally, ways: Ways, sheet: &[u8]) {
    let mut changed = sheet.to_vec();
    for place in 0..sheet.len() {
        for more in 1..=255u8 {
            changed[place] = sheet[place].wrapping_add(more);
            tally.compare(ways, &changed);
        }
        changed[place] = sheet[place];
        tally.compare(ways, &sheet[..place]);
    }
}

#[test]
fn every_byte_changed() {
    let mut tally = Tally::default();
    let p6 = examples::p6(6, true);
    for sheet in [P1_OLD.to_vec(), P1_NEW.to_vec(), p6.bytes(), p6.with_gap(1).bytes()] {
        every_byte(&mut tally, PRODUCT, &sheet);
    }
    tally.agree("every byte and truncation");
    tally.at_least(&[10, 11, 12, 13, 14, 30, 0], &[10, 11, 12, 13, 14, 50, 30, 0], 500);
}

/// Every length of the buffer from none to well past the sheet.
#[test]
fn every_buffer_length() {
    let mut tally = Tally::default();
    let empty = Spec::new(7, &[], &[]);
    let specs = [empty, examples::p1(9), examples::p6(6, true), ordinary::small()];
    for spec in specs {
        let (old, new) = (spec.bytes(), spec.with_gap(1).bytes());
        let lengths: Vec<usize> = (0..new.len() + 40).collect();
        tally.compare_lengths(PRODUCT, true, &old, &lengths);
        tally.compare_lengths(PRODUCT, false, &new, &lengths);
    }
    let full = ordinary::full();
    let around: Vec<usize> = (2_400..2_600).collect();
    tally.compare_lengths(PRODUCT, true, &full.bytes(), &around);
    tally.compare_lengths(PRODUCT, false, &full.clone().with_gap(1).bytes(), &around);
    tally.compare_lengths(PRODUCT, false, &full.with_gap(0).bytes(), &around);
    tally.agree("every buffer length");
    tally.at_least(&[30, 0], &[50, 30, 0], 300);
}

/// Well-formed sheets of edition 1, some with lists.
fn old_sheets() -> Vec<(Spec, Vec<Vec<u8>>)> {
    let mut rng = Rng::new(30);
    let mut sheets = Vec::new();
    for _ in 0..3_000 {
        sheets.push((tiny::sheet(&mut rng), Vec::new()));
    }
    for round in 0..2_000 {
        let size = if round % 100 == 0 { LARGE } else { SMALL };
        let pair = planned::plan(&mut rng, size);
        let (sheet, list) = pair.bytes();
        let misses = (0..2).map(|_| near::miss(&mut rng, &pair));
        let lists = misses.filter(|miss| miss.0 == sheet).map(|miss| miss.1);
        let lists = lists.chain([list]).collect();
        sheets.push((pair.spec, lists));
    }
    sheets.extend((0..100).map(|_| (large::sheet(&mut rng), Vec::new())));
    let hostile_ones = hostile::sheets().into_iter().chain(hostile::repeated());
    sheets.extend(hostile_ones.map(|(_, spec)| (spec, Vec::new())));
    let lists = hostile::lists().into_iter().chain(hostile::repeated_lists());
    sheets.extend(lists.map(|(_, spec, list)| (spec, vec![list])));
    sheets.extend([ordinary::small(), ordinary::full()].map(|spec| (spec, Vec::new())));
    sheets
}

/// Old to new to old: the same bytes, and the sheet in between has the same plans.
fn there_and_back(ways: Ways, old: &[u8], lists: &[Vec<u8>]) -> Result<u8, String> {
    let new = rewritten(ways.there, old).ok_or(format!("no way there\n{old:02x?}"))?;
    let again = rewritten(ways.back, &new).ok_or(format!("no way back\n{new:02x?}"))?;
    if again != old {
        return Err(format!("other bytes after both ways\n{old:02x?}\n{again:02x?}"));
    }
    let read = sheet::read(&new).map_err(|number| format!("{number} in between\n{new:02x?}"))?;
    if new[GAP_AT] != 1 || read.edition != (Edition::Two { gap: 1, revision: 0 }) {
        return Err(format!("gap or revision in between\n{new:02x?}"));
    }
    if said(old, lists) != said(&new, lists) {
        return Err(format!("other plans in between\n{old:02x?}\n{new:02x?}"));
    }
    Ok(said(old, lists).number())
}

/// New to old to new: the same bytes, and the same plans all along.
fn back_and_there(ways: Ways, new: &[u8], lists: &[Vec<u8>]) -> Result<u8, String> {
    let old = rewritten(ways.back, new).ok_or(format!("no way back\n{new:02x?}"))?;
    let again = rewritten(ways.there, &old).ok_or(format!("no way there\n{old:02x?}"))?;
    if again != new {
        return Err(format!("other bytes after both ways\n{new:02x?}\n{again:02x?}"));
    }
    let due = said(new, lists);
    if due != said(&old, lists) {
        return Err(format!("other plans\n{new:02x?}\n{old:02x?}"));
    }
    Ok(due.number())
}

/// A sheet as rewriting wrote it before the default became two ticks: it has no way back, and with gap byte 1 in its
/// place it is what rewriting writes now, and says what the old sheet says.
fn mended(ways: Ways, old: &[u8], lists: &[Vec<u8>]) -> Result<u8, String> {
    let mut sheet = Bodies::of(old).ok_or("no sheet")?.with_gap(0).bytes();
    let answer = (ways.back)(&sheet, &mut pattern(ROOM, 0));
    if answer != (50, 0) {
        return Err(format!("{answer:?} on the way back\n{sheet:02x?}"));
    }
    sheet[GAP_AT] = 1;
    if rewritten(ways.there, old).as_ref() != Some(&sheet) {
        return Err(format!("other bytes than mended\n{old:02x?}\n{sheet:02x?}"));
    }
    let due = said(old, lists);
    if due != said(&sheet, lists) {
        return Err(format!("other plans when mended\n{old:02x?}\n{sheet:02x?}"));
    }
    Ok(due.number())
}

/// The answers of the sheets that went both ways; no difference.
fn agreed(name: &str, answers: impl Iterator<Item = Result<u8, String>>) {
    let mut counts: BTreeMap<u8, usize> = BTreeMap::new();
    for answer in answers {
        *counts.entry(answer.unwrap_or_else(|difference| panic!("{difference}"))).or_default() += 1;
    }
    let total: usize = counts.values().sum();
    say(&format!("rewriting, {name}: {total} sheets, planner's answers {counts:?}"));
    assert!(total >= 5_000, "too few sheets");
    for answer in [20, 21, 22, 1, 0] {
        assert!(counts.get(&answer).copied().unwrap_or(0) >= 10, "answer {answer} is rare");
    }
}

#[test]
fn old_to_new_to_old() {
    let sheets = old_sheets();
    let all = sheets.iter().map(|(spec, lists)| there_and_back(PRODUCT, &spec.bytes(), lists));
    agreed("old to new to old", all);
}

#[test]
fn new_to_old_to_new() {
    let sheets = old_sheets();
    let all = sheets
        .iter()
        .map(|(spec, lists)| back_and_there(PRODUCT, &spec.clone().with_gap(1).bytes(), lists));
    agreed("new to old to new", all);
}

/// Sheets rewritten before the default became two ticks are mended by one byte; as they stand, many have other plans.
#[test]
fn rewritten_before() {
    assert_eq!(Bodies::of(&P1_OLD).unwrap().with_gap(0).bytes(), P1_FORMER);
    let sheets = old_sheets();
    let all = sheets.iter().map(|(spec, lists)| mended(PRODUCT, &spec.bytes(), lists));
    agreed("rewritten before", all);
    let other = |(spec, lists): &&(Spec, Vec<Vec<u8>>)| {
        said(&spec.bytes(), lists) != said(&spec.clone().with_gap(0).bytes(), lists)
    };
    let count = sheets.iter().filter(other).count();
    say(&format!("rewriting, rewritten before: {count} of {} say otherwise now", sheets.len()));
    assert!(count >= 500, "too few sheets that say otherwise");
}

/// P1 with a horizon of 9 keeps its plan when it is rewritten; as it was rewritten before, it has none.
#[test]
fn p1_keeps_its_plan() {
    let old = examples::p1(9);
    let new = rewritten(PRODUCT.there, &old.bytes()).expect("P1 is rewritten");
    assert_eq!(new, old.clone().with_gap(1).bytes());
    let before = old.clone().with_gap(0).bytes();
    let planners: [Planner; 2] = [corrumai_tests::plan, planner_model::plan];
    for planner in planners {
        for sheet in [&old.bytes(), &new] {
            let mut buffer = pattern(24, 0);
            assert_eq!(planner(sheet, &mut buffer), (0, 24));
            assert_eq!(buffer, examples::P1_LIST);
        }
        let mut buffer = pattern(24, 0);
        assert_eq!(planner(&before, &mut buffer), (1, 0));
        assert_eq!(buffer, pattern(24, 0));
    }
    for judge in [corrumai_tests::judge, model::judge] {
        assert_eq!(judge(&old.bytes(), &examples::P1_LIST), (0, 0));
        assert_eq!(judge(&new, &examples::P1_LIST), (0, 0));
        assert_eq!(judge(&before, &examples::P1_LIST), (41, 0));
    }
}

/// What the model writes, changed where it writes something.
fn changed(
    rewriter: Rewriter,
    sheet: &[u8],
    buffer: &mut [u8],
    change: fn(&mut [u8]),
) -> (u8, usize) {
    let answer = rewriter(sheet, buffer);
    if answer.0 == 0 {
        change(&mut buffer[..answer.1]);
    }
    answer
}

/// The model's way back where `quiet` has made the sheet say less.
fn back_after(sheet: &[u8], buffer: &mut [u8], quiet: fn(&mut Bodies)) -> (u8, usize) {
    match Bodies::of(sheet).filter(|bodies| bodies.edition == 2 && bodies.facts.len() >= 6) {
        Some(mut bodies) => {
            quiet(&mut bodies);
            (MODEL.back)(&bodies.bytes(), buffer)
        }
        None => (MODEL.back)(sheet, buffer),
    }
}

/// The model's way back where another gap byte is read.
fn back_as(sheet: &[u8], buffer: &mut [u8], change: fn(u8) -> u8) -> (u8, usize) {
    let mut other = sheet.to_vec();
    if let (Some(2), Some(gap)) = (sheet.first(), other.get_mut(GAP_AT)) {
        *gap = change(*gap);
    }
    (MODEL.back)(&other, buffer)
}

fn quiet_releases(bodies: &mut Bodies, from: usize) {
    bodies.jobs.chunks_exact_mut(4).skip(from).for_each(|row| row[2..].fill(0));
}

/// Wrong rewritings, each with one fault.
#[rustfmt::skip]
fn wrong() -> Vec<(&'static str, Ways)> {
    let there = |there| Ways { there, ..MODEL };
    let back = |back| Ways { back, ..MODEL };
    vec![
        ("old offsets there", there(|s, b| changed(MODEL.there, s, b, |new| new[10] -= 3))),
        ("old lengths there", there(|s, b| changed(MODEL.there, s, b, |new| new[6] -= 3))),
        ("gap byte 0 there", there(|s, b| changed(MODEL.there, s, b, |new| new[GAP_AT] = 0))),
        ("gap byte 2 there", there(|s, b| changed(MODEL.there, s, b, |new| new[GAP_AT] = 2))),
        ("revision 1 there", there(|s, b| changed(MODEL.there, s, b, |new| new[30] = 1))),
        ("the last byte there", there(|s, b| changed(MODEL.there, s, b, |new| *new.last_mut().unwrap() ^= 1))),
        ("new offsets back", back(|s, b| changed(MODEL.back, s, b, |old| old[10] += 3))),
        ("edition 2 taken there", there(|s, b| match sheet::read(s) {
            Ok(sheet) if sheet.edition != Edition::One => (0, 0),
            _ => (MODEL.there)(s, b),
        })),
        ("11 of edition 2 there", there(|s, b| if sheet::read(s) == Err(11) { (11, 0) } else { (MODEL.there)(s, b) })),
        ("11 of edition 1 back", back(|s, b| if sheet::read(s) == Err(11) { (11, 0) } else { (MODEL.back)(s, b) })),
        ("30 before 50", back(|s, b| match (MODEL.back)(s, b) {
            (50, _) if b.is_empty() => (30, 0),
            answer => answer,
        })),
        ("50 before 14", back(|s, b| match (MODEL.back)(s, b) {
            (14, _) if Bodies::of(s).is_some_and(|bodies| bodies.facts[3] != 1) => (50, 0),
            answer => answer,
        })),
        ("gap byte 0 goes back", back(|s, b| back_as(s, b, |gap| if gap == 0 { 1 } else { gap }))),
        ("gap byte 2 goes back", back(|s, b| back_as(s, b, |gap| if gap == 2 { 1 } else { gap }))),
        ("gap byte 60 goes back", back(|s, b| back_as(s, b, |gap| if gap == 60 { 1 } else { gap }))),
        ("gap byte 1 does not go back", back(|s, b| back_as(s, b, |gap| if gap == 1 { 2 } else { gap }))),
        ("ticks of the default go back", back(|s, b| back_as(s, b, |gap| match gap {
            0 | 2 => 1,
            1 => 2,
            _ => gap,
        }))),
        ("ticks up to the default go back", back(|s, b| back_as(s, b, |gap| if gap <= 2 { 1 } else { gap }))),
        ("low byte of the revision", back(|s, b| back_after(s, b, |bodies| bodies.facts[5] = 0))),
        ("high byte of the revision", back(|s, b| back_after(s, b, |bodies| bodies.facts[4] = 0))),
        ("the first release alone", back(|s, b| back_after(s, b, |bodies| quiet_releases(bodies, 1)))),
        ("no release", back(|s, b| back_after(s, b, |bodies| quiet_releases(bodies, 0)))),
        ("31 releases", back(|s, b| back_after(s, b, |bodies| quiet_releases(bodies, 31)))),
        ("low bytes of releases", back(|s, b| back_after(s, b, |bodies| {
            bodies.jobs.chunks_exact_mut(4).for_each(|row| row[3] = 0)
        }))),
        ("a byte more is needed", there(|s, b| match (MODEL.there)(s, b) {
            (30, needed) => (30, needed + 1),
            answer => answer,
        })),
        ("a buffer of just the length", there(|s, b| match (MODEL.there)(s, &mut []) {
            (30, needed) if needed == b.len() => (30, needed),
            _ => (MODEL.there)(s, b),
        })),
        ("a byte behind the sheet", there(|s, b| {
            let answer = (MODEL.there)(s, b);
            if let (0, Some(byte)) = (answer.0, b.get_mut(answer.1)) {
                *byte = 0;
            }
            answer
        })),
        ("a byte with 50", back(|s, b| {
            let answer = (MODEL.back)(s, b);
            if let (50, Some(byte)) = (answer.0, b.first_mut()) {
                *byte = 1;
            }
            answer
        })),
    ]
}

/// Each wrong rewriting differs from the model on the sheets of every kind.
#[test]
fn wrong_ones_are_told() {
    let sheets = any_sheets();
    for (name, ways) in wrong() {
        let mut tally = Tally::default();
        for sheet in &sheets {
            tally.compare(ways, sheet);
            if tally.difference.is_some() {
                break;
            }
        }
        assert!(tally.difference.is_some(), "{name}");
    }
    say(&format!("rewriting: {} wrong ones told", wrong().len()));
}

/// The tests of both ways fail with a wrong one.
#[test]
fn both_ways_tell() {
    let ways = |name| wrong().into_iter().find(|wrong| wrong.0 == name).expect("there is one").1;
    let lists = [examples::P1_LIST.to_vec()];
    for name in ["old offsets there", "gap byte 0 there", "gap byte 2 there", "the last byte there"]
    {
        assert!(there_and_back(ways(name), &P1_OLD, &lists).is_err(), "{name}");
        assert!(back_and_there(ways(name), &P1_NEW, &lists).is_err(), "{name}");
        assert!(mended(ways(name), &P1_OLD, &lists).is_err(), "{name}");
    }
    for name in ["gap byte 1 does not go back", "ticks of the default go back"] {
        assert!(there_and_back(ways(name), &P1_OLD, &lists).is_err(), "{name}");
        assert!(back_and_there(ways(name), &P1_NEW, &lists).is_err(), "{name}");
    }
    for name in ["gap byte 0 goes back", "ticks up to the default go back"] {
        assert!(mended(ways(name), &P1_OLD, &lists).is_err(), "{name}");
    }
    assert_eq!(there_and_back(MODEL, &P1_OLD, &lists), Ok(0));
    assert_eq!(back_and_there(MODEL, &P1_NEW, &lists), Ok(0));
    assert_eq!(mended(MODEL, &P1_OLD, &lists), Ok(0));
}

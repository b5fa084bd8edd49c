//! Rewriting by hand: P1 to the byte, which refusal comes first, and what no way leads back from.

use super::examples::p1;
use super::limits::sheets::largest;
use crate::build::{bound_row, Bodies, Job, Spec};

/// A sheet, the length of the buffer, and what is due: number, detail and, with 0, the bytes.
pub struct RewritingCase {
    pub name: String,
    pub sheet: Vec<u8>,
    pub room: usize,
    pub due: (u8, usize),
    pub bytes: Vec<u8>,
}

/// P1 as document 01 has it, and its edition 2.
#[rustfmt::skip]
pub const P1_OLD: [u8; 78] = [
    1, 4,
    1, 0, 26, 0, 6, 0,
    2, 0, 32, 0, 4, 0,
    3, 0, 36, 0, 18, 0,
    4, 0, 54, 0, 24, 0,
    3, 100, 0, 1, 0, 2,
    10, 0, 20, 0,
    0, 0, 0,  0, 1, 0,  0, 2, 1,
    1, 0, 1,  1, 1, 1,  1, 2, 2,
    1, 0, 5, 0, 5, 0,
    2, 1, 0, 0, 0, 0,
    4, 3, 3, 0, 3, 0,
    5, 4, 0, 0, 0, 0,
];
#[rustfmt::skip]
pub const P1_NEW: [u8; 85] = [
    2, 4,
    1, 0, 26, 0, 9, 0,
    2, 0, 35, 0, 8, 0,
    3, 0, 43, 0, 18, 0,
    4, 0, 61, 0, 24, 0,
    3, 100, 0, 1, 0, 0, 1, 0, 2,
    10, 0, 0, 0, 20, 0, 0, 0,
    0, 0, 0,  0, 1, 0,  0, 2, 1,
    1, 0, 1,  1, 1, 1,  1, 2, 2,
    1, 0, 5, 0, 5, 0,
    2, 1, 0, 0, 0, 0,
    4, 3, 3, 0, 3, 0,
    5, 4, 0, 0, 0, 0,
];

/// The byte of the gap in a sheet of edition 2.
pub const GAP_AT: usize = 29;

/// P1's edition 2 as rewriting wrote it before the default became two ticks.
pub const P1_FORMER: [u8; 85] = with_gap_byte(P1_NEW, 0);

const fn with_gap_byte(mut sheet: [u8; 85], byte: u8) -> [u8; 85] {
    sheet[GAP_AT] = byte;
    sheet
}

/// Longer than any sheet.
const ROOM: usize = 3_000;

fn refused(name: &str, sheet: Vec<u8>, room: usize, due: (u8, usize)) -> RewritingCase {
    RewritingCase { name: name.to_string(), sheet, room, due, bytes: Vec::new() }
}

fn written(name: &str, sheet: &[u8], room: usize, bytes: &[u8]) -> RewritingCase {
    let due = (0, bytes.len());
    let (name, sheet, bytes) = (name.to_string(), sheet.to_vec(), bytes.to_vec());
    RewritingCase { name, sheet, room, due, bytes }
}

/// The sheet with the first byte replaced.
fn under(edition: u8, sheet: &[u8]) -> Vec<u8> {
    let mut sheet = sheet.to_vec();
    sheet[0] = edition;
    sheet
}

/// A bound of an event to itself in the place of the last.
fn with_bad_bound(spec: &Spec) -> Bodies {
    let mut bodies = spec.bodies();
    let last = bodies.bounds.len() - 6;
    bodies.bounds[last..].copy_from_slice(&bound_row(5, 5, 0, 0));
    bodies
}

pub fn to_edition_2() -> Vec<RewritingCase> {
    let empty = Spec::new(7, &[], &[]);
    let idle = Spec::new(7, &[3], &[Job::new(0), Job::new(65_535)]);
    let new = |spec: &Spec| spec.clone().with_gap(1).bytes();
    let mut bad_facts = p1(100);
    bad_facts.marks[2] = 4;
    let mut bad_codes = p1(100);
    bad_codes.jobs.reverse();
    let mut bad_events = p1(100).bodies();
    bad_events.events.push(0);
    let bad_bound = with_bad_bound(&p1(100)).bytes();
    vec![
        written("P1", &P1_OLD, ROOM, &P1_NEW),
        written("P1, 85 bytes", &P1_OLD, 85, &P1_NEW),
        refused("P1, 84 bytes", P1_OLD.to_vec(), 84, (30, 85)),
        refused("P1, 78 bytes", P1_OLD.to_vec(), 78, (30, 85)),
        refused("P1, no bytes", P1_OLD.to_vec(), 0, (30, 85)),
        written("nothing in it", &empty.bytes(), 32, &new(&empty)),
        refused("nothing in it, 31 bytes", empty.bytes(), 31, (30, 32)),
        written("jobs without events", &idle.bytes(), ROOM, &new(&idle)),
        written("the largest sheet", &largest().bytes(), 2_528, &new(&largest())),
        refused("the largest sheet, 2,527 bytes", largest().bytes(), 2_527, (30, 2_528)),
        refused("a sheet of edition 2", P1_NEW.to_vec(), ROOM, (10, 0)),
        refused("a sheet of edition 2, no bytes", P1_NEW.to_vec(), 0, (10, 0)),
        refused("edition 2 bytes under byte 0 = 1", under(1, &P1_NEW), ROOM, (11, 0)),
        refused("edition 1 bytes under byte 0 = 2", under(2, &P1_OLD), ROOM, (10, 0)),
        refused("byte 0 = 0", under(0, &P1_OLD), ROOM, (10, 0)),
        refused("byte 0 = 3", under(3, &P1_OLD), ROOM, (10, 0)),
        refused("no sheet", Vec::new(), ROOM, (10, 0)),
        refused("25 bytes of a sheet", P1_OLD[..25].to_vec(), ROOM, (10, 0)),
        refused("a byte too few", P1_OLD[..77].to_vec(), ROOM, (10, 0)),
        refused("mark 4, no bytes", bad_facts.bytes(), 0, (11, 0)),
        refused("falling codes, no bytes", bad_codes.bytes(), 0, (12, 0)),
        refused("an event too long, no bytes", bad_events.bytes(), 0, (13, 0)),
        refused("a bad bound, no bytes", bad_bound, 0, (14, 0)),
    ]
}

pub fn to_edition_1() -> Vec<RewritingCase> {
    let empty = Spec::new(7, &[], &[]);
    let largest = largest();
    let p1 =
        |gap, revision, releases: &[u16]| p1(100).revised(gap, revision).released(releases).bytes();
    let mut late = largest.clone().with_gap(1);
    late.jobs[31].release = 1;
    let mut cases = vec![
        written("P1", &P1_NEW, ROOM, &P1_OLD),
        written("P1, gap byte 1", &p1(1, 0, &[]), ROOM, &P1_OLD),
        written("P1, 78 bytes", &P1_NEW, 78, &P1_OLD),
        refused("P1, 77 bytes", P1_NEW.to_vec(), 77, (30, 78)),
        refused("P1, no bytes", P1_NEW.to_vec(), 0, (30, 78)),
        written("nothing in it", &empty.clone().with_gap(1).bytes(), 29, &empty.bytes()),
        refused("nothing in it, 28 bytes", empty.clone().with_gap(1).bytes(), 28, (30, 29)),
        written("the largest sheet", &largest.clone().with_gap(1).bytes(), 2_461, &largest.bytes()),
        refused("the last of 32 releases", late.bytes(), ROOM, (50, 0)),
        refused("nothing in it, gap byte 0", empty.clone().with_gap(0).bytes(), 28, (50, 0)),
        refused("nothing in it but revision 1", empty.revised(1, 1).bytes(), ROOM, (50, 0)),
    ];
    cases.extend(no_way_back().into_iter().flat_map(|(name, sheet)| {
        [ROOM, 77, 0].map(|room| refused(name, sheet.clone(), room, (50, 0)))
    }));
    cases.extend(bad_new_sheets());
    cases
}

/// P1 on its way back with every gap byte, as it is and with a revision or a release.
pub fn every_gap_byte() -> Vec<RewritingCase> {
    let rooms = [ROOM, 78, 77, 0];
    let bytes = (0..=255).flat_map(|gap| rooms.map(|room| (gap, room)));
    bytes.flat_map(|(gap, room)| with_every_gap_byte(gap, room)).collect()
}

/// Byte 1 alone goes back, and only where nothing else is said; above 60 there is no sheet.
fn with_every_gap_byte(gap: u8, room: usize) -> Vec<RewritingCase> {
    let name = format!("gap byte {gap}, {room} bytes");
    let plain = p1(100).with_gap(gap);
    let released = plain.clone().released(&[0, 1]);
    let loud = [p1(100).revised(gap, 1), p1(100).revised(gap, 256), released];
    let number = if gap > 60 { 11 } else { 50 };
    let refuse = |spec: &Spec| refused(&name, spec.bytes(), room, (number, 0));
    let mut cases: Vec<RewritingCase> = loud.iter().map(refuse).collect();
    cases.push(match (gap, room) {
        (1, 0..=77) => refused(&name, plain.bytes(), room, (30, 78)),
        (1, _) => written(&name, &plain.bytes(), room, &P1_OLD),
        _ => refuse(&plain),
    });
    cases
}

/// P1 with one thing that edition 1 cannot say.
fn no_way_back() -> Vec<(&'static str, Vec<u8>)> {
    let p1 =
        |gap, revision, releases: &[u16]| p1(100).revised(gap, revision).released(releases).bytes();
    vec![
        ("gap byte 0", P1_FORMER.to_vec()),
        ("gap 2", p1(2, 0, &[])),
        ("gap 60", p1(60, 0, &[])),
        ("revision 1", p1(1, 1, &[])),
        ("revision 256", p1(1, 256, &[])),
        ("revision 65,535", p1(1, 65_535, &[])),
        ("release 1 of job 10", p1(1, 0, &[1])),
        ("release 1 of job 20", p1(1, 0, &[0, 1])),
        ("release 256 of job 20", p1(1, 0, &[0, 256])),
        ("release 65,535 of job 10", p1(1, 0, &[65_535])),
        ("all of it", p1(60, 65_535, &[65_535, 65_535])),
    ]
}

/// Each of 10 to 14 comes before 50 and 30.
fn bad_new_sheets() -> Vec<RewritingCase> {
    let loud = p1(100).revised(60, 1).released(&[1, 1]);
    let mut bad_codes = loud.clone();
    bad_codes.jobs.reverse();
    let mut bad_events = loud.bodies();
    bad_events.events.push(0);
    let quiet = with_bad_bound(&p1(100).revised(1, 1)).bytes();
    let by_default = with_bad_bound(&p1(100).with_gap(0)).bytes();
    vec![
        refused("a sheet of edition 1", P1_OLD.to_vec(), ROOM, (10, 0)),
        refused("edition 1 bytes under byte 0 = 2", under(2, &P1_OLD), ROOM, (11, 0)),
        refused("edition 2 bytes under byte 0 = 1", under(1, &P1_NEW), ROOM, (10, 0)),
        refused("byte 0 = 0", under(0, &P1_NEW), ROOM, (10, 0)),
        refused("byte 0 = 3", under(3, &P1_NEW), ROOM, (10, 0)),
        refused("no sheet", Vec::new(), ROOM, (10, 0)),
        refused("a byte too few", P1_NEW[..84].to_vec(), ROOM, (10, 0)),
        refused("gap 61", loud.clone().with_gap(61).bytes(), ROOM, (11, 0)),
        refused("gap 61, no bytes", p1(100).with_gap(61).bytes(), 0, (11, 0)),
        refused("gap 60 and falling codes", bad_codes.bytes(), 0, (12, 0)),
        refused("gap 60 and an event too long", bad_events.bytes(), 0, (13, 0)),
        refused("gap 60 and a bad bound", with_bad_bound(&loud).bytes(), 0, (14, 0)),
        refused("revision 1 and a bad bound", quiet, ROOM, (14, 0)),
        refused("gap byte 0 and a bad bound", by_default, ROOM, (14, 0)),
    ]
}

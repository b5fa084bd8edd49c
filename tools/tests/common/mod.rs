//! Random sheets of every form that is well formed, whether they can be planned or not.

#![allow(dead_code)]

use corrumai_tests::build::{begins, clears, ends, sets, Act, Job, Spec};
use corrumai_tests::generate::repeat;
use corrumai_tests::rng::Rng;
use corrumai_tools::answers::Proved;
use corrumai_tools::decode::decode;
use corrumai_tools::encode::encode;
use corrumai_tools::model::Sheet;
use corrumai_tools::notation::{parse, print, HEADER};
use std::fs;
use std::path::PathBuf;
use std::process::Command;
use std::sync::Once;
use std::thread;

/// The folder of the repository.
pub fn root() -> PathBuf {
    PathBuf::from(env!("CARGO_MANIFEST_DIR")).join("..")
}

/// A text of the repository.
pub fn text(name: &str) -> String {
    fs::read_to_string(root().join(name)).unwrap_or_else(|fault| panic!("{name}: {fault}"))
}

/// Builds all that the commands of bin/ run, so that none has to say that it does.
pub fn build() {
    static BUILT: Once = Once::new();
    BUILT.call_once(|| {
        for name in ["corrumai", "runlist"] {
            let output = Command::new(root().join("tools/ready")).arg(name).output().unwrap();
            assert!(output.status.success(), "{output:?}");
        }
    });
}

/// What stands between fences, each with the words behind its fence.
pub fn fenced(page: &str) -> Vec<(String, String)> {
    let mut blocks = Vec::new();
    let mut open: Option<(String, String)> = None;
    for line in page.lines() {
        match (&mut open, line.strip_prefix("```")) {
            (None, Some(kind)) => open = Some((kind.to_string(), String::new())),
            (None, None) => {}
            (Some(_), Some(_)) => blocks.extend(open.take()),
            (Some((_, block)), None) => *block += &format!("{line}\n"),
        }
    }
    blocks
}

/// A file of the examples.
pub fn example(name: &str) -> String {
    root().join("examples").join(name).to_str().unwrap().to_string()
}

/// A file of the tests' own.
pub fn file(name: &str, bytes: &[u8]) -> String {
    let path = PathBuf::from(env!("CARGO_TARGET_TMPDIR")).join(name);
    // Whole at once: another test may read its own file of this name.
    let new = path.with_extension(format!("{:?}", thread::current().id()));
    fs::write(&new, bytes).unwrap();
    fs::rename(&new, &path).unwrap();
    path.to_str().unwrap().to_string()
}

/// The words of a command as a page shows it, called in the repository's folder: files are found, and `$(cat FILE)` is read.
pub fn shell_words(line: &str) -> Vec<String> {
    let path = |word: &str| match word.starts_with("examples/") {
        true => root().join(word).to_str().unwrap().to_string(),
        false => word.to_string(),
    };
    let (plain, read) = line.split_once(" $(cat ").unwrap_or((line, ""));
    let read = read.strip_suffix(')').map(|file| fs::read_to_string(path(file)).unwrap());
    let words = plain.split(' ').map(path);
    words.chain(read.unwrap_or_default().split_whitespace().map(String::from)).collect()
}

const SIDES: [i16; 9] = [-10_080, -10_079, -7, -1, 0, 1, 5, 10_079, 10_080];

/// Any well-formed sheet: empty ones, full ones, facts that nobody uses, jobs without events.
pub fn any_sheet(rng: &mut Rng) -> Spec {
    let facts = *rng.pick(&[0, 1, 2, 3, 5, 12, 63, 64]);
    let marks: Vec<u8> = (0..facts).map(|_| rng.below(4) as u8).collect();
    let horizon = *rng.pick(&[0, 1, 9, 100, 480, 10_079, 10_080]);
    let mut room = Room { events: 256, bounds: 256 };
    let jobs: Vec<Job> = codes(rng).into_iter().map(|c| job(rng, c, facts, &mut room)).collect();
    let mut spec = Spec::new(horizon, &marks, &jobs);
    repeat::sometimes(rng, 25, &mut spec);
    if rng.chance(50) {
        return spec;
    }
    second(rng, spec)
}

/// The same in edition 2, with some gap, revision and releases.
fn second(rng: &mut Rng, spec: Spec) -> Spec {
    let gap = *rng.pick(&[0, 1, 2, 7, 59, 60]);
    let revision = *rng.pick(&[0, 1, 255, 256, 65_535]);
    let releases = [0, 0, 1, 255, 256, spec.horizon, spec.horizon + 1, 65_535];
    let releases: Vec<u16> = spec.jobs.iter().map(|_| *rng.pick(&releases)).collect();
    spec.revised(gap, revision).released(&releases)
}

/// How many events and bounds may still be added.
struct Room {
    events: usize,
    bounds: usize,
}

fn codes(rng: &mut Rng) -> Vec<u16> {
    let count = *rng.pick(&[0, 1, 2, 3, 8, 31, 32]);
    let widest = *rng.pick(&[1, 3, 2_000]);
    let mut code = rng.below(3) as u16;
    let mut codes = Vec::new();
    for _ in 0..count {
        codes.push(code);
        code += 1 + rng.below(widest) as u16;
    }
    if let Some(last) = codes.last_mut().filter(|_| rng.chance(10)) {
        *last = u16::MAX;
    }
    codes
}

fn job(rng: &mut Rng, code: u16, facts: usize, room: &mut Room) -> Job {
    let mut job = Job::new(code);
    let most = *rng.pick(&[1, 4, 8, 40]);
    for _ in 0..rng.below(most) {
        if facts == 0 || room.events < 2 {
            break;
        }
        let fact = rng.below(facts);
        let before = job.acts.len();
        match rng.below(4) {
            0 | 1 => job.acts.extend([begins(fact), ends(fact)]),
            2 => job.acts.extend([sets(fact)]),
            _ => job.acts.extend([clears(fact)]),
        }
        room.events -= job.acts.len() - before;
    }
    add_bounds(rng, &mut job, room);
    job
}

/// Now and then the same pair again, and of these now and then the same row.
fn add_bounds(rng: &mut Rng, job: &mut Job, room: &mut Room) {
    let acts: Vec<Act> = job.acts.iter().copied().collect();
    let most = *rng.pick(&[1, 3, 12, 60]);
    let mut last = None;
    for _ in 0..rng.below(most).min(room.bounds) {
        if acts.len() < 2 {
            return;
        }
        let row = match last.filter(|_| rng.chance(25)) {
            Some(row) if rng.chance(25) => row,
            Some((pair, _)) => (pair, span(rng)),
            None => (two_of(rng, &acts), span(rng)),
        };
        job.bounds.insert(row.0, row.1);
        last = Some(row);
    }
    room.bounds -= job.bounds.len();
}

/// Two different events.
fn two_of(rng: &mut Rng, acts: &[Act]) -> (Act, Act) {
    let first = rng.below(acts.len());
    let second = (first + 1 + rng.below(acts.len() - 1)) % acts.len();
    (acts[first], acts[second])
}

/// Low and high, none of them in one case of four.
fn span(rng: &mut Rng) -> (i16, i16) {
    let side = |rng: &mut Rng| match rng.chance(50) {
        true => *rng.pick(&SIDES),
        false => rng.between(-10_080, 10_080) as i16,
    };
    let (one, other) = (side(rng), side(rng));
    let low = if rng.chance(25) { i16::MIN } else { one.min(other) };
    let high = if rng.chance(25) { i16::MAX } else { one.max(other) };
    if rng.chance(20) && low != i16::MIN {
        return (low, low);
    }
    (low, high)
}

/// The sheet of these bytes, which goes to text and back to the same bytes.
pub fn round_trip(bytes: &[u8]) -> Sheet {
    let sheet = decode(bytes).unwrap_or_else(|refusal| panic!("{refusal:?}: {bytes:02x?}"));
    let text = format!("{HEADER}{}", print(&sheet));
    let again = parse(text.as_bytes()).unwrap_or_else(|errors| panic!("{errors:?}\n{text}"));
    assert_eq!(encode(&again), bytes, "\n{text}");
    assert_eq!(again, sheet, "\n{text}");
    sheet
}

/// A bound as its bytes say it: e, d, low and high.
pub type Row = (u8, u8, i16, i16);

/// Where the bounds start: they are the last body.
fn bounds_at(sheet: &[u8]) -> usize {
    usize::from(u16::from_le_bytes([sheet[22], sheet[23]]))
}

/// The sheet with these rows for its bounds.
pub fn with_rows(sheet: &[u8], rows: &[Row]) -> Vec<u8> {
    let mut bytes = sheet[..bounds_at(sheet)].to_vec();
    for &(e, d, low, high) in rows {
        bytes.extend([e, d]);
        bytes.extend([low, high].map(i16::to_le_bytes).concat());
    }
    bytes[24..26].copy_from_slice(&(6 * rows.len() as u16).to_le_bytes());
    bytes
}

/// The bounds of a sheet.
pub fn rows_of(sheet: &[u8]) -> Vec<Row> {
    let side = |row: &[u8], at: usize| i16::from_le_bytes([row[at], row[at + 1]]);
    let rows = sheet[bounds_at(sheet)..].chunks(6);
    rows.map(|row| (row[0], row[1], side(row, 2), side(row, 4))).collect()
}

/// The proved functions, as the tests link them.
pub fn proved() -> Proved {
    Proved {
        plan: corrumai_tests::plan,
        judge: corrumai_tests::judge,
        to_edition2: corrumai_tests::to_edition_2,
        to_edition1: corrumai_tests::to_edition_1,
        late: corrumai_tests::late,
        fresh: corrumai_tests::fresh,
        move_on: |sheet, list, delays, run| {
            let mut moved = corrumai_tests::Run { next: run.next, held: run.held };
            let number = corrumai_tests::move_on(sheet, list, delays, &mut moved);
            (run.next, run.held) = (moved.next, moved.held);
            number
        },
        cost: |sheet, list, rates| {
            // Numbers that are never stored are seen.
            let mut bill = corrumai_tests::Bill { cents: u64::MAX, sixtieths: u64::MAX };
            let number = corrumai_tests::cost(sheet, list, rates, &mut bill);
            (number, bill.cents, bill.sixtieths)
        },
        newer: |first, second| {
            // As above.
            let mut handed = corrumai_tests::Handed { detail: 99, which: 1, part_len: 0 };
            let (number, _) = corrumai_tests::newer(first, second, &mut handed);
            (number, handed.detail, handed.which)
        },
    }
}

/// What the command prints on standard output and standard error, and its status, without a process.
pub fn command(words: &[&str]) -> (Vec<u8>, String, u8) {
    command_with(&proved(), words)
}

/// The same with another library.
pub fn command_with(proved: &Proved, words: &[&str]) -> (Vec<u8>, String, u8) {
    let words: Vec<std::ffi::OsString> = words.iter().map(Into::into).collect();
    match corrumai_tools::command::run(&words, proved) {
        Ok(output) => (output.out, output.aside, output.status),
        Err(failure) => (Vec::new(), failure.message, failure.status),
    }
}

/// What the command says of this file, and its status.
pub fn said(words: &[&str], name: &str, bytes: &[u8]) -> (Vec<u8>, String, u8) {
    let path = file(name, bytes);
    let (out, aside, status) = command(&[words, &[&path]].concat());
    (out, aside.replace(&path, name), status)
}

//! Two libraries on the same sheets and lists: all their answers are the same. Linked and run by dev/same-answers.
//! With CORRUMAI_NO_REPEATED set, well-formed sheets with several bounds of a pair are passed over: libraries before
//! repeated bounds refuse them. With CORRUMAI_NO_ABSENT set, sheets with a job without own times are not planned: the planners
//! of libraries before retired jobs refuse them with 15. Judge and rewriting are compared on them all the same.

use corrumai_tests::cases::limits::{self, full_size};
use corrumai_tests::cases::{self, distances, edition_2, hostile, ordinary, rewriting};
use corrumai_tests::generate::planned::{self, Size, LARGE, LARGE_2, SMALL, SMALL_2};
use corrumai_tests::generate::{damage, large, near, tiny};
use corrumai_tests::model;
use corrumai_tests::model::sheet::number;
use corrumai_tests::planner_model::absent_jobs;
use corrumai_tests::rng::Rng;
use corrumai_tests::{call, Routine};
use std::collections::BTreeMap;
use std::env;
use std::process;

/// The judge is declared like the others: that it leaves the list as it is is compared too.
macro_rules! declare {
    ($($name:ident)*) => {
        extern "C" {
            $(fn $name(
                sheet: *const u8,
                sheet_len: usize,
                lent: *mut u8,
                lent_len: usize,
                detail: *mut usize,
            ) -> u8;)*
        }
    };
}

declare!(old_judge old_plan old_to_edition2 old_to_edition1);
declare!(new_judge new_plan new_to_edition2 new_to_edition1);

/// A routine of both libraries, with the answers that are common for it.
struct Both {
    name: &'static str,
    old: Routine,
    new: Routine,
    common: &'static [u8],
}

const JUDGE: Both = Both {
    name: "judge",
    old: old_judge,
    new: new_judge,
    common: &[10, 11, 12, 13, 14, 40, 41, 0],
};

const PLAN: Both = Both {
    name: "plan",
    old: old_plan,
    new: new_plan,
    common: &[10, 11, 12, 13, 14, 20, 21, 22, 1, 30, 0],
};

const TO_EDITION_2: Both = Both {
    name: "to_edition2",
    old: old_to_edition2,
    new: new_to_edition2,
    common: &[10, 11, 12, 13, 14, 30, 0],
};

const TO_EDITION_1: Both = Both {
    name: "to_edition1",
    old: old_to_edition1,
    new: new_to_edition1,
    common: &[10, 11, 12, 13, 14, 50, 30, 0],
};

/// Longer than every list and every sheet that is written.
const LONG: usize = 2_600;

/// Where H stands, in both editions.
const HORIZON_AT: usize = 27;

const SEED: u64 = 41;

/// A list without entries.
const NO_ENTRIES: [u8; 4] = [1, 0, 0, 0];

/// Lists with any gap, and room for it.
const WIDE: Size = Size { gap: Some(60), span: 90, ..SMALL_2 };

/// What was compared: sheets by edition, the last for neither, and answers by routine.
#[derive(Default)]
struct Tally {
    editions: [usize; 3],
    answers: BTreeMap<&'static str, BTreeMap<u8, usize>>,
    calls: usize,
    bytes: usize,
    passed_over: usize,
    not_planned: usize,
}

impl Tally {
    /// All routines on the sheet, the judge with this list, or else with the planner's, which is given back.
    fn compare(&mut self, sheet: &[u8], list: Option<&[u8]>) -> Option<Vec<u8>> {
        if env::var_os("CORRUMAI_NO_REPEATED").is_some() && repeats(sheet) {
            self.passed_over += 1;
            return None;
        }
        let edition = match sheet.first() {
            Some(1) => 0,
            Some(2) => 1,
            _ => 2,
        };
        self.editions[edition] += 1;
        let least = if env::var_os("CORRUMAI_NO_ABSENT").is_some() && has_absent(sheet) {
            self.not_planned += 1;
            None
        } else {
            self.write(&PLAN, sheet)
        };
        let list = list.or(least.as_deref()).unwrap_or(&NO_ENTRIES);
        let (number, _) = self.same(&JUDGE, sheet, list).0;
        self.add(&JUDGE, number);
        self.write(&TO_EDITION_1, sheet);
        if let Some(rewritten) = self.write(&TO_EDITION_2, sheet) {
            self.write(&TO_EDITION_1, &rewritten);
        }
        least
    }

    /// With a long buffer and with none; where something is written, also with one that just holds it, and one a byte
    /// shorter.
    fn write(&mut self, both: &Both, sheet: &[u8]) -> Option<Vec<u8>> {
        self.fill(both, sheet, 0);
        let ((number, needed), buffer) = self.fill(both, sheet, LONG);
        self.add(both, number);
        let written = buffer.get(..needed).filter(|_| number == 0)?;
        self.fill(both, sheet, needed);
        let ((number, _), _) = self.fill(both, sheet, needed.saturating_sub(1));
        self.add(both, number);
        Some(written.to_vec())
    }

    /// With two fillings of the buffer that share no byte, so that a byte written with its own value is seen.
    fn fill(&mut self, both: &Both, sheet: &[u8], length: usize) -> Answer {
        let filling: Vec<u8> = (0..length).map(|place| (place * 37 + 11) as u8).collect();
        let other: Vec<u8> = filling.iter().map(|byte| !byte).collect();
        self.same(both, sheet, &other);
        self.same(both, sheet, &filling)
    }

    /// What both libraries answer and leave in what they are lent; the first difference ends the run.
    fn same(&mut self, both: &Both, sheet: &[u8], lent: &[u8]) -> Answer {
        let answer = |routine| {
            let mut lent = lent.to_vec();
            (call(routine, sheet, &mut lent), lent)
        };
        let (old, new) = (answer(both.old), answer(both.new));
        if old != new {
            println!("sheet {}\nlent {}", hex(sheet), hex(lent));
            println!("old {:?} {}\nnew {:?} {}", old.0, hex(&old.1), new.0, hex(&new.1));
            fail(&format!("{} answers otherwise, with {} bytes lent", both.name, lent.len()));
        }
        self.calls += 1;
        self.bytes += lent.len();
        old
    }

    fn add(&mut self, both: &Both, number: u8) {
        *self.answers.entry(both.name).or_default().entry(number).or_default() += 1;
    }

    fn print(&self, sheets: &str) {
        let [one, two, neither] = self.editions;
        println!("same-answers: {sheets}: {one} of edition 1, {two} of edition 2, {neither} else");
        for (name, answers) in &self.answers {
            let answers = answers.iter().map(|(number, count)| format!("{number}: {count}"));
            println!("same-answers: {name}: {}", answers.collect::<Vec<_>>().join(", "));
        }
        println!("same-answers: {} calls of each library, {} bytes lent", self.calls, self.bytes);
        println!("same-answers: {} sheets with repeated bounds passed over", self.passed_over);
        println!("same-answers: {} sheets with absent jobs not planned", self.not_planned);
    }

    fn count(&self, both: &Both, number: u8) -> usize {
        self.answers.get(both.name).and_then(|counts| counts.get(&number)).copied().unwrap_or(0)
    }

    /// Of each edition there were so many sheets, and of each common answer so many.
    fn at_least(&self, sheets: usize, answers: usize) {
        if self.editions[..2].iter().any(|count| *count < sheets) {
            fail("an edition is rare");
        }
        for both in [JUDGE, PLAN, TO_EDITION_2, TO_EDITION_1] {
            let rare = |number: &&u8| self.count(&both, **number) < answers;
            if let Some(number) = both.common.iter().find(rare) {
                fail(&format!("{} answers {number} too seldom", both.name));
            }
        }
    }
}

/// Number and detail, and the bytes that were lent.
type Answer = ((u8, usize), Vec<u8>);

fn hex(bytes: &[u8]) -> String {
    bytes.iter().map(|byte| format!("{byte:02x}")).collect()
}

fn fail(why: &str) -> ! {
    eprintln!("same-answers: {why}");
    process::exit(1);
}

/// Whether it is a sheet with several bounds of a pair.
fn repeats(sheet: &[u8]) -> bool {
    model::sheet::read(sheet).is_ok_and(|sheet| sheet.repeats())
}

/// Whether it is a sheet with a job without own times.
fn has_absent(sheet: &[u8]) -> bool {
    model::sheet::read(sheet).is_ok_and(|sheet| !absent_jobs(&sheet).is_empty())
}

/// A random sheet.
fn sheet(rng: &mut Rng, edition: u8) -> Vec<u8> {
    let spec = match (edition, rng.below(50)) {
        (1, 0) => large::sheet(rng),
        (1, _) => tiny::sheet(rng),
        (_, 0) => large::sheet_2(rng),
        (_, 1..=9) => tiny::sheet(rng).with_gap(1),
        _ => tiny::sheet_2(rng),
    };
    match rng.below(20) {
        0 => damage::noise(rng),
        1..=5 => damage::damaged(rng, &spec),
        _ => spec.bytes(),
    }
}

/// The sheet with the last tick of its list, or so many less, for H.
fn tight(sheet: &[u8], list: &[u8], less: u16) -> Vec<u8> {
    let times = list[4 + 4 * usize::from(list[2])..].chunks_exact(2).map(|time| number(time, 0));
    let last = times.max().unwrap_or(0).saturating_sub(less);
    let mut tight = sheet.to_vec();
    tight[HORIZON_AT..HORIZON_AT + 2].copy_from_slice(&last.to_le_bytes());
    tight
}

/// A random list, with its sheet.
fn listed(rng: &mut Rng, edition: u8) -> (Vec<u8>, Vec<u8>) {
    let size = match (edition, rng.below(50)) {
        (1, 0) => LARGE,
        (1, _) => SMALL,
        (_, 0) => LARGE_2,
        (_, 1..=9) => WIDE,
        _ => SMALL_2,
    };
    let pair = if rng.chance(20) { planned::any(rng, size) } else { planned::plan(rng, size) };
    match rng.below(10) {
        0..=2 => pair.bytes(),
        3 => planned::crowded(rng, &pair).bytes(),
        4 => (damage::damaged(rng, &pair.spec), pair.bytes().1),
        _ => near::miss(rng, &pair),
    }
}

/// Sheets and lists made by hand, those at the limits, ordinary ones and hostile ones.
fn by_hand(tally: &mut Tally) {
    let judged = [cases::all(), edition_2::lists_with_every_gap(), distances::cases()].concat();
    for case in [judged, limits::judged(), full_size::judged()].concat() {
        tally.compare(&case.sheet, Some(&case.list));
    }
    let planned = cases::planned().into_iter().chain(edition_2::planned_with_every_gap());
    for case in planned.chain(limits::planned()).chain(full_size::planned()) {
        tally.compare(&case.sheet, None);
    }
    let rewritten = rewriting::to_edition_2().into_iter().chain(rewriting::to_edition_1());
    for case in rewritten {
        tally.compare(&case.sheet, None);
    }
    for spec in [ordinary::small(), ordinary::full(), ordinary::half_wanted()] {
        tally.compare(&spec.bytes(), None);
    }
    let hostile_ones = [hostile::sheets(), hostile::settled(), hostile::repeated()].concat();
    let ordinary_ones = [ordinary::chains(), ordinary::repeated(), ordinary::half_retired()];
    for (_, spec) in [hostile_ones, ordinary_ones.concat()].concat() {
        tally.compare(&spec.bytes(), None);
    }
    for (_, spec, _) in hostile::retired() {
        tally.compare(&spec.bytes(), None);
    }
    for (_, spec, list) in hostile::lists().into_iter().chain(hostile::repeated_lists()) {
        tally.compare(&spec.bytes(), Some(&list));
    }
}

fn main() {
    let count = env::args().nth(1).and_then(|count| count.parse().ok());
    let count: usize = count.unwrap_or_else(|| fail("how many sheets, and how many lists?"));
    let mut tally = Tally::default();
    let mut rng = Rng::new(SEED);
    for place in 0..count {
        let edition = 1 + (place % 2) as u8;
        let alone = sheet(&mut rng, edition);
        if let Some(list) = tally.compare(&alone, None) {
            tally.compare(&tight(&alone, &list, rng.below(2) as u16), None);
        }
        let (sheet, list) = listed(&mut rng, edition);
        tally.compare(&sheet, Some(&list));
    }
    tally.print(&format!("{count} random sheets, also with a tight H, and {count} random lists"));
    tally.at_least(count * 4 / 5, count / 100);
    let mut tally = Tally::default();
    by_hand(&mut tally);
    tally.print("sheets made by hand");
}

//! Sheets that say the same in other bytes get the same answers from planner and judge: edition 1 and edition 2 with gap
//! byte 1, revision and releases 0; and edition 2 with gap bytes 0 and 2. The product is compared with itself here.

use corrumai_tests::build::{Bodies, Spec};
use corrumai_tests::cases::limits::{self, full_size};
use corrumai_tests::cases::{self, hostile, ordinary};
use corrumai_tests::generate::planned::{self, Size, LARGE, LARGE_2, SMALL, SMALL_2};
use corrumai_tests::generate::{damage, large, near, tiny};
use corrumai_tests::model::sheet::Edition;
use corrumai_tests::rng::Rng;
use corrumai_tests::say;
use std::collections::BTreeMap;

/// No list of a planner is longer.
const LONGEST: usize = 644;

/// Sheets of one edition, and pairs: what they got with a gap of one tick, by number, and how often the default is
/// another answer.
struct Tally {
    edition: u8,
    plans: BTreeMap<u8, usize>,
    judged: BTreeMap<u8, usize>,
    by_default: [usize; 2],
}

impl Tally {
    fn of(edition: u8) -> Tally {
        Tally { edition, plans: BTreeMap::new(), judged: BTreeMap::new(), by_default: [0, 0] }
    }

    fn plan(&mut self, sheet: &[u8]) {
        let Some(gaps) = Gaps::of(self.edition, sheet) else {
            return;
        };
        for length in [LONGEST + 1, 20] {
            let due = gaps.same(|sheet| plan(sheet, length));
            self.by_default[0] += usize::from(plan(&gaps.zero, length) != due);
            *self.plans.entry(due.0 .0).or_default() += 1;
        }
    }

    fn judge(&mut self, sheet: &[u8], list: &[u8]) {
        let Some(gaps) = Gaps::of(self.edition, sheet) else {
            return;
        };
        let due = gaps.same(|sheet| corrumai_tests::judge(sheet, list));
        self.by_default[1] += usize::from(corrumai_tests::judge(&gaps.zero, list) != due);
        *self.judged.entry(due.0).or_default() += 1;
    }

    fn print(&self, name: &str) {
        let Tally { edition, plans, judged, by_default: [planned, listed] } = self;
        say(&format!("edition {edition}, {name}: planned {plans:?}, judged {judged:?}"));
        say(&format!("edition {edition}, {name}: the default changes {planned} and {listed}"));
    }

    fn at_least(&self, plans: &[u8], judged: &[u8], least: usize) {
        for (counts, due) in [(&self.plans, plans), (&self.judged, judged)] {
            for number in due {
                let count = counts.get(number).copied().unwrap_or(0);
                assert!(count >= least, "answer {number}: only {count}");
            }
        }
    }

    /// The default is another answer so often for planner and judge.
    fn changed_at_least(&self, least: [usize; 2]) {
        let [planned, listed] = self.by_default;
        assert!(planned >= least[0] && listed >= least[1], "the default changes too little");
    }
}

/// The sheet with gap bytes 0, 1 and 2 in edition 2, and as it is in edition 1, if it is of that.
struct Gaps {
    old: Option<Vec<u8>>,
    zero: Vec<u8>,
    one: Vec<u8>,
    two: Vec<u8>,
}

impl Gaps {
    /// Of a sheet of this edition whose contents are right, whatever stands in its bodies.
    fn of(edition: u8, sheet: &[u8]) -> Option<Gaps> {
        let bodies = Bodies::of(sheet).filter(|bodies| bodies.edition == edition)?;
        let with = |gap| match edition {
            1 => bodies.clone().with_gap(gap).bytes(),
            _ => {
                let mut bodies = bodies.clone();
                bodies.facts.iter_mut().skip(3).take(1).for_each(|byte| *byte = gap);
                bodies.bytes()
            }
        };
        let old = (edition == 1).then(|| sheet.to_vec());
        Some(Gaps { old, zero: with(0), one: with(1), two: with(2) })
    }

    /// Byte 0 gets what byte 2 gets, and byte 1, which is given, what edition 1 gets.
    fn same<T: PartialEq>(&self, answer: impl Fn(&[u8]) -> T) -> T {
        let Gaps { old, zero, one, two } = self;
        assert!(answer(zero) == answer(two), "gap bytes 0 and 2 differ\n{zero:02x?}");
        let due = answer(one);
        let agrees = old.as_ref().map_or(true, |old| answer(old) == due);
        assert!(agrees, "edition 1 and gap byte 1 differ\n{one:02x?}");
        due
    }
}

/// Number, detail and buffer.
fn plan(sheet: &[u8], length: usize) -> ((u8, usize), Vec<u8>) {
    let mut buffer: Vec<u8> = (0..length).map(|place| (place * 37 + 11) as u8).collect();
    (corrumai_tests::plan(sheet, &mut buffer), buffer)
}

fn by_hand(edition: u8) -> Tally {
    let mut tally = Tally::of(edition);
    let judged = [cases::all(), limits::judged(), full_size::judged()].concat();
    for case in judged {
        tally.judge(&case.sheet, &case.list);
        tally.plan(&case.sheet);
    }
    for case in cases::planned() {
        tally.plan(&case.sheet);
    }
    for case in limits::planned().into_iter().chain(full_size::planned()) {
        tally.plan(&case.sheet);
    }
    tally.print("by hand");
    tally
}

#[test]
fn by_hand_and_at_the_limits() {
    let tally = by_hand(1);
    tally.at_least(&[11, 12, 13, 14, 20, 21, 22, 1, 0], &[11, 12, 13, 14, 40, 41, 0], 5);
    tally.changed_at_least([20, 5]);
    let tally = by_hand(2);
    tally.at_least(&[11, 12, 21, 1, 0], &[11, 12, 41, 0], 5);
    tally.changed_at_least([20, 5]);
}

#[test]
fn ordinary_and_hostile() {
    let mut tally = Tally::of(1);
    let named = [hostile::sheets(), hostile::repeated(), ordinary::repeated()].concat();
    let mut specs: Vec<Spec> = named.into_iter().map(|(_, spec)| spec).collect();
    specs.extend([ordinary::small(), ordinary::full(), ordinary::half_wanted()]);
    specs.extend([ordinary::too_short(), ordinary::unordered()]);
    let more = [ordinary::chains(), ordinary::half_retired()].concat();
    specs.extend(more.into_iter().map(|(_, spec)| spec));
    specs.extend(hostile::retired().into_iter().map(|(_, spec, _)| spec));
    specs.iter().for_each(|spec| tally.plan(&spec.bytes()));
    for (_, spec, list) in hostile::lists().into_iter().chain(hostile::repeated_lists()) {
        tally.judge(&spec.bytes(), &list);
    }
    tally.print("ordinary and hostile");
    tally.at_least(&[20, 21, 22, 1, 0], &[0], 1);
    let mut tally = Tally::of(2);
    hostile::settled().into_iter().for_each(|(_, spec)| tally.plan(&spec.bytes()));
    tally.print("hostile");
    tally.at_least(&[21, 1, 0], &[], 1);
}

/// Tiny and large sheets, the tiny ones also damaged.
fn random_sheets_of(
    edition: u8,
    seed: u64,
    tiny: fn(&mut Rng) -> Spec,
    large: fn(&mut Rng) -> Spec,
) {
    let mut tally = Tally::of(edition);
    let mut rng = Rng::new(seed);
    for _ in 0..10_000 {
        let spec = tiny(&mut rng);
        tally.plan(&spec.bytes());
        tally.plan(&damage::damaged(&mut rng, &spec));
    }
    for _ in 0..200 {
        tally.plan(&large(&mut rng).bytes());
    }
    tally.print("random sheets");
    tally.at_least(&[11, 12, 13, 14, 20, 21, 22, 1, 30, 0], &[], 100);
    tally.changed_at_least([500, 0]);
}

#[test]
fn random_sheets() {
    random_sheets_of(1, 27, tiny::sheet, large::sheet);
    random_sheets_of(2, 31, tiny::sheet_2, large::sheet_2);
}

fn random_lists_of(edition: u8, seed: u64, small: Size, large: Size) {
    let mut tally = Tally::of(edition);
    let mut rng = Rng::new(seed);
    for round in 0..6_000 {
        let size = if round % 100 == 0 { large } else { small };
        let pair = planned::plan(&mut rng, size);
        let (sheet, list) = pair.bytes();
        tally.judge(&sheet, &list);
        for _ in 0..2 {
            let (sheet, list) = near::miss(&mut rng, &pair);
            tally.judge(&sheet, &list);
        }
    }
    tally.print("random lists");
    tally.at_least(&[], &[40, 41, 0], 1_000);
    tally.changed_at_least([0, 500]);
}

#[test]
fn random_lists() {
    random_lists_of(1, 28, SMALL, LARGE);
    random_lists_of(2, 32, SMALL_2, LARGE_2);
}

/// How often each of gap bytes 0, 1 and 2 stands in a thousand sheets.
fn gap_bytes(mut sheet: impl FnMut(&mut Rng) -> Spec) -> [usize; 3] {
    let mut rng = Rng::new(33);
    let mut counts = [0; 3];
    for _ in 0..1_000 {
        if let Edition::Two { gap: gap @ 0..=2, .. } = sheet(&mut rng).edition {
            counts[usize::from(gap)] += 1;
        }
    }
    counts
}

/// The generators of edition 2 make sheets of each kind: the default, one tick, and two.
#[test]
fn gap_bytes_are_common() {
    for (name, counts) in [
        ("tiny", gap_bytes(tiny::sheet_2)),
        ("large", gap_bytes(large::sheet_2)),
        ("small plans", gap_bytes(|rng| planned::plan(rng, SMALL_2).spec)),
        ("large plans", gap_bytes(|rng| planned::plan(rng, LARGE_2).spec)),
    ] {
        say(&format!("edition 2, {name}: gap bytes 0, 1 and 2 in 1,000 sheets: {counts:?}"));
        assert!(counts.iter().all(|count| *count >= 100), "{name}: a gap byte is rare");
    }
}

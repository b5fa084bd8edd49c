//! The product's judge against the model, in number and detail.

use corrumai_tests::build::{list_bytes, list_of_rows};
use corrumai_tests::cases::examples::{self, file};
use corrumai_tests::cases::{self, distances, edition_2, Case};
use corrumai_tests::generate::planned::{self, Size, LARGE, LARGE_2, SMALL, SMALL_2};
use corrumai_tests::generate::{damage, near, Pair};
use corrumai_tests::model;
use corrumai_tests::rng::Rng;
use corrumai_tests::say;

const ANSWERS: [u8; 8] = [10, 11, 12, 13, 14, 40, 41, 0];

/// How often each answer was given, all by both judges.
#[derive(Default)]
struct Tally {
    counts: [usize; 8],
}

impl Tally {
    /// Both judges answer the same.
    fn compare(&mut self, sheet: &[u8], list: &[u8]) -> u8 {
        let expected = model::judge(sheet, list);
        let answer = corrumai_tests::judge(sheet, list);
        assert_eq!(
            answer, expected,
            "product (left) and model differ\nsheet {sheet:02x?}\nlist {list:02x?}"
        );
        let place = ANSWERS.iter().position(|a| *a == expected.0).unwrap();
        self.counts[place] += 1;
        expected.0
    }

    fn total(&self) -> usize {
        self.counts.iter().sum()
    }

    /// Comparisons where the sheet was well formed: answers 40, 41 and 0.
    fn lists(&self) -> usize {
        self.counts[5..].iter().sum()
    }

    fn plans(&self) -> usize {
        self.counts[7]
    }

    fn print(&self, name: &str) {
        let counts: Vec<String> = ANSWERS
            .iter()
            .zip(self.counts)
            .map(|(answer, count)| format!("{answer}: {count}"))
            .collect();
        say(&format!("{name}: {} compared; {}", self.total(), counts.join(", ")));
    }

    fn add(&mut self, other: &Tally) {
        for (count, more) in self.counts.iter_mut().zip(other.counts) {
            *count += more;
        }
    }
}

#[test]
fn cases_worked_out_by_hand() {
    let all = cases::all().into_iter().chain(edition_2::lists_with_every_gap());
    for case in all.chain(distances::cases()) {
        let answer = corrumai_tests::judge(&case.sheet, &case.list);
        assert_eq!(answer, (case.expected, 0), "{}", case.name);
    }
}

/// The files of P1 to P10 are the sheets and lists that the cases are made of, and get their answers.
#[test]
fn examples_from_files() {
    let p1 = |horizon| examples::p1(horizon).bytes();
    let p6 = |gap, clears_0| examples::p6(gap, clears_0).bytes();
    let (p5, p9) = (examples::p5().bytes(), examples::p9().bytes());
    let sheets =
        [p1(100), p1(9), p1(8), p1(100), p5, p6(6, true), p6(5, true), p6(6, false), p9, p1(100)];
    for (place, sheet) in sheets.iter().enumerate() {
        assert_eq!(file(&format!("p{}.sheet", place + 1)), *sheet, "P{}", place + 1);
    }
    for (number, expected) in [(1, 0), (5, 0), (6, 0), (10, 41)] {
        let (sheet, list) = (file(&format!("p{number}.sheet")), file(&format!("p{number}.list")));
        assert_eq!(corrumai_tests::judge(&sheet, &list), (expected, 0), "P{number}");
    }
    assert_eq!(file("p1.list"), examples::P1_LIST);
}

/// Good sheets with a plan, small enough to change every byte to every value.
fn small_pairs() -> Vec<(Vec<u8>, Vec<u8>)> {
    let p6 = examples::p6(6, true);
    let p6_list = list_bytes(&p6, &examples::p6_entries(6, true));
    let p5_list = examples::P5_LIST.to_vec();
    vec![
        (examples::p1(9).bytes(), examples::P1_LIST.to_vec()),
        (p6.bytes(), p6_list),
        (examples::p5().bytes(), p5_list),
    ]
}

/// The same for edition 2.
fn small_pairs_2() -> Vec<(Vec<u8>, Vec<u8>)> {
    let settled = examples::p1(15).revised(3, 258).released(&[4, 12]);
    let settled_list = list_of_rows(&[(10, vec![4, 9, 9]), (20, vec![12, 15, 15])]);
    let (p6, p6_list) = edition_2::p6_by_default();
    vec![
        (settled.bytes(), settled_list),
        (p6.bytes(), p6_list),
        (examples::p5().with_gap(60).bytes(), examples::P5_LIST.to_vec()),
    ]
}

fn random_pairs(rng: &mut Rng, size: Size, count: usize) -> Vec<(Vec<u8>, Vec<u8>)> {
    (0..count).map(|_| planned::plan(rng, size).bytes()).collect()
}

/// Every single byte of the sheet, and of the list, changed to each of the values.
fn every_byte(tally: &mut Tally, sheet: &[u8], list: &[u8], values: &dyn Fn(u8) -> Vec<u8>) {
    let (mut sheet, mut list) = (sheet.to_vec(), list.to_vec());
    for place in 0..sheet.len() {
        let kept = sheet[place];
        for value in values(kept) {
            sheet[place] = value;
            tally.compare(&sheet, &list);
        }
        sheet[place] = kept;
    }
    for place in 0..list.len() {
        let kept = list[place];
        for value in values(kept) {
            list[place] = value;
            tally.compare(&sheet, &list);
        }
        list[place] = kept;
    }
}

fn all_others(byte: u8) -> Vec<u8> {
    (1..=255).map(|more| byte.wrapping_add(more)).collect()
}

fn some_others(byte: u8) -> Vec<u8> {
    let others = [1, 2, 4, 127, 128, 254, 255];
    others.iter().map(|more| byte.wrapping_add(*more)).collect()
}

/// Every truncation of the sheet and of the list; what follows in memory is the rest.
fn every_truncation(tally: &mut Tally, sheet: &[u8], list: &[u8]) {
    for end in 0..=sheet.len() {
        tally.compare(&sheet[..end], list);
    }
    for end in 0..=list.len() {
        tally.compare(sheet, &list[..end]);
    }
}

fn bytes_changed(size: Size) -> Tally {
    let mut tally = Tally::default();
    let small = if size.gap.is_some() { small_pairs_2() } else { small_pairs() };
    for (sheet, list) in small {
        assert_eq!(tally.compare(&sheet, &list), 0);
        every_byte(&mut tally, &sheet, &list, &all_others);
        every_truncation(&mut tally, &sheet, &list);
    }
    for (sheet, list) in random_pairs(&mut Rng::new(1), size, 60) {
        every_byte(&mut tally, &sheet, &list, &some_others);
        every_truncation(&mut tally, &sheet, &list);
    }
    tally
}

/// In edition 2 those that are of it, else all others.
fn hand_cases(size: Size) -> Tally {
    let mut tally = Tally::default();
    let of_2 = |case: &Case| case.sheet.first() == Some(&2);
    for case in cases::all().into_iter().filter(|case| of_2(case) == size.gap.is_some()) {
        tally.compare(&case.sheet, &case.list);
    }
    tally
}

fn random_lists(size: Size) -> Tally {
    let mut tally = Tally::default();
    let mut rng = Rng::new(2);
    for _ in 0..12_000 {
        let (sheet, list) = planned::any(&mut rng, size).bytes();
        tally.compare(&sheet, &list);
    }
    tally
}

/// Plans and their near misses. Many of the plans must be telling ones.
fn plans_and_near_misses(size: Size) -> Tally {
    let mut tally = Tally::default();
    let mut rng = Rng::new(3);
    let (mut with_set, mut with_clear) = (0, 0);
    let count = 8_000;
    for _ in 0..count {
        let pair = planned::plan(&mut rng, size);
        let (sheet, list) = pair.bytes();
        assert_eq!(tally.compare(&sheet, &list), 0);
        compare_misses(&mut tally, &mut rng, &pair, 8);
        with_set += usize::from(pair.needs_a_set());
        with_clear += usize::from(pair.clears_a_need());
    }
    say(&format!("of {count} plans {with_set} need a set, {with_clear} clear a needed fact"));
    assert!(with_set >= count / 4, "too few plans need a set");
    assert!(with_clear >= count / 4, "too few plans clear a needed fact");
    tally
}

fn crowded_lists(size: Size) -> Tally {
    let mut tally = Tally::default();
    let mut rng = Rng::new(4);
    for _ in 0..2_000 {
        let pair = planned::plan(&mut rng, size);
        let crowded = planned::crowded(&mut rng, &pair);
        let (sheet, list) = crowded.bytes();
        tally.compare(&sheet, &list);
        compare_misses(&mut tally, &mut rng, &crowded, 2);
    }
    tally
}

/// Sheets and lists of any size up to their limits.
fn large_lists(size: Size) -> Tally {
    let mut tally = Tally::default();
    let mut rng = Rng::new(6);
    for _ in 0..150 {
        let pair = planned::plan(&mut rng, size);
        let (sheet, list) = pair.bytes();
        assert_eq!(tally.compare(&sheet, &list), 0);
        compare_misses(&mut tally, &mut rng, &pair, 8);
    }
    tally
}

fn compare_misses(tally: &mut Tally, rng: &mut Rng, pair: &Pair, count: usize) {
    for _ in 0..count {
        let (sheet, list) = near::miss(rng, pair);
        tally.compare(&sheet, &list);
    }
}

fn damaged_sheets(size: Size) -> Tally {
    let mut tally = Tally::default();
    let mut rng = Rng::new(5);
    for _ in 0..4_000 {
        let pair = planned::plan(&mut rng, size);
        let (_, list) = pair.bytes();
        for _ in 0..6 {
            tally.compare(&damage::damaged(&mut rng, &pair.spec), &list);
        }
        tally.compare(&damage::noise(&mut rng), &list);
    }
    tally
}

/// A kind of comparisons: its name, what makes them, and how large they are.
type Family = (&'static str, fn(Size) -> Tally, Size);

fn agree(edition: u8, small: Size, large: Size) {
    let mut all = Tally::default();
    let families: [Family; 7] = [
        ("by hand", hand_cases, small),
        ("every byte and truncation", bytes_changed, small),
        ("random lists", random_lists, small),
        ("plans and near misses", plans_and_near_misses, small),
        ("crowded lists", crowded_lists, small),
        ("large lists", large_lists, large),
        ("damaged sheets", damaged_sheets, small),
    ];
    for (name, family, size) in families {
        let tally = family(size);
        tally.print(&format!("judge, edition {edition}, {name}"));
        all.add(&tally);
    }
    all.print(&format!("judge, edition {edition}"));
    assert!(all.counts.iter().all(|count| *count >= 1_000), "an answer is rare");
    assert!(5 * all.plans() >= all.lists(), "too few plans");
}

#[test]
fn product_and_model_agree() {
    agree(1, SMALL, LARGE);
}

#[test]
fn product_and_model_agree_on_edition_2() {
    agree(2, SMALL_2, LARGE_2);
}

/// Every gap byte for plans and their near misses: above 60 there is no sheet, and byte 0 gets what byte 2 gets.
#[test]
fn every_gap_byte() {
    let mut rng = Rng::new(34);
    let mut tally = Tally::default();
    for _ in 0..300 {
        let pair = planned::plan(&mut rng, SMALL_2);
        for (_, list) in [pair.bytes(), near::miss(&mut rng, &pair)] {
            let answers: Vec<u8> = (0..=255)
                .map(|gap| tally.compare(&pair.spec.clone().with_gap(gap).bytes(), &list))
                .collect();
            assert_eq!(answers[0], answers[2], "gap bytes 0 and 2\n{list:02x?}");
            assert!(answers[61..].iter().all(|answer| *answer == 11), "a gap above 60");
        }
    }
    tally.print("judge, every gap byte");
    assert!(tally.plans() >= 1_000 && tally.lists() >= 600 * 61, "too few lists");
}

/// With a gap one tick longer, or releases one tick later, many plans are plans no longer.
#[test]
fn gap_and_release_decide() {
    let mut rng = Rng::new(23);
    let mut tally = Tally::default();
    let (mut by_gap, mut by_release) = (0, 0);
    for _ in 0..4_000 {
        let Pair { spec, entries } = planned::plan(&mut rng, SMALL_2);
        let list = list_bytes(&spec, &entries);
        let longer = spec.clone().with_gap(spec.edition.gap() as u8 + 1);
        by_gap += usize::from(tally.compare(&longer.bytes(), &list) == 41);
        let mut later = spec;
        later.jobs.iter_mut().for_each(|job| job.release = job.release.saturating_add(1));
        by_release += usize::from(tally.compare(&later.bytes(), &list) == 41);
    }
    say(&format!("judge: a longer gap refuses {by_gap} plans, later releases {by_release}"));
    assert!(by_gap >= 400 && by_release >= 400, "gap and release decide too seldom");
}

//! Every well-formed sheet goes to text and back to the same bytes; every other is refused by its number.

mod common;

use common::{any_sheet, round_trip};
use corrumai_tests::build;
use corrumai_tests::cases::{self, examples, hostile, ordinary};
use corrumai_tests::generate::{damage, large, planned, tiny};
use corrumai_tests::rng::Rng;
use corrumai_tools::decode::decode;
use corrumai_tools::encode::encode;
use corrumai_tools::meaning::Source;
use corrumai_tools::model::{Bound, Edition, Event, Job, Kind, Sheet};
use corrumai_tools::notation::{parse, print, read};
use corrumai_tools::note::{Note, Place};
use corrumai_tools::warnings;
use std::collections::BTreeMap;

/// A well-formed sheet gets 40 with this list, no other sheet does.
const NO_LIST: &[u8] = &[];

/// What a sheet holds that could be lost on the way.
fn features(sheet: &Sheet) -> Vec<&'static str> {
    let all = [
        features_of_counts(sheet),
        features_of_edition(sheet),
        features_of_spans(sheet),
        features_of_events(sheet),
        features_of_pairs(sheet),
    ];
    all.concat().into_iter().filter(|(_, here)| *here).map(|(name, _)| name).collect()
}

fn features_of_counts(sheet: &Sheet) -> Vec<(&'static str, bool)> {
    let (facts, jobs) = (sheet.facts.len(), sheet.jobs.len());
    vec![
        ("no facts", facts == 0),
        ("no facts and no jobs", facts == 0 && jobs == 0),
        ("64 facts", facts == 64),
        ("32 jobs", jobs == 32),
        ("highest code", sheet.jobs.iter().any(|job| job.code == u16::MAX)),
        ("job without events", sheet.jobs.iter().any(|job| job.events.is_empty())),
    ]
}

fn features_of_edition(sheet: &Sheet) -> Vec<(&'static str, bool)> {
    let second = |test: fn(u8, u16) -> bool| match sheet.edition {
        Edition::One => false,
        Edition::Two { gap, revision } => test(gap, revision),
    };
    let release = |test: &dyn Fn(u16) -> bool| sheet.jobs.iter().any(|job| test(job.release));
    vec![
        ("edition 1", sheet.edition == Edition::One),
        ("edition 2", sheet.edition != Edition::One),
        ("the default gap", second(|gap, _| gap == 0)),
        ("gap 1", second(|gap, _| gap == 1)),
        ("longest gap", second(|gap, _| gap == 60)),
        ("no revision", second(|_, revision| revision == 0)),
        ("highest revision", second(|_, revision| revision == u16::MAX)),
        ("release above the horizon", release(&|minute| minute > sheet.horizon)),
        ("highest release", release(&|minute| minute == u16::MAX)),
    ]
}

fn features_of_spans(sheet: &Sheet) -> Vec<(&'static str, bool)> {
    let bounds = || sheet.jobs.iter().flat_map(|job| &job.bounds);
    let any = |test: fn(Option<i16>, Option<i16>) -> bool| {
        bounds().any(|bound| test(bound.span.low, bound.span.high))
    };
    vec![
        ("low alone", any(|low, high| low.is_some() && high.is_none())),
        ("high alone", any(|low, high| low.is_none() && high.is_some())),
        ("no low and no high", any(|low, high| low.is_none() && high.is_none())),
        ("negative high", any(|_, high| high < Some(0) && high.is_some())),
        ("lowest low", any(|low, _| low == Some(-10_080))),
        ("highest high", any(|_, high| high == Some(10_080))),
    ]
}

fn features_of_events(sheet: &Sheet) -> Vec<(&'static str, bool)> {
    let count = |job: &Job, fact| job.events.iter().filter(|event| event.fact == fact).count();
    let facts = || 0..sheet.facts.len();
    let backwards = |bound: &Bound| {
        let kinds = (bound.d.kind, bound.e.kind) == (Kind::Ends, Kind::Begins);
        kinds && bound.d.fact == bound.e.fact
    };
    let mut bounds = sheet.jobs.iter().flat_map(|job| &job.bounds);
    let jobs = &sheet.jobs;
    vec![
        ("unused fact", facts().any(|fact| jobs.iter().all(|job| count(job, fact) == 0))),
        ("all of one fact", facts().any(|fact| jobs.iter().any(|job| count(job, fact) == 4))),
        ("bound from end to begin", bounds.any(backwards)),
    ]
}

/// What a pair of events with several bounds could lose.
fn features_of_pairs(sheet: &Sheet) -> Vec<(&'static str, bool)> {
    let pairs = || {
        let neighbours = sheet.jobs.iter().flat_map(|job| job.bounds.windows(2));
        neighbours.filter(|two| (two[0].e, two[0].d) == (two[1].e, two[1].d))
    };
    let any = |test: &dyn Fn(&Bound, &Bound) -> bool| pairs().any(|two| test(&two[0], &two[1]));
    let open = |bound: &Bound| bound.span.low.is_none() && bound.span.high.is_none();
    let cross = |one: &Bound, other: &Bound| {
        other.span.high.is_some_and(|high| one.span.low.is_some_and(|low| low > high))
    };
    let rows = sheet.first_bound(sheet.jobs.len());
    vec![
        ("a pair twice", any(&|one, other| one.span != other.span)),
        ("a row twice", any(&|one, other| one.span == other.span)),
        ("an open row beside another", any(&|one, other| open(one) != open(other))),
        ("a need's length twice", any(&|one, _| one.e == Event::new(Kind::Ends, one.d.fact))),
        ("a greater low first", any(&|one, other| one.span.low > other.span.low)),
        ("rows that cross", any(&cross)),
        ("256 rows", rows == 256),
    ]
}

#[test]
fn any_well_formed_sheet() {
    let mut rng = Rng::new(51);
    let mut seen: BTreeMap<&str, usize> = BTreeMap::new();
    for _ in 0..6_000 {
        let bytes = any_sheet(&mut rng).bytes();
        assert_eq!(corrumai_tests::judge(&bytes, NO_LIST).0, 40, "the generator: {bytes:02x?}");
        for feature in features(&round_trip(&bytes)) {
            *seen.entry(feature).or_default() += 1;
        }
    }
    assert_eq!(seen.len(), 31, "{seen:?}");
    assert!(seen.values().all(|count| *count >= 20), "{seen:?}");
}

#[test]
fn sheets_of_the_other_tests() {
    let mut rng = Rng::new(52);
    for _ in 0..1_000 {
        round_trip(&tiny::sheet(&mut rng).bytes());
        round_trip(&tiny::sheet_2(&mut rng).bytes());
        round_trip(&planned::any(&mut rng, planned::SMALL).spec.bytes());
        round_trip(&planned::any(&mut rng, planned::SMALL_2).spec.bytes());
    }
    for _ in 0..100 {
        round_trip(&large::sheet(&mut rng).bytes());
        round_trip(&large::sheet_2(&mut rng).bytes());
    }
    for (_, spec) in hostile::sheets() {
        round_trip(&spec.bytes());
    }
    for spec in [ordinary::small(), ordinary::full(), ordinary::too_short(), examples::p9()] {
        round_trip(&spec.bytes());
    }
}

/// Names that need quotes, and names that do not.
fn some_name(rng: &mut Rng, number: usize) -> String {
    let front =
        *rng.pick(&["load", "Höhe", "", "two words ", "a<b> & 'c' ", "fact", "5..30 min #"]);
    format!("{front}{number}")
}

#[test]
fn names_survive() {
    let mut rng = Rng::new(53);
    let words =
        ["to", "need", "initial", "min", "any", "time", "not", "gap", "edition", "revision"];
    for round in 0..500 {
        let mut sheet = decode(&any_sheet(&mut rng).bytes()).unwrap();
        let names = sheet.facts.iter_mut().map(|fact| &mut fact.name);
        for (number, name) in names.chain(sheet.jobs.iter_mut().map(|j| &mut j.name)).enumerate() {
            *name = some_name(&mut rng, number);
        }
        if let Some(fact) = sheet.facts.first_mut() {
            fact.name = words[round % words.len()].to_string();
        }
        if let Some(job) = sheet.jobs.first_mut() {
            job.name = words[(round + 1) % words.len()].to_string();
        }
        let text = print(&sheet);
        assert_eq!(parse(text.as_bytes()).as_ref(), Ok(&sheet), "\n{text}");
    }
}

/// The number that refuses these bytes, or 40.
fn number(bytes: &[u8]) -> u8 {
    decode(bytes).map_or_else(|fault| fault.number, |_| 40)
}

#[test]
fn other_bytes_are_refused_as_the_judge_refuses_them() {
    let mut rng = Rng::new(54);
    let mut tally: BTreeMap<u8, usize> = BTreeMap::new();
    let mut compare = |bytes: &[u8]| {
        let expected = corrumai_tests::judge(bytes, NO_LIST).0;
        assert_eq!(number(bytes), expected, "{bytes:02x?}");
        *tally.entry(expected).or_default() += 1;
    };
    for _ in 0..20_000 {
        let spec = any_sheet(&mut rng);
        compare(&damage::damaged(&mut rng, &spec));
    }
    for _ in 0..2_000 {
        compare(&damage::noise(&mut rng));
    }
    for case in cases::all() {
        compare(&case.sheet);
    }
    // The bodies of one edition under the number of the other, and of none.
    for spec in [examples::p1(100), examples::p1(100).with_gap(0)] {
        for edition in 0..=u8::MAX {
            let mut bytes = spec.bytes();
            bytes[0] = edition;
            compare(&bytes);
        }
    }
    let numbers: Vec<u8> = tally.keys().copied().collect();
    assert_eq!(numbers, [10, 11, 12, 13, 14, 40], "{tally:?}");
    assert!(tally.values().all(|count| *count >= 300), "{tally:?}");
}

#[test]
fn spans_are_taken_as_the_judge_takes_them() {
    let values = [i16::MIN, -32_767, -10_081, -10_080, -1, 0, 1, 10_080, 10_081, 32_766, i16::MAX];
    let mut taken = 0;
    for (low, high) in values.iter().flat_map(|low| values.map(|high| (*low, high))) {
        let job = build::Job::new(1).sets(0).clears(0);
        let job = job.bound(build::sets(0), build::clears(0), low, high);
        let bytes = build::Spec::new(9, &[0], &[job]).bytes();
        assert_eq!(number(&bytes), corrumai_tests::judge(&bytes, NO_LIST).0, "{low}..{high}");
        taken += usize::from(decode(&bytes).is_ok_and(|_| round_trip(&bytes).horizon == 9));
    }
    // Of five values there are 15 pairs in order; with each of them a side may be open; or both are.
    assert_eq!(taken, 15 + 2 * 5 + 1);
}

/// The text with a word taken out, doubled or exchanged, or a character lost.
fn spoiled(rng: &mut Rng, text: &str) -> String {
    let mut lines: Vec<String> = text.lines().map(String::from).collect();
    for _ in 0..1 + rng.below(2) {
        let (one, other) = (rng.below(lines.len()), rng.below(lines.len()));
        match rng.below(5) {
            0 => lines.swap(one, other),
            1 => lines[one] = lines[other].clone(),
            2 => drop(lines[one].pop()),
            3 => lines[one] = lines[one].replace("fact1", "fact2"),
            _ => {
                lines[one] =
                    lines[one].replacen(' ', rng.pick::<&str>(&["", " set ", " 7 ", ":"]), 1)
            }
        }
    }
    lines.join("\n")
}

/// How many notes are on a line that says gap 0, on a gap that is not said, and on something else.
fn by_gap(notes: &[Note]) -> [usize; 3] {
    let starting =
        |words: &str| notes.iter().filter(|note| note.message.starts_with(words)).count();
    let (said, unsaid) = (starting("gap 0 "), starting("no gap "));
    [said, unsaid, notes.len() - said - unsaid]
}

/// The text that leaves gap 0 unsaid.
fn without_default(text: &str) -> String {
    text.split_inclusive('\n').filter(|line| !line.starts_with("gap 0 ")).collect()
}

/// A sheet as rewriting wrote it before 0.4.0: of edition 2, and it says nothing of it.
fn plain(sheet: &Sheet) -> bool {
    sheet.edition == Edition::Two { gap: 0, revision: 0 }
        && sheet.jobs.iter().all(|job| job.release == 0)
}

/// Places apart, bytes get the warnings of the text; but a text may say gap 0 in so many words. Counted are the texts that say
/// it, those that are plain besides, plain ones that do not say it, and all that do not.
fn same_warnings(sheet: &Sheet, source: &Source, gaps: &mut [usize; 4]) {
    let warnings = warnings::of(sheet, Some(source));
    assert!(warnings.iter().all(|warning| warning.place.is_some()), "{warnings:?}");
    let default = matches!(sheet.edition, Edition::Two { gap: 0, .. });
    let (said, plain) = (default && source.gap.is_some(), plain(sheet));
    let [_, _, others] = by_gap(&warnings);
    let due = [usize::from(said), usize::from(plain && !said), others];
    assert_eq!(by_gap(&warnings), due, "\n{}", print(sheet));
    let due = [0, usize::from(plain), others];
    assert_eq!(by_gap(&warnings::of(sheet, None)), due, "\n{}", print(sheet));
    let kinds = [said, plain && said, plain && !said, default && !said];
    gaps.iter_mut().zip(kinds).for_each(|(count, seen)| *count += usize::from(seen));
}

#[test]
fn a_text_that_is_taken_becomes_a_well_formed_sheet() {
    let mut rng = Rng::new(55);
    let (mut taken, mut refused) = (0, 0);
    let mut gaps = [0; 4];
    for _ in 0..20_000 {
        let spec = if rng.chance(50) { tiny::sheet(&mut rng) } else { tiny::sheet_2(&mut rng) };
        let sheet = decode(&spec.bytes()).unwrap();
        let printed = print(&sheet);
        let text = if rng.chance(50) { without_default(&printed) } else { printed };
        let text = spoiled(&mut rng, &text);
        match read(text.as_bytes()) {
            Ok((sheet, source)) => {
                taken += 1;
                assert_eq!(number(&encode(&sheet)), 40, "\n{text}");
                same_warnings(&sheet, &source, &mut gaps);
            }
            Err(errors) => {
                refused += 1;
                let lines = text.lines().count();
                let inside = |place: Place| place.line <= lines && place.column > 0;
                assert!(errors.iter().all(|error| error.place.is_some_and(inside)));
            }
        }
    }
    assert!(taken > 2_000 && refused > 2_000, "{taken} taken, {refused} refused");
    assert!(gaps.iter().all(|count| *count >= 50), "{gaps:?}");
}

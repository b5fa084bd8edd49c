//! Late starts: the product against the model of N3, in number and detail, and in every state of a run that is followed.

use corrumai_tests::build;
use corrumai_tests::cases::examples::file;
use corrumai_tests::cases::late::{self, LateCase, MoveCase};
use corrumai_tests::generate::accepted::{self, Accepted, FAMILIES};
use corrumai_tests::generate::{delays, near};
use corrumai_tests::late_model::{self, Manner, Tried, RIGHT};
use corrumai_tests::model;
use corrumai_tests::model::list::{MAX_INSTANCES, MAX_TIMES};
use corrumai_tests::rng::Rng;
use corrumai_tests::tally::Tally;
use corrumai_tests::wrong::of_late_starts;
use corrumai_tests::{say, Run};
use std::collections::{BTreeMap, BTreeSet};

/// Runs up to this horizon are followed tick by tick.
const SHORT: i32 = 60;

/// Stands in a fresh state's facts before the call.
const OLD: u64 = 0x5AA5_0FF0_3CC3_9669;

#[test]
fn cases_worked_out_by_hand() {
    for case in late::cases() {
        let LateCase { name, sheet, list, delays, expected } = &case;
        assert_eq!(late_model::late(sheet, list, delays), *expected, "model: {name}");
        assert_eq!(corrumai_tests::late(sheet, list, delays), *expected, "{name}");
    }
    for case in all_moved() {
        let MoveCase { name, sheet, list, delays, from, expected } = &case;
        assert_eq!(late_model::move_on(sheet, list, delays, *from), *expected, "model: {name}");
        let mut run = *from;
        let number = corrumai_tests::move_on(sheet, list, delays, &mut run);
        assert_eq!((number, run), *expected, "{name}");
    }
}

fn all_moved() -> Vec<MoveCase> {
    [late::moved(), late::fact_63()].concat()
}

/// The examples of the request on the files of document 01.
#[test]
fn examples_from_files() {
    let late = |name: &str, delays: &[u16]| {
        let (sheet, list) = (file(&format!("{name}.sheet")), file(&format!("{name}.list")));
        corrumai_tests::late(&sheet, &list, delays)
    };
    for (delays, due) in [
        (&[0, 1][..], (0, 0)),
        (&[1, 0], (41, 6)),
        (&[0, 91], (0, 0)),
        (&[0, 92], (41, 100)),
        (&[96, 0], (41, 6)),
        (&[601, 0], (40, 0)),
        (&[0], (40, 0)),
        (&[0, 0, 0], (40, 0)),
    ] {
        assert_eq!(late("p1", delays), due, "P1 {delays:?}");
    }
    assert_eq!(late("p6", &[0, 1]), (41, 6));
    assert_eq!(late("p6", &[0, 6]), (41, 7));
    for delays in [&[0, 0][..], &[600, 3], &[601, 0], &[0], &[]] {
        assert_eq!(late("p10", delays), (41, 0), "P10 {delays:?}");
    }
    let (sheet, list) = (file("p1.sheet"), file("p1.list"));
    let moved = |next, held| {
        let mut run = Run { next, held };
        let number = corrumai_tests::move_on(&sheet, &list, &[0, 0], &mut run);
        (number, run.next, run.held)
    };
    assert_eq!((moved(5, 1), moved(101, 1)), ((0, 6, 3), (0, 101, 1)));
}

fn shown(on: &Accepted, delays: &[u16]) -> String {
    on.shown(&format!("delays {delays:?}"))
}

/// Product and model say the same of a delayed list, and so does the product's judge of its bytes.
fn compare(tally: &mut Tally, on: &Accepted, delays: &[u16]) -> Tried {
    let tried = late_model::tried(&on.sheet, &on.list, delays, &RIGHT);
    let Ok(tried) = tried else { panic!("the delays are good\n{}", shown(on, delays)) };
    let due = tried.answer();
    let answer = corrumai_tests::late(&on.sheet, &on.list, delays);
    assert_eq!(answer, due, "product (left) and model\n{}", shown(on, delays));
    assert_eq!(tried.answer_by(&RIGHT), due, "faults (left) and plan\n{}", shown(on, delays));
    let judged = corrumai_tests::judge(&on.sheet, &tried.bytes());
    assert_eq!(judged, (due.0, 0), "the judge of the delayed list\n{}", shown(on, delays));
    if due.0 == 41 && due.1 == 0 {
        assert_eq!(on.said.horizon, 0, "a fault at tick 0\n{}", shown(on, delays));
    }
    count(tally, &tried, due, delays);
    tried
}

fn count(tally: &mut Tally, tried: &Tried, due: (u8, usize), delays: &[u16]) {
    tally.one("compared");
    match (due, tried.cause()) {
        ((0, _), _) => {
            tally.one("holds");
            tally.add("holds with a delay", usize::from(delays.iter().any(|delay| *delay > 0)));
        }
        (_, Some(cause)) => tally.one(&format!("{cause:?}")),
        _ => tried.first_kinds().into_iter().for_each(|kind| tally.one(&format!("{kind:?}"))),
    }
    tally.add("fault at H", usize::from(has_fault_at_h(tried, due)));
}

fn has_fault_at_h(tried: &Tried, due: (u8, usize)) -> bool {
    due == (41, tried.sheet.horizon as usize) && tried.cause().is_none()
}

/// Followed from a fresh state to H + 2, both fields.
fn follow(tally: &mut Tally, on: &Accepted, delays: &[u16], tried: &Tried) {
    let mut run = Run { next: 0, held: OLD };
    assert_eq!(corrumai_tests::fresh(&on.sheet, &mut run.held), 0, "{}", shown(on, delays));
    let last = on.horizon() + 1;
    for moves in 0..=last + 1 {
        let next = moves.min(last);
        let due = Run { next, held: tried.held_before(next) };
        assert_eq!(run, due, "{moves} moves, product (left)\n{}", shown(on, delays));
        let number = corrumai_tests::move_on(&on.sheet, &on.list, delays, &mut run);
        assert_eq!(number, 0, "{}", shown(on, delays));
        tally.one("state");
    }
    assert_eq!(run, Run { next: last, held: tried.held_before(last) });
}

/// The same on a long way, at the ticks of all events, beside them, and at H, from the states that are due there.
fn follow_in_jumps(tally: &mut Tally, on: &Accepted, delays: &[u16], tried: &Tried) {
    let last = on.horizon() + 1;
    let mut ticks = BTreeSet::from([0, 1, last - 1, last, last + 1]);
    for tick in tried.all.iter().map(|happening| happening.tick as u64) {
        ticks.extend([tick.saturating_sub(1), tick, tick + 1]);
    }
    for tick in ticks {
        let due = |next: u64| Run { next, held: tried.held_before(next) };
        let mut run = due(tick.min(last));
        let number = corrumai_tests::move_on(&on.sheet, &on.list, delays, &mut run);
        assert_eq!((number, run), (0, due((tick + 1).min(last))), "{}", shown(on, delays));
        tally.one("jump");
    }
}

/// States with any facts at any tick.
fn move_any(tally: &mut Tally, rng: &mut Rng, on: &Accepted, delays: &[u16], tried: &Tried) {
    for _ in 0..3 {
        let from = delays::any_state(rng, tried);
        let mut run = from;
        let number = corrumai_tests::move_on(&on.sheet, &on.list, delays, &mut run);
        let due = (0, tried.moved(from, &RIGHT));
        assert_eq!((number, run), due, "from {from:?}\n{}", shown(on, delays));
        tally.one("any state");
        tally.add("any state that stays", usize::from(run == from));
        tally.add("any state with other facts", usize::from(run.held != from.held));
    }
}

/// Bad delays for an accepted list: 40, and the state stays.
fn refuse_delays(tally: &mut Tally, rng: &mut Rng, on: &Accepted, good: &[u16]) {
    let bad = delays::bad(rng, good);
    refuse(tally, rng, (&on.sheet, &on.list), &bad, 40);
    tally.one(match bad.len().cmp(&on.plan.len()) {
        std::cmp::Ordering::Less => "too few delays",
        std::cmp::Ordering::Equal => "a delay too great",
        std::cmp::Ordering::Greater => "too many delays",
    });
}

/// Every routine refuses with this number; detail 0, and the state stays.
fn refuse(
    tally: &mut Tally,
    rng: &mut Rng,
    (sheet, list): (&[u8], &[u8]),
    delays: &[u16],
    due: u8,
) {
    let shown = || format!("sheet {sheet:02x?}\nlist {list:02x?}\ndelays {delays:?}");
    assert_eq!(late_model::late(sheet, list, delays), (due, 0), "model\n{}", shown());
    assert_eq!(corrumai_tests::late(sheet, list, delays), (due, 0), "{}", shown());
    let far = rng.number();
    let from = Run { next: *rng.pick(&[0, 1, 5, far]), held: rng.number() };
    let mut run = from;
    let number = corrumai_tests::move_on(sheet, list, delays, &mut run);
    assert_eq!((number, run), (due, from), "{}", shown());
    assert_eq!(late_model::move_on(sheet, list, delays, from), (due, from), "{}", shown());
    let mut held = from.held;
    let fresh = (corrumai_tests::fresh(sheet, &mut held), held);
    assert_eq!(fresh, late_model::fresh(sheet, from.held), "fresh\n{}", shown());
    if (10..=14).contains(&due) {
        assert_eq!(fresh, (due, from.held), "{}", shown());
    }
    tally.one(&format!("refused {due}"));
}

/// How many delays are tried for each list of a family.
const DELAYS: [usize; FAMILIES.len()] = [8, 6, 6, 4, 6, 6, 6];

fn agree(edition: u8) {
    let mut all = Tally::default();
    for (place, (name, family, count)) in FAMILIES.into_iter().enumerate() {
        let rng = &mut Rng::new(60 + 10 * u64::from(edition) + place as u64);
        let mut tally = Tally::default();
        for _ in 0..count {
            if let Some(on) = family(rng, edition).and_then(Accepted::new) {
                tally.one("lists");
                (0..DELAYS[place]).for_each(|_| try_delays(&mut tally, rng, &on));
            }
        }
        tally.print(&format!("late starts, edition {edition}, {name}"));
        all.add_all(&tally);
    }
    all.print(&format!("late starts, edition {edition}"));
    all.at_least(&[
        ("lists", 6_000),
        ("compared", 40_000),
        ("holds", 10_000),
        ("holds with a delay", 5_000),
        ("Meets", 1_500),
        ("NoSource", 3_000),
        ("ClearedBefore", 2_000),
        ("BrokenWithin", 1_500),
        ("BrokenInGap", 1_500),
        ("GoalLost", 300),
        ("TimeAbove", 2_000),
        ("Both", 50),
        ("FaultsAbove", 500),
        ("fault at H", 400),
        ("state", 100_000),
        ("jump", 100_000),
        ("any state", 100_000),
        ("any state that stays", 30_000),
        ("any state with other facts", 10_000),
        ("refused 40", 5_000),
        ("too few delays", 2_000),
        ("too many delays", 2_000),
        ("a delay too great", 2_000),
    ]);
    assert_eq!(all.of("BrokenByOwn"), 0, "an own clear moves with its need");
}

fn try_delays(tally: &mut Tally, rng: &mut Rng, on: &Accepted) {
    let delays = delays::some(rng, &on.said, &on.plan);
    let tried = compare(tally, on, &delays);
    move_any(tally, rng, on, &delays, &tried);
    if on.said.horizon > SHORT {
        follow_in_jumps(tally, on, &delays, &tried);
    } else if rng.chance(30) {
        follow(tally, on, &delays, &tried);
    }
    if rng.chance(25) {
        refuse_delays(tally, rng, on, &delays);
    }
}

#[test]
fn product_and_model_agree() {
    agree(1);
}

#[test]
fn product_and_model_agree_on_edition_2() {
    agree(2);
}

/// Long runs, tick by tick.
#[test]
fn long_runs() {
    let rng = &mut Rng::new(91);
    let mut tally = Tally::default();
    for edition in [1, 2] {
        let mut left = 6;
        while left > 0 {
            let on = accepted::small(rng, edition).and_then(Accepted::new).expect("it is a plan");
            if on.said.horizon > 1_000 && on.plan.len() > 2 {
                let delays = delays::some(rng, &on.said, &on.plan);
                let tried = compare(&mut tally, &on, &delays);
                follow(&mut tally, &on, &delays, &tried);
                left -= 1;
            }
        }
    }
    tally.print("late starts, long runs");
    tally.at_least(&[("compared", 12), ("state", 12_000)]);
}

/// Sheets and lists that the judge refuses, with good delays and with bad ones: its number comes first.
#[test]
fn every_refusal() {
    let rng = &mut Rng::new(92);
    let mut tally = Tally::default();
    for round in 0..6_000 {
        let pair = accepted::small_pair(rng, 1 + (round % 2) as u8);
        for (sheet, list) in near::misses(rng, &pair) {
            let (due, _) = model::judge(&sheet, &list);
            let good = vec![0; pair.entries.len()];
            let bad = delays::bad(rng, &good);
            if due != 0 {
                refuse(&mut tally, rng, (&sheet, &list), &good, due);
                refuse(&mut tally, rng, (&sheet, &list), &bad, due);
            }
        }
    }
    tally.print("late starts, every refusal");
    for number in [10, 11, 12, 13, 14, 40, 41] {
        tally.at_least(&[(&format!("refused {number}"), 500)]);
    }
}

/// As many instances and times as there may be, and one more.
#[test]
fn full_lists() {
    let job = build::Job::new(1).needs(0).sets(0).clears(0).needs(1).sets(1).clears(1);
    let spec = build::Spec::new(10_080, &[0, 0], &[job]);
    let row = |k: u16| (1, [4 * k, 4 * k + 1, 4 * k, 4 * k + 2].repeat(2));
    let mut tally = Tally::default();
    let rows: Vec<_> = (0..MAX_INSTANCES as u16).map(row).collect();
    assert_eq!(rows.iter().map(|row| row.1.len()).sum::<usize>(), MAX_TIMES);
    let rng = &mut Rng::new(93);
    for gap in [0, 1, 2, 60] {
        let sheet = spec.clone().with_gap(gap).bytes();
        let on = Accepted::new((sheet, build::list_of_rows(&rows)));
        let Some(on) = on else { continue };
        for _ in 0..40 {
            try_delays(&mut tally, rng, &on);
        }
        for delays in [vec![0; 64], vec![600; 64], (0..64).rev().map(|k| 9 * k).collect()] {
            compare(&mut tally, &on, &delays);
        }
        let longer = vec![0; 65];
        refuse(&mut tally, rng, (&on.sheet, &on.list), &longer, 40);
        refuse(&mut tally, rng, (&on.sheet, &on.list), &longer[..63], 40);
    }
    tally.print("late starts, full lists");
    tally.at_least(&[("compared", 40)]);
}

/// How the names of cases start that tell a wrong program apart.
fn told_by(name: &str) -> &'static [&'static str] {
    match name {
        "a need goes by the facts held" => {
            &["P1, delays [1, 0]", "P1 with gap 2, delays [1, 0]", "P6 with gap 2, delays [1, 0]"]
        }
        "no clears after the end" => {
            &["P6, delays [0, 1]", "P6 with gap 2, delays [0, 1]", "twins, delays [4, 0]"]
        }
        "one tick of gap after the end" => &["P6 with gap 2, delays [0, 1]"],
        "the gap for the own set" => &["twins, delays [0, 0]", "twins, delays [0, 5]"],
        "the gap for the own clear" => &["twins, delays [0, 0]", "P6, delays [1, 1]"],
        "own by job" => &["twins, delays [4, 0]", "twins in turn, delays [1, 0, 0]"],
        "no set meets a clear" => &["P9, delays [1, 0]", "twins in turn, delays [0, 2, 0]"],
        "a source lasts" => &["P6, delays [0, 6]", "P6 with gap 2, delays [0, 7]"],
        "no need lacks a source" => &["P1, delays [1, 0]", "two needs, delays [9, 0, 0]"],
        "no clear within a need" => &["twins, delays [3, 0]", "P6, delays [0, 4]"],
        "a broken need at its begin" => &["P6, delays [0, 1]", "twins, delays [3, 0]"],
        "the last fault" => &["two needs, delays [9, 0, 0]", "twins with gap 3, delays [5, 0]"],
        "faults above H are told" => {
            &["P1 up to H, delays [10, 9]", "two needs up to H, delays [6, 5, 1]"]
        }
        "faults at H are not told" => &["two needs up to H, delays [5, 4, 0]", "P9, delays [2, 0]"],
        "0 where there is no fault" => &["P1, delays [0, 92]", "P9, delays [2, 0]"],
        "H and 1 where there is no fault" => &["P1, delays [0, 92]", "H 0, delays [1]"],
        "600 is refused" => &["P1, delays [600, 0]", "H 0, delays [600]"],
        "601 is taken" => &["P1, delays [601, 0]", "P1 with a bad delay"],
        "the delays before the judge" => &["P10, delays [601, 0]", "P10 with a bad delay"],
        "a clear before a set" => &["twins, set and clear at once"],
        "no move at H" => &["P1, delays [0, 0], from (100,", "P1 at H, delays [0, 91]"],
        "a move past H" => {
            &["P1, delays [0, 0], from (101,", "P1 above H, delays [0, 92], from (101,"]
        }
        "a failing list is not moved on" => &["P1 that fails", "P1 above H"],
        "a refusal moves the state" => &["P10, delays [0, 0], from", "P1 with one delay"],
        _ => panic!("{name} is told by nothing"),
    }
}

/// The wrong program gives another answer or another state than is due.
fn tells(case: &LateCase, wrong: &Manner) -> bool {
    late_model::late_by(&case.sheet, &case.list, &case.delays, wrong) != case.expected
}

fn tells_by_move(case: &MoveCase, wrong: &Manner) -> bool {
    late_model::moved_by(&case.sheet, &case.list, &case.delays, case.from, wrong) != case.expected
}

/// Whether a case tells a wrong program.
type Telling = Box<dyn Fn(&Manner) -> bool>;

/// Each wrong program is told by each of the cases that are named for it, and the right one by none.
#[test]
fn told_apart() {
    let mut trials: Vec<(String, Telling)> = Vec::new();
    for case in late::cases() {
        trials.push((case.name.clone(), Box::new(move |wrong| tells(&case, wrong))));
    }
    for case in all_moved() {
        trials.push((case.name.clone(), Box::new(move |wrong| tells_by_move(&case, wrong))));
    }
    for (name, wrong) in of_late_starts() {
        for start in told_by(name) {
            let named: Vec<_> = trials.iter().filter(|trial| trial.0.starts_with(start)).collect();
            assert!(!named.is_empty(), "{name}: no case {start}");
            named.iter().for_each(|trial| assert!((trial.1)(&wrong), "{name}: {}", trial.0));
        }
    }
    for (name, told) in &trials {
        assert!(!told(&RIGHT), "{name}");
    }
    let count = of_late_starts().len();
    say(&format!("{count} wrong ones told apart by {} cases of late starts", trials.len()));
}

/// Random lists and delays tell each wrong program apart, often.
#[test]
fn random_lists_tell() {
    let rng = &mut Rng::new(94);
    let mut told: BTreeMap<&str, usize> = BTreeMap::new();
    for round in 0..3_000 {
        let family = [accepted::in_turn, accepted::small, accepted::twins][round % 3];
        let on = family(rng, 1 + (round / 3 % 2) as u8).and_then(Accepted::new).expect("a plan");
        let good = delays::some(rng, &on.said, &on.plan);
        let bad = delays::bad(rng, &good);
        let lists = [on.list.clone(), on.with_a_time_above()];
        let Ok(tried) = late_model::tried(&on.sheet, &on.list, &good, &RIGHT) else { panic!() };
        for (name, wrong) in of_late_starts() {
            let delayed = |list: &[u8], delays: &[u16]| {
                let late = late_model::late_by(&on.sheet, list, delays, &wrong);
                late != late_model::late(&on.sheet, list, delays)
            };
            let moved = |next: u64, delays: &[u16]| {
                let from = Run { next, held: tried.held_before(next) };
                let wrong = late_model::moved_by(&on.sheet, &on.list, delays, from, &wrong);
                wrong != late_model::move_on(&on.sheet, &on.list, delays, from)
            };
            let mut ticks = tried.all.iter().map(|happening| happening.tick as u64);
            let last = on.horizon();
            let differs = delayed(&on.list, &good)
                || lists.iter().any(|list| delayed(list, &bad))
                || ticks.any(|tick| tick <= last && moved(tick, &good))
                || moved(last, &good)
                || moved(last + 1, &good)
                || moved(0, &bad);
            *told.entry(name).or_default() += usize::from(differs);
        }
    }
    say(&format!("late starts, wrong ones told by 3,000 random lists: {told:?}"));
    assert!(told.values().all(|count| *count >= 20), "a wrong one is told too seldom");
    assert_eq!(told.len(), of_late_starts().len());
}

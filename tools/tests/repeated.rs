//! Pairs of events with several bounds: there and back, refused, warned of and explained.

mod common;

use common::{proved, round_trip, rows_of, said, with_rows, Row};
use corrumai_tests::cases::examples;
use corrumai_tools::decode::decode;
use corrumai_tools::explain::{self, Context};
use corrumai_tools::layout::LONGEST_PLAN;

const NO_LOW: i16 = i16::MIN;
const NO_HIGH: i16 = i16::MAX;

/// Low and high of each row of a pair.
type Spans<'a> = &'a [(i16, i16)];

/// The judge's number with no list: 40 for a well-formed sheet, and for no other.
fn judged(sheet: &[u8]) -> u8 {
    corrumai_tests::judge(sheet, &[]).0
}

/// P1 in either edition.
fn p1_both() -> [Vec<u8>; 2] {
    [examples::p1(100).bytes(), examples::p1(100).with_gap(2).bytes()]
}

/// All orders of these items.
fn orders<T: Copy>(items: &[T]) -> Vec<Vec<T>> {
    if items.is_empty() {
        return vec![vec![]];
    }
    let mut all = Vec::new();
    for place in 0..items.len() {
        let mut rest = items.to_vec();
        let first = rest.remove(place);
        all.extend(orders(&rest).into_iter().map(|order| [&[first], &order[..]].concat()));
    }
    all
}

/// The rows of a pair keep their order, whichever it is: those of a need's length, of its other direction, and of other events.
#[test]
fn several_bounds_of_one_pair() {
    let none = (NO_LOW, NO_HIGH);
    let spans = [(5, 5), none, (NO_LOW, 9), (0, NO_HIGH)];
    let more = [none, (5, 5), none, (5, 5)];
    let orders = [&spans, &more].map(|spans| orders(spans)).concat();
    assert_eq!(orders.len(), 48);
    for sheet in p1_both() {
        for (e, d) in [(1, 0), (0, 1), (2, 1), (2, 0)] {
            for order in &orders {
                let mut rows: Vec<Row> = order.iter().map(|span| (e, d, span.0, span.1)).collect();
                rows.push((4, 3, 3, 3));
                let bytes = with_rows(&sheet, &rows);
                assert_eq!(judged(&bytes), 40, "{rows:?}");
                round_trip(&bytes);
            }
        }
    }
}

/// As many rows as a sheet holds, 253 of them of one pair; and one row more.
#[test]
fn as_many_rows_as_a_sheet_holds() {
    for (sheet, pair) in p1_both().iter().flat_map(|sheet| (0..4).map(move |pair| (sheet, pair))) {
        let of_p1 = rows_of(sheet);
        let again = (0..252).map(|number| match number % 7 {
            0 => (of_p1[pair].0, of_p1[pair].1, NO_LOW, NO_HIGH),
            _ => (of_p1[pair].0, of_p1[pair].1, -number, 10_080 - number),
        });
        let mut rows = of_p1.clone();
        rows.splice(pair..pair, again);
        assert_eq!(rows.len(), 256);
        let bytes = with_rows(sheet, &rows);
        assert_eq!(judged(&bytes), 40);
        round_trip(&bytes);
        rows.insert(pair, of_p1[pair]);
        let bytes = with_rows(sheet, &rows);
        assert_eq!((decode(&bytes).unwrap_err().number, judged(&bytes)), (14, 14));
    }
}

/// Pairs that fall, also those that come back behind another, are 14, and what is said names both rows.
#[test]
fn pairs_that_fall() {
    for sheet in p1_both() {
        let [a, b, c, d] = rows_of(&sheet)[..] else { panic!("four bounds") };
        for (row, rows) in [
            (1, vec![b, a]),
            (2, vec![a, b, a, c, d]),
            (3, vec![a, a, b, a, b]),
            (4, vec![a, b, c, d, c]),
            (1, vec![(2, 1, 0, 0), (2, 0, 0, 9)]),
        ] {
            let bytes = with_rows(&sheet, &rows);
            assert_eq!(judged(&bytes), 14, "{rows:?}");
            let fault = decode(&bytes).unwrap_err();
            assert_eq!((fault.number, fault.rule, fault.row), (14, "bounds-rise", Some(row)));
            assert_eq!(fault.found, format!("events {} and {}", rows[row].0, rows[row].1));
            let before =
                format!(": the row before has {} and {}", rows[row - 1].0, rows[row - 1].1);
            assert!(fault.words.ends_with(&before), "{}", fault.words);
        }
        // Each row keeps its own rules.
        let crossed = with_rows(&sheet, &[a, (a.0, a.1, 6, 5), b, c, d]);
        let fault = decode(&crossed).unwrap_err();
        assert_eq!((fault.rule, fault.row), ("low-high", Some(1)));
        assert_eq!(judged(&crossed), 14);
    }
}

/// P1 in edition 1 with these rows for its first bound, 5 minutes from event 0 to event 1.
fn p1_with(spans: Spans) -> Vec<u8> {
    let sheet = examples::p1(100).bytes();
    let mut rows = rows_of(&sheet);
    rows.splice(..1, spans.iter().map(|span| (1, 0, span.0, span.1)));
    with_rows(&sheet, &rows)
}

/// What is said of the sheet's plan, or of this list.
fn explained(sheet: &[u8], list: Option<&[u8]>) -> String {
    let decoded = decode(sheet).unwrap();
    let context = Context { sheet: Some(&decoded), source: None, start: None };
    let explanation = match list {
        None => explain::plan(sheet, LONGEST_PLAN, &proved()),
        Some(list) => explain::judge(sheet, list, &proved()),
    };
    let text = explanation.text(&context);
    assert!(text.contains("has checked itself"), "{text}");
    text
}

/// P1's plan stays, and what holds the need's end is the row with the greatest low, of equal ones the first.
#[test]
fn a_plan_names_the_tightest_row() {
    let cases: [(Spans, usize); 8] = [
        (&[(5, 5)], 0),
        (&[(5, 5), (5, 5)], 0),
        (&[(5, NO_HIGH), (NO_LOW, 5)], 0),
        (&[(NO_LOW, 5), (5, NO_HIGH)], 1),
        (&[(5, 9), (0, 7), (2, 5)], 0),
        (&[(2, 5), (0, 7), (5, 9)], 2),
        (&[(NO_LOW, NO_HIGH), (5, 5), (NO_LOW, NO_HIGH)], 1),
        (&[(-9, 9), (4, 5), (5, 10_080), (5, 5)], 2),
    ];
    for (spans, row) in cases {
        let text = explained(&p1_with(spans), None);
        let held = format!(
            "5  job10 ends its need of fact0  job10 begins to need fact0, +5 min (bound {row})"
        );
        assert!(text.contains("ANSWER 0 24:") && text.contains(&held), "{spans:?}\n{text}");
    }
}

/// The circle goes over the greatest low and the least high.
#[test]
fn rows_that_cross_are_both_named() {
    let cases: [(Spans, (&str, &str)); 4] = [
        (&[(5, 5), (6, 6)], ("+6 min, bound 1: 6 min after", "-5 min, bound 0: 5 min before")),
        (&[(6, 6), (5, 5)], ("+6 min, bound 0: 6 min after", "-5 min, bound 1: 5 min before")),
        (
            &[(5, 5), (6, NO_HIGH), (NO_LOW, NO_HIGH), (9, 20), (NO_LOW, 4)],
            ("+9 min, bound 3: at least 9 min after", "-4 min, bound 4: at most 4 min before"),
        ),
        (
            &[(0, 7), (8, NO_HIGH), (NO_LOW, 3), (NO_LOW, 3), (8, 9)],
            ("+8 min, bound 1: at least 8 min after", "-3 min, bound 2: at most 3 min before"),
        ),
    ];
    for (spans, (low, high)) in cases {
        let text = explained(&p1_with(spans), None);
        // The job is absent, and with it what sets the fact that the other job needs.
        assert!(text.contains("ANSWER 1 0:"), "{spans:?}\n{text}");
        assert!(text.contains("The job 'job10' (code 10) is absent, and "), "{spans:?}\n{text}");
        assert!(text.contains(low) && text.contains(high), "{spans:?}\n{text}");
    }
}

/// Of a pair that a list breaks the tightest row is named, and no other; where rows cross, both.
#[test]
fn the_judge_s_row_is_the_tightest() {
    let cases: [(Spans, &[&str]); 5] = [
        (&[(5, 5), (5, 5)], &[]),
        (&[(6, 9), (7, 30), (6, 9)], &["bound 1 asks for 7..30 min"]),
        (&[(0, 4), (0, 9), (NO_LOW, 3), (1, 3)], &["bound 2 asks for at most 3 min"]),
        (&[(5, 5), (6, 6)], &["bound 1 asks for 6 min"]),
        (&[(0, 3), (9, 9)], &["bound 1 asks for 9 min", "bound 0 asks for 0..3 min"]),
    ];
    for (spans, faults) in cases {
        let text = explained(&p1_with(spans), Some(&examples::P1_LIST));
        assert_eq!(text.matches("asks for").count(), faults.len(), "{spans:?}\n{text}");
        assert_eq!(text.contains("ANSWER 0 0:"), faults.is_empty(), "{spans:?}\n{text}");
        assert!(faults.iter().all(|fault| text.contains(fault)), "{spans:?}\n{text}");
    }
}

const PASTED: &str = "\
horizon 100 min
fact a initial
fact b goal
job 10 one takes 5..9 min
  need a
  set b at end
  from begin of need a to end of need a: at least 7 min
  from begin of need a to end of need a: at most 30 min
  from begin of need a to end of need a: at least 7 min
";

#[test]
fn bounds_that_can_all_hold_get_no_warning() {
    for command in ["to-bytes", "check"] {
        let (_, aside, status) = said(&["sheet", command], "held.txt", PASTED.as_bytes());
        assert_eq!((aside.as_str(), status), ("", 0), "{command}");
    }
}

/// The sheet is written all the same. Lines are named where there is a text, and rows where there is none.
#[test]
fn bounds_that_cannot_all_hold_are_both_named() {
    let text = PASTED.replacen("at least 7 min", "at least 12 min", 1);
    let rest = |low: &str, high: &str, [need, job]: [&str; 2]| {
        format!(
            "{low} asks for at least 12 min from 'begin of need {need}' to 'end of need {need}' and {high} for \
             at most 9 min: they cannot both hold, so the job '{job}' counts as retired: the planner \
             plans as if it were not in the sheet\n"
        )
    };
    let due = rest("line 7", "line 4", ["a", "one"]);
    let due = format!("pasted.txt:7:3: warning: {due}  7 |   from begin of need a to end of need a: at least 12 min\n");
    let (bytes, aside, status) = said(&["sheet", "to-bytes"], "pasted.txt", text.as_bytes());
    assert!(aside.starts_with(&due) && aside.matches("warning").count() == 1, "{aside}");
    assert_eq!((status, judged(&bytes), rows_of(&bytes).len()), (0, 40, 5));
    let check = said(&["sheet", "check"], "pasted.txt", text.as_bytes());
    assert_eq!(check, (vec![], aside, 0));
    assert_eq!(said(&["sheet", "check", "--strict"], "pasted.txt", text.as_bytes()).2, 1);
    let (_, aside, _) = said(&["sheet", "check"], "pasted.sheet", &bytes);
    let due = rest("bound 1", "bound 0", ["fact0", "job10"]);
    assert!(aside.starts_with(&format!("pasted.sheet: warning: {due}")), "{aside}");
    let (out, ..) = said(&["explain"], "pasted.txt", text.as_bytes());
    let out = String::from_utf8(out).unwrap();
    assert!(out.contains("+12 min, line 7: ") && out.contains("-9 min, line 4: "), "{out}");
}

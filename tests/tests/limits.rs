//! The cases at the limits: model and product answer as worked out by hand.

use corrumai_tests::cases::limits::{self, full_size, lists, sheets};
use corrumai_tests::cases::planner::PlannerCase;
use corrumai_tests::cases::Case;
use corrumai_tests::model::plan::faults;
use corrumai_tests::model::{self, list, sheet};
use corrumai_tests::planner_model;

/// No list of a planner is longer.
const LONGEST: usize = 644;

fn judge(cases: &[Case]) {
    for case in cases {
        let due = (case.expected, 0);
        assert_eq!(model::judge(&case.sheet, &case.list), due, "model: {}", case.name);
        assert_eq!(corrumai_tests::judge(&case.sheet, &case.list), due, "{}", case.name);
    }
}

fn plan(cases: &[PlannerCase]) {
    for case in cases {
        let mut expected = case.list.clone().unwrap_or_default();
        expected.resize(LONGEST, 0xA5);
        for (who, planner) in
            [("model", planner_model::plan as Planner), ("product", corrumai_tests::plan)]
        {
            let mut buffer = vec![0xA5; LONGEST];
            let answer = planner(&case.sheet, &mut buffer);
            assert_eq!(answer, (case.number, case.detail), "{who}: {}", case.name);
            assert_eq!(buffer, expected, "{who}: {}", case.name);
        }
    }
}

type Planner = fn(&[u8], &mut [u8]) -> (u8, usize);

#[test]
fn judge_at_the_limits() {
    judge(&limits::judged());
}

#[test]
fn judge_at_full_size() {
    let cases = full_size::judged();
    assert!(cases.len() >= 150, "only {} cases grew", cases.len());
    judge(&cases);
    for case in cases {
        let lengths = (full_size::largest_in(case.sheet[0]), 1_284);
        assert_eq!((case.sheet.len(), case.list.len()), lengths, "{}", case.name);
    }
}

#[test]
fn planner_at_the_limits() {
    plan(&limits::planned());
}

#[test]
fn planner_at_full_size() {
    let cases = full_size::planned();
    assert!(cases.len() >= 60, "only {} cases grew", cases.len());
    plan(&cases);
    for case in cases {
        assert_eq!(case.sheet.len(), full_size::largest_in(case.sheet[0]), "{}", case.name);
    }
}

/// A buffer of the length of the longest list is long enough, one byte less is not.
#[test]
fn longest_list() {
    let sheet = sheets::largest().bytes();
    let mut buffer = vec![0xA5; LONGEST];
    assert_eq!(sheet.len(), 2_461);
    assert_eq!(corrumai_tests::plan(&sheet, &mut buffer[1..]), (30, LONGEST));
    assert_eq!(buffer, [0xA5; LONGEST]);
    assert_eq!(corrumai_tests::plan(&sheet, &mut buffer), (0, LONGEST));
}

/// A list with a fault in one place has none elsewhere.
#[test]
fn one_fault() {
    for case in lists::cases().iter().filter(|case| case.expected == 41) {
        let sheet = sheet::read(&case.sheet).unwrap();
        let found = faults(&sheet, &list::read(&sheet, &case.list).unwrap());
        assert!(found.len() <= 1, "{}: {found:?}", case.name);
    }
}

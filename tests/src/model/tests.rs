//! The model against document 01's examples, with bytes written out by hand.

use super::judge;
use super::list::{self, Instance};
use super::plan::{faults, Fault};
use super::sheet::{self, Bound, Edition, Event, Fact, Kind};
use crate::cases;
use crate::cases::examples::{p1, P1_LIST};
use crate::cases::rewriting::{P1_FORMER, P1_NEW, P1_OLD as P1_SHEET};

#[test]
fn the_builder_writes_p1_to_the_byte() {
    assert_eq!(p1(100).bytes(), P1_SHEET);
    assert_eq!(p1(100).with_gap(1).bytes(), P1_NEW);
}

#[test]
fn p1_of_edition_2_says_gap_revision_and_releases() {
    let mut bytes = P1_NEW;
    bytes[29..32].copy_from_slice(&[3, 2, 1]);
    bytes[37..39].copy_from_slice(&[4, 0]);
    bytes[41..43].copy_from_slice(&[255, 255]);
    let read = sheet::read(&bytes).unwrap();
    assert_eq!(read.edition, Edition::Two { gap: 3, revision: 258 });
    assert_eq!((read.gap(), read.releases), (3, vec![4, 65_535]));
    let old = sheet::read(&P1_SHEET).unwrap();
    assert_eq!((old.gap(), old.releases), (1, vec![0, 0]));
    assert_eq!((read.facts, read.horizon, read.codes), (old.facts, old.horizon, old.codes));
    assert_eq!((read.events, read.bounds), (old.events, old.bounds));
    assert_eq!(sheet::read(&P1_NEW).unwrap().gap(), 1);
    assert_eq!(sheet::read(&P1_FORMER).unwrap().gap(), 2);
}

#[test]
fn p1_says_what_document_01_says() {
    let read = sheet::read(&P1_SHEET).unwrap();
    assert_eq!(read.horizon, 100);
    assert_eq!(read.codes, [10, 20]);
    let fact = |initial, goal| Fact { initial, goal };
    let facts = [fact(true, false), fact(false, false), fact(false, true)];
    assert_eq!(read.facts, facts);
    let event = |job, kind, fact| Event { job, fact, kind };
    let events = [
        event(0, Kind::Begins, 0),
        event(0, Kind::Ends, 0),
        event(0, Kind::Sets, 1),
        event(1, Kind::Begins, 1),
        event(1, Kind::Ends, 1),
        event(1, Kind::Sets, 2),
    ];
    assert_eq!(read.events, events);
    let exactly = |e, d, gap| Bound { e, d, low: Some(gap), high: Some(gap) };
    let bounds = [exactly(1, 0, 5), exactly(2, 1, 0), exactly(4, 3, 3), exactly(5, 4, 0)];
    assert_eq!(read.bounds, bounds);
}

#[test]
fn p1_list_is_read() {
    let sheet = sheet::read(&P1_SHEET).unwrap();
    let instance = |job, times: [i32; 3]| Instance { job, times: times.to_vec() };
    let expected = vec![instance(0, [0, 5, 5]), instance(1, [6, 9, 9])];
    assert_eq!(list::read(&sheet, &P1_LIST), Some(expected));
}

#[test]
fn p10_breaks_point_3_alone() {
    let sheet = sheet::read(&P1_SHEET).unwrap();
    let mut plan = list::read(&sheet, &P1_LIST).unwrap();
    assert_eq!(faults(&sheet, &plan), []);
    plan[1].times = vec![5, 8, 8];
    let fault = Fault::Need { entry: 1, fact: 1 };
    assert_eq!(faults(&sheet, &plan), [fault]);
}

#[test]
fn p1_without_job_10() {
    let sheet = sheet::read(&P1_SHEET).unwrap();
    let mut plan = list::read(&sheet, &P1_LIST).unwrap();
    plan.remove(0);
    let fault = Fault::Need { entry: 0, fact: 1 };
    assert_eq!(faults(&sheet, &plan), [fault]);
    plan.remove(0);
    assert_eq!(faults(&sheet, &plan), [Fault::Goal { fact: 2 }]);
}

#[test]
fn every_case_worked_out_by_hand() {
    let all = cases::all().into_iter().chain(cases::edition_2::lists_with_every_gap());
    for case in all.chain(cases::distances::cases()) {
        let answer = judge(&case.sheet, &case.list);
        assert_eq!(answer, (case.expected, 0), "{}", case.name);
    }
}

/// Where a distance is not kept, the need that asks for it is all that is not met.
#[test]
fn distances_break_point_3_alone() {
    for tried in cases::distances::gaps().flat_map(cases::distances::tried) {
        let sheet = sheet::read(&tried.case.sheet).unwrap();
        let plan = list::read(&sheet, &tried.case.list).unwrap();
        let fault = Fault::Need { entry: tried.entry, fact: 0 };
        let due = if tried.case.expected == 0 { vec![] } else { vec![fault] };
        assert_eq!(faults(&sheet, &plan), due, "{}", tried.case.name);
    }
}

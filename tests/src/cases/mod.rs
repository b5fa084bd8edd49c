//! Cases whose answer was worked out by hand from the documents.

pub mod cost;
pub mod distances;
pub mod edition_2;
pub mod examples;
pub mod hostile;
pub mod late;
pub mod limits;
pub mod lists;
pub mod newer;
pub mod ordinary;
pub mod planner;
pub mod plans;
pub mod repeated;
pub mod retired;
pub mod rewriting;
pub mod sheets;

use planner::PlannerCase;

/// A sheet, a list, and the judge's number for them.
#[derive(Clone, Debug)]
pub struct Case {
    pub name: String,
    pub sheet: Vec<u8>,
    pub list: Vec<u8>,
    pub expected: u8,
}

impl Case {
    pub fn new(name: &str, sheet: Vec<u8>, list: Vec<u8>, expected: u8) -> Case {
        Case { name: name.to_string(), sheet, list, expected }
    }
}

/// All cases for the judge.
pub fn all() -> Vec<Case> {
    let mut cases = examples::cases();
    cases.extend(plans::cases());
    cases.extend(lists::cases());
    cases.extend(sheets::cases());
    cases.extend(edition_2::judged());
    cases.extend(edition_2::forms_judged());
    cases.extend(repeated::judged());
    cases.extend(retired::judged());
    cases
}

/// All cases for the planner.
pub fn planned() -> Vec<PlannerCase> {
    let mut cases = planner::cases();
    cases.extend(edition_2::planned());
    cases.extend(edition_2::forms_planned());
    cases.extend(repeated::planned());
    cases.extend(retired::planned());
    cases
}

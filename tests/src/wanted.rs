//! "Wanted facts and jobs" of document 01: the least set.

use crate::model::sheet::{Kind, Sheet};

#[derive(Clone, Debug, PartialEq, Eq)]
pub struct Wanted {
    pub facts: Vec<bool>,
    pub jobs: Vec<bool>,
}

impl Wanted {
    pub fn of(sheet: &Sheet) -> Wanted {
        let mut wanted = Wanted::goals(sheet);
        loop {
            let before = wanted.clone();
            for fact in 0..sheet.facts.len() {
                wanted.visit(sheet, fact);
            }
            if wanted == before {
                return wanted;
            }
        }
    }

    pub fn goals(sheet: &Sheet) -> Wanted {
        let facts = sheet.facts.iter().map(|fact| fact.goal).collect();
        Wanted { facts, jobs: vec![false; sheet.codes.len()] }
    }

    /// If the fact is wanted and not initial, so are the jobs that set it and the facts that they need.
    pub fn visit(&mut self, sheet: &Sheet, fact: usize) {
        if !self.facts[fact] || sheet.facts[fact].initial {
            return;
        }
        for set in sheet.events.iter().filter(|e| e.kind == Kind::Sets && e.fact == fact) {
            self.jobs[set.job] = true;
            for need in sheet.events.iter().filter(|e| e.kind == Kind::Begins && e.job == set.job) {
                self.facts[need.fact] = true;
            }
        }
    }
}

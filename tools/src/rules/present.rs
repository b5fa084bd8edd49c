//! Which jobs have own times. The others are absent: the planner plans as if they were not in the sheet.

use super::table::Table;
use crate::model::{Kind, Sheet};

/// What becomes of an absent job, in words.
pub const LEFT_OUT: &str = "the planner plans as if it were not in the sheet";

pub struct Present<'a> {
    pub sheet: &'a Sheet,
    /// For each job how far apart its events can lie within its own times; none for an absent job.
    tables: Vec<Option<Table>>,
}

impl Present<'_> {
    pub fn of(sheet: &Sheet) -> Present<'_> {
        let tables = (0..sheet.jobs.len()).map(|job| Table::new(sheet, job)).collect();
        Present { sheet, tables }
    }

    pub fn table(&self, job: usize) -> Option<&Table> {
        self.tables[job].as_ref()
    }

    pub fn has(&self, job: usize) -> bool {
        self.tables[job].is_some()
    }

    /// The jobs that are absent, by number.
    pub fn absent(&self) -> Vec<usize> {
        (0..self.tables.len()).filter(|&job| !self.has(job)).collect()
    }

    /// The present jobs that have such an event, by number.
    pub fn jobs_that(&self, kind: Kind, fact: usize) -> Vec<usize> {
        let mut jobs = self.sheet.jobs_that(kind, fact);
        jobs.retain(|&job| self.has(job));
        jobs
    }

    /// The absent jobs that set the fact, by number.
    pub fn absent_setters(&self, fact: usize) -> Vec<usize> {
        let mut jobs = self.sheet.jobs_that(Kind::Sets, fact);
        jobs.retain(|&job| !self.has(job));
        jobs
    }
}

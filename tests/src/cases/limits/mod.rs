//! Cases at the limits of sheet and list, worked out by hand, and small cases grown to full size.

pub mod full_size;
pub mod lists;
pub mod planner;
pub mod sheets;

use super::planner::PlannerCase;
use super::Case;
use crate::build::Job;

/// The cases for the judge.
pub fn judged() -> Vec<Case> {
    let mut cases = lists::cases();
    cases.extend(sheets::cases().into_iter().map(|side| side.judged()));
    cases
}

/// The cases for the planner.
pub fn planned() -> Vec<PlannerCase> {
    let mut cases = planner::cases();
    cases.extend(sheets::cases().into_iter().map(|side| side.planned()));
    cases
}

/// 64 facts with these marks, the others without.
pub fn marks(some: &[(usize, u8)]) -> [u8; 64] {
    let mut marks = [0; 64];
    for &(fact, mark) in some {
        marks[fact] = mark;
    }
    marks
}

/// Gives the jobs so many bounds in all, each of two events of a job and none that excludes anything.
pub fn add_bounds(jobs: &mut [Job], per_job: usize, count: usize) {
    let limits = [(-10_080, 10_080), (i16::MIN, 10_080), (-10_080, i16::MAX), (i16::MIN, i16::MAX)];
    let mut left = count;
    for job in jobs {
        let acts: Vec<_> = job.acts.iter().copied().collect();
        let pairs = acts.iter().flat_map(|e| acts.iter().map(move |d| (*e, *d)));
        let pairs = pairs.filter(|(e, d)| e != d).take(per_job.min(left));
        job.bounds = pairs.zip(limits.iter().copied().cycle()).collect();
        left -= job.bounds.len();
    }
    assert_eq!(left, 0, "there are too few pairs");
}

//! Ways to retire a job: rules that leave it without own times.

use crate::build::{begins, ends, Act, Spec};
use crate::model::sheet::{Edition, Kind, MAX_BOUNDS, MAX_HORIZON};

/// Why a job has no own times.
#[derive(Clone, Copy, Debug, PartialEq, Eq, PartialOrd, Ord)]
pub enum Cause {
    /// Two bounds of one pair that cross.
    Crossing,
    /// A ring of bounds through all its events that gains a tick a turn.
    Ring,
    /// A need that would end before it begins.
    Need,
    /// A release too late.
    Release,
    /// Two events further apart than H.
    Length,
}

/// Ticks from one event of a ring to the next.
pub const STEP: i16 = 3;

impl Cause {
    pub const ALL: [Cause; 5] =
        [Cause::Crossing, Cause::Ring, Cause::Need, Cause::Release, Cause::Length];

    pub fn name(self) -> &'static str {
        match self {
            Cause::Crossing => "crossing bounds",
            Cause::Ring => "a ring",
            Cause::Need => "its need",
            Cause::Release => "its release",
            Cause::Length => "its length",
        }
    }

    /// Whether the sheet can say it of the job.
    pub fn fits(self, spec: &Spec, job: usize) -> bool {
        let acts = &spec.jobs[job].acts;
        let rows = match self {
            Cause::Crossing => 2,
            Cause::Ring => acts.len(),
            Cause::Need | Cause::Length => 1,
            Cause::Release => 0,
        };
        let can = match self {
            Cause::Crossing | Cause::Ring => acts.len() > 1,
            Cause::Need => acts.iter().any(|act| act.kind == Kind::Begins),
            Cause::Release => spec.edition != Edition::One && !acts.is_empty(),
            Cause::Length => acts.len() > 1 && i32::from(spec.horizon) < MAX_HORIZON,
        };
        can && spec.bound_count() + rows <= MAX_BOUNDS
    }

    /// Adds rules to the job with which it has no own times. With a slack of one tick they leave it some that are tight, if
    /// it has no other rules and H leaves room.
    pub fn put_on(self, spec: &mut Spec, job: usize, slack: i16) {
        let past = spec.horizon.saturating_add(1);
        let job = &mut spec.jobs[job];
        let acts: Vec<Act> = job.acts.iter().copied().collect();
        match self {
            Cause::Crossing => {
                job.bounds.insert((acts[1], acts[0]), (1, i16::MAX));
                job.bounds.insert((acts[1], acts[0]), (i16::MIN, slack));
            }
            Cause::Ring => {
                for two in acts.windows(2) {
                    job.bounds.insert((two[1], two[0]), (STEP, i16::MAX));
                }
                let turn = STEP * (acts.len() as i16 - 1);
                let back = (acts[0], acts[acts.len() - 1]);
                job.bounds.insert(back, (1 - slack - turn, i16::MAX));
            }
            Cause::Need => {
                let need = acts.iter().find(|act| act.kind == Kind::Begins).expect("it has one");
                job.bounds.insert((ends(need.fact), begins(need.fact)), (i16::MIN, slack - 1));
            }
            Cause::Release => job.release = past - slack as u16,
            Cause::Length => {
                job.bounds.insert((acts[1], acts[0]), (past as i16 - slack, i16::MAX));
            }
        }
    }
}

/// The sheet with the job retired so.
pub fn retired(mut spec: Spec, job: usize, cause: Cause) -> Spec {
    cause.put_on(&mut spec, job, 0);
    spec
}

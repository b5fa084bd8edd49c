//! Wrong planners that are right as long as every job could run alone: each does one thing wrong with an absent job.

use super::{seeing, Wrong, UNCHANGED};
use crate::model::sheet::Sheet;
use crate::planner_model::{
    absent_jobs, own_times, Look, Manner, NoPlan, Part, Study, Verdict, RIGHT,
};

pub fn of_absent_jobs() -> Vec<(&'static str, Wrong)> {
    let absent = |present| Wrong { manner: Manner { present, ..RIGHT }, ..UNCHANGED };
    let saying = |says| Wrong { says, ..UNCHANGED };
    vec![
        ("20 counts an absent setter", seeing(|look| !is_of(look, &[Part::Setters]))),
        ("needs of an absent job are wanted", seeing(|look| !is_of(look, &[Part::Marking]))),
        (
            "an absent job is wanted",
            seeing(|look| !is_of(look, &[Part::Marking, Part::WantedJobs])),
        ),
        ("an absent setter in cleared last", seeing(|look| !is_of(look, &[Part::ClearedLast]))),
        ("an absent setter is a source", seeing(|look| !is_of(look, &[Part::Source]))),
        ("1 for any absent setter", saying(no_source_by_any)),
        ("rules of absent jobs are left in", seeing(|look| !is_of(look, &[Part::ListRules]))),
        ("a job without events is absent", absent(without_events)),
        ("the first absent job alone", absent(first_alone)),
        ("absent with its events at H", absent(before_the_last_tick)),
        ("15 is given", saying(fifteen)),
        ("15 for a job with its events at H", saying(fifteen_at_h)),
    ]
}

fn is_of(look: Look, parts: &[Part]) -> bool {
    matches!(look, Look::Absent { part, .. } if parts.contains(&part))
}

fn without_events(sheet: &Sheet, present: Vec<bool>) -> Vec<bool> {
    let present = present.into_iter().enumerate();
    present.map(|(job, present)| present && !sheet.events_of(job).is_empty()).collect()
}

/// All behind the first absent job are taken for present.
fn first_alone(_: &Sheet, present: Vec<bool>) -> Vec<bool> {
    let first = present.iter().position(|present| !present);
    (0..present.len()).map(|job| first != Some(job)).collect()
}

/// Own times end with the tick before H.
fn before_the_last_tick(sheet: &Sheet, present: Vec<bool>) -> Vec<bool> {
    let shorter = shorter(sheet);
    let present = present.into_iter().enumerate();
    present.map(|(job, present)| present && own_times(&shorter, job).is_some()).collect()
}

fn shorter(sheet: &Sheet) -> Sheet {
    Sheet { horizon: sheet.horizon - 1, ..sheet.clone() }
}

/// No plan where a wanted fact has an absent setter, though a present job sets it too.
fn no_source_by_any(sheet: &Sheet, verdict: Verdict) -> Verdict {
    let study = Study::of(sheet);
    let lacks = (0..sheet.codes.len()).any(|job| study.would_be_wanted(job));
    match verdict {
        Verdict::Plan(_) if lacks => {
            Verdict::NoPlan(NoPlan { no_ticks: false, no_source: true, goal_cleared: false })
        }
        verdict => verdict,
    }
}

/// As it was before there were absent jobs: the lowest job without own times.
fn fifteen(sheet: &Sheet, verdict: Verdict) -> Verdict {
    absent_jobs(sheet).first().map_or(verdict, |job| Verdict::Refused(15, *job))
}

fn fifteen_at_h(sheet: &Sheet, verdict: Verdict) -> Verdict {
    fifteen(&shorter(sheet), verdict)
}

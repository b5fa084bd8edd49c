//! Wrong ways to try late starts and to move a run on: the model of N3 with one thing changed.

use crate::late_model::{FaultKind, Manner, RIGHT};
use crate::model::list::Instance;

pub fn of_late_starts() -> Vec<(&'static str, Manner)> {
    [wrong_faults(), wrong_ticks(), wrong_refusals(), wrong_moves()].concat()
}

fn wrong_faults() -> Vec<(&'static str, Manner)> {
    let by_job = |plan: &[Instance], i: usize, k: usize| plan[i].job == plan[k].job;
    let blind = |sees| Manner { sees, ..RIGHT };
    vec![
        (
            "a need goes by the facts held",
            Manner {
                served: |tried, manner, need| {
                    tried.held_before_by(need.begin as u64 + 1, manner) >> need.fact & 1 == 1
                },
                ..RIGHT
            },
        ),
        ("no clears after the end", Manner { to_clear: |_, _| 0, ..RIGHT }),
        ("one tick of gap after the end", Manner { to_clear: |_, own| i32::from(!own), ..RIGHT }),
        ("the gap for the own set", Manner { to_need: |sheet, _| sheet.gap(), ..RIGHT }),
        ("the gap for the own clear", Manner { to_clear: |sheet, _| sheet.gap(), ..RIGHT }),
        ("own by job", Manner { same: by_job, ..RIGHT }),
        ("no set meets a clear", blind(|kind| kind != FaultKind::Meets)),
        ("a source lasts", blind(|kind| kind != FaultKind::ClearedBefore)),
        ("no need lacks a source", blind(|kind| kind != FaultKind::NoSource)),
        ("no clear within a need", blind(|kind| kind != FaultKind::BrokenWithin)),
    ]
}

fn wrong_ticks() -> Vec<(&'static str, Manner)> {
    vec![
        ("a broken need at its begin", Manner { broken_at: |_, begin| begin, ..RIGHT }),
        (
            "the last fault",
            Manner {
                told: |sheet, all| all.iter().copied().filter(|t| *t <= sheet.horizon).max(),
                ..RIGHT
            },
        ),
        ("faults above H are told", Manner { told: |_, all| all.iter().copied().min(), ..RIGHT }),
        (
            "faults at H are not told",
            Manner {
                told: |sheet, all| all.iter().copied().filter(|t| *t < sheet.horizon).min(),
                without: |sheet| sheet.horizon - 1,
                ..RIGHT
            },
        ),
        ("0 where there is no fault", Manner { without: |_| 0, ..RIGHT }),
        ("H and 1 where there is no fault", Manner { without: |s| s.horizon + 1, ..RIGHT }),
    ]
}

fn wrong_refusals() -> Vec<(&'static str, Manner)> {
    vec![
        ("600 is refused", Manner { most: 599, ..RIGHT }),
        ("601 is taken", Manner { most: 601, ..RIGHT }),
        ("the delays before the judge", Manner { delays_before_judge: true, ..RIGHT }),
    ]
}

fn wrong_moves() -> Vec<(&'static str, Manner)> {
    vec![
        ("a clear before a set", Manner { clear_acts_last: false, ..RIGHT }),
        ("no move at H", Manner { end: |sheet| sheet.horizon as u64, ..RIGHT }),
        ("a move past H", Manner { end: |sheet| sheet.horizon as u64 + 2, ..RIGHT }),
        ("a failing list is not moved on", Manner { failing: 41, ..RIGHT }),
        ("a refusal moves the state", Manner { moves_when_refused: true, ..RIGHT }),
    ]
}

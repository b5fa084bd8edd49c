//! Jobs without own times, which the planner leaves out: slips, unless the text says that they are retired.

use super::Part;
use crate::notation::name;
use crate::note::{Note, Place};
use crate::rules::follow::Follow;
use crate::rules::present::LEFT_OUT;
use crate::rules::tightest::{self, Tightest};

/// The warnings for an absent job: that its bounds contradict each other, or that it cannot be over by the horizon.
pub fn of(part: &Part, follow: Option<&Follow>, horizon: Option<Place>) -> Vec<Note> {
    if part.said.is_some_and(|said| said.retired) {
        return Vec::new();
    }
    match follow.and_then(|follow| follow.length) {
        None => contradictions(part),
        Some(_) if part.job.release > part.sheet.horizon => vec![late_release(part)],
        Some(length) => vec![short_horizon(part, length, horizon)],
    }
}

/// How to say that the job is meant to be absent.
fn meant(part: &Part) -> String {
    let (code, name) = (part.job.code, name(&part.job.name));
    format!("if the job shall not run, write 'job {code} {name} retired'")
}

/// The pairs of events whose own bounds cannot all hold or, where there is none, one note for all bounds together.
fn contradictions(part: &Part) -> Vec<Note> {
    let pairs = tightest::of(part.job);
    let crossing: Vec<Note> = pairs.iter().filter_map(|pair| crossing(part, pair)).collect();
    if crossing.is_empty() {
        return vec![no_times(part)];
    }
    crossing
}

/// The greatest low of a pair lies above its least high.
fn crossing(part: &Part, pair: &Tightest) -> Option<Note> {
    let ((low, lower), (high, upper)) = (pair.low?, pair.high?);
    if low <= high {
        return None;
    }
    let message = format!(
        "{} asks for at least {low} min from '{}' to '{}' and {} for at most {high} min: \
         they cannot both hold, so the job '{}' counts as retired: {LEFT_OUT}",
        part.bound(lower),
        part.words(pair.d),
        part.words(pair.e),
        part.bound(upper),
        part.job.name
    );
    let help = format!(
        "all bounds between two events apply, those of 'takes', 'at start' and 'at end' too: \
         take one of the two out, or change its minutes; {}",
        meant(part)
    );
    let place = part.said.map(|said| said.bounds[lower].max(said.bounds[upper]));
    Some(Note { place, message, help })
}

fn no_times(part: &Part) -> Note {
    let message = format!(
        "no times meet all bounds of the job '{}': it is absent, and {LEFT_OUT}",
        part.job.name
    );
    let help =
        format!("'corrumai explain' shows the bounds that contradict each other; {}", meant(part));
    Note { place: part.said.map(|said| said.place), message, help }
}

/// The job may only start when the run is over.
fn late_release(part: &Part) -> Note {
    let message = format!(
        "the job '{}' starts not before minute {}, and the horizon is {} min: it is absent, and {LEFT_OUT}",
        part.job.name, part.job.release, part.sheet.horizon
    );
    let help = format!(
        "minutes count from the start of the run; give the job an earlier one, or raise the horizon; {}",
        meant(part)
    );
    Note { place: part.said.and_then(|said| said.release), message, help }
}

/// The job takes so long, from its release on, that it is not over by the horizon.
fn short_horizon(part: &Part, length: i32, place: Option<Place>) -> Note {
    let starts = match part.job.release {
        0 => String::new(),
        minute => format!("starts not before minute {minute} and "),
    };
    let message = format!(
        "the job '{}' {starts}takes {length} min at least, and the horizon is {} min: it is absent, and {LEFT_OUT}",
        part.job.name, part.sheet.horizon
    );
    let end = i32::from(part.job.release) + length;
    let help = format!("write 'horizon {end} min' or more; {}", meant(part));
    Note { place, message, help }
}

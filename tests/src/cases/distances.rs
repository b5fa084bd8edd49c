//! Point 3 to the tick, with every gap: an instance's own set and clear keep no distance from its need, another's keep
//! the gap, and a twin is another.

use super::edition_2::{case, clear, clearing, five_jobs, need, set, setting, ticks};
use super::Case;
use crate::build::{Entry, Spec};
use std::iter;

/// A list that meets all else: whether one need of fact 0 is met decides.
pub struct Tried {
    pub case: Case,
    /// The entry whose need it is.
    pub entry: usize,
}

/// What is tried, the entries, that one first, and the judge's number.
type Row = (&'static str, Vec<Entry>, u8);

/// Every gap byte, and none for edition 1.
pub fn gaps() -> impl Iterator<Item = Option<u8>> {
    iter::once(None).chain((0..=60).map(Some))
}

pub fn cases() -> Vec<Case> {
    gaps().flat_map(tried).map(|tried| tried.case).collect()
}

/// The lists for one gap, in both orders of their entries.
pub fn tried(gap: Option<u8>) -> Vec<Tried> {
    let (name, gap_byte) = match gap {
        Some(gap) => (format!("gap byte {gap}"), gap),
        None => (String::from("edition 1"), 1),
    };
    let mut all = Vec::new();
    for (mark, rows) in [(0, to_sets(ticks(gap_byte))), (1, to_clears(ticks(gap_byte)))] {
        let spec = Spec { horizon: HORIZON, ..five_jobs(mark, gap_byte) };
        let spec = if gap.is_some() { spec } else { spec.plain() };
        for (what, mut entries, expected) in rows {
            let mut add = |name: &str, entries: &[Entry], entry| {
                all.push(Tried { case: case(name, &spec, entries, expected), entry });
            };
            let name = format!("{name}, {what}");
            add(&name, &entries, 0);
            if entries.len() > 1 {
                entries.reverse();
                add(&format!("{name}, listed first"), &entries, entries.len() - 1);
            }
        }
    }
    all
}

/// After every tick below.
const HORIZON: u16 = 200;

/// The tick of the set that decides.
const SET: u16 = 5;

/// Fact 0 is not initial and nobody clears it: a need is met if some set serves it. The twin's own need begins the gap
/// after its set. The entry that is tried has its own set after the begin, so that only the twin's can serve.
fn to_sets(gap: u16) -> Vec<Row> {
    let own = |set| vec![setting(SET, SET + 2, set)];
    let other = |begin| vec![need(begin, begin + 2), set(SET)];
    let twin =
        |begin| vec![setting(begin, begin + 2, begin + 1), setting(SET + gap, SET + gap + 2, SET)];
    vec![
        ("own set on the begin", own(SET), 0),
        ("own set a tick late", own(SET + 1), 41),
        ("another's set at the gap", other(SET + gap), 0),
        ("another's set a tick short", other(SET + gap - 1), 41),
        ("twin's set at the gap", twin(SET + gap), 0),
        ("twin's set a tick short", twin(SET + gap - 1), 41),
        ("twin's set on the begin", twin(SET), 41),
    ]
}

/// The ticks on which the need that is tried ends, and the twin's, more than the greatest gap before it.
const END: u16 = 65;
const EARLY_END: u16 = 3;

/// Fact 0 is initial and nobody sets it: a need is met if no clear harms it. The twin's own need ends long before any
/// clear. The entry that is tried has its own clear the gap after the end, so that only the twin's can harm.
fn to_clears(gap: u16) -> Vec<Row> {
    let own = |clear| vec![clearing(1, END, clear)];
    let other = |tick| vec![need(1, END), clear(tick)];
    let twin = |tick| vec![clearing(1, END, END + gap), clearing(0, EARLY_END, tick)];
    vec![
        ("own clear on the end", own(END), 0),
        ("own clear a tick early", own(END - 1), 41),
        ("another's clear at the gap", other(END + gap), 0),
        ("another's clear a tick short", other(END + gap - 1), 41),
        ("twin's clear at the gap", twin(END + gap), 0),
        ("twin's clear a tick short", twin(END + gap - 1), 41),
        ("twin's clear on the end", twin(END), 41),
    ]
}

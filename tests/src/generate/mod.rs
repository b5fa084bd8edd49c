//! Random sheets and lists.

pub mod accepted;
pub mod corrected;
pub mod cycles;
pub mod damage;
pub mod delays;
pub mod large;
pub mod near;
pub mod planned;
pub mod rates;
pub mod repeat;
pub mod retire;
pub mod tiny;

use crate::build::{list_bytes, Act, Entry, Job, Spec};
use crate::model::list::{self, Instance, MAX_INSTANCES, MAX_TIMES};
use crate::model::sheet::{self, Kind, Sheet, MAX_BOUNDS, MAX_EVENTS};
use crate::rng::Rng;
use std::collections::BTreeMap;

/// A tick for each event of a job.
type Offsets = BTreeMap<Act, i32>;

/// The job with bounds: each event but the first is bound to an earlier one, by limits around their gap.
fn bounded(
    rng: &mut Rng,
    code: u16,
    offsets: &Offsets,
    limits: impl Fn(&mut Rng, i16) -> (i16, i16),
) -> Job {
    let mut job = Job::new(code);
    job.acts = offsets.keys().copied().collect();
    let acts: Vec<Act> = offsets.keys().copied().collect();
    for place in 1..acts.len() {
        let (mut e, mut d) = (acts[place], acts[rng.below(place)]);
        if rng.chance(50) {
            (e, d) = (d, e);
        }
        let (low, high) = limits(rng, (offsets[&e] - offsets[&d]) as i16);
        job = job.bound(e, d, low, high);
    }
    job
}

/// A sheet with a list for it, before they are bytes.
#[derive(Clone, Debug)]
pub struct Pair {
    pub spec: Spec,
    pub entries: Vec<Entry>,
}

impl Pair {
    pub fn bytes(&self) -> (Vec<u8>, Vec<u8>) {
        (self.spec.bytes(), list_bytes(&self.spec, &self.entries))
    }

    /// Whether sheet and list keep within their limits.
    pub fn fits(&self) -> bool {
        let times: usize = self.entries.iter().map(|e| e.ticks.len()).sum();
        self.spec.event_count() <= MAX_EVENTS
            && self.spec.bound_count() <= MAX_BOUNDS
            && self.entries.len() <= MAX_INSTANCES
            && times <= MAX_TIMES
    }

    /// Whether some entry needs a fact that is not initial.
    pub fn needs_a_set(&self) -> bool {
        let mut acts = self.entries.iter().flat_map(|e| e.ticks.keys());
        acts.any(|act| act.kind == Kind::Begins && self.spec.marks[act.fact] & 1 == 0)
    }

    /// Whether some entry needs a fact that some entry clears.
    pub fn clears_a_need(&self) -> bool {
        let acts = |kind| {
            let all = self.entries.iter().flat_map(|e| e.ticks.keys());
            all.filter(move |act| act.kind == kind)
        };
        acts(Kind::Begins).any(|need| acts(Kind::Clears).any(|clear| clear.fact == need.fact))
    }

    /// As the model reads it.
    pub fn read(&self) -> (Sheet, Vec<Instance>) {
        let (sheet, list) = self.bytes();
        let sheet = sheet::read(&sheet).expect("the builder writes well-formed sheets");
        let instances = list::read(&sheet, &list).expect("the builder writes well-formed lists");
        (sheet, instances)
    }
}

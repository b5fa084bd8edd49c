//! The numbers at which sheets and lists end. The readers take them as a value, so that tests can make wrong readers.

use super::list::{MAX_INSTANCES, MAX_TIMES};
use super::sheet::{
    MAX_BOUNDS, MAX_EVENTS, MAX_FACTS, MAX_GAP, MAX_HORIZON, MAX_JOBS, NO_HIGH, NO_LOW,
};

#[derive(Clone, Copy, Debug)]
pub struct Limits {
    pub facts: usize,
    pub horizon: i32,
    pub gap: u8,
    pub jobs: usize,
    pub events: usize,
    pub bounds: usize,
    /// Least and greatest low, and the value that means none.
    pub low: (i32, i32),
    pub no_low: i32,
    /// The same for high.
    pub high: (i32, i32),
    pub no_high: i32,
    pub instances: usize,
    pub times: usize,
}

/// Those of the documents.
pub const LIMITS: Limits = Limits {
    facts: MAX_FACTS,
    horizon: MAX_HORIZON,
    gap: MAX_GAP,
    jobs: MAX_JOBS,
    events: MAX_EVENTS,
    bounds: MAX_BOUNDS,
    low: (-MAX_HORIZON, MAX_HORIZON),
    no_low: NO_LOW,
    high: (-MAX_HORIZON, MAX_HORIZON),
    no_high: NO_HIGH,
    instances: MAX_INSTANCES,
    times: MAX_TIMES,
};

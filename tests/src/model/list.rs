//! "The list" of document 01: which bytes are a list for a sheet, and which instances they name.

use super::limits::{Limits, LIMITS};
use super::sheet::{number, Sheet};

pub const MAX_INSTANCES: usize = 64;
pub const MAX_TIMES: usize = 512;

/// One entry: a job and a tick for each of its events, in sheet order.
#[derive(Clone, Debug, PartialEq, Eq)]
pub struct Instance {
    pub job: usize,
    pub times: Vec<i32>,
}

/// The instances, or none: answer 40.
pub fn read(sheet: &Sheet, bytes: &[u8]) -> Option<Vec<Instance>> {
    read_within(sheet, bytes, &LIMITS)
}

pub fn read_within(sheet: &Sheet, bytes: &[u8], limits: &Limits) -> Option<Vec<Instance>> {
    if bytes.len() < 4 || bytes[0] != 1 || bytes[1] != 0 {
        return None;
    }
    let count = usize::from(number(bytes, 2));
    let entries = bytes.get(4..4 + 4 * count)?;
    let mut start = 4 + 4 * count;
    let mut instances = Vec::new();
    for entry in entries.chunks(4) {
        let job = sheet.codes.iter().position(|c| *c == number(entry, 0))?;
        if usize::from(number(entry, 2)) != start {
            return None;
        }
        let end = start + 2 * sheet.events_of(job).len();
        let body = bytes.get(start..end)?;
        let times = body.chunks(2).map(|t| i32::from(number(t, 0))).collect();
        instances.push(Instance { job, times });
        start = end;
    }
    let times: usize = instances.iter().map(|i| i.times.len()).sum();
    let good = count <= limits.instances && times <= limits.times && start == bytes.len();
    good.then_some(instances)
}

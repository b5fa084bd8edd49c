//! Sheets that are sent again: the same bytes, or corrected, mostly with another revision.

use super::damage::damaged;
use crate::build::{Job, Spec};
use crate::model::sheet::Edition;
use crate::rng::Rng;

/// Those that tell the order of bytes, the sign, and each end.
pub const REVISIONS: [u16; 14] =
    [0, 1, 2, 127, 128, 255, 256, 257, 512, 32_767, 32_768, 65_280, 65_534, 65_535];

/// What this says, mostly in edition 2, as it is sent twice; either may be the later one.
pub fn pair(rng: &mut Rng, spec: &Spec) -> [Vec<u8>; 2] {
    let revision = *rng.pick(&REVISIONS);
    let spec = revised(spec, revision);
    let later = next_revision(rng, revision);
    let again = again(rng, &revised(&spec, later));
    let first = if rng.chance(10) { damaged(rng, &spec) } else { spec.bytes() };
    match rng.below(20) {
        0 => [again.clone(), again],
        1..=10 => [again, first],
        _ => [first, again],
    }
}

/// In edition 2, with its gap byte or 2.
fn revised(spec: &Spec, revision: u16) -> Spec {
    let gap = match spec.edition {
        Edition::One => 2,
        Edition::Two { gap, .. } => gap,
    };
    spec.clone().revised(gap, revision)
}

/// Often the same.
fn next_revision(rng: &mut Rng, revision: u16) -> u16 {
    match rng.below(8) {
        0 => revision.wrapping_add(1),
        1 => revision.wrapping_sub(1),
        2 => revision.swap_bytes(),
        3 => *rng.pick(&REVISIONS),
        _ => revision,
    }
}

/// The same, corrected in one place, damaged, or in edition 1.
fn again(rng: &mut Rng, spec: &Spec) -> Vec<u8> {
    let mut spec = spec.clone();
    match rng.below(12) {
        0..=3 => {}
        4 => spec.horizon ^= 1,
        5 => spec = swapped_gap(spec),
        6 => spec.jobs.push(Job::new(spec.jobs.last().map_or(0, |job| job.code.saturating_add(1)))),
        7 => drop(spec.jobs.pop()),
        8 => return with_a_bit_changed(rng, spec.bytes()),
        9 => return spec.plain().bytes(),
        _ => return damaged(rng, &spec),
    }
    spec.bytes()
}

/// Any bit, or often the lowest of the last byte, which leaves a bound well formed.
fn with_a_bit_changed(rng: &mut Rng, mut sheet: Vec<u8>) -> Vec<u8> {
    let last = sheet.len() - 1;
    let (place, bit) = match rng.chance(50) {
        true => (last, 0),
        false => (rng.below(sheet.len()), rng.below(8)),
    };
    sheet[place] ^= 1 << bit;
    sheet
}

/// Gap bytes that plan alike: 0 for any other, and 2 for 0.
fn swapped_gap(mut spec: Spec) -> Spec {
    if let Edition::Two { gap, .. } = &mut spec.edition {
        *gap = if *gap == 0 { 2 } else { 0 };
    }
    spec
}

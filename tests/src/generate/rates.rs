//! Rates for the jobs of a sheet: at their limits, few cents, any, and such as are not in order.

use crate::rng::Rng;

/// The highest rate that there may be.
pub const MOST: u32 = 1_000_000;

/// Rates in order, at their limits.
pub const EDGES: [u32; 4] = [0, 1, MOST - 1, MOST];

/// Rates that are too high: by one; the greatest; and such as have small numbers in their last bytes.
pub const TOO_HIGH: [u32; 6] =
    [MOST + 1, u32::MAX, 1 << 20, (1 << 24) + 60, 1 << 31, (1 << 31) + MOST];

/// One for each of so many jobs, none too high.
pub fn some(rng: &mut Rng, jobs: usize) -> Vec<u32> {
    let edge = *rng.pick(&EDGES);
    let kind = rng.below(6);
    let mut rate = |_| match kind {
        0 => edge,
        1 => *rng.pick(&EDGES),
        2 => rng.below(121) as u32,
        3 if rng.chance(50) => 0,
        _ => rng.below(MOST as usize + 1) as u32,
    };
    (0..jobs).map(&mut rate).collect()
}

/// Rates that are not in order: one too high, too few, or too many.
pub fn bad(rng: &mut Rng, good: &[u32]) -> Vec<u32> {
    let mut rates = good.to_vec();
    let count = good.len();
    match rng.below(6) {
        0..=2 if count > 0 => rates[rng.below(count)] = *rng.pick(&TOO_HIGH),
        3 if count > 0 => rates.truncate(rng.below(count)),
        4 => rates.resize(count + *rng.pick(&[1, 2, 32, 256]), 0),
        _ => rates.push(*rng.pick(&[0, 60, MOST, MOST + 1])),
    }
    rates
}

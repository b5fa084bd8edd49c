//! Delays for the instances of a list: none, a few, many, and such that some events just meet or just do not.

use crate::late_model::{Tried, RIGHT};
use crate::model::list::Instance;
use crate::model::plan::{happenings, Happening};
use crate::model::sheet::{Kind, Sheet};
use crate::rng::Rng;
use crate::Run;

/// One delay for each instance, none too great.
pub fn some(rng: &mut Rng, sheet: &Sheet, plan: &[Instance]) -> Vec<u16> {
    let mut delays = vec![0; plan.len()];
    match rng.below(24) {
        0 => {}
        1 => delays.fill(rng.below(9) as u16),
        2 => one_late(rng, &mut delays),
        3 => delays.iter_mut().for_each(|delay| *delay = rng.below(4) as u16),
        4 => some_late(rng, &mut delays),
        5 => reversed(plan, &mut delays),
        6 => at_the_end(rng, sheet, plan, &mut delays),
        7..=8 => {
            delays.fill(rng.below(3) as u16);
            meet(rng, sheet, plan, &mut delays);
        }
        9 => (0..2).for_each(|_| meet(rng, sheet, plan, &mut delays)),
        _ => meet(rng, sheet, plan, &mut delays),
    }
    delays
}

/// Delays that are not in order: one too great, one too few, one too many, or none at all.
pub fn bad(rng: &mut Rng, good: &[u16]) -> Vec<u16> {
    let mut delays = good.to_vec();
    match rng.below(4) {
        0 if !good.is_empty() => {
            delays[rng.below(good.len())] = *rng.pick(&[601, 602, 1_024, 32_768, 65_535]);
        }
        1 if !good.is_empty() => drop(delays.pop()),
        2 if !good.is_empty() => delays.clear(),
        _ => delays.push(*rng.pick(&[0, 600, 601])),
    }
    delays
}

/// A state with any facts, mostly at the tick of an event, at H or beyond.
pub fn any_state(rng: &mut Rng, tried: &Tried) -> Run {
    let tick = match tried.all.is_empty() {
        true => 0,
        false => rng.pick(&tried.all).tick as u64,
    };
    let horizon = tried.sheet.horizon as u64;
    let next = match rng.below(8) {
        0 => *rng.pick(&[horizon, horizon + 1, horizon + 2]),
        1 => *rng.pick(&[u64::MAX, u64::MAX - 1]),
        2 => tick + *rng.pick(&[1 << 16, 1 << 32, 1 << 63]),
        3 => tick + 1,
        4 => rng.number(),
        _ => tick,
    };
    let any = rng.number();
    Run { next, held: *rng.pick(&[0, u64::MAX, any, any]) }
}

fn one_late(rng: &mut Rng, delays: &mut [u16]) {
    if !delays.is_empty() {
        delays[rng.below(delays.len())] = *rng.pick(&[1, 2, 3, 5, 8, 13, 100, 600]);
    }
}

/// Some of them, up to the greatest delay.
fn some_late(rng: &mut Rng, delays: &mut [u16]) {
    let most = *rng.pick(&[12, 40, usize::from(RIGHT.most)]);
    for delay in delays {
        if rng.chance(50) {
            *delay = rng.below(most + 1) as u16;
        }
    }
}

/// What comes first comes last.
fn reversed(plan: &[Instance], delays: &mut [u16]) {
    let first = |instance: &Instance| instance.times.iter().min().copied().unwrap_or(0);
    let last = plan.iter().map(first).max().unwrap_or(0);
    for (instance, delay) in plan.iter().zip(delays) {
        *delay = (2 * (last - first(instance))).clamp(0, i32::from(RIGHT.most)) as u16;
    }
}

/// The last event of an entry comes at H, or a tick before or after it.
fn at_the_end(rng: &mut Rng, sheet: &Sheet, plan: &[Instance], delays: &mut [u16]) {
    if !plan.is_empty() {
        let place = rng.below(plan.len());
        let last = plan[place].times.iter().max().copied().unwrap_or(0);
        let delay = sheet.horizon - last + rng.between(-1, 1);
        delays[place] = delay.clamp(0, i32::from(RIGHT.most)) as u16;
    }
}

/// Of two events of one fact in two entries one is delayed so that they lie together, or a gap apart, or nearly so.
fn meet(rng: &mut Rng, sheet: &Sheet, plan: &[Instance], delays: &mut [u16]) {
    let all = happenings(sheet, plan);
    let changes = |h: &&Happening| matches!(h.kind, Kind::Sets | Kind::Clears);
    let changes: Vec<&Happening> = all.iter().filter(changes).collect();
    if changes.is_empty() {
        return;
    }
    let one = *rng.pick(&changes);
    let others: Vec<&Happening> =
        all.iter().filter(|h| h.fact == one.fact && h.entry != one.entry).collect();
    if others.is_empty() {
        return;
    }
    let other = *rng.pick(&others);
    let gap = sheet.gap();
    let apart = *rng.pick(&[0, 0, 1, -1, gap, -gap, gap - 1, 1 - gap, gap + 1, -gap - 1]);
    let tick = |h: &Happening| h.tick + i32::from(delays[h.entry]);
    let lag = tick(other) + apart - tick(one);
    let (late, more) = if lag >= 0 { (one.entry, lag) } else { (other.entry, -lag) };
    delays[late] = (i32::from(delays[late]) + more).min(i32::from(RIGHT.most)) as u16;
}

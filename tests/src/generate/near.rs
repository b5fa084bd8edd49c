//! Near misses: a sheet and a list, both well formed or not quite, one small step away.

use super::damage::{damaged, noise};
use super::Pair;
use crate::build::Act;
use crate::model::sheet::{number, Edition, MAX_HORIZON};
use crate::rng::Rng;

/// One random small step away from the pair, as bytes of sheet and list.
pub fn miss(rng: &mut Rng, pair: &Pair) -> (Vec<u8>, Vec<u8>) {
    match rng.below(10) {
        0..=5 => step(rng, pair).bytes(),
        _ => {
            let (sheet, mut list) = pair.bytes();
            break_form(rng, &mut list, pair.entries.len());
            (sheet, list)
        }
    }
}

/// The pair with a damaged sheet, with noise for one, and twice a small step away: mostly refused, in every way.
pub fn misses(rng: &mut Rng, pair: &Pair) -> Vec<(Vec<u8>, Vec<u8>)> {
    let list = pair.bytes().1;
    vec![
        (damaged(rng, &pair.spec), list.clone()),
        (noise(rng), list),
        miss(rng, pair),
        miss(rng, pair),
    ]
}

/// A pair built like the first; a crowded one may grow past the limits of a list.
fn step(rng: &mut Rng, pair: &Pair) -> Pair {
    let mut near = pair.clone();
    let kinds = if near.spec.edition == Edition::One { 14 } else { 18 };
    match rng.below(kinds) {
        0..=2 => move_tick(rng, &mut near),
        3..=5 => meet_other_tick(rng, &mut near),
        6 => move_entry(rng, &mut near),
        7 => repeat_entry(rng, &mut near),
        8 => exchange_entries(rng, &mut near),
        9 => drop_entry(rng, &mut near),
        10 => change_horizon(rng, &mut near),
        11 => change_mark(rng, &mut near),
        12..=13 => add_bound(rng, &mut near),
        14..=15 => change_gap(rng, &mut near),
        _ => change_release(rng, &mut near),
    }
    near
}

/// The place of a random entry with events, and a random event of it.
fn some_event(rng: &mut Rng, pair: &Pair) -> Option<(usize, Act)> {
    let all: Vec<(usize, Act)> = pair
        .entries
        .iter()
        .enumerate()
        .flat_map(|(place, entry)| entry.ticks.keys().map(move |act| (place, *act)))
        .collect();
    (!all.is_empty()).then(|| *rng.pick(&all))
}

fn one_off(rng: &mut Rng, tick: u16) -> u16 {
    if rng.chance(50) {
        tick.saturating_add(1)
    } else {
        tick.saturating_sub(1)
    }
}

fn move_tick(rng: &mut Rng, pair: &mut Pair) {
    if let Some((place, act)) = some_event(rng, pair) {
        let tick = pair.entries[place].ticks[&act];
        let horizon = pair.spec.horizon;
        let moved = match rng.below(12) {
            0 => horizon,
            1 => horizon + 1,
            2 => 65_535,
            _ => one_off(rng, tick),
        };
        pair.entries[place].ticks.insert(act, moved);
    }
}

/// A tick becomes that of another event of the same fact, or one more or less.
fn meet_other_tick(rng: &mut Rng, pair: &mut Pair) {
    let Some((place, act)) = some_event(rng, pair) else {
        return;
    };
    let others: Vec<u16> = pair
        .entries
        .iter()
        .flat_map(|entry| entry.ticks.iter())
        .filter(|(other, _)| other.fact == act.fact && **other != act)
        .map(|(_, tick)| *tick)
        .collect();
    if !others.is_empty() {
        let tick = *rng.pick(&others);
        let exact = rng.chance(50);
        let tick = if exact { tick } else { one_off(rng, tick) };
        pair.entries[place].ticks.insert(act, tick);
    }
}

fn move_entry(rng: &mut Rng, pair: &mut Pair) {
    if pair.entries.is_empty() {
        return;
    }
    let place = rng.below(pair.entries.len());
    let later = rng.chance(50);
    for tick in pair.entries[place].ticks.values_mut() {
        *tick = if later { *tick + 1 } else { tick.saturating_sub(1) };
    }
}

fn repeat_entry(rng: &mut Rng, pair: &mut Pair) {
    if !pair.entries.is_empty() {
        let entry = rng.pick(&pair.entries).clone();
        let place = rng.below(pair.entries.len() + 1);
        pair.entries.insert(place, entry);
    }
}

fn exchange_entries(rng: &mut Rng, pair: &mut Pair) {
    if !pair.entries.is_empty() {
        let (a, b) = (rng.below(pair.entries.len()), rng.below(pair.entries.len()));
        pair.entries.swap(a, b);
    }
}

fn drop_entry(rng: &mut Rng, pair: &mut Pair) {
    if !pair.entries.is_empty() {
        pair.entries.remove(rng.below(pair.entries.len()));
    }
}

/// H becomes the greatest tick, or one less.
fn change_horizon(rng: &mut Rng, pair: &mut Pair) {
    let ticks = pair.entries.iter().flat_map(|e| e.ticks.values());
    let most = ticks.copied().max().unwrap_or(0);
    pair.spec.horizon = most.saturating_sub(rng.below(2) as u16).min(10_080);
}

fn change_mark(rng: &mut Rng, pair: &mut Pair) {
    if !pair.spec.marks.is_empty() {
        let fact = rng.below(pair.spec.marks.len());
        pair.spec.marks[fact] ^= 1 + rng.below(2) as u8;
    }
}

/// One row more for two events of an entry's job, around their gap there or one tick off; often their pair has rows.
fn add_bound(rng: &mut Rng, pair: &mut Pair) {
    let Some((place, some)) = some_event(rng, pair) else {
        return;
    };
    let entry = &pair.entries[place];
    let job = &mut pair.spec.jobs[entry.job];
    let bound: Vec<(Act, Act)> = job.bounds.pairs();
    let (e, d) = match bound.is_empty() || rng.chance(30) {
        true => (some, *rng.pick(&entry.ticks.keys().copied().collect::<Vec<Act>>())),
        false => *rng.pick(&bound),
    };
    if e != d {
        let gap = i32::from(entry.ticks[&e]) - i32::from(entry.ticks[&d]);
        let gap = (gap + rng.between(-1, 1)).clamp(-MAX_HORIZON, MAX_HORIZON) as i16;
        let span = *rng.pick(&[(gap, gap), (gap, i16::MAX), (i16::MIN, gap)]);
        job.bounds.insert((e, d), span);
    }
}

fn change_gap(rng: &mut Rng, pair: &mut Pair) {
    if let Edition::Two { gap, .. } = &mut pair.spec.edition {
        *gap = one_off(rng, u16::from(*gap)) as u8;
    }
}

/// A release becomes the first tick of the job's entries, or one more or less.
fn change_release(rng: &mut Rng, pair: &mut Pair) {
    if let Some((place, _)) = some_event(rng, pair) {
        let job = pair.entries[place].job;
        let entries = pair.entries.iter().filter(|entry| entry.job == job);
        let first = entries.flat_map(|entry| entry.ticks.values()).min().copied().unwrap_or(0);
        let exact = rng.chance(40);
        pair.spec.jobs[job].release = if exact { first } else { one_off(rng, first) };
    }
}

/// One fault of form, or at least an attempt at one.
fn break_form(rng: &mut Rng, list: &mut Vec<u8>, count: usize) {
    let entry = 4 + 4 * rng.below(count.max(1));
    match rng.below(8) {
        0 => add(list, 2, rng.chance(50)),
        1 if count > 0 => add(list, entry, rng.chance(50)),
        2 if count > 0 => add(list, entry + 2, rng.chance(50)),
        3 if count > 1 => exchange(list, 4, entry),
        4 => list.push(rng.number() as u8),
        5 => list.truncate(list.len() - 1 - rng.below(2)),
        6 => {
            let place = rng.below(list.len());
            list[place] ^= 1 << rng.below(8);
        }
        _ => list[rng.below(2)] = rng.below(4) as u8,
    }
}

/// The two-byte number at `at` goes up or down by one.
fn add(list: &mut [u8], at: usize, up: bool) {
    let value = number(list, at);
    let value = if up { value.wrapping_add(1) } else { value.wrapping_sub(1) };
    list[at..at + 2].copy_from_slice(&value.to_le_bytes());
}

/// Two job codes change places, their bodies do not.
fn exchange(list: &mut [u8], a: usize, b: usize) {
    list.swap(a, b);
    list.swap(a + 1, b + 1);
}

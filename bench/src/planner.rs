//! A planner as a careful Rust programmer writes it: masks, rows of differences on demand, a queue.

use crate::bits::bits;
use crate::orders::{orders, wanted, Orders, Wanted};
use crate::own::{self, Own};
use crate::raise::Raise;
use crate::sheet::Sheet;
use crate::ticks::least_ticks;

/// Number and detail; a plan goes to the front of the buffer.
pub fn plan(sheet: &[u8], buffer: &mut [u8]) -> (u8, usize) {
    match find(sheet, buffer) {
        Ok(length) => (0, length),
        Err(answer) => answer,
    }
}

fn find(bytes: &[u8], buffer: &mut [u8]) -> Result<usize, (u8, usize)> {
    let mut sheet = Sheet::read(bytes).map_err(|number| (number, 0))?;
    let mut raise = Raise::new();
    let (least, absent) = own::least(&sheet, &mut raise);
    sheet.leave_out(absent);
    let mut own = Own::of(&sheet, least);
    let wanted = wanted(&sheet);
    first_rule(&sheet, &wanted)?;
    let orders = orders(&sheet, &mut own, &mut raise, &wanted);
    other_rules(&sheet, &wanted, &orders)?;
    if lacks_source(&sheet, &wanted) || clears_goal(&sheet, &wanted, &orders) {
        return Err((1, 0));
    }
    let ticks = least_ticks(&sheet, &wanted, &orders, &mut raise, own.least).ok_or((1, 0))?;
    write(&sheet, &wanted, &ticks, buffer)
}

fn lowest(number: u8, facts: u64) -> Result<(), (u8, usize)> {
    match facts {
        0 => Ok(()),
        _ => Err((number, facts.trailing_zeros() as usize)),
    }
}

fn first_rule(sheet: &Sheet, wanted: &Wanted) -> Result<(), (u8, usize)> {
    let several = bits(wanted.facts & !sheet.initial)
        .find(|&fact| !matches!(sheet.setters[fact].count_ones(), 0 | 1));
    several.map_or(Ok(()), |fact| Err((20, fact)))
}

fn other_rules(sheet: &Sheet, wanted: &Wanted, orders: &Orders) -> Result<(), (u8, usize)> {
    let all = if sheet.facts == 64 { u64::MAX } else { (1 << sheet.facts) - 1 };
    let neither = all & !(orders.last | orders.first);
    lowest(21, wanted.facts & (neither | sheet.initial & !orders.last))?;
    let (mut set, mut cleared) = (0, 0);
    for job in bits(wanted.jobs) {
        set |= sheet.sets[job];
        cleared |= sheet.clears[job];
    }
    lowest(22, neither & !wanted.facts & set & cleared)
}

fn lacks_source(sheet: &Sheet, wanted: &Wanted) -> bool {
    bits(wanted.facts & !sheet.initial).any(|fact| sheet.setters[fact] == 0)
}

fn clears_goal(sheet: &Sheet, wanted: &Wanted, orders: &Orders) -> bool {
    bits(sheet.goals & orders.last).any(|fact| sheet.cleaners[fact] & wanted.jobs != 0)
}

fn write(
    sheet: &Sheet,
    wanted: &Wanted,
    ticks: &[i32],
    buffer: &mut [u8],
) -> Result<usize, (u8, usize)> {
    let entries = wanted.jobs.count_ones() as usize;
    let events: usize = bits(wanted.jobs).map(|job| sheet.events_of(job).len()).sum();
    let length = 4 + 4 * entries + 2 * events;
    let list = buffer.get_mut(..length).ok_or((30, length))?;
    list[..4].copy_from_slice(&[1, 0, entries as u8, 0]);
    let mut start = 4 + 4 * entries;
    for (entry, job) in bits(wanted.jobs).enumerate() {
        let head = &mut list[4 + 4 * entry..8 + 4 * entry];
        head[..2].copy_from_slice(&sheet.codes[job].to_le_bytes());
        head[2..].copy_from_slice(&(start as u16).to_le_bytes());
        for event in sheet.events_of(job) {
            list[start..start + 2].copy_from_slice(&(ticks[event] as u16).to_le_bytes());
            start += 2;
        }
    }
    Ok(length)
}

//! Damaged sheets: bytes flipped, cut or added, rows moved, numbers put at their limits.

use crate::build::{Bodies, Spec};
use crate::model::sheet::job_row;
use crate::rng::Rng;

/// The sheet with some random damage.
pub fn damaged(rng: &mut Rng, spec: &Spec) -> Vec<u8> {
    let mut bodies = spec.bodies();
    if rng.chance(60) {
        for _ in 0..1 + rng.below(2) {
            damage_body(rng, &mut bodies);
        }
        return bodies.bytes();
    }
    let mut sheet = bodies.bytes();
    match rng.below(4) {
        0 => {
            let end = rng.below(sheet.len() + 1);
            sheet.truncate(end);
        }
        1 => {
            let more = 1 + rng.below(8);
            sheet.extend((0..more).map(|_| rng.number() as u8));
        }
        2 => flip(rng, &mut sheet[..26]),
        _ => flip(rng, &mut sheet),
    }
    sheet
}

fn flip(rng: &mut Rng, bytes: &mut [u8]) {
    for _ in 0..1 + rng.below(3) {
        let place = rng.below(bytes.len());
        bytes[place] = some_byte(rng, bytes[place]);
    }
}

/// Another byte: near, at a limit, or any.
fn some_byte(rng: &mut Rng, byte: u8) -> u8 {
    match rng.below(4) {
        0 => byte.wrapping_add(1),
        1 => byte.wrapping_sub(1),
        2 => *rng.pick(&[0, 1, 2, 3, 4, 64, 65, 127, 128, 255]),
        _ => rng.number() as u8,
    }
}

/// Damage within one body; the contents stay right.
fn damage_body(rng: &mut Rng, bodies: &mut Bodies) {
    let part = rng.below(4);
    let size = [1, job_row(bodies.edition), 3, 6][part];
    let body = bodies.part(part);
    match rng.below(10) {
        0 => body.truncate(body.len().saturating_sub(1 + rng.below(size))),
        1 => body.extend((0..1 + rng.below(size)).map(|_| rng.number() as u8)),
        2 => exchange_rows(rng, body, size),
        3 => repeat_row(rng, body, size),
        4 => drop_row(rng, body, size),
        5 => swap_rows(rng, body, size),
        6 => copy_row(rng, body, size),
        7 => move_key(rng, body, size),
        _ if !body.is_empty() => flip(rng, body),
        _ => body.push(0),
    }
}

fn exchange_rows(rng: &mut Rng, body: &mut [u8], size: usize) {
    let rows = body.len() / size;
    if rows > 1 {
        let first = rng.below(rows - 1) * size;
        body[first..first + 2 * size].rotate_left(size);
    }
}

fn repeat_row(rng: &mut Rng, body: &mut Vec<u8>, size: usize) {
    let rows = body.len() / size;
    if rows > 0 {
        let first = rng.below(rows) * size;
        let row = body[first..first + size].to_vec();
        body.splice(first..first, row);
    }
}

/// Two rows anywhere change places.
fn swap_rows(rng: &mut Rng, body: &mut [u8], size: usize) {
    let rows = body.len() / size;
    if rows > 1 {
        let (one, other) = (rng.below(rows) * size, rng.below(rows) * size);
        (0..size).for_each(|place| body.swap(one + place, other + place));
    }
}

/// A row stands a second time, anywhere.
fn copy_row(rng: &mut Rng, body: &mut Vec<u8>, size: usize) {
    let rows = body.len() / size;
    if rows > 0 {
        let from = rng.below(rows) * size;
        let row = body[from..from + size].to_vec();
        let to = rng.below(rows + 1) * size;
        body.splice(to..to, row);
    }
}

/// A row's first two bytes, in bounds its pair, become those of a neighbour, or one of them goes up or down by one.
fn move_key(rng: &mut Rng, body: &mut [u8], size: usize) {
    let rows = body.len() / size;
    if rows > 1 && size > 1 {
        let row = rng.below(rows - 1) * size;
        let (one, next) = (row, row + size);
        let byte = &mut body[one + rng.below(2)];
        match rng.below(4) {
            0 => *byte = byte.wrapping_add(1),
            1 => *byte = byte.wrapping_sub(1),
            2 => body.copy_within(one..one + 2, next),
            _ => body.copy_within(next..next + 2, one),
        }
    }
}

fn drop_row(rng: &mut Rng, body: &mut Vec<u8>, size: usize) {
    let rows = body.len() / size;
    if rows > 0 {
        let first = rng.below(rows) * size;
        body.drain(first..first + size);
    }
}

/// Bytes that are no sheet at all, or only by chance.
pub fn noise(rng: &mut Rng) -> Vec<u8> {
    let length = rng.below(90);
    let mut bytes: Vec<u8> = (0..length).map(|_| rng.number() as u8).collect();
    if length > 2 && rng.chance(50) {
        bytes[..2].copy_from_slice(&[1 + rng.below(2) as u8, 4]);
    }
    bytes
}

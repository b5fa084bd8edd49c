//! Rewriting from one edition to the other, by document 02: the sheet is read, and what it says is built anew.

use crate::build::Spec;
use crate::model::sheet::{read_in, Edition, Sheet};

/// The gap byte that says what edition 1 says.
const PLAIN_GAP: u8 = 1;

/// Number and detail; the sheet of edition 2 goes to the front of the buffer.
pub fn to_edition_2(sheet: &[u8], buffer: &mut [u8]) -> (u8, usize) {
    match read_in(1, sheet) {
        Ok(old) => put(&Spec::of(&old).with_gap(PLAIN_GAP).bytes(), buffer),
        Err(number) => (number, 0),
    }
}

/// And back: number and detail; the sheet of edition 1 goes to the front of the buffer.
pub fn to_edition_1(sheet: &[u8], buffer: &mut [u8]) -> (u8, usize) {
    match read_in(2, sheet) {
        Ok(new) if goes_back(&new) => put(&Spec::of(&new).plain().bytes(), buffer),
        Ok(_) => (50, 0),
        Err(number) => (number, 0),
    }
}

/// Edition 1 can say it: the gap byte is the plain one, and neither revision nor releases say something.
pub fn goes_back(sheet: &Sheet) -> bool {
    let plain = matches!(sheet.edition, Edition::Two { gap: PLAIN_GAP, revision: 0 });
    plain && sheet.releases.iter().all(|release| *release == 0)
}

fn put(bytes: &[u8], buffer: &mut [u8]) -> (u8, usize) {
    match buffer.get_mut(..bytes.len()) {
        Some(front) => {
            front.copy_from_slice(bytes);
            (0, bytes.len())
        }
        None => (30, bytes.len()),
    }
}

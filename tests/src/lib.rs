//! The product behind a safe wrapper, and an independent model of document 01 to hold it against.
//! Nothing here shares code with the product.

pub mod bounds;
pub mod brute;
pub mod build;
pub mod cases;
pub mod closure;
pub mod cost_model;
pub mod generate;
pub mod late_model;
pub mod model;
pub mod natural;
pub mod newer_model;
pub mod planner_model;
pub mod retire;
pub mod rewrite_model;
pub mod rng;
pub mod tally;
pub mod wanted;
pub mod wrong;

use std::io::Write;

extern "C" {
    fn corrumai_judge(
        sheet: *const u8,
        sheet_len: usize,
        list: *const u8,
        list_len: usize,
        detail: *mut usize,
    ) -> u8;

    fn corrumai_plan(
        sheet: *const u8,
        sheet_len: usize,
        buffer: *mut u8,
        buffer_len: usize,
        detail: *mut usize,
    ) -> u8;

    fn corrumai_to_edition2(
        sheet: *const u8,
        sheet_len: usize,
        buffer: *mut u8,
        buffer_len: usize,
        detail: *mut usize,
    ) -> u8;

    fn corrumai_to_edition1(
        sheet: *const u8,
        sheet_len: usize,
        buffer: *mut u8,
        buffer_len: usize,
        detail: *mut usize,
    ) -> u8;

    fn corrumai_late(
        sheet: *const u8,
        sheet_len: usize,
        list: *const u8,
        list_len: usize,
        delays: *const u16,
        delays_len: usize,
        detail: *mut usize,
    ) -> u8;

    fn corrumai_fresh(sheet: *const u8, sheet_len: usize, held: *mut u64) -> u8;

    fn corrumai_move_on(
        sheet: *const u8,
        sheet_len: usize,
        list: *const u8,
        list_len: usize,
        delays: *const u16,
        delays_len: usize,
        run: *mut Run,
    ) -> u8;

    fn corrumai_cost(
        sheet: *const u8,
        sheet_len: usize,
        list: *const u8,
        list_len: usize,
        rates: *const u32,
        rates_len: usize,
        cents: *mut u64,
        sixtieths: *mut u64,
    ) -> u8;

    fn corrumai_newer(
        first: *const u8,
        first_len: usize,
        second: *const u8,
        second_len: usize,
        detail: *mut usize,
        which: *mut u8,
        part_len: *mut usize,
    ) -> u8;
}

/// A run that is followed: the tick that the next move runs, and the facts held, bit f for fact f.
#[repr(C)]
#[derive(Clone, Copy, Debug, PartialEq, Eq)]
pub struct Run {
    pub next: u64,
    pub held: u64,
}

/// What a run costs: whole cents, and the remainder in sixtieths of a cent.
#[derive(Clone, Copy, Debug, PartialEq, Eq)]
pub struct Bill {
    pub cents: u64,
    pub sixtieths: u64,
}

/// What is stored of two sheets: the detail, the place of the one that counts, and how long the part handed back is.
#[derive(Clone, Copy, Debug, PartialEq, Eq)]
pub struct Handed {
    pub detail: usize,
    pub which: u8,
    pub part_len: usize,
}

/// Stands in the detail before the call, so that a detail never stored is seen.
const NOT_STORED: usize = usize::MAX;

/// The product's judge: number and detail.
pub fn judge(sheet: &[u8], list: &[u8]) -> (u8, usize) {
    let mut detail = NOT_STORED;
    // The pointers of slices are never null, and each goes with its own length.
    let number = unsafe {
        corrumai_judge(sheet.as_ptr(), sheet.len(), list.as_ptr(), list.len(), &mut detail)
    };
    (number, detail)
}

/// The product's planner: number and detail; a plan goes to the front of the buffer.
/// Inline, so that tests that do not plan link with a library that has no planner.
#[inline]
pub fn plan(sheet: &[u8], buffer: &mut [u8]) -> (u8, usize) {
    call(corrumai_plan, sheet, buffer)
}

/// A routine of the library from a sheet into a buffer.
pub type Routine = unsafe extern "C" fn(*const u8, usize, *mut u8, usize, *mut usize) -> u8;

/// The product's rewriting to edition 2: number and detail; the sheet goes to the front of the buffer.
/// Inline as above.
#[inline]
pub fn to_edition_2(sheet: &[u8], buffer: &mut [u8]) -> (u8, usize) {
    call(corrumai_to_edition2, sheet, buffer)
}

/// The product's rewriting to edition 1, likewise.
#[inline]
pub fn to_edition_1(sheet: &[u8], buffer: &mut [u8]) -> (u8, usize) {
    call(corrumai_to_edition1, sheet, buffer)
}

/// The routine's number and detail.
pub fn call(routine: Routine, sheet: &[u8], buffer: &mut [u8]) -> (u8, usize) {
    let mut detail = NOT_STORED;
    let (start, length) = (buffer.as_mut_ptr(), buffer.len());
    // As in `judge`; the buffer is lent for this call alone.
    let number = unsafe { routine(sheet.as_ptr(), sheet.len(), start, length, &mut detail) };
    (number, detail)
}

/// The product on a delayed list: number and detail. Inline as above.
#[inline]
pub fn late(sheet: &[u8], list: &[u8], delays: &[u16]) -> (u8, usize) {
    let mut detail = NOT_STORED;
    let (s, l, d) = (sheet.as_ptr(), list.as_ptr(), delays.as_ptr());
    // As in `judge`; the last length counts numbers.
    let number =
        unsafe { corrumai_late(s, sheet.len(), l, list.len(), d, delays.len(), &mut detail) };
    (number, detail)
}

/// The product's number for a fresh state, whose facts it stores.
#[inline]
pub fn fresh(sheet: &[u8], held: &mut u64) -> u8 {
    // As in `judge`.
    unsafe { corrumai_fresh(sheet.as_ptr(), sheet.len(), held) }
}

/// The product's number for a move by one tick of the state that is lent.
#[inline]
pub fn move_on(sheet: &[u8], list: &[u8], delays: &[u16], run: &mut Run) -> u8 {
    let (s, l, d) = (sheet.as_ptr(), list.as_ptr(), delays.as_ptr());
    // As in `late`; the state is lent for this call alone.
    unsafe { corrumai_move_on(s, sheet.len(), l, list.len(), d, delays.len(), run) }
}

/// The product's number for a list with rates; cents and sixtieths are stored in the bill that is lent.
#[inline]
pub fn cost(sheet: &[u8], list: &[u8], rates: &[u32], bill: &mut Bill) -> u8 {
    let (s, l, r) = (sheet.as_ptr(), list.as_ptr(), rates.as_ptr());
    let Bill { cents, sixtieths } = bill;
    // As in `move_on`.
    unsafe { corrumai_cost(s, sheet.len(), l, list.len(), r, rates.len(), cents, sixtieths) }
}

/// The product's number for two sheets, and the part of them that it hands back, by what it stores in what is lent.
#[inline]
pub fn newer<'a>(first: &'a [u8], second: &'a [u8], handed: &mut Handed) -> (u8, &'a [u8]) {
    let (one, other) = (first.as_ptr(), second.as_ptr());
    let Handed { detail, which, part_len } = handed;
    // As in `move_on`.
    let number =
        unsafe { corrumai_newer(one, first.len(), other, second.len(), detail, which, part_len) };
    (number, &[first, second][usize::from(*which)][..*part_len])
}

/// What planner and judge of the product say of a sheet.
#[derive(Clone, Debug, PartialEq, Eq)]
pub struct Said {
    /// The planner's number and detail, and the buffer.
    pub planned: (u8, usize),
    pub buffer: Vec<u8>,
    /// The judge's number and detail for each list, and for the planner's own or an empty one.
    pub judged: Vec<(u8, usize)>,
}

impl Said {
    /// The planner's number.
    pub fn number(&self) -> u8 {
        self.planned.0
    }
}

/// Inline as `plan`.
#[inline]
pub fn said(sheet: &[u8], lists: &[Vec<u8>]) -> Said {
    let mut buffer: Vec<u8> = (0..700).map(|place| (place * 37 + 11) as u8).collect();
    let planned = plan(sheet, &mut buffer);
    let least = if planned.0 == 0 { &buffer[..planned.1] } else { &[1, 0, 0, 0] };
    let mut judged: Vec<_> = lists.iter().map(|list| judge(sheet, list)).collect();
    judged.push(judge(sheet, least));
    Said { planned, buffer, judged }
}

/// Prints past the capture of the test harness, so that every run shows it.
pub fn say(line: &str) {
    writeln!(std::io::stdout(), "{line}").expect("standard output is open");
}

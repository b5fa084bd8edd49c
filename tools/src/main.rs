//! The program behind bin/corrumai: links the proved library, and leaves all else to the crate.

use corrumai_tools::answers::{Proved, Run};
use corrumai_tools::{command, shell};
use std::env;
use std::ffi::OsString;
use std::process::ExitCode;

/// The library's functions that write into a buffer.
type Writer = unsafe extern "C" fn(*const u8, usize, *mut u8, usize, *mut usize) -> u8;

// include/corrumai.h
extern "C" {
    fn corrumai_judge(
        sheet: *const u8,
        sheet_len: usize,
        list: *const u8,
        list_len: usize,
        detail: *mut usize,
    ) -> u8;

    fn corrumai_plan(
        sheet: *const u8,
        sheet_len: usize,
        buffer: *mut u8,
        buffer_len: usize,
        detail: *mut usize,
    ) -> u8;

    fn corrumai_to_edition2(
        sheet: *const u8,
        sheet_len: usize,
        buffer: *mut u8,
        buffer_len: usize,
        detail: *mut usize,
    ) -> u8;

    fn corrumai_to_edition1(
        sheet: *const u8,
        sheet_len: usize,
        buffer: *mut u8,
        buffer_len: usize,
        detail: *mut usize,
    ) -> u8;

    fn corrumai_late(
        sheet: *const u8,
        sheet_len: usize,
        list: *const u8,
        list_len: usize,
        delays: *const u16,
        delays_len: usize,
        detail: *mut usize,
    ) -> u8;

    fn corrumai_fresh(sheet: *const u8, sheet_len: usize, held: *mut u64) -> u8;

    fn corrumai_move_on(
        sheet: *const u8,
        sheet_len: usize,
        list: *const u8,
        list_len: usize,
        delays: *const u16,
        delays_len: usize,
        run: *mut Run,
    ) -> u8;

    fn corrumai_cost(
        sheet: *const u8,
        sheet_len: usize,
        list: *const u8,
        list_len: usize,
        rates: *const u32,
        rates_len: usize,
        cents: *mut u64,
        sixtieths: *mut u64,
    ) -> u8;

    fn corrumai_newer(
        first: *const u8,
        first_len: usize,
        second: *const u8,
        second_len: usize,
        detail: *mut usize,
        which: *mut u8,
        part_len: *mut usize,
    ) -> u8;
}

fn judge(sheet: &[u8], list: &[u8]) -> (u8, usize) {
    let mut detail = 0;
    // The pointers of slices are never null, and each goes with its own length.
    let number = unsafe {
        corrumai_judge(sheet.as_ptr(), sheet.len(), list.as_ptr(), list.len(), &mut detail)
    };
    (number, detail)
}

fn write(writer: Writer, sheet: &[u8], buffer: &mut [u8]) -> (u8, usize) {
    let mut detail = 0;
    let (start, length) = (buffer.as_mut_ptr(), buffer.len());
    // As above; the buffer is lent for this call alone.
    let number = unsafe { writer(sheet.as_ptr(), sheet.len(), start, length, &mut detail) };
    (number, detail)
}

fn late(sheet: &[u8], list: &[u8], delays: &[u16]) -> (u8, usize) {
    let mut detail = 0;
    let (lengths, given) = ((sheet.len(), list.len(), delays.len()), delays.as_ptr());
    let (sheet, list) = (sheet.as_ptr(), list.as_ptr());
    // As above; the length of the delays counts numbers.
    let number =
        unsafe { corrumai_late(sheet, lengths.0, list, lengths.1, given, lengths.2, &mut detail) };
    (number, detail)
}

fn move_on(sheet: &[u8], list: &[u8], delays: &[u16], run: &mut Run) -> u8 {
    let (lengths, given) = ((sheet.len(), list.len(), delays.len()), delays.as_ptr());
    let (sheet, list) = (sheet.as_ptr(), list.as_ptr());
    // As above; the state is lent for this call alone.
    unsafe { corrumai_move_on(sheet, lengths.0, list, lengths.1, given, lengths.2, run) }
}

fn cost(sheet: &[u8], list: &[u8], rates: &[u32]) -> (u8, u64, u64) {
    let (mut cents, mut sixtieths) = (0, 0);
    let (sheet_len, list_len, rates_len) = (sheet.len(), list.len(), rates.len());
    let (sheet, list, rates) = (sheet.as_ptr(), list.as_ptr(), rates.as_ptr());
    // As above; the length of the rates counts numbers.
    let number = unsafe {
        corrumai_cost(
            sheet,
            sheet_len,
            list,
            list_len,
            rates,
            rates_len,
            &mut cents,
            &mut sixtieths,
        )
    };
    (number, cents, sixtieths)
}

fn newer(first: &[u8], second: &[u8]) -> (u8, usize, u8) {
    let (mut detail, mut which, mut part_len) = (0, 0, 0);
    let (first_len, second_len) = (first.len(), second.len());
    let (first, second) = (first.as_ptr(), second.as_ptr());
    // As above; the part is the whole sheet, so that its length says nothing more.
    let number = unsafe {
        corrumai_newer(first, first_len, second, second_len, &mut detail, &mut which, &mut part_len)
    };
    (number, detail, which)
}

fn main() -> ExitCode {
    let words: Vec<OsString> = env::args_os().skip(1).collect();
    let proved = Proved {
        plan: |sheet, buffer| write(corrumai_plan, sheet, buffer),
        judge,
        to_edition2: |sheet, buffer| write(corrumai_to_edition2, sheet, buffer),
        to_edition1: |sheet, buffer| write(corrumai_to_edition1, sheet, buffer),
        late,
        fresh: |sheet, held| unsafe { corrumai_fresh(sheet.as_ptr(), sheet.len(), held) },
        move_on,
        cost,
        newer,
    };
    shell::finish(command::run(&words, &proved))
}

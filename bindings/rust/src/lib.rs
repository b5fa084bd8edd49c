//! Run lists from job sheets: the proved planner and judge of Corrumai behind safe functions. No allocation, no std.
//! Sheets of edition 1 and 2 are read, and rewritten from one to the other.
//!
//! ```no_run
//! let sheet = [0u8; 26];
//! let mut buffer = [0u8; corrumai::LONGEST_PLAN];
//! match corrumai::plan(&sheet, &mut buffer) {
//!     Ok(list) => {
//!         assert!(corrumai::judge(&sheet, list).is_ok());
//!         // The first instance three minutes late, the second in time.
//!         let still_a_plan = corrumai::late(&sheet, list, &[3, 0]);
//!         // The first job of the sheet at 12.00 an hour, the second at 7.50.
//!         let cost = corrumai::cost(&sheet, list, &[1_200, 750]);
//!     }
//!     Err(answer) => panic!("{answer}"),
//! }
//! // Of a sheet and the one that was sent after it, the sheet that counts.
//! let corrected = [0u8; 26];
//! let counts = corrumai::newer(&sheet, &corrected);
//! ```

#![no_std]

mod answer;

pub use answer::Answer;

/// The greatest length of a well-formed sheet of either edition.
pub const LONGEST_SHEET: usize = 2_528;
/// The greatest length of a list that the planner writes.
pub const LONGEST_PLAN: usize = 644;
/// The greatest length of a list that the judge takes.
pub const LONGEST_LIST: usize = 1_284;
/// The most instances that a list names.
pub const MOST_INSTANCES: usize = 64;
/// The most ticks that an instance may be late.
pub const MOST_DELAY: u16 = 600;
/// The most jobs that a sheet has.
pub const MOST_JOBS: usize = 32;
/// The highest rate of a job, in cents per hour.
pub const MOST_RATE: u32 = 1_000_000;

/// The state of a run that is followed tick by tick: `fresh` makes one, `move_on` moves it. Any two numbers are a state.
#[repr(C)]
#[derive(Clone, Copy, Debug, PartialEq, Eq, Hash)]
pub struct Run {
    /// The tick that the next move runs: 0 in a fresh state, one more than the tick that it stands at in any other.
    pub next: u64,
    /// The facts now held: bit f is fact f.
    pub held: u64,
}

impl Run {
    /// Whether the fact is held.
    pub fn holds(self, fact: usize) -> bool {
        fact < 64 && self.held >> fact & 1 == 1
    }
}

/// What a run costs: 60 times the cents and the sixtieths are exactly the sum of minutes times rate.
#[derive(Clone, Copy, Debug, PartialEq, Eq, Hash)]
pub struct Cost {
    /// Whole cents.
    pub cents: u64,
    /// The sixtieths of a cent that are left, 0 to 59.
    pub sixtieths: u64,
}

/// The library's functions that write into a buffer.
type Writer = unsafe extern "C" fn(*const u8, usize, *mut u8, usize, *mut usize) -> u8;

// include/corrumai.h
extern "C" {
    fn corrumai_judge(
        sheet: *const u8,
        sheet_len: usize,
        list: *const u8,
        list_len: usize,
        detail: *mut usize,
    ) -> u8;

    fn corrumai_plan(
        sheet: *const u8,
        sheet_len: usize,
        buffer: *mut u8,
        buffer_len: usize,
        detail: *mut usize,
    ) -> u8;

    fn corrumai_to_edition2(
        sheet: *const u8,
        sheet_len: usize,
        buffer: *mut u8,
        buffer_len: usize,
        detail: *mut usize,
    ) -> u8;

    fn corrumai_to_edition1(
        sheet: *const u8,
        sheet_len: usize,
        buffer: *mut u8,
        buffer_len: usize,
        detail: *mut usize,
    ) -> u8;

    fn corrumai_late(
        sheet: *const u8,
        sheet_len: usize,
        list: *const u8,
        list_len: usize,
        delays: *const u16,
        delays_len: usize,
        detail: *mut usize,
    ) -> u8;

    fn corrumai_fresh(sheet: *const u8, sheet_len: usize, held: *mut u64) -> u8;

    fn corrumai_move_on(
        sheet: *const u8,
        sheet_len: usize,
        list: *const u8,
        list_len: usize,
        delays: *const u16,
        delays_len: usize,
        run: *mut Run,
    ) -> u8;

    fn corrumai_cost(
        sheet: *const u8,
        sheet_len: usize,
        list: *const u8,
        list_len: usize,
        rates: *const u32,
        rates_len: usize,
        cents: *mut u64,
        sixtieths: *mut u64,
    ) -> u8;

    fn corrumai_newer(
        first: *const u8,
        first_len: usize,
        second: *const u8,
        second_len: usize,
        detail: *mut usize,
        which: *mut u8,
        part_len: *mut usize,
    ) -> u8;
}

fn write<'b>(writer: Writer, sheet: &[u8], buffer: &'b mut [u8]) -> Result<&'b [u8], Answer> {
    let mut detail = 0;
    let (start, length) = (buffer.as_mut_ptr(), buffer.len());
    // SAFETY: each pointer goes with the length of its own slice; the buffer is lent for this call alone.
    let number = unsafe { writer(sheet.as_ptr(), sheet.len(), start, length, &mut detail) };
    match Answer::refusal(number, detail) {
        None => Ok(&buffer[..detail]),
        Some(answer) => Err(answer),
    }
}

/// The least list, at the front of the buffer; the rest of the buffer is unchanged, and all of it with another answer.
pub fn plan<'b>(sheet: &[u8], buffer: &'b mut [u8]) -> Result<&'b [u8], Answer> {
    write(corrumai_plan, sheet, buffer)
}

/// The sheet of edition 2 that says what this sheet of edition 1 says, with gap byte 1, revision 0 and releases 0. It stands
/// at the front of the buffer, as a list of `plan` does.
pub fn to_edition2<'b>(sheet: &[u8], buffer: &'b mut [u8]) -> Result<&'b [u8], Answer> {
    write(corrumai_to_edition2, sheet, buffer)
}

/// The sheet of edition 1 that says what this sheet of edition 2 says. Gap byte 0 is refused as all but 1 are: it is the
/// default, 2 minutes, and edition 1 means 1.
pub fn to_edition1<'b>(sheet: &[u8], buffer: &'b mut [u8]) -> Result<&'b [u8], Answer> {
    write(corrumai_to_edition1, sheet, buffer)
}

/// The length that the sheet's list needs.
pub fn length(sheet: &[u8]) -> Result<usize, Answer> {
    match plan(sheet, &mut []) {
        Err(Answer::BufferTooShort { needed }) => Ok(needed),
        Err(answer) => Err(answer),
        Ok(list) => Ok(list.len()),
    }
}

/// Whether the list is a plan for the sheet; why not, if it is none.
pub fn judge(sheet: &[u8], list: &[u8]) -> Result<(), Answer> {
    let mut detail = 0;
    // SAFETY: as above; nothing but the detail is written.
    let number = unsafe {
        corrumai_judge(sheet.as_ptr(), sheet.len(), list.as_ptr(), list.len(), &mut detail)
    };
    Answer::refusal(number, detail).map_or(Ok(()), Err)
}

/// Whether the list is still a plan with the delay of each instance, in entry order, added to all its times; if not, when it first
/// goes wrong (`GoesWrong`). The given list has to be a plan itself.
pub fn late(sheet: &[u8], list: &[u8], delays: &[u16]) -> Result<(), Answer> {
    let mut detail = 0;
    let (sheet_len, list_len, delays_len) = (sheet.len(), list.len(), delays.len());
    let (sheet, list, delays) = (sheet.as_ptr(), list.as_ptr(), delays.as_ptr());
    // SAFETY: as above; the length of the delays counts numbers.
    let number =
        unsafe { corrumai_late(sheet, sheet_len, list, list_len, delays, delays_len, &mut detail) };
    Answer::refusal(number, detail).map_or(Ok(()), Err)
}

/// A state before tick 0, with the initial facts.
pub fn fresh(sheet: &[u8]) -> Result<Run, Answer> {
    let mut run = Run { next: 0, held: 0 };
    // SAFETY: as above; nothing but the facts held is written.
    let number = unsafe { corrumai_fresh(sheet.as_ptr(), sheet.len(), &mut run.held) };
    Answer::refusal(number, 0).map_or(Ok(run), Err)
}

/// Moves a state on by one tick of the delayed list, also where that list is no plan; at the horizon it stays. With a refusal the
/// state is unchanged.
pub fn move_on(sheet: &[u8], list: &[u8], delays: &[u16], run: &mut Run) -> Result<(), Answer> {
    let (sheet_len, list_len, delays_len) = (sheet.len(), list.len(), delays.len());
    let (sheet, list, delays) = (sheet.as_ptr(), list.as_ptr(), delays.as_ptr());
    // SAFETY: as in `late`; the state is lent for this call alone.
    let number =
        unsafe { corrumai_move_on(sheet, sheet_len, list, list_len, delays, delays_len, run) };
    Answer::refusal(number, 0).map_or(Ok(()), Err)
}

/// What a list that the judge accepts costs: each instance from its first to its last event, at the rate of its job. The rates are in
/// cents per hour, one for each job of the sheet, in sheet order.
pub fn cost(sheet: &[u8], list: &[u8], rates: &[u32]) -> Result<Cost, Answer> {
    let mut cost = Cost { cents: 0, sixtieths: 0 };
    let Cost { cents, sixtieths } = &mut cost;
    let (sheet_len, list_len, rates_len) = (sheet.len(), list.len(), rates.len());
    let (sheet, list, rates) = (sheet.as_ptr(), list.as_ptr(), rates.as_ptr());
    // SAFETY: as in `late`; nothing but the two numbers is written.
    let number = unsafe {
        corrumai_cost(sheet, sheet_len, list, list_len, rates, rates_len, cents, sixtieths)
    };
    Answer::refusal(number, 0).map_or(Ok(cost), Err)
}

/// Of two sheets of edition 2 the one with the higher revision, the first where both have the same bytes: that very slice,
/// not a copy. The same revision with other bytes is refused, and so is a sheet of edition 1.
pub fn newer<'a>(first: &'a [u8], second: &'a [u8]) -> Result<&'a [u8], Answer> {
    let (mut detail, mut which, mut part_len) = (0, 0, 0);
    let (one, other) = (first.as_ptr(), second.as_ptr());
    let (stored, place, length) = (&mut detail, &mut which, &mut part_len);
    // SAFETY: as in `judge`; nothing but the three numbers is written.
    let number =
        unsafe { corrumai_newer(one, first.len(), other, second.len(), stored, place, length) };
    let sheet = if which == 1 { second } else { first };
    Answer::refusal(number, detail).map_or(Ok(&sheet[..part_len]), Err)
}

//! The table of answers: what each number means, in plain words. A later answer gets a row here.

use crate::layout::HOUR;

/// Who can give an answer.
#[derive(Clone, Copy, Debug, PartialEq, Eq)]
pub enum Giver {
    Planner,
    /// And all that ask it first: late starts, moving a run on, and what a run costs.
    Judge,
    /// Rewriting to edition 1.
    Back,
    /// What a run costs.
    Cost,
    /// Which of two sheets counts.
    Newer,
    /// All that write into a buffer: the planner, and both ways of rewriting.
    Writers,
    All,
}

pub struct Row {
    pub number: u8,
    pub giver: Giver,
    /// What the detail is; nothing if it is always 0.
    pub detail: &'static str,
    pub meaning: &'static str,
}

const fn row(number: u8, giver: Giver, detail: &'static str, meaning: &'static str) -> Row {
    Row { number, giver, detail, meaning }
}

pub const ROWS: [Row; 16] = [
    row(0, Giver::All, "the length of the list", "there is a plan"),
    row(1, Giver::Planner, "", "no plan exists"),
    row(10, Giver::All, "", "the contents of the sheet are not as they should be"),
    row(11, Giver::All, "", "the facts of the sheet are not as they should be"),
    row(12, Giver::All, "", "the jobs of the sheet are not as they should be"),
    row(13, Giver::All, "", "the events of the sheet are not as they should be"),
    row(14, Giver::All, "", "the bounds of the sheet are not as they should be"),
    row(20, Giver::Planner, "the fact's number", "two jobs set a fact that is wanted"),
    row(21, Giver::Planner, "the fact's number", "a wanted fact's sets and clears have no order"),
    row(22, Giver::Planner, "the fact's number", "the sets and clears of a fact have no order"),
    row(30, Giver::Writers, "the length needed", "there is a plan, longer than the buffer"),
    row(40, Giver::Judge, "", "this is no list for the sheet"),
    row(41, Giver::Judge, "", "the list is not a plan"),
    row(50, Giver::Back, "", "edition 1 cannot say what the sheet says"),
    row(51, Giver::Cost, "", "a rate is too high, or the rates are not one for each job"),
    row(56, Giver::Newer, "", "the two sheets have the same revision and other bytes"),
];

/// What the number means.
pub fn meaning(number: u8) -> &'static str {
    let found = ROWS.iter().find(|row| row.number == number);
    found.map_or("an answer that this program does not know", |row| row.meaning)
}

/// The planner's answer in a word or two, for a line among many.
pub fn short(number: u8) -> &'static str {
    match number {
        0 => "plan",
        1 => "no plan",
        10..=14 => "no sheet",
        20..=22 => "outside the class",
        30 => "buffer too short",
        _ => meaning(number),
    }
}

/// What the detail of an answer with this number is; empty if it is always 0.
pub fn detail(number: u8) -> &'static str {
    ROWS.iter().find(|row| row.number == number).map_or("", |row| row.detail)
}

/// A number and its detail, as the library returns them.
#[derive(Clone, Copy, Debug, PartialEq, Eq)]
pub struct Answer {
    pub number: u8,
    pub detail: usize,
}

impl std::fmt::Display for Answer {
    fn fmt(&self, out: &mut std::fmt::Formatter) -> std::fmt::Result {
        write!(out, "ANSWER {} {}", self.number, self.detail)
    }
}

/// What a run list costs: whole cents, and the sixtieths of a cent that are left, below 60.
#[derive(Clone, Copy, Debug, PartialEq, Eq)]
pub struct Cost {
    pub cents: u64,
    pub sixtieths: u64,
}

impl Cost {
    /// The cost of this sum of minutes times rate.
    pub fn of(sum: u64) -> Cost {
        Cost { cents: sum / HOUR, sixtieths: sum % HOUR }
    }
}

impl std::fmt::Display for Cost {
    fn fmt(&self, out: &mut std::fmt::Formatter) -> std::fmt::Result {
        write!(out, "COST {} {}", self.cents, self.sixtieths)
    }
}

/// A function of the library that writes into a buffer: number and detail.
pub type Writer = fn(&[u8], &mut [u8]) -> (u8, usize);

/// The library's function that tries a list with delays: number and detail.
pub type Trier = fn(&[u8], &[u8], &[u16]) -> (u8, usize);

/// The library's function for what a run list costs at these rates: number, cents and sixtieths.
pub type Biller = fn(&[u8], &[u8], &[u32]) -> (u8, u64, u64);

/// The library's function for which of two sheets counts: number, detail, and 0 for the first or 1 for the second.
pub type Chooser = fn(&[u8], &[u8]) -> (u8, usize, u8);

/// The state of a run: the tick that the next move runs, and the facts held, bit f for fact f.
#[repr(C)]
#[derive(Clone, Copy, Debug, Default, PartialEq, Eq)]
pub struct Run {
    pub next: u64,
    pub held: u64,
}

/// The library's functions: the program links them, tests bring their own link.
#[derive(Clone, Copy)]
pub struct Proved {
    pub plan: Writer,
    pub judge: fn(&[u8], &[u8]) -> (u8, usize),
    pub to_edition2: Writer,
    pub to_edition1: Writer,
    pub late: Trier,
    pub fresh: fn(&[u8], &mut u64) -> u8,
    pub move_on: fn(&[u8], &[u8], &[u16], &mut Run) -> u8,
    pub cost: Biller,
    pub newer: Chooser,
}

/// The answer with a buffer of this many bytes, and what was written.
pub fn written(writer: Writer, sheet: &[u8], room: usize) -> (Answer, Vec<u8>) {
    let mut buffer = vec![0; room];
    let (number, detail) = writer(sheet, &mut buffer);
    buffer.truncate(if number == 0 { detail } else { 0 });
    (Answer { number, detail }, buffer)
}

impl Proved {
    /// The planner's answer with a buffer of this many bytes, and the list if there is one.
    pub fn plan(&self, sheet: &[u8], room: usize) -> (Answer, Vec<u8>) {
        written(self.plan, sheet, room)
    }

    pub fn judge(&self, sheet: &[u8], list: &[u8]) -> Answer {
        let (number, detail) = (self.judge)(sheet, list);
        Answer { number, detail }
    }

    pub fn late(&self, sheet: &[u8], list: &[u8], delays: &[u16]) -> Answer {
        let (number, detail) = (self.late)(sheet, list, delays);
        Answer { number, detail }
    }

    /// What the list costs at these rates, or the answer that refuses it, whose detail is 0.
    pub fn cost(&self, sheet: &[u8], list: &[u8], rates: &[u32]) -> Result<Cost, Answer> {
        match (self.cost)(sheet, list, rates) {
            (0, cents, sixtieths) => Ok(Cost { cents, sixtieths }),
            (number, ..) => Err(Answer { number, detail: 0 }),
        }
    }

    /// The place of the sheet that counts, 0 or 1, or the answer that refuses them.
    pub fn newer(&self, first: &[u8], second: &[u8]) -> Result<usize, Answer> {
        match (self.newer)(first, second) {
            (0, _, which) => Ok(usize::from(which == 1)),
            (number, detail, _) => Err(Answer { number, detail }),
        }
    }

    /// The states of a run of the delayed list, from a fresh one until it stays; none where it is refused.
    pub fn states(&self, sheet: &[u8], list: &[u8], delays: &[u16]) -> Vec<Run> {
        let mut run = Run::default();
        let mut states = Vec::new();
        let mut number = (self.fresh)(sheet, &mut run.held);
        while number == 0 && states.last() != Some(&run) {
            states.push(run);
            number = (self.move_on)(sheet, list, delays, &mut run);
        }
        if number == 0 {
            states
        } else {
            Vec::new()
        }
    }
}

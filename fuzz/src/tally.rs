//! What was compared, by answer.

use crate::input::FAMILIES;
use crate::product::{Billed, Late, Routine};
use corrumai_tests::late_model::Tried;
use corrumai_tests::newer_model::Verdict;
use std::collections::BTreeMap;
use std::fs;
use std::path::Path;

#[derive(Default)]
pub struct Tally {
    pub inputs: usize,
    pub families: [usize; FAMILIES.len()],
    /// Sheets by the planner's answer before it looks at the buffer.
    pub verdicts: BTreeMap<u8, usize>,
    /// Sheets whose first byte says edition 2.
    pub of_edition_2: usize,
    /// Well-formed sheets with several bounds of some pair.
    pub repeated: usize,
    /// Well-formed sheets with absent jobs, by the planner's answer before it looks at the buffer.
    pub absent: BTreeMap<u8, usize>,
    /// Calls of the product that were compared, by routine and answer.
    pub writes: BTreeMap<Routine, BTreeMap<u8, usize>>,
    pub judged: BTreeMap<u8, usize>,
    /// Delayed lists by answer, those that fail also by what comes first, and moves by answer.
    pub late: BTreeMap<u8, usize>,
    pub faults: BTreeMap<String, usize>,
    pub moved: BTreeMap<u8, usize>,
    /// Moves that changed the facts.
    pub changed: usize,
    /// Lists with rates by answer, and those that cost something.
    pub costs: BTreeMap<u8, usize>,
    pub dear: usize,
    /// Pairs of sheets by what is said of them.
    pub pairs: BTreeMap<Verdict, usize>,
    /// Least lists that were judged.
    pub least_judged: usize,
    /// Bytes of lists and sheets that were compared, and bytes that had to stay as they were.
    pub written: usize,
    pub kept: usize,
    slowest: u64,
    slowest_sheet: Vec<u8>,
}

impl Tally {
    /// Whether a call of this length is the longest so far.
    pub fn is_slowest(&self, took: u64) -> bool {
        took > self.slowest
    }

    pub fn note_slowest(&mut self, took: u64, sheet: &[u8]) {
        if self.is_slowest(took) {
            self.slowest = took;
            self.slowest_sheet = sheet.to_vec();
        }
    }

    /// `tried` if neither list nor delays are refused.
    pub fn note_late(&mut self, late: &Late, tried: Option<&Tried>) {
        *self.late.entry(late.answer.0).or_default() += 1;
        *self.moved.entry(late.moved.0).or_default() += 1;
        self.changed += usize::from(late.moved.1.held != late.from.held);
        if let Some(tried) = tried.filter(|_| late.answer.0 != 0) {
            let kinds = match tried.cause() {
                Some(cause) => vec![format!("{cause:?}")],
                None => tried.first_kinds().iter().map(|kind| format!("{kind:?}")).collect(),
            };
            kinds.into_iter().for_each(|kind| *self.faults.entry(kind).or_default() += 1);
        }
    }

    pub fn note_cost(&mut self, billed: &Billed) {
        let (number, bill) = billed.answer;
        *self.costs.entry(number).or_default() += 1;
        self.dear += usize::from(bill.cents + bill.sixtieths > 0);
    }

    pub fn print(&self) {
        let list = |counts: &BTreeMap<u8, usize>| {
            let counts = counts.iter().map(|(answer, count)| format!("{answer}: {count}"));
            counts.collect::<Vec<_>>().join(", ")
        };
        let total = |counts: &BTreeMap<u8, usize>| counts.values().sum::<usize>();
        let families = FAMILIES.iter().zip(self.families);
        let families: Vec<String> =
            families.map(|(name, count)| format!("{name} {count}")).collect();
        println!("fuzz: {} executions: {}", self.inputs, families.join(", "));
        println!("fuzz: sheets by answer: {}", list(&self.verdicts));
        println!("fuzz: {} sheets of edition 2", self.of_edition_2);
        println!("fuzz: {} sheets with several bounds of a pair", self.repeated);
        println!("fuzz: {} sheets with absent jobs: {}", total(&self.absent), list(&self.absent));
        for (routine, counts) in &self.writes {
            println!("fuzz: {} calls of {routine:?}: {}", total(counts), list(counts));
        }
        println!("fuzz: {} calls of Judge: {}", total(&self.judged), list(&self.judged));
        println!("fuzz: {} delayed lists: {}", total(&self.late), list(&self.late));
        println!("fuzz: of these by what goes wrong: {:?}", self.faults);
        println!(
            "fuzz: {} moves: {}; {} changed the facts",
            total(&self.moved),
            list(&self.moved),
            self.changed
        );
        println!(
            "fuzz: {} lists with rates: {}; {} cost something",
            total(&self.costs),
            list(&self.costs),
            self.dear
        );
        println!("fuzz: {} pairs of sheets: {:?}", self.pairs.values().sum::<usize>(), self.pairs);
        println!(
            "fuzz: {} least lists judged, {} bytes written and compared, {} bytes that stayed",
            self.least_judged, self.written, self.kept
        );
        println!(
            "fuzz: dearest call of corrumai_plan: {} thousand clock ticks",
            self.slowest / 1000
        );
    }

    /// The sheet of the dearest call, to be counted in instructions.
    pub fn save_slowest(&self, folder: &Path) {
        if !self.slowest_sheet.is_empty() {
            // Only advice: a folder that cannot be written is no fault of the product.
            let _ = fs::write(folder.join("dearest.sheet"), &self.slowest_sheet);
        }
    }
}

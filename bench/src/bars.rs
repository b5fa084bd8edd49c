//! What a row of the table is held to.

use corrumai_tests::cases::ordinary;
use std::collections::BTreeMap;
use std::fmt;

/// Instructions of one call: of the product, of the product with the same sheet in edition 2, and of Rust. Where a list is
/// delayed, those of the product's judge on it stand in the place of Rust's.
pub struct Cost {
    pub product: u64,
    pub again: Option<u64>,
    pub rust: u64,
    /// The judge's on the delayed list.
    pub delayed: Option<u64>,
}

impl Cost {
    /// For each instruction of Rust's.
    pub fn ratio(&self) -> f64 {
        self.product as f64 / self.rust as f64
    }

    /// In edition 2, for each instruction in edition 1.
    pub fn more(&self) -> f64 {
        self.again.unwrap_or(self.product) as f64 / self.product as f64
    }
}

/// On the product's instructions of one call.
#[derive(Clone, Copy)]
pub enum Limit {
    Most(u64),
    /// So many for each instruction of Rust's.
    Ratio(f64),
    /// So many for each instruction of the product's judge on the same list.
    Judge(f64),
    /// No more than the judge takes for the list and for the delayed one together.
    BothJudges,
    /// No more than the plan of this name takes in the same run.
    Than(&'static str),
}

use Limit::{BothJudges, Judge, Most, Ratio, Than};

/// The product's instructions for the plans of a run, by name.
pub type Plans = BTreeMap<String, u64>;

pub type Bars = &'static [Limit];

/// The same sheet in edition 2, for each instruction in edition 1.
const EDITION_2: f64 = 1.05;

// Numbers in edition 1 are at most 3 % above those of the planner that read no other.
pub const SMALL: Bars = &[Most(47_300), Ratio(1.0)];
pub const FULL: Bars = &[Most(160_000), Ratio(1.0)];
pub const CLASS: Bars = &[Most(124_800), Ratio(1.0)];
pub const CHAIN: Bars = &[Most(129_200)];
pub const HOSTILE: Bars = &[Most(7_670_000)];
/// Hostile sheets with gaps and releases.
pub const SETTLED: Bars = &[Most(10_000_000)];
/// Hostile sheets with several bounds of some pairs.
pub const REPEATED: Bars = &[Most(10_000_000)];
/// Ordinary sheets with half of their jobs retired.
pub const HALF_RETIRED: Bars = &[Than(ordinary::FULL)];
/// Hostile sheets with absent jobs.
pub const RETIRED: Bars = &[Most(10_000_000)];
pub const REWRITING: Bars = &[Most(60_000)];
/// The judge on the least lists of ordinary sheets, and on long lists.
pub const LEAST_LIST: Bars = &[Ratio(1.0)];
pub const LONG_LIST: Bars = &[Ratio(1.6)];
pub const NONE: Bars = &[];
/// A delayed list, and a move of its run.
pub const LATE: Bars = &[Judge(2.5), Most(2_000_000)];
/// Delays that make an easy list a dear one.
pub const LATE_AND_DEAR: Bars = &[Judge(2.5), BothJudges, Most(2_000_000)];
pub const MOVE_ON: Bars = &[Judge(1.4), Most(2_000_000)];
/// What a list costs.
pub const COST: Bars = &[Judge(1.3)];
/// Which of two sheets counts.
pub const NEWER: Bars = &[Most(100_000), Ratio(1.2)];
/// The same of sheets that have nothing but marks: each is read as if it might lie behind the end.
pub const NEWER_MARKS: Bars = &[Most(100_000), Ratio(1.5)];

impl Limit {
    fn met(&self, cost: &Cost, plans: &Plans) -> bool {
        match self {
            Most(most) => cost.product <= *most,
            Ratio(most) | Judge(most) => cost.ratio() <= *most,
            BothJudges => cost.product <= cost.rust + cost.delayed.unwrap_or(0),
            Than(name) => cost.product <= plans[*name],
        }
    }
}

impl fmt::Display for Limit {
    fn fmt(&self, to: &mut fmt::Formatter) -> fmt::Result {
        match self {
            Most(most) => write!(to, "{most}"),
            Ratio(most) => write!(to, "{most:.1} Rust"),
            Judge(most) => write!(to, "{most:.1} judge"),
            BothJudges => write!(to, "both judges"),
            Than(name) => write!(to, "{name}"),
        }
    }
}

pub fn kept(bars: Bars, cost: &Cost, plans: &Plans) -> bool {
    bars.iter().all(|limit| limit.met(cost, plans)) && cost.more() <= EDITION_2
}

pub fn list(bars: Bars) -> String {
    let limits: Vec<String> = bars.iter().map(Limit::to_string).collect();
    match limits.is_empty() {
        true => String::from("none"),
        false => limits.join(", "),
    }
}

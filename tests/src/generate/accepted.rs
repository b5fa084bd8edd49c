//! Lists that the judge accepts, of both editions and made in several ways.

use super::planned::{self, Size, LARGE, LARGE_2, SMALL};
use super::{cycles, large, tiny, Pair};
use crate::brute;
use crate::build::list_of_instances;
use crate::model::list::{self, Instance};
use crate::model::plan;
use crate::model::sheet::{self, Sheet};
use crate::rng::Rng;

/// Bytes of a sheet, and of a list that is a plan for it.
pub type Listed = (Vec<u8>, Vec<u8>);

/// A sheet with an accepted list, as the model reads them.
pub struct Accepted {
    pub sheet: Vec<u8>,
    pub list: Vec<u8>,
    pub said: Sheet,
    pub plan: Vec<Instance>,
}

impl Accepted {
    /// If the model's judge accepts the list.
    pub fn new((sheet, list): Listed) -> Option<Accepted> {
        let said = sheet::read(&sheet).ok()?;
        let plan = list::read(&said, &list)?;
        plan::is_plan(&said, &plan).then_some(Accepted { sheet, list, said, plan })
    }

    pub fn horizon(&self) -> u64 {
        self.said.horizon as u64
    }

    /// A list that is no plan: its last time lies above every horizon.
    pub fn with_a_time_above(&self) -> Vec<u8> {
        let kept = self.list.len().saturating_sub(2).max(4);
        [&self.list[..kept], &[255, 255]].concat()
    }

    /// Sheet and list, with what else went into a call.
    pub fn shown(&self, more: &str) -> String {
        format!("sheet {:02x?}\nlist {:02x?}\n{more}", self.sheet, self.list)
    }
}

/// How large the lists of an edition are.
struct Sizes {
    small: Size,
    /// Few jobs and facts, so that most entries have twins.
    twins: Size,
    large: Size,
}

fn sizes(edition: u8) -> Sizes {
    let gap = (edition == 2).then_some(5);
    Sizes {
        small: Size { gap, ..SMALL },
        twins: Size { facts: 2, jobs: 2, entries: 8, span: 30, gap, ..SMALL },
        large: if edition == 2 { LARGE_2 } else { LARGE },
    }
}

/// A way to accepted lists of an edition.
pub type Family = fn(&mut Rng, u8) -> Option<Listed>;

/// Each with its name, and how many lists are tried of it.
pub const FAMILIES: [(&str, Family, usize); 7] = [
    ("in turn", in_turn, 3_000),
    ("small", small, 1_500),
    ("twins", twins, 1_500),
    ("crowded", crowded, 600),
    ("least", least, 1_500),
    ("drawn", drawn, 1_500),
    ("large", large, 60),
];

/// A plan before it is bytes, of the small size.
pub fn small_pair(rng: &mut Rng, edition: u8) -> Pair {
    planned::plan(rng, sizes(edition).small)
}

pub fn small(rng: &mut Rng, edition: u8) -> Option<Listed> {
    let pair = small_pair(rng, edition);
    Some(with_room(rng, pair))
}

pub fn twins(rng: &mut Rng, edition: u8) -> Option<Listed> {
    let pair = planned::plan(rng, sizes(edition).twins);
    Some(with_room(rng, pair))
}

/// Often with a longer horizon: a plan stays one.
fn with_room(rng: &mut Rng, mut pair: Pair) -> Listed {
    let more = *rng.pick(&[0, 3, 12, 40]);
    pair.spec.horizon = (pair.spec.horizon + more).min(10_080);
    pair.bytes()
}

/// Facts set, needed and cleared in turn.
pub fn in_turn(rng: &mut Rng, edition: u8) -> Option<Listed> {
    let gap = rng.below(6) as u8;
    Some(cycles::plan(rng, (edition == 2).then_some(gap)).bytes())
}

fn crowded(rng: &mut Rng, edition: u8) -> Option<Listed> {
    let pair = small_pair(rng, edition);
    Some(planned::crowded(rng, &pair).bytes())
}

fn large(rng: &mut Rng, edition: u8) -> Option<Listed> {
    Some(planned::plan(rng, sizes(edition).large).bytes())
}

/// The product's own list. Inline, as all that plans.
#[inline]
fn least(rng: &mut Rng, edition: u8) -> Option<Listed> {
    let big = rng.chance(10);
    let spec = match (edition, big) {
        (1, false) => tiny::sheet(rng),
        (1, true) => large::sheet(rng),
        (_, false) => tiny::sheet_2(rng),
        (_, true) => large::sheet_2(rng),
    };
    let sheet = spec.bytes();
    let mut buffer = vec![0; 1_024];
    let (number, length) = crate::plan(&sheet, &mut buffer);
    (number == 0 && length > 4).then(|| (sheet, buffer[..length].to_vec()))
}

/// Some of all instances of a tiny sheet, some of them twice.
fn drawn(rng: &mut Rng, edition: u8) -> Option<Listed> {
    let spec = if edition == 1 { tiny::sheet(rng) } else { tiny::sheet_2(rng) };
    let sheet = spec.bytes();
    let said = sheet::read(&sheet).expect("the generator writes well-formed sheets");
    let all = brute::instances(&said, 400)?;
    for _ in 0..if all.is_empty() { 0 } else { 60 } {
        let some: Vec<Instance> = (0..1 + rng.below(5)).map(|_| rng.pick(&all).clone()).collect();
        if plan::is_plan(&said, &some) {
            return Some((sheet, list_of_instances(&said, &some)));
        }
    }
    None
}

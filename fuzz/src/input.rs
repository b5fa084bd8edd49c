//! From the fuzzer's bytes to a sheet, a list and a buffer.
//!
//! Byte 0 is the family, byte 1 the buffer's room, byte 2 its filling, bytes 3 to 5 say how a good list
//! is twisted, bytes 6 to 11 how a list is delayed and which state of its run is moved on, bytes 12 to 15 what
//! the rates of its jobs are, bytes 16 to 19 how the sheet is corrected and sent again. In the raw family two
//! bytes follow with the sheet's length, then sheet and list as they are. In the others four bytes of seed
//! follow, and the rest is a tape that makes the generator's choices before the seed does.

use crate::shape::change;
use corrumai_tests::build::{list_of_instances, Spec};
use corrumai_tests::cases::{self, examples, hostile, ordinary, rewriting};
use corrumai_tests::generate::planned::{self, LARGE, LARGE_2, SMALL, SMALL_2};
use corrumai_tests::generate::{cycles, damage, large, near, retire, tiny, Pair};
use corrumai_tests::model::{list, sheet};
use corrumai_tests::rng::Rng;
use std::sync::OnceLock;

pub const HEAD: usize = 20;
pub const FAMILIES: [&str; 9] = [
    "raw bytes",
    "tiny",
    "large",
    "any small",
    "plan and near miss",
    "crowded list",
    "any large",
    "in turn",
    "shelf, changed",
];

pub const RAW: u8 = 0;

pub struct Trial {
    pub family: usize,
    pub sheet: Vec<u8>,
    pub list: Vec<u8>,
    /// The buffer's length where no list is due, and how much longer than the list it is else.
    pub room: usize,
    pub salt: u8,
    pub twist: [u8; 3],
    pub late: [u8; 6],
    pub rates: [u8; 4],
    pub again: [u8; 4],
}

impl Trial {
    /// What makes the choices for delays and states.
    pub fn for_delays(&self) -> Rng {
        choices(&self.late)
    }

    /// What makes the choices for rates.
    pub fn for_rates(&self) -> Rng {
        choices(&self.rates)
    }

    /// What makes the choices for a sheet sent again.
    pub fn for_again(&self) -> Rng {
        choices(&self.again)
    }
}

/// By these bytes first, then by the number that they are.
fn choices(bytes: &[u8]) -> Rng {
    let seed = bytes.iter().fold(1, |seed, byte| 256 * seed + u64::from(*byte));
    Rng::with_tape(seed, bytes)
}

pub fn read(bytes: &[u8]) -> Trial {
    let at = |place: usize| bytes.get(place).copied().unwrap_or(0);
    let family = usize::from(at(0)) % FAMILIES.len();
    let rest = bytes.get(HEAD..).unwrap_or(&[]);
    let (sheet, list) =
        if family == usize::from(RAW) { split(rest) } else { generated(family, rest) };
    Trial {
        family,
        sheet,
        list,
        room: usize::from(at(1)) * 8,
        salt: at(2),
        twist: [at(3), at(4), at(5)],
        late: [6, 7, 8, 9, 10, 11].map(at),
        rates: [12, 13, 14, 15].map(at),
        again: [16, 17, 18, 19].map(at),
    }
}

/// The raw input that says the same.
pub fn raw(head: &[u8], sheet: &[u8], list: &[u8]) -> Vec<u8> {
    let mut bytes = vec![RAW];
    bytes.extend((1..HEAD).map(|place| head.get(place).copied().unwrap_or(0)));
    bytes.extend((sheet.len().min(0xFFFF) as u16).to_le_bytes());
    bytes.extend(sheet);
    bytes.extend(list);
    bytes
}

fn split(rest: &[u8]) -> (Vec<u8>, Vec<u8>) {
    let Some((length, both)) = rest.split_at_checked(2) else {
        return (rest.to_vec(), Vec::new());
    };
    let length = usize::from(u16::from_le_bytes([length[0], length[1]])).min(both.len());
    (both[..length].to_vec(), both[length..].to_vec())
}

fn generated(family: usize, rest: &[u8]) -> (Vec<u8>, Vec<u8>) {
    let (seed, tape) = rest.split_at(rest.len().min(4));
    let seed = seed.iter().fold(0, |seed, byte| 256 * seed + u64::from(*byte));
    let rng = &mut Rng::with_tape(seed, tape);
    let new = rng.chance(50);
    let (small, big) = if new { (SMALL_2, LARGE_2) } else { (SMALL, LARGE) };
    match family {
        1 if new => sometimes_retired(tiny::sheet_2(rng), rng),
        1 => sometimes_retired(tiny::sheet(rng), rng),
        2 if new => sometimes_retired(large::sheet_2(rng), rng),
        2 => sometimes_retired(large::sheet(rng), rng),
        3 => paired(planned::any(rng, small), rng),
        4 => near_a_plan(planned::plan(rng, small), rng),
        5 => {
            let pair = planned::plan(rng, small);
            near_a_plan(planned::crowded(rng, &pair), rng)
        }
        6 => paired(planned::any(rng, big), rng),
        7 => {
            let gap = rng.below(7) as u8;
            near_a_plan(cycles::plan(rng, new.then_some(gap)), rng)
        }
        _ => {
            let mut spec = rng.pick(shelf()).clone();
            for _ in 0..rng.below(7) {
                change(rng, &mut spec);
            }
            alone(spec, rng)
        }
    }
}

/// In one of four sheets some jobs are retired.
fn sometimes_retired(mut spec: Spec, rng: &mut Rng) -> (Vec<u8>, Vec<u8>) {
    if rng.chance(25) {
        retire::retire(rng, &mut spec);
    }
    alone(spec, rng)
}

/// A sheet with an empty list: the planner's own lists are judged anyway.
fn alone(spec: Spec, rng: &mut Rng) -> (Vec<u8>, Vec<u8>) {
    (sheet_bytes(&spec, rng), vec![1, 0, 0, 0])
}

fn paired(pair: Pair, rng: &mut Rng) -> (Vec<u8>, Vec<u8>) {
    let (_, list) = pair.bytes();
    (sheet_bytes(&pair.spec, rng), list)
}

fn near_a_plan(pair: Pair, rng: &mut Rng) -> (Vec<u8>, Vec<u8>) {
    if rng.chance(40) {
        paired(pair, rng)
    } else {
        near::miss(rng, &pair)
    }
}

/// The sheet's bytes, in one of six with some of them damaged.
fn sheet_bytes(spec: &Spec, rng: &mut Rng) -> Vec<u8> {
    match rng.below(60) {
        0..=8 => damage::damaged(rng, spec),
        9 => {
            let mut bodies = spec.bodies();
            let body = bodies.part(rng.below(4));
            body.resize(body.len() + rng.below(70_000), rng.number() as u8);
            bodies.bytes()
        }
        _ => spec.bytes(),
    }
}

/// Sheets worth changing: document 01's, ordinary ones, hostile ones, and cases worked out by hand.
pub fn shelf() -> &'static [Spec] {
    static SHELF: OnceLock<Vec<Spec>> = OnceLock::new();
    SHELF.get_or_init(|| {
        let mut all = vec![examples::p1(9), examples::p5(), examples::p6(6, true), examples::p9()];
        all.extend([0, 1, 3].map(|gap| examples::p1(15).with_gap(gap).released(&[gap.into()])));
        all.push(examples::p6(8, true).with_gap(2));
        all.extend([
            ordinary::small(),
            ordinary::full(),
            ordinary::half_wanted(),
            ordinary::too_short(),
        ]);
        let hostile_ones = [hostile::sheets(), hostile::settled(), hostile::repeated()].concat();
        let ordinary_ones = [ordinary::repeated(), ordinary::half_retired()].concat();
        all.extend(hostile_ones.into_iter().chain(ordinary_ones).map(|(_, spec)| spec));
        all.extend(hostile::retired().into_iter().map(|(_, spec, _)| spec));
        let lists = hostile::lists().into_iter().chain(hostile::repeated_lists());
        all.extend(lists.map(|(_, spec, _)| spec));
        let by_hand = cases::planned().into_iter().map(|case| case.sheet);
        let by_hand = by_hand.chain(cases::all().into_iter().map(|case| case.sheet));
        let by_hand = by_hand.chain(rewriting::to_edition_1().into_iter().map(|case| case.sheet));
        all.extend(
            by_hand.filter_map(|bytes| sheet::read(&bytes).ok()).map(|sheet| Spec::of(&sheet)),
        );
        all
    })
}

/// A good list with one small change: a tick moved, an entry repeated or dropped, or a byte changed.
pub fn twisted(sheet: &[u8], good: &[u8], twist: [u8; 3]) -> Vec<u8> {
    let sheet = sheet::read(sheet).expect("a list was made for it");
    let mut plan = list::read(&sheet, good).expect("the list is good");
    let [what, place, value] = twist.map(usize::from);
    match what % 4 {
        0 if !plan.is_empty() => {
            let count = plan.len();
            let times = &mut plan[value % count].times;
            let wanted = place % times.len().max(1);
            if let Some(tick) = times.get_mut(wanted) {
                *tick += [-1, 1, -2, 40][what / 4 % 4];
            }
        }
        1 if !plan.is_empty() => {
            let again = plan[place % plan.len()].clone();
            plan.insert(value % (plan.len() + 1), again);
        }
        2 if !plan.is_empty() => {
            plan.remove(place % plan.len());
        }
        _ => {
            let mut bytes = good.to_vec();
            let place = (256 * place + what) % bytes.len();
            bytes[place] ^= value as u8;
            return bytes;
        }
    }
    list_of_instances(&sheet, &plan)
}

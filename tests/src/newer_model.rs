//! Request N11 of document 02, "which sheet counts", from its words.

use crate::model::sheet::{read_in, Edition, Sheet};
use crate::Handed;
use std::cmp::Ordering;

/// The edition that has revisions.
pub const EDITION: u8 = 2;

/// What is said of two sheets.
#[derive(Clone, Copy, Debug, PartialEq, Eq, PartialOrd, Ord)]
pub enum Verdict {
    FirstHigher,
    SecondHigher,
    SameBytes,
    OtherBytes,
    /// With its number.
    BadFirst(u8),
    BadSecond(u8),
}

use Verdict::{BadFirst, BadSecond, FirstHigher, OtherBytes, SameBytes, SecondHigher};

impl Verdict {
    pub fn number(self) -> u8 {
        match self {
            BadFirst(number) | BadSecond(number) => number,
            OtherBytes => 56,
            FirstHigher | SecondHigher | SameBytes => 0,
        }
    }

    /// That very sheet, or an empty part.
    pub fn part<'a>(self, first: &'a [u8], second: &'a [u8]) -> &'a [u8] {
        match self {
            FirstHigher | SameBytes => first,
            SecondHigher => second,
            OtherBytes | BadFirst(_) | BadSecond(_) => &[],
        }
    }

    /// What is stored.
    pub fn handed(self, first: &[u8], second: &[u8]) -> Handed {
        let part_len = self.part(first, second).len();
        Handed { detail: 0, which: u8::from(self == SecondHigher), part_len }
    }
}

/// How it is decided. A value, so that tests can make wrong programs.
#[derive(Clone, Copy)]
pub struct Manner {
    /// The revision of a sheet, or its number.
    pub read: fn(&[u8]) -> Result<u16, u8>,
    /// The revision of the first sheet beside that of the second.
    pub compare: fn(u16, u16) -> Ordering,
    /// Whether sheets of one revision have the same bytes.
    pub same: fn(&[u8], &[u8]) -> bool,
    /// What is said of these sheets in place of this.
    pub says: fn(&[u8], &[u8], Verdict) -> Verdict,
    pub number: fn(Verdict) -> u8,
    /// What is stored where this is due, by the verdict and by what stood there.
    pub stores: fn(Verdict, Handed, Handed) -> Handed,
}

/// That of the document.
pub const RIGHT: Manner = Manner {
    read: |bytes| read_in(EDITION, bytes).map(|sheet| revision(&sheet)),
    compare: |one, other| one.cmp(&other),
    same: |first, second| first == second,
    says: |_, _, verdict| verdict,
    number: Verdict::number,
    stores: |_, due, _| due,
};

/// A sheet of edition 1 has none, which is taken for 0.
pub fn revision(sheet: &Sheet) -> u16 {
    match sheet.edition {
        Edition::One => 0,
        Edition::Two { revision, .. } => revision,
    }
}

pub fn verdict(first: &[u8], second: &[u8]) -> Verdict {
    verdict_by(first, second, &RIGHT)
}

fn verdict_by(first: &[u8], second: &[u8], manner: &Manner) -> Verdict {
    let due = match ((manner.read)(first), (manner.read)(second)) {
        (Err(number), _) => BadFirst(number),
        (_, Err(number)) => BadSecond(number),
        (Ok(one), Ok(other)) => match (manner.compare)(one, other) {
            Ordering::Greater => FirstHigher,
            Ordering::Less => SecondHigher,
            Ordering::Equal if (manner.same)(first, second) => SameBytes,
            Ordering::Equal => OtherBytes,
        },
    };
    (manner.says)(first, second, due)
}

/// Number, and what is stored over what stood there, by any manner.
pub fn newer_by(first: &[u8], second: &[u8], from: Handed, manner: &Manner) -> (u8, Handed) {
    let verdict = verdict_by(first, second, manner);
    let due = verdict.handed(first, second);
    ((manner.number)(verdict), (manner.stores)(verdict, due, from))
}

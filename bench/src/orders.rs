//! Wanted facts and jobs, and the orders that are shown.

use crate::bits::bits;
use crate::own::Own;
use crate::raise::Raise;
use crate::sheet::{Sheet, CLEARS, ENDS, SETS};

pub struct Wanted {
    pub facts: u64,
    pub jobs: u32,
    /// The wanted jobs, setters before those that need what they set, as far as that goes.
    pub order: Vec<u8>,
}

pub fn wanted(sheet: &Sheet) -> Wanted {
    let mut wanted = Wanted { facts: sheet.goals, jobs: 0, order: Vec::with_capacity(32) };
    wanted.want_setters(sheet, sheet.goals);
    wanted
}

impl Wanted {
    fn want_setters(&mut self, sheet: &Sheet, facts: u64) {
        self.facts |= facts;
        for fact in bits(facts & !sheet.initial) {
            for job in bits(sheet.setters[fact]) {
                if self.jobs >> job & 1 == 0 {
                    self.jobs |= 1 << job;
                    self.want_setters(sheet, sheet.needs[job]);
                    self.order.push(job as u8);
                }
            }
        }
    }
}

pub struct Orders {
    pub last: u64,
    pub first: u64,
}

/// A fact not yet shown: the pairs still to be tried, and what may guard the pair tried now.
struct Pending {
    fact: usize,
    setters: u32,
    cleaners: u32,
    guards: u64,
}

struct Search<'a, 'b> {
    sheet: &'a Sheet,
    own: &'b mut Own<'a>,
    raise: &'b mut Raise,
    last: u64,
}

pub fn orders<'a>(
    sheet: &'a Sheet,
    own: &mut Own<'a>,
    raise: &mut Raise,
    wanted: &Wanted,
) -> Orders {
    let mut search = Search { sheet, own, raise, last: 0 };
    search.cleared_last(wanted.jobs);
    let first = search.cleared_first(wanted.jobs);
    Orders { last: search.last, first }
}

impl Search<'_, '_> {
    fn cleared_last(&mut self, wanted: u32) {
        let mut pending: Vec<Pending> = Vec::new();
        for fact in 0..self.sheet.facts {
            let setters = self.sheet.setters[fact];
            let cleaners = self.sheet.cleaners[fact] & wanted;
            if setters == 0 || cleaners == 0 {
                self.last |= 1 << fact;
            } else {
                pending.push(Pending { fact, setters, cleaners, guards: 0 });
            }
        }
        for fact in &mut pending {
            fact.guards = self.guards_of(fact);
        }
        let mut count = pending.len() + 1;
        while pending.len() < count {
            count = pending.len();
            pending.retain_mut(|fact| !self.shows(fact, wanted));
        }
    }

    /// Goes on to the next pair as long as the present one is guarded; true if none is left.
    fn shows(&mut self, pending: &mut Pending, wanted: u32) -> bool {
        while pending.guards & self.last != 0 {
            pending.cleaners &= pending.cleaners - 1;
            if pending.cleaners == 0 {
                pending.setters &= pending.setters - 1;
                if pending.setters == 0 {
                    self.last |= 1 << pending.fact;
                    return true;
                }
                pending.cleaners = self.sheet.cleaners[pending.fact] & wanted;
            }
            pending.guards = self.guards_of(pending);
        }
        false
    }

    fn guards_of(&mut self, pending: &Pending) -> u64 {
        let s = pending.setters.trailing_zeros() as usize;
        let a = pending.cleaners.trailing_zeros() as usize;
        self.guards((s, SETS), (a, CLEARS), pending.fact, u64::MAX)
    }

    /// The facts among `some` that put the early job's event of this fact before the late one's.
    fn guards(
        &mut self,
        (early, before): (usize, u8),
        (late, after): (usize, u8),
        fact: usize,
        some: u64,
    ) -> u64 {
        let sheet = self.sheet;
        let some = sheet.needs[early] & sheet.clears[late] & some;
        if some == 0 {
            return 0;
        }
        let from = self.own.row_from(sheet.event(late, fact, after), self.raise);
        let to = self.own.row_to(sheet.event(early, fact, before), self.raise);
        let mut guards = 0;
        for p in bits(some) {
            let greatest = self.own.at(from, late, sheet.event(late, p, CLEARS));
            let least = -self.own.at(to, early, sheet.event(early, p, ENDS));
            guards |= u64::from(greatest <= least) << p;
            if guards & self.last != 0 {
                break;
            }
        }
        guards
    }

    fn cleared_first(&mut self, wanted: u32) -> u64 {
        let mut first = 0;
        for fact in 0..self.sheet.facts {
            let setters = self.sheet.setters[fact] & wanted;
            let cleaners = self.sheet.cleaners[fact] & wanted;
            let last = self.last;
            let shown = bits(setters).all(|s| {
                bits(cleaners).all(|a| self.guards((a, CLEARS), (s, SETS), fact, last) != 0)
            });
            first |= u64::from(shown) << fact;
        }
        first
    }
}

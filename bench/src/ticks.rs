//! The least ticks that meet the list rules, job after job; the rules between jobs are read off the masks.

use crate::bits::bits;
use crate::orders::{Orders, Wanted};
use crate::raise::{self, Raise};
use crate::sheet::{Sheet, BEGINS, CLEARS, ENDS, SETS};

struct Ticks<'a> {
    sheet: &'a Sheet,
    wanted: &'a Wanted,
    orders: &'a Orders,
    raise: &'a mut Raise,
    ticks: raise::Ticks,
    /// Events raised since their job was settled, and their jobs.
    raised: [u64; 4],
    dirty: u32,
}

/// Starts from the least own ticks; none if no ticks up to the horizon meet the rules.
pub fn least_ticks(
    sheet: &Sheet,
    wanted: &Wanted,
    orders: &Orders,
    raise: &mut Raise,
    own: raise::Ticks,
) -> Option<raise::Ticks> {
    let raised = [u64::MAX; 4];
    let mut ticks = Ticks { sheet, wanted, orders, raise, ticks: own, raised, dirty: wanted.jobs };
    ticks.raise.forget(0..sheet.events.len());
    let (mut pass, mut look) = (0, 4);
    while ticks.dirty != 0 {
        for &job in &wanted.order {
            if ticks.dirty >> job & 1 == 1 && !ticks.settle(usize::from(job)) {
                return None;
            }
        }
        pass += 1;
        if pass == look {
            look *= 2;
            if ticks.raise.turns(0..sheet.events.len()) {
                return None;
            }
        }
    }
    Some(ticks.ticks)
}

impl Ticks<'_> {
    /// Raises within the job until nothing moves there, then in other jobs what that asks for.
    fn settle(&mut self, job: usize) -> bool {
        self.dirty &= !(1 << job);
        let raised = self.raised;
        let events = self.sheet.events_of(job);
        let start = events.clone().filter(|&event| raised[event / 64] >> (event % 64) & 1 == 1);
        let (forward, moved) = (&self.sheet.forward, &mut self.raised);
        let possible =
            self.raise.run(&mut self.ticks, start, self.sheet.horizon, |event, tick, raised| {
                moved[usize::from(event / 64)] |= 1 << (event % 64);
                for rule in forward.of(event) {
                    raised.at_least(rule.to, tick + i32::from(rule.gap), event);
                }
            });
        let moved = self.raised;
        let within = events.clone().all(|event| self.ticks[event] <= self.sheet.horizon);
        for event in events.clone() {
            self.raised[event / 64] &= !(1 << (event % 64));
        }
        for event in events.filter(|event| moved[event / 64] >> (event % 64) & 1 == 1) {
            self.spread(event);
        }
        possible && within
    }

    /// The list rules that start from this event.
    #[inline]
    fn spread(&mut self, number: usize) {
        let (sheet, orders) = (self.sheet, self.orders);
        let event = sheet.events[number];
        let fact = usize::from(event.fact);
        let holds = |facts: u64| facts >> fact & 1 == 1;
        let settled = (0, sheet.gap);
        match event.kind {
            SETS => {
                if holds(self.wanted.facts & !sheet.initial) {
                    self.before(number, sheet.needers[fact], BEGINS, settled);
                }
                if holds(orders.last) {
                    self.before(number, sheet.cleaners[fact], CLEARS, (1, 1));
                }
            }
            ENDS if holds(orders.last) => {
                self.before(number, sheet.cleaners[fact], CLEARS, settled)
            }
            CLEARS if holds(orders.first) => self.before(number, sheet.setters[fact], SETS, (1, 1)),
            _ => {}
        }
    }

    /// The event comes so many ticks before that of its own job, and before that of the others.
    fn before(&mut self, number: usize, jobs: u32, kind: u8, (own, others): (i32, i32)) {
        let event = self.sheet.events[number];
        for other in bits(jobs & self.wanted.jobs) {
            let gap = if other == usize::from(event.job) { own } else { others };
            let to = self.sheet.event(other, usize::from(event.fact), kind);
            if self.ticks[to] < self.ticks[number] + gap {
                self.ticks[to] = self.ticks[number] + gap;
                self.raise.note(to, number);
                self.raised[to / 64] |= 1 << (to % 64);
                self.dirty |= 1 << other;
            }
        }
    }
}

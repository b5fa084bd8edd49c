//! Own times: the least ones of every job, and on demand the greatest differences between its events.

use crate::raise::{Raise, Ticks};
use crate::sheet::{Rules, Sheet};

const NO_ROW: u32 = u32::MAX;

pub struct Own<'a> {
    sheet: &'a Sheet,
    pub least: Ticks,
    /// The greatest own ticks, of the jobs in `has_greatest`.
    greatest: Ticks,
    has_greatest: u32,
    /// Rows, one after the other, and where the rows from and to an event start.
    rows: Vec<i32>,
    from: [u32; 256],
    to: [u32; 256],
    queue: Vec<u8>,
}

impl<'a> Own<'a> {
    /// From the least own times.
    pub fn of(sheet: &'a Sheet, least: Ticks) -> Own<'a> {
        Own {
            sheet,
            least,
            greatest: [0; 256],
            has_greatest: 0,
            rows: Vec::new(),
            from: [NO_ROW; 256],
            to: [NO_ROW; 256],
            queue: Vec::new(),
        }
    }

    /// The greatest own ticks are the least ones of the mirror, which need not look at the release: there are some.
    fn need_greatest(&mut self, job: usize, raise: &mut Raise) {
        if self.has_greatest >> job & 1 == 1 {
            return;
        }
        self.has_greatest |= 1 << job;
        solve(raise, &self.sheet.backward, self.sheet, job, &mut self.greatest);
        for event in self.sheet.events_of(job) {
            self.greatest[event] = self.sheet.horizon - self.greatest[event];
        }
    }

    /// Greatest time(x) − time(y) for every x of the job of y: where the row starts, less the job's
    /// first event.
    pub fn row_from(&mut self, y: usize, raise: &mut Raise) -> usize {
        if self.from[y] == NO_ROW {
            let job = usize::from(self.sheet.events[y].job);
            self.need_greatest(job, raise);
            self.from[y] = self.rows.len() as u32;
            let least = self.least[y];
            let window = self.sheet.events_of(job).map(|x| self.greatest[x] - least);
            self.rows.extend(window);
            self.lower(job, y, self.from[y] as usize, &self.sheet.backward);
        }
        self.from[y] as usize
    }

    /// Greatest time(x) − time(y) for every y of the job of x.
    pub fn row_to(&mut self, x: usize, raise: &mut Raise) -> usize {
        if self.to[x] == NO_ROW {
            let job = usize::from(self.sheet.events[x].job);
            self.need_greatest(job, raise);
            self.to[x] = self.rows.len() as u32;
            let greatest = self.greatest[x];
            let window = self.sheet.events_of(job).map(|y| greatest - self.least[y]);
            self.rows.extend(window);
            self.lower(job, x, self.to[x] as usize, &self.sheet.forward);
        }
        self.to[x] as usize
    }

    /// The row holds what the window allows; lowers it by the rules, from the event on.
    fn lower(&mut self, job: usize, start: usize, row: usize, rules: &Rules) {
        let first = self.sheet.events_of(job).start;
        let row = &mut self.rows[row..];
        row[start - first] = 0;
        self.queue.clear();
        self.queue.push(start as u8);
        let mut queued = [0u64; 4];
        let mut place = 0;
        while place < self.queue.len() {
            let number = self.queue[place];
            let event = usize::from(number);
            queued[event / 64] &= !(1 << (event % 64));
            place += 1;
            let limit = row[event - first];
            for rule in rules.of(number) {
                let to = usize::from(rule.to);
                let lower = limit - i32::from(rule.gap);
                if lower < row[to - first] {
                    row[to - first] = lower;
                    if queued[to / 64] >> (to % 64) & 1 == 0 {
                        queued[to / 64] |= 1 << (to % 64);
                        self.queue.push(rule.to);
                    }
                }
            }
        }
    }

    #[inline]
    pub fn at(&self, row: usize, job: usize, event: usize) -> i32 {
        self.rows[row + event - self.sheet.events_of(job).start]
    }
}

/// The least own times of the jobs that have some, and the jobs that have none.
pub fn least(sheet: &Sheet, raise: &mut Raise) -> (Ticks, u32) {
    let (mut least, mut absent) = ([0; 256], 0);
    for job in 0..sheet.codes.len() {
        let events = sheet.events_of(job);
        let release = i32::from(sheet.releases[job]);
        let late = release > sheet.horizon && !events.is_empty();
        least[events].fill(release);
        if late || !solve(raise, &sheet.forward, sheet, job, &mut least) {
            absent |= 1 << job;
        }
    }
    (least, absent)
}

/// The least ticks of the job by these rules from those given on; false if there are none up to the horizon.
fn solve(raise: &mut Raise, rules: &Rules, sheet: &Sheet, job: usize, ticks: &mut Ticks) -> bool {
    raise.forget(sheet.events_of(job));
    raise.run(ticks, sheet.events_of(job), sheet.horizon, |event, tick, raised| {
        for rule in rules.of(event) {
            raised.at_least(rule.to, tick + i32::from(rule.gap), event);
        }
    })
}

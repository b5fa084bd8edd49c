//! How far apart two events of a job can lie within its own times.

use super::least::least;
use super::own;
use crate::model::Sheet;
use std::cell::OnceCell;
use std::cmp::Reverse;
use std::collections::BinaryHeap;

/// A rule from one event of a job to another.
struct Way {
    to: usize,
    /// By how many minutes the least times of the two lie further apart than the rule asks.
    slack: i32,
}

/// Events are told by their place in the job.
pub struct Table {
    horizon: i32,
    /// The least own times.
    times: Vec<i32>,
    /// The rules that lead from each event.
    ways: Vec<Vec<Way>>,
    /// For each event x, once it was asked for, the least time(y) − time(x) of every y.
    rows: Vec<OnceCell<Vec<i32>>>,
}

impl Table {
    /// None if the job has no own times.
    pub fn new(sheet: &Sheet, job: usize) -> Option<Table> {
        let (first, count) = (sheet.first_event(job), sheet.jobs[job].events.len());
        let rules = own::rules(sheet, job);
        let times = least(first + count, &rules).ok()?.times.split_off(first);
        let horizon = i32::from(sheet.horizon);
        if times.iter().any(|time| *time > horizon) {
            return None;
        }
        let mut ways: Vec<Vec<Way>> = (0..count).map(|_| Vec::new()).collect();
        for rule in &rules {
            // Releases are met by the least times, and so by all others.
            let Some(from) = rule.from.map(|from| from - first) else { continue };
            let to = rule.to - first;
            ways[from].push(Way { to, slack: times[to] - times[from] - rule.minutes });
        }
        Some(Table { horizon, times, ways, rows: vec![OnceCell::new(); count] })
    }

    /// The least time(y) − time(x).
    pub fn least(&self, x: usize, y: usize) -> i32 {
        self.rows[x].get_or_init(|| self.row(x))[y]
    }

    /// The greatest time(y) − time(x).
    pub fn greatest(&self, x: usize, y: usize) -> i32 {
        -self.least(y, x)
    }

    /// What a chain of rules asks is the distance of the least times less all slack on the way.
    fn row(&self, x: usize) -> Vec<i32> {
        let slacks = self.least_slacks(x);
        let asked = |(time, slack): (&i32, &Option<i32>)| Some(time - self.times[x] - (*slack)?);
        let asked: Vec<Option<i32>> = self.times.iter().zip(&slacks).map(asked).collect();
        // What follows x longest comes by the horizon, and each event not before its least time.
        let furthest = asked.iter().flatten().max().map_or(0, |minutes| *minutes);
        let latest = self.horizon - furthest;
        let row = asked.iter().zip(&self.times);
        row.map(|(asked, time)| asked.map_or(time - latest, |asked| asked.max(time - latest)))
            .collect()
    }

    /// The least slack of a chain of rules from x to each event; none where no chain leads. No slack is below 0,
    /// so that the event reached with the least is done.
    fn least_slacks(&self, x: usize) -> Vec<Option<i32>> {
        let mut least = vec![None; self.times.len()];
        let mut waiting = BinaryHeap::from([Reverse((0, x))]);
        least[x] = Some(0);
        while let Some(Reverse((slack, at))) = waiting.pop() {
            if least[at] != Some(slack) {
                continue;
            }
            for way in &self.ways[at] {
                let sum = slack + way.slack;
                if least[way.to].map_or(true, |known| sum < known) {
                    least[way.to] = Some(sum);
                    waiting.push(Reverse((sum, way.to)));
                }
            }
        }
        least
    }
}

//! Difference rules over ticks from 0 to H, and their closure by Floyd and Warshall.

/// Stands for "no limit yet"; any two ticks get one through the window.
const FAR: i64 = 1 << 40;

/// Rules time(x) − time(y) ≤ gap. The place after the last tick stands for tick 0.
pub struct Rules {
    limits: Vec<Vec<i64>>,
}

impl Rules {
    /// `count` ticks, each from 0 to `horizon`.
    pub fn new(count: usize, horizon: i32) -> Rules {
        let mut rules = Rules { limits: vec![vec![FAR; count + 1]; count + 1] };
        for x in 0..count {
            rules.at_most(x, count, horizon);
            rules.at_most(count, x, 0);
        }
        for x in 0..=count {
            rules.at_most(x, x, 0);
        }
        rules
    }

    /// No tick of x before this one.
    pub fn not_before(&mut self, x: usize, tick: i32) {
        let start = self.limits.len() - 1;
        self.at_most(start, x, -tick);
    }

    /// time(x) − time(y) ≤ gap.
    pub fn at_most(&mut self, x: usize, y: usize, gap: i32) {
        let limit = &mut self.limits[x][y];
        *limit = (*limit).min(i64::from(gap));
    }

    /// time(x) + gap ≤ time(y).
    pub fn before(&mut self, x: usize, y: usize, gap: i32) {
        self.at_most(x, y, -gap);
    }

    /// The tightest limit between any two ticks; none if no ticks meet the rules.
    pub fn close(mut self) -> Option<Closure> {
        let count = self.limits.len();
        for k in 0..count {
            let through = self.limits[k].clone();
            for row in &mut self.limits {
                let first = row[k];
                for (limit, second) in row.iter_mut().zip(&through) {
                    *limit = (*limit).min(first + second);
                }
            }
            // At once, or the limits would double with each further tick.
            if (0..count).any(|x| self.limits[x][x] < 0) {
                return None;
            }
        }
        Some(Closure { limits: self.limits })
    }
}

/// Closed rules that some ticks meet.
pub struct Closure {
    limits: Vec<Vec<i64>>,
}

impl Closure {
    /// The greatest time(x) − time(y).
    pub fn greatest(&self, x: usize, y: usize) -> i32 {
        self.limits[x][y] as i32
    }

    /// The least time(x) − time(y).
    pub fn least(&self, x: usize, y: usize) -> i32 {
        -self.greatest(y, x)
    }

    /// The least tick of x.
    pub fn least_tick(&self, x: usize) -> i32 {
        self.least(x, self.limits.len() - 1)
    }
}

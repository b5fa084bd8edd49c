//! The least ticks above a floor that meet difference rules, by a queue of raised events.

/// Where nothing raised the event.
const NONE: u16 = u16::MAX;

/// A tick for each event; as many as an event's byte can name, so that no place is out of range.
pub type Ticks = [i32; 256];

/// What raising needs, used again from call to call.
pub struct Raise {
    queue: Vec<u8>,
    next: Vec<u8>,
    queued: [bool; 256],
    parent: [u16; 256],
}

/// Raised events are noted here.
pub struct Raised<'a> {
    pub ticks: &'a mut Ticks,
    next: &'a mut Vec<u8>,
    queued: &'a mut [bool; 256],
    parent: &'a mut [u16; 256],
    pub ceiling: i32,
    passed: bool,
}

impl Raised<'_> {
    /// time(to) ≥ tick, because of `from`.
    #[inline]
    pub fn at_least(&mut self, to: u8, tick: i32, from: u8) {
        let event = to;
        let to = usize::from(to);
        if self.ticks[to] < tick {
            self.ticks[to] = tick;
            self.parent[to] = u16::from(from);
            self.passed |= tick > self.ceiling;
            if !self.queued[to] {
                self.queued[to] = true;
                self.next.push(event);
            }
        }
    }
}

impl Raise {
    pub fn new() -> Raise {
        Raise {
            queue: Vec::with_capacity(256),
            next: Vec::with_capacity(256),
            queued: [false; 256],
            parent: [NONE; 256],
        }
    }

    /// Forgets what raised these events.
    pub fn forget(&mut self, events: impl Iterator<Item = usize>) {
        events.for_each(|event| self.parent[event] = NONE);
    }

    /// Notes what raised the event, where that was not done by `run`.
    #[inline]
    pub fn note(&mut self, to: usize, from: usize) {
        self.parent[to] = from as u16;
    }

    /// Raises until nothing moves; false if there is no solution up to the ceiling.
    pub fn run(
        &mut self,
        ticks: &mut Ticks,
        start: impl Iterator<Item = usize>,
        ceiling: i32,
        mut rules: impl FnMut(u8, i32, &mut Raised),
    ) -> bool {
        self.next.clear();
        for event in start {
            self.next.push(event as u8);
            self.queued[event] = true;
        }
        let (mut pass, mut look) = (0, 4);
        while !self.next.is_empty() {
            std::mem::swap(&mut self.queue, &mut self.next);
            let (next, queued, parent) = (&mut self.next, &mut self.queued, &mut self.parent);
            let mut raised =
                Raised { ticks: &mut *ticks, next, queued, parent, ceiling, passed: false };
            for &event in &self.queue {
                let place = usize::from(event);
                raised.queued[place] = false;
                let tick = raised.ticks[place];
                rules(event, tick, &mut raised);
            }
            let passed = raised.passed;
            self.queue.clear();
            pass += 1;
            if passed || pass == look && self.turns(self.next.iter().map(|&e| usize::from(e))) {
                self.next.drain(..).for_each(|event| self.queued[usize::from(event)] = false);
                return false;
            }
            look += if pass == look { look } else { 0 };
        }
        true
    }

    /// Some event was raised because of itself: a cycle that gains.
    pub fn turns(&self, events: impl Iterator<Item = usize>) -> bool {
        let mut seen = [0u16; 256];
        let mut walk = 0;
        for start in events {
            walk += 1;
            let mut event = start;
            while seen[event] == 0 {
                seen[event] = walk;
                match self.parent[event] {
                    NONE => break,
                    parent => event = usize::from(parent),
                }
                if seen[event] == walk {
                    return true;
                }
            }
        }
        false
    }
}

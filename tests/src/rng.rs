//! A small random generator with a fixed seed (SplitMix64). A fuzzer can put a tape of bytes before
//! it, which then makes the first choices.

pub struct Rng {
    state: u64,
    /// The bytes not yet read, the next one last.
    tape: Vec<u8>,
}

impl Rng {
    pub fn new(seed: u64) -> Rng {
        Rng { state: seed, tape: Vec::new() }
    }

    /// Each number comes from a byte of the tape, a wider choice from two, until none are left.
    pub fn with_tape(seed: u64, tape: &[u8]) -> Rng {
        Rng { state: seed, tape: tape.iter().rev().copied().collect() }
    }

    pub fn number(&mut self) -> u64 {
        match self.tape.pop() {
            Some(byte) => u64::from(byte),
            None => self.mixed(),
        }
    }

    fn mixed(&mut self) -> u64 {
        self.state = self.state.wrapping_add(0x9E37_79B9_7F4A_7C15);
        let mut z = self.state;
        z = (z ^ (z >> 30)).wrapping_mul(0xBF58_476D_1CE4_E5B9);
        z = (z ^ (z >> 27)).wrapping_mul(0x94D0_49BB_1331_11EB);
        z ^ (z >> 31)
    }

    /// A number below `limit`, which is not 0.
    pub fn below(&mut self, limit: usize) -> usize {
        let wide = limit > 256 && !self.tape.is_empty();
        let high = if wide { self.number() } else { 0 };
        ((self.number().wrapping_add(high << 8)) % limit as u64) as usize
    }

    /// A number from `low` to `high`, both included.
    pub fn between(&mut self, low: i32, high: i32) -> i32 {
        low + self.below((high - low + 1) as usize) as i32
    }

    /// True in about `percent` of a hundred calls.
    pub fn chance(&mut self, percent: usize) -> bool {
        self.below(100) < percent
    }

    pub fn pick<'a, T>(&mut self, items: &'a [T]) -> &'a T {
        &items[self.below(items.len())]
    }

    pub fn shuffle<T>(&mut self, items: &mut [T]) {
        for i in (1..items.len()).rev() {
            items.swap(i, self.below(i + 1));
        }
    }
}

#[cfg(test)]
mod tests {
    use super::*;

    /// A byte for a narrow choice, two for a wide one; then the numbers of the seed alone.
    #[test]
    fn the_tape_comes_before_the_seed() {
        let mut rng = Rng::with_tape(7, &[5, 1, 2]);
        assert_eq!(rng.below(256), 5);
        assert_eq!(rng.below(1_000), 258);
        let mut alone = Rng::new(7);
        assert_eq!(rng.below(1_000), alone.below(1_000));
        assert_eq!(rng.number(), alone.number());
    }
}

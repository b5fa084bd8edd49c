//! The places of the bits of a word, from the lowest up.

pub struct Bits(u64);

pub fn bits(word: impl Into<u64>) -> Bits {
    Bits(word.into())
}

impl Iterator for Bits {
    type Item = usize;

    #[inline]
    fn next(&mut self) -> Option<usize> {
        if self.0 == 0 {
            return None;
        }
        let place = self.0.trailing_zeros() as usize;
        self.0 &= self.0 - 1;
        Some(place)
    }
}

//! Numbers of any size, by the sums that are taught at school. No sum or product of theirs can be too great.

/// Decimal digits, the last one first; the first one is not 0.
#[derive(Clone, Debug, Default, PartialEq, Eq)]
pub struct Natural(Vec<u8>);

impl Natural {
    pub fn of(mut number: u64) -> Natural {
        let mut digits = Vec::new();
        while number > 0 {
            digits.push((number % 10) as u8);
            number /= 10;
        }
        Natural(digits)
    }

    /// As a number of 64 bits, if it is one.
    pub fn number(&self) -> Option<u64> {
        let with = |number: u64, digit: &u8| number.checked_mul(10)?.checked_add((*digit).into());
        self.0.iter().rev().try_fold(0, with)
    }

    fn digit(&self, place: usize) -> u8 {
        self.0.get(place).copied().unwrap_or(0)
    }

    pub fn plus(&self, other: &Natural) -> Natural {
        let mut carry = 0;
        let mut digits = Vec::new();
        for place in 0..=self.0.len().max(other.0.len()) {
            let sum = self.digit(place) + other.digit(place) + carry;
            digits.push(sum % 10);
            carry = sum / 10;
        }
        Natural::trimmed(digits)
    }

    pub fn times(&self, other: &Natural) -> Natural {
        let mut product = Natural::default();
        for digit in other.0.iter().rev() {
            product.0.insert(0, 0);
            (0..*digit).for_each(|_| product = product.plus(self));
        }
        Natural::trimmed(product.0)
    }

    /// Quotient and remainder by a number below 2^32, which is not 0.
    pub fn divided(&self, by: u32) -> (Natural, u32) {
        let mut rest: u64 = 0;
        let mut digits = Vec::new();
        for digit in self.0.iter().rev() {
            rest = 10 * rest + u64::from(*digit);
            digits.insert(0, (rest / u64::from(by)) as u8);
            rest %= u64::from(by);
        }
        (Natural::trimmed(digits), rest as u32)
    }

    fn trimmed(mut digits: Vec<u8>) -> Natural {
        while digits.last() == Some(&0) {
            digits.pop();
        }
        Natural(digits)
    }
}

#[cfg(test)]
mod tests {
    use super::*;
    use crate::rng::Rng;

    /// Numbers of any length up to 64 bits.
    fn some(rng: &mut Rng) -> u64 {
        let bits = rng.below(65) as u32;
        rng.number().checked_shr(64 - bits).unwrap_or(0)
    }

    /// In 128 bits, which hold the product of any two of 64.
    fn wide(natural: &Natural) -> u128 {
        natural.0.iter().rev().fold(0, |number, digit| 10 * number + u128::from(*digit))
    }

    #[test]
    fn sums_products_and_quotients() {
        let rng = &mut Rng::new(5);
        for _ in 0..20_000 {
            let (a, b) = (some(rng), some(rng));
            let (x, y) = (Natural::of(a), Natural::of(b));
            assert_eq!((x.number(), wide(&x)), (Some(a), u128::from(a)));
            let (sum, product) = (u128::from(a) + u128::from(b), u128::from(a) * u128::from(b));
            assert_eq!(wide(&x.plus(&y)), sum, "{a} + {b}");
            assert_eq!(wide(&x.times(&y)), product, "{a} * {b}");
            assert_eq!(x.times(&y).number(), u64::try_from(product).ok(), "{a} * {b}");
            let bits = rng.below(32);
            let by = 1 + rng.below(1 << bits) as u32;
            let (quotient, rest) = x.times(&y).divided(by);
            assert_eq!(wide(&quotient), product / u128::from(by), "{a} * {b} / {by}");
            assert_eq!(u128::from(rest), product % u128::from(by), "{a} * {b} % {by}");
            assert_eq!(Natural::trimmed(quotient.0.clone()), quotient, "no 0 in front");
        }
    }
}

//! The bounds of a job before they are bytes: rows of low and high by pair of events. A pair may have several rows.

use crate::build::Act;

/// The events e and d of time(e) − time(d).
pub type Pair = (Act, Act);

/// Low and high; −32,768 and 32,767 mean none.
pub type Span = (i16, i16);

/// By rising pair; the rows of one pair in the order in which they came.
#[derive(Clone, Debug, Default, PartialEq, Eq)]
pub struct Bounds {
    rows: Vec<(Pair, Span)>,
}

impl Bounds {
    /// Adds a row behind those of its pair.
    pub fn insert(&mut self, pair: Pair, span: Span) {
        let place = self.rows.partition_point(|row| row.0 <= pair);
        self.rows.insert(place, (pair, span));
    }

    /// The pair gets these rows in the place of those that it has.
    pub fn replace(&mut self, pair: Pair, spans: &[Span]) {
        self.remove(pair);
        spans.iter().for_each(|span| self.insert(pair, *span));
    }

    /// Takes out all rows of the pair.
    pub fn remove(&mut self, pair: Pair) {
        self.rows.retain(|row| row.0 != pair);
    }

    pub fn retain(&mut self, keep: impl Fn(&Pair) -> bool) {
        self.rows.retain(|row| keep(&row.0));
    }

    /// How many rows there are.
    pub fn len(&self) -> usize {
        self.rows.len()
    }

    pub fn is_empty(&self) -> bool {
        self.rows.is_empty()
    }

    pub fn iter(&self) -> std::slice::Iter<'_, (Pair, Span)> {
        self.rows.iter()
    }

    /// Low and high of each row, to be changed.
    pub fn spans_mut(&mut self) -> impl Iterator<Item = (Pair, &mut Span)> {
        self.rows.iter_mut().map(|(pair, span)| (*pair, span))
    }

    /// Each pair that has rows, once.
    pub fn pairs(&self) -> Vec<Pair> {
        let mut pairs: Vec<Pair> = self.iter().map(|row| row.0).collect();
        pairs.dedup();
        pairs
    }

    /// The rows of the pair.
    pub fn of(&self, pair: Pair) -> Vec<Span> {
        self.iter().filter(|row| row.0 == pair).map(|row| row.1).collect()
    }

    /// Whether some pair has several rows.
    pub fn repeat(&self) -> bool {
        self.rows.windows(2).any(|two| two[0].0 == two[1].0)
    }

    /// One row for each pair, with its greatest low and its least high. Where they cross, it is no bound.
    pub fn tightest(&self) -> Bounds {
        let pairs = self.pairs().into_iter();
        pairs.map(|pair| (pair, narrowest(&self.of(pair)))).collect()
    }
}

/// The greatest low and the least high.
pub fn narrowest(spans: &[Span]) -> Span {
    let all = spans.iter().copied();
    all.fold((i16::MIN, i16::MAX), |(low, high), span| (low.max(span.0), high.min(span.1)))
}

impl FromIterator<(Pair, Span)> for Bounds {
    fn from_iter<T: IntoIterator<Item = (Pair, Span)>>(rows: T) -> Bounds {
        let mut bounds = Bounds::default();
        rows.into_iter().for_each(|(pair, span)| bounds.insert(pair, span));
        bounds
    }
}

impl<'a> IntoIterator for &'a Bounds {
    type Item = &'a (Pair, Span);
    type IntoIter = std::slice::Iter<'a, (Pair, Span)>;

    fn into_iter(self) -> Self::IntoIter {
        self.iter()
    }
}

#[cfg(test)]
mod tests {
    use super::*;
    use crate::build::{begins, ends, sets};

    #[test]
    fn rows_of_a_pair_keep_their_order() {
        let (first, second) = ((ends(0), begins(0)), (sets(1), begins(0)));
        let rows = [(second, (3, 4)), (first, (5, 9)), (second, (0, 7)), (first, (2, 5))];
        let mut bounds: Bounds = rows.into_iter().collect();
        let sorted = [(first, (5, 9)), (first, (2, 5)), (second, (3, 4)), (second, (0, 7))];
        assert!(bounds.iter().eq(&sorted));
        assert_eq!(
            (bounds.pairs(), bounds.of(second)),
            (vec![first, second], vec![(3, 4), (0, 7)])
        );
        let tightest = bounds.tightest();
        assert!(tightest.iter().eq(&[(first, (5, 5)), (second, (3, 4))]));
        assert!(bounds.repeat() && !tightest.repeat());
        bounds.replace(first, &[(1, 1)]);
        bounds.remove(second);
        assert!(bounds.iter().eq(&[(first, (1, 1))]));
    }
}

//! What all bounds of a pair of events ask together.

use crate::model::{Event, Job};

/// A low or a high, and the place of its bound among the job's.
pub type Side = (i16, usize);

/// The greatest low and the least high of all bounds of the pair (e, d); none where each of them is open.
#[derive(Clone, Copy, Debug, PartialEq, Eq)]
pub struct Tightest {
    pub e: Event,
    pub d: Event,
    pub low: Option<Side>,
    pub high: Option<Side>,
}

impl Tightest {
    /// Takes one more bound in; of equal ones the first stays.
    fn add(&mut self, low: Option<Side>, high: Option<Side>) {
        let minutes = |side: Option<Side>| side.map(|(minutes, _)| minutes);
        // None is below every low.
        if minutes(low) > minutes(self.low) {
            self.low = low;
        }
        if high.is_some() && (self.high.is_none() || minutes(high) < minutes(self.high)) {
            self.high = high;
        }
    }
}

/// For each pair of the job's events that has bounds, what they ask together.
pub fn of(job: &Job) -> Vec<Tightest> {
    let mut all: Vec<Tightest> = Vec::new();
    for (place, bound) in job.bounds.iter().enumerate() {
        let (e, d) = (bound.e, bound.d);
        let side = |minutes: Option<i16>| minutes.map(|minutes| (minutes, place));
        let (low, high) = (side(bound.span.low), side(bound.span.high));
        // The bounds of one pair stand together.
        match all.last_mut().filter(|last| (last.e, last.d) == (e, d)) {
            Some(last) => last.add(low, high),
            None => all.push(Tightest { e, d, low, high }),
        }
    }
    all
}

#[cfg(test)]
mod tests {
    use super::*;
    use crate::model::{Bound, Kind, Span};

    /// The tightest sides of these bounds of one pair.
    fn sides(spans: &[(Option<i16>, Option<i16>)]) -> (Option<Side>, Option<Side>) {
        let (d, e) = (Event::new(Kind::Sets, 0), Event::new(Kind::Clears, 0));
        let bound =
            |&(low, high): &(Option<i16>, Option<i16>)| Bound { e, d, span: Span { low, high } };
        let (name, bounds) = ("one".to_string(), spans.iter().map(bound).collect());
        let job = Job { code: 1, release: 0, name, events: vec![d, e], bounds };
        let [pair] = of(&job)[..] else { panic!("one pair") };
        (pair.low, pair.high)
    }

    #[test]
    fn the_greatest_low_and_the_least_high() {
        let (open, span) = ((None, None), |low, high| (Some(low), Some(high)));
        assert_eq!(sides(&[open]), (None, None));
        assert_eq!(sides(&[open, open]), (None, None));
        assert_eq!(sides(&[span(5, 9), span(0, 7), span(2, 5)]), (Some((5, 0)), Some((5, 2))));
        assert_eq!(sides(&[open, span(5, 9), open]), (Some((5, 1)), Some((9, 1))));
        assert_eq!(sides(&[(None, Some(5)), (Some(5), None)]), (Some((5, 1)), Some((5, 0))));
        // Of equal ones the first, and below 0 as above.
        assert_eq!(sides(&[span(-3, -1), span(-3, -1)]), (Some((-3, 0)), Some((-1, 0))));
        assert_eq!(sides(&[span(6, 6), span(5, 5)]), (Some((6, 0)), Some((5, 1))));
    }

    #[test]
    fn both_directions_are_two_pairs() {
        let (one, other) = (Event::new(Kind::Sets, 0), Event::new(Kind::Clears, 0));
        let span = Span { low: Some(5), high: Some(5) };
        let bounds = vec![Bound { e: one, d: other, span }, Bound { e: other, d: one, span }];
        let job = Job { code: 1, release: 0, name: "one".into(), events: vec![one, other], bounds };
        assert_eq!(of(&job).len(), 2);
    }
}

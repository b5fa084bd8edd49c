//! Every answer but a plan, a yes, a rewritten sheet, a cost or the sheet that counts.

use core::fmt;

#[derive(Clone, Copy, Debug, PartialEq, Eq, Hash)]
#[non_exhaustive]
pub enum Answer {
    /// No plan exists, of any length.
    NoPlan,
    /// The sheet's contents are not as they should be, or it has under 26 bytes; of rewriting and `newer` also: it is of another
    /// edition.
    BadContents,
    BadFacts,
    BadJobs,
    BadEvents,
    BadBounds,
    /// Given by nobody: up to 0.5.0 for a job that cannot run even alone, with the lowest such job's number. Now such jobs are absent.
    NoOwnTimes {
        job: usize,
    },
    /// Two jobs set a wanted fact; the lowest such fact.
    TwoSetters {
        fact: usize,
    },
    /// Nothing orders a wanted fact's sets and clears.
    NoOrder {
        fact: usize,
    },
    /// The same for a fact that nobody wants.
    NoOrderUnwanted {
        fact: usize,
    },
    /// There is a plan, or the sheet of the other edition, longer than the buffer.
    BufferTooShort {
        needed: usize,
    },
    /// This is no list for the sheet; of `late` and `move_on` also: a delay is above 600, or the delays are not one for each instance.
    BadList,
    /// A list, and not a plan.
    NotAPlan,
    /// Of `late`: a plan that its delays break, and the first tick at which it goes wrong, or the horizon. Where the horizon is 0
    /// such a list is `NotAPlan`, since number and detail are the same.
    GoesWrong {
        tick: usize,
    },
    /// Edition 1 cannot say what the sheet says: its gap byte is not 1, or a release or its revision is not zero.
    NoWayBack,
    /// Of `cost`: a rate is above 1,000,000, or the rates are not one for each job of the sheet.
    BadRates,
    /// Of `newer`: the two sheets have the same revision and other bytes.
    OtherBytes,
    /// An answer that this wrapper does not know.
    Other {
        number: u8,
        detail: usize,
    },
}

impl Answer {
    /// None for number 0: a plan, a yes, a rewritten sheet, a cost, or the sheet that counts.
    pub(crate) fn refusal(number: u8, detail: usize) -> Option<Answer> {
        Some(match number {
            0 => return None,
            1 => Answer::NoPlan,
            10 => Answer::BadContents,
            11 => Answer::BadFacts,
            12 => Answer::BadJobs,
            13 => Answer::BadEvents,
            14 => Answer::BadBounds,
            15 => Answer::NoOwnTimes { job: detail },
            20 => Answer::TwoSetters { fact: detail },
            21 => Answer::NoOrder { fact: detail },
            22 => Answer::NoOrderUnwanted { fact: detail },
            30 => Answer::BufferTooShort { needed: detail },
            40 => Answer::BadList,
            41 if detail == 0 => Answer::NotAPlan,
            41 => Answer::GoesWrong { tick: detail },
            50 => Answer::NoWayBack,
            51 => Answer::BadRates,
            56 => Answer::OtherBytes,
            number => Answer::Other { number, detail },
        })
    }

    /// The number and the detail of the header's table.
    pub fn number(self) -> (u8, usize) {
        match self {
            Answer::NoPlan => (1, 0),
            Answer::BadContents => (10, 0),
            Answer::BadFacts => (11, 0),
            Answer::BadJobs => (12, 0),
            Answer::BadEvents => (13, 0),
            Answer::BadBounds => (14, 0),
            Answer::NoOwnTimes { job } => (15, job),
            Answer::TwoSetters { fact } => (20, fact),
            Answer::NoOrder { fact } => (21, fact),
            Answer::NoOrderUnwanted { fact } => (22, fact),
            Answer::BufferTooShort { needed } => (30, needed),
            Answer::BadList => (40, 0),
            Answer::NotAPlan => (41, 0),
            Answer::GoesWrong { tick } => (41, tick),
            Answer::NoWayBack => (50, 0),
            Answer::BadRates => (51, 0),
            Answer::OtherBytes => (56, 0),
            Answer::Other { number, detail } => (number, detail),
        }
    }
}

impl fmt::Display for Answer {
    fn fmt(&self, out: &mut fmt::Formatter) -> fmt::Result {
        let words = match self {
            Answer::NoPlan => "no plan exists",
            Answer::BadContents => "the contents of the sheet are not as they should be",
            Answer::BadFacts => "the facts of the sheet are not as they should be",
            Answer::BadJobs => "the jobs of the sheet are not as they should be",
            Answer::BadEvents => "the events of the sheet are not as they should be",
            Answer::BadBounds => "the bounds of the sheet are not as they should be",
            Answer::NoOwnTimes { .. } => "a job cannot run, even alone",
            Answer::TwoSetters { .. } => "two jobs set a fact that is wanted",
            Answer::NoOrder { .. } => "a wanted fact's sets and clears have no order",
            Answer::NoOrderUnwanted { .. } => "the sets and clears of a fact have no order",
            Answer::BufferTooShort { .. } => "what is to be written is longer than the buffer",
            Answer::BadList => "this is no list for the sheet, or these are no delays for the list",
            Answer::NotAPlan => "the list is not a plan",
            Answer::GoesWrong { .. } => "with these delays the list is not a plan",
            Answer::NoWayBack => "edition 1 cannot say what the sheet says",
            Answer::BadRates => "a rate is too high, or the rates are not one for each job",
            Answer::OtherBytes => "the two sheets have the same revision and other bytes",
            Answer::Other { .. } => "an answer that this wrapper does not know",
        };
        let (number, detail) = self.number();
        write!(out, "ANSWER {number} {detail}: {words}")
    }
}

#[cfg(test)]
mod tests {
    use super::Answer;

    #[test]
    fn every_number_goes_both_ways() {
        for number in 1..=u8::MAX {
            let detailed = matches!(number, 15 | 20..=22 | 30 | 42..=49 | 52..=55 | 57..);
            let detail = if detailed { 7 } else { 0 };
            if let Some(answer) = Answer::refusal(number, detail) {
                assert_eq!(answer.number().0, number);
                assert!(!detailed || answer.number().1 == detail);
            }
        }
        assert_eq!(Answer::refusal(0, 24), None);
        assert_eq!(Answer::refusal(41, 7), Some(Answer::GoesWrong { tick: 7 }));
        assert_eq!(Answer::GoesWrong { tick: 7 }.number(), (41, 7));
    }
}

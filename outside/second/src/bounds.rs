//! Bounds on a word (document 02, W-207): the order of the numbers that words stand for, and the
//! low and high bound that a job may state.

use std::cmp::Reverse;

use crate::format::{Format, Refusal, BAD_BOUNDS};
use crate::operand::Operand;
use crate::wide::Wide;

/// A number, in the order of numbers: infinities at the ends, the finite ones between them by their
/// steps, and one zero.
#[derive(Clone, Copy, Debug, PartialEq, Eq, PartialOrd, Ord)]
pub enum Number {
    MinusInfinity,
    Negative(Reverse<Wide>),
    Zero,
    Positive(Wide),
    PlusInfinity,
}

impl Number {
    /// The number that a word stands for; a NaN stands for none.
    pub fn of(format: Format, word: u64) -> Option<Number> {
        let number = match Operand::of(format, word) {
            Operand::Nan => return None,
            Operand::Infinite { negative: true } => Number::MinusInfinity,
            Operand::Infinite { negative: false } => Number::PlusInfinity,
            Operand::Finite(finite) if finite.magnitude == Wide::ZERO => Number::Zero,
            Operand::Finite(finite) if finite.negative => {
                Number::Negative(Reverse(finite.magnitude))
            }
            Operand::Finite(finite) => Number::Positive(finite.magnitude),
        };
        Some(number)
    }
}

/// A low and a high bound, both included. Where a job states none, no `Bounds` stands: every pair
/// shuts out NaNs, so that none says as little as its absence.
#[derive(Clone, Copy, Debug, PartialEq, Eq)]
pub struct Bounds {
    pub low: u64,
    pub high: u64,
}

impl Bounds {
    /// Low, then high, as they stand in a record.
    pub fn words(self) -> [u64; 2] {
        [self.low, self.high]
    }

    /// Refuses with 18. The words must not be too wide.
    pub fn check(self, format: Format) -> Result<(), Refusal> {
        match self.words().map(|word| Number::of(format, word)) {
            [Some(low), Some(high)] if low <= high => Ok(()),
            _ => Err(BAD_BOUNDS),
        }
    }

    /// Whether a word lies within checked bounds.
    pub fn admit(self, format: Format, word: u64) -> bool {
        let [low, number, high] = [self.low, word, self.high].map(|word| Number::of(format, word));
        number.is_some() && low <= number && number <= high
    }
}

//! The rounded result (document 01, "The rounded result"; document 02, W-201). The exact sum is
//! formed in smallest steps and compared with the two representable numbers around it.

use std::cmp::Ordering;

use crate::format::{Format, Refusal, LARGEST_MODE, UNKNOWN_MODE, UNKNOWN_OPERATION};
use crate::operand::{magnitude, Finite, Operand};
use crate::wide::Wide;

#[derive(Clone, Copy, Debug, PartialEq, Eq)]
pub enum Operation {
    Add,
    Subtract,
}

impl Operation {
    /// Refuses with 3.
    pub fn new(number: u64) -> Result<Operation, Refusal> {
        match number {
            0 => Ok(Operation::Add),
            1 => Ok(Operation::Subtract),
            _ => Err(UNKNOWN_OPERATION),
        }
    }

    /// The word that is added in place of b: b itself, or b with its sign flipped.
    pub fn effective(self, format: Format, b: u64) -> u64 {
        match self {
            Operation::Add => b,
            Operation::Subtract => b ^ format.sign_bit(),
        }
    }
}

#[derive(Clone, Copy, Debug, PartialEq, Eq)]
pub enum Mode {
    NearestEven,
    TowardZero,
    Up,
    Down,
    NearestAway,
}

impl Mode {
    /// Refuses with 4.
    pub fn new(number: u64) -> Result<Mode, Refusal> {
        match number {
            0 => Ok(Mode::NearestEven),
            1 => Ok(Mode::TowardZero),
            2 => Ok(Mode::Up),
            3 => Ok(Mode::Down),
            4 => Ok(Mode::NearestAway),
            _ => Err(UNKNOWN_MODE),
        }
    }
}

/// Every operation with every mode, by their numbers.
pub fn every_setting() -> impl Iterator<Item = [u64; 2]> + Clone {
    (0..=1).flat_map(|operation| (0..=LARGEST_MODE).map(move |mode| [operation, mode]))
}

/// Format, operation and mode, all within their limits.
#[derive(Clone, Copy, Debug, PartialEq, Eq)]
pub struct Adder {
    pub format: Format,
    pub operation: Operation,
    pub mode: Mode,
}

/// The rounded result of two words. Refuses with 1, 2, 3, 4, 6.
pub fn rounded(w: u64, f: u64, operation: u64, mode: u64, a: u64, b: u64) -> Result<u64, Refusal> {
    let adder = Adder::new(w, f, operation, mode)?;
    adder.format.check_word(a)?;
    adder.format.check_word(b)?;
    Ok(adder.result(a, b))
}

impl Adder {
    /// Refuses with 1, 2, 3, 4.
    pub fn new(w: u64, f: u64, operation: u64, mode: u64) -> Result<Adder, Refusal> {
        Ok(Adder {
            format: Format::new(w, f)?,
            operation: Operation::new(operation)?,
            mode: Mode::new(mode)?,
        })
    }

    /// The rounded result of two words that are not too wide.
    pub fn result(&self, a: u64, b: u64) -> u64 {
        let format = self.format;
        let b = self.operation.effective(format, b);
        match (Operand::of(format, a), Operand::of(format, b)) {
            (Operand::Nan, _) | (_, Operand::Nan) => format.nan(),
            (Operand::Infinite { negative: x }, Operand::Infinite { negative: y }) if x != y => {
                format.nan()
            }
            (Operand::Infinite { negative }, _) | (_, Operand::Infinite { negative }) => {
                format.signed(negative, format.infinity())
            }
            (Operand::Finite(x), Operand::Finite(y)) => self.finite_result(&x, &y),
        }
    }

    /// The magnitude of the exact result, in smallest steps; none where an operand is infinite or
    /// a NaN.
    pub fn exact(&self, a: u64, b: u64) -> Option<Wide> {
        let b = self.operation.effective(self.format, b);
        match (Operand::of(self.format, a), Operand::of(self.format, b)) {
            (Operand::Finite(x), Operand::Finite(y)) => Some(exact_sum(&x, &y).1),
            _ => None,
        }
    }

    fn finite_result(&self, x: &Finite, y: &Finite) -> u64 {
        let (negative, exact) = exact_sum(x, y);
        if exact == Wide::ZERO {
            return self.format.signed(self.zero_sign(x, y), 0);
        }
        let index = self.round(negative, &exact);
        if index > self.format.largest_finite() {
            self.overflow(negative)
        } else {
            self.format.signed(negative, index)
        }
    }

    /// Whether an exact zero is −0. Like signs give one only from two zeros.
    fn zero_sign(&self, x: &Finite, y: &Finite) -> bool {
        if x.negative == y.negative {
            x.negative
        } else {
            self.mode == Mode::Down
        }
    }

    /// The index of the number to which a magnitude is rounded. The indices go on past the
    /// largest finite number, so rounding need not know where the format ends.
    fn round(&self, negative: bool, exact: &Wide) -> u64 {
        let below = index_at_most(self.format, exact);
        let low = magnitude(self.format, below);
        if low == *exact {
            return below;
        }
        let high = magnitude(self.format, below + 1);
        assert!(low < *exact && *exact < high, "not between its neighbours");
        let away = match self.mode {
            Mode::TowardZero => false,
            Mode::Up => !negative,
            Mode::Down => negative,
            Mode::NearestEven | Mode::NearestAway => {
                match exact.minus(&low).cmp(&high.minus(exact)) {
                    Ordering::Less => false,
                    Ordering::Greater => true,
                    // The lowest bit of an index is the lowest bit of its significand.
                    Ordering::Equal => self.mode == Mode::NearestAway || below % 2 == 1,
                }
            }
        };
        below + u64::from(away)
    }

    /// What stands for a rounded magnitude above the largest finite number.
    fn overflow(&self, negative: bool) -> u64 {
        let infinite = match self.mode {
            Mode::NearestEven | Mode::NearestAway => true,
            Mode::TowardZero => false,
            Mode::Up => !negative,
            Mode::Down => negative,
        };
        let magnitude = if infinite {
            self.format.infinity()
        } else {
            self.format.largest_finite()
        };
        self.format.signed(negative, magnitude)
    }
}

/// Sign and magnitude of the exact sum. The sign of a zero is decided elsewhere.
fn exact_sum(x: &Finite, y: &Finite) -> (bool, Wide) {
    if x.negative == y.negative {
        (x.negative, x.magnitude.plus(&y.magnitude))
    } else if x.magnitude >= y.magnitude {
        (x.negative, x.magnitude.minus(&y.magnitude))
    } else {
        (y.negative, y.magnitude.minus(&x.magnitude))
    }
}

/// The largest index whose magnitude is at most `exact`, which is not 0. The unit there is the one
/// that leaves `exact` p digits, or one step where it has fewer. The fields are read as one
/// whole number: the leading digit of the p adds the 1 by which the exponent field of a normal
/// number exceeds the exponent of its unit.
fn index_at_most(format: Format, exact: &Wide) -> u64 {
    let unit_exponent = exact.digits().saturating_sub(format.precision());
    let significand = exact.quotient_by_power(unit_exponent);
    (u64::from(unit_exponent) << format.fraction_bits()) + significand
}

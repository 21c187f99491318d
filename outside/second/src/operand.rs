//! The kinds of operand (document 01, "Numbers of a format"). Every finite magnitude is
//! a whole number of smallest steps.

use crate::format::Format;
use crate::wide::Wide;

/// A word by its kind.
#[derive(Clone, Copy, Debug, PartialEq, Eq)]
pub enum Operand {
    Nan,
    Infinite { negative: bool },
    Finite(Finite),
}

/// A finite number: its sign, its biased exponent, the exponent of its unit, and its magnitude in
/// smallest steps.
#[derive(Clone, Copy, Debug, PartialEq, Eq)]
pub struct Finite {
    pub negative: bool,
    pub biased_exponent: u32,
    pub unit_exponent: u32,
    pub magnitude: Wide,
}

impl Operand {
    /// The operand that a word of the format stands for.
    pub fn of(format: Format, word: u64) -> Operand {
        let negative = word & format.sign_bit() != 0;
        let index = word & (format.sign_bit() - 1);
        if index > format.infinity() {
            Operand::Nan
        } else if index == format.infinity() {
            Operand::Infinite { negative }
        } else {
            Operand::Finite(Finite {
                negative,
                biased_exponent: biased_exponent(format, index),
                unit_exponent: unit_exponent(format, index),
                magnitude: magnitude(format, index),
            })
        }
    }
}

/// The exponent field of the number whose exponent and fraction fields, read as one whole
/// number, are `index`.
fn biased_exponent(format: Format, index: u64) -> u32 {
    (index >> format.fraction_bits()) as u32
}

/// The exponent of the unit of that number. The fields 0 and 1 have the same unit, one smallest
/// step.
pub fn unit_exponent(format: Format, index: u64) -> u32 {
    match biased_exponent(format, index) {
        0 => 0,
        e => e - 1,
    }
}

/// The magnitude at `index`, in smallest steps. The index may go past the largest finite
/// number; the exponents then go on upward, which the rounded result needs.
pub fn magnitude(format: Format, index: u64) -> Wide {
    let hidden = 1 << format.fraction_bits();
    let fraction = index % hidden;
    let significand = if index < hidden {
        fraction
    } else {
        hidden + fraction
    };
    Wide::scaled(significand, unit_exponent(format, index))
}

//! The carry row (document 01, "The carry row"; document 02, W-205), bit by bit from the
//! remainders that the document names. Both operands are counted in L's unit, in which that is
//! whole; of R's fractional part only whether there is one can matter.

use crate::arith::Operation;
use crate::format::{ones, Format, Refusal};
use crate::operand::{Finite, Operand};
use crate::wide::Wide;

/// The row of two words, or none. Refuses with 1, 2, 3, 6.
pub fn carry_row(w: u64, f: u64, operation: u64, a: u64, b: u64) -> Result<Option<u64>, Refusal> {
    let format = Format::new(w, f)?;
    let operation = Operation::new(operation)?;
    format.check_word(a)?;
    format.check_word(b)?;
    Ok(row(format, operation, a, b))
}

/// The row of two words that are not too wide; none where an operand is infinite or a NaN.
pub fn row(format: Format, operation: Operation, a: u64, b: u64) -> Option<u64> {
    let b = operation.effective(format, b);
    match (Operand::of(format, a), Operand::of(format, b)) {
        (Operand::Finite(x), Operand::Finite(y)) => Some(finite_row(format, &x, &y)),
        _ => None,
    }
}

/// The row of x, which is a, and y. L is the one with the larger biased exponent, and a where
/// they are equal.
fn finite_row(format: Format, x: &Finite, y: &Finite) -> u64 {
    let (l, r) = if x.biased_exponent >= y.biased_exponent {
        (x, y)
    } else {
        (y, x)
    };
    let like = x.negative == y.negative;
    let unit = l.unit_exponent;
    let left = l.magnitude.quotient_by_power(unit);
    let right = Counted {
        whole: r.magnitude.quotient_by_power(unit),
        has_part: r.magnitude.modulo_power(unit) != Wide::ZERO,
    };
    (0..format.precision())
        .filter(|&i| carries(left, &right, like, ones(i + 1)))
        .map(|i| 1 << i)
        .sum()
}

/// R in L's unit.
struct Counted {
    whole: u64,
    has_part: bool,
}

/// Whether position i holds a carry, or a borrow where the signs are unlike; `low` has ones in
/// positions 0 to i. A fractional part takes no sum of whole numbers to the next one, and lets
/// R's remainder exceed one that is as large without it.
fn carries(l: u64, r: &Counted, like: bool, low: u64) -> bool {
    let [left, right] = [l, r.whole].map(|number| number & low);
    if like {
        left + right > low
    } else {
        right > left || (right == left && r.has_part)
    }
}

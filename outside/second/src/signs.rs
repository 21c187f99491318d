//! What the signs of a job say about it in every format, where trying pairs is out of reach
//! (document 01, "The rounded result").

use crate::arith::Adder;
use crate::choice::Job;
use crate::fits::Conditions;
use crate::format::{Refusal, NO_CASE};
use crate::mask::Mask;

/// Whether the signs alone leave no case: both effective operands are fixed to +, and c to −.
///
/// Where both effective signs are +, the rounded result has sign bit 0 in every format and mode:
///
/// - a NaN operand gives the one NaN, whose sign bit is 0;
/// - otherwise an infinite operand gives infinity of its effective sign, +: no infinity of the
///   other sign stands beside it;
/// - two finite operands have an exact sum above zero, which rounding and what stands for an
///   overflow leave with its sign, or they are two zeros of like sign, which keep it.
///
/// With two effective signs of − there is no such rule: a NaN operand still gives sign bit 0.
pub fn leave_no_case(conditions: &Conditions, adder: &Adder) -> bool {
    let sign = adder.format.sign_bit();
    let is_fixed = |mask: Mask, bit: u64| mask.care & sign != 0 && mask.value & sign == bit;
    // The sign bit of b itself that makes the effective sign +.
    let plus = adder.operation.effective(adder.format, 0);
    is_fixed(conditions.a, 0) && is_fixed(conditions.b, plus) && is_fixed(conditions.c, sign)
}

/// The refusal of a job that another number than 7 refuses, or that has no case because of its
/// signs; none where only trying pairs can tell.
pub fn refusal(job: &Job) -> Option<Refusal> {
    match job.check() {
        Err(number) => Some(number),
        Ok(adder) => leave_no_case(&job.conditions, &adder).then_some(NO_CASE),
    }
}

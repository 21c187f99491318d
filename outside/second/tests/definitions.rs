//! The rounded result and the carry row against slower accounts of the same paragraphs.

use second::arith::{rounded, Adder};
use second::format::{every_format, LARGEST_MODE};
use second::operand::{Finite, Operand};
use second::random::Random;
use second::row::{carry_row, row};
use second::sample::{pair, SMALL};

/// All magnitudes of a format in smallest steps, by rising size, with the exponents going on
/// two places past the largest finite number.
fn magnitudes(w: u64, f: u64) -> Vec<i128> {
    let hidden = 1i128 << f;
    let subnormal = 0..hidden;
    let normal = (1..=1u32 << w).flat_map(|e| (0..hidden).map(move |t| (hidden + t) << (e - 1)));
    subnormal.chain(normal).collect()
}

/// The place of the number to which `exact` is rounded, found by looking at all numbers.
fn nearest_place(all: &[i128], mode: u64, exact: i128) -> usize {
    let size = exact.abs();
    let downward = |value: i128| all.iter().rposition(|&v| v <= value).unwrap();
    let upward = |value: i128| all.iter().position(|&v| v >= value).unwrap();
    match mode {
        0 => (0..all.len())
            .min_by_key(|&i| ((size - all[i]).abs(), i % 2))
            .unwrap(),
        4 => (0..all.len())
            .min_by_key(|&i| ((size - all[i]).abs(), -all[i]))
            .unwrap(),
        1 => downward(size),
        2 if exact > 0 => upward(size),
        2 => downward(size),
        _ if exact > 0 => downward(size),
        _ => upward(size),
    }
}

/// The word of an exact sum that is not zero.
fn expected(w: u64, f: u64, all: &[i128], mode: u64, exact: i128) -> u64 {
    let infinity = ((1 << w) - 1) << f;
    let place = nearest_place(all, mode, exact) as u64;
    let magnitude = match (place < infinity, mode, exact > 0) {
        (true, _, _) => place,
        (false, 0 | 4, _) | (false, 2, true) | (false, 3, false) => infinity,
        _ => infinity - 1,
    };
    magnitude + (u64::from(exact < 0) << (w + f))
}

/// The exact sum where both operands are finite and it is not zero.
fn exact_sum(w: u64, f: u64, all: &[i128], operation: u64, a: u64, b: u64) -> Option<i128> {
    let sign_bit = 1u64 << (w + f);
    let infinity = ((1 << w) - 1) << f;
    let value = |word: u64| {
        let index = word % sign_bit;
        let size = (index < infinity).then(|| all[index as usize])?;
        Some(if word >= sign_bit { -size } else { size })
    };
    let [x, y] = [value(a)?, value(b)?];
    let sum = if operation == 0 { x + y } else { x - y };
    (sum != 0).then_some(sum)
}

#[test]
fn small_formats_agree_with_a_search_among_all_numbers() {
    for (w, f) in SMALL {
        let all = magnitudes(w, f);
        assert!(all.windows(2).all(|pair| pair[0] < pair[1]));
        let words = 0..2u64 << (w + f);
        for (a, b) in words
            .clone()
            .flat_map(|a| words.clone().map(move |b| (a, b)))
        {
            for operation in [0, 1] {
                let Some(exact) = exact_sum(w, f, &all, operation, a, b) else {
                    continue;
                };
                for mode in 0..=LARGEST_MODE {
                    assert_eq!(
                        rounded(w, f, operation, mode, a, b),
                        Ok(expected(w, f, &all, mode, exact)),
                        "{w} {f} {operation} {mode} {a:x} {b:x}"
                    );
                }
            }
        }
    }
}

#[test]
fn small_formats_zeros_infinities_and_nans() {
    for (w, f) in SMALL {
        let sign = 1u64 << (w + f);
        let infinity = sign - (1 << f);
        let nan = infinity + (1 << (f - 1));
        for mode in 0..=LARGEST_MODE {
            let sum = |a, b| rounded(w, f, 0, mode, a, b).unwrap();
            let cancelled = if mode == 3 { sign } else { 0 };
            for x in 0..infinity {
                assert_eq!(sum(x, x + sign), cancelled);
                assert_eq!(sum(x + sign, x), cancelled);
                assert_eq!(sum(x, infinity), infinity);
                assert_eq!(sum(infinity + sign, x), infinity + sign);
                assert_eq!(sum(x, infinity + 1), nan);
            }
            assert_eq!([sum(0, 0), sum(sign, sign)], [0, sign]);
            assert_eq!(sum(infinity, infinity), infinity);
            assert_eq!(sum(infinity, infinity + sign), nan);
            assert_eq!(sum(sign - 1, infinity + sign), nan);
        }
    }
}

/// The row by passing a carry or a borrow from the lowest smallest step upward.
fn rippled(adder: &Adder, a: u64, b: u64) -> Option<u64> {
    let b = adder.operation.effective(adder.format, b);
    let operands = [a, b].map(|word| Operand::of(adder.format, word));
    let [Operand::Finite(x), Operand::Finite(y)] = operands else {
        return None;
    };
    let (l, r) = if x.biased_exponent < y.biased_exponent {
        (y, x)
    } else {
        (x, y)
    };
    Some(passed_on(adder, l, r))
}

/// The carries or borrows of L and R.
fn passed_on(adder: &Adder, l: Finite, r: Finite) -> u64 {
    let mut passed = false;
    let mut row = 0;
    for position in 0..l.unit_exponent + adder.format.precision() {
        let (left, right) = (l.magnitude.bit(position), r.magnitude.bit(position));
        // A borrow arises where a carry would if the upper number's bit were turned.
        let left = left == (l.negative == r.negative);
        passed = (left && right) || (passed && (left || right));
        if position >= l.unit_exponent {
            row |= u64::from(passed) << (position - l.unit_exponent);
        }
    }
    row
}

#[test]
fn rows_of_small_formats_ripple() {
    for (w, f) in SMALL {
        for operation in [0, 1] {
            let adder = Adder::new(w, f, operation, 0).unwrap();
            for a in 0..2u64 << (w + f) {
                for b in 0..2u64 << (w + f) {
                    assert_eq!(carry_row(w, f, operation, a, b), Ok(rippled(&adder, a, b)));
                }
            }
        }
    }
}

#[test]
fn rows_of_all_formats_ripple() {
    let mut random = Random::new(0x0720);
    for (w, f) in every_format() {
        for operation in [0, 1] {
            let adder = Adder::new(w, f, operation, 0).unwrap();
            for _ in 0..300 {
                let (a, b) = pair(&mut random, adder.format);
                let expected = rippled(&adder, a, b);
                assert_eq!(row(adder.format, adder.operation, a, b), expected);
            }
        }
    }
}

/// What W-205 changed. With the operand of larger magnitude for L the row is another one exactly
/// where the exponents are equal, the effective signs unlike and a's magnitude the smaller. Which
/// operand is a matters exactly where the exponents are equal, the effective signs unlike and the
/// magnitudes unequal.
#[test]
fn rows_go_by_the_exponent_alone() {
    for (w, f) in SMALL {
        let adder = Adder::new(w, f, 0, 0).unwrap();
        let row = |a, b| row(adder.format, adder.operation, a, b).expect("finite operands");
        let words = 0..2u64 << (w + f);
        let pairs = words
            .clone()
            .flat_map(|a| words.clone().map(move |b| (a, b)));
        for (a, b) in pairs {
            let operands = [a, b].map(|word| Operand::of(adder.format, word));
            let [Operand::Finite(x), Operand::Finite(y)] = operands else {
                continue;
            };
            let by_magnitude = if x.magnitude < y.magnitude {
                passed_on(&adder, y, x)
            } else {
                passed_on(&adder, x, y)
            };
            let either_order = x.biased_exponent != y.biased_exponent || x.negative == y.negative;
            let unchanged = row(a, b) == by_magnitude;
            assert_eq!(unchanged, either_order || x.magnitude >= y.magnitude);
            let same_exchanged = row(a, b) == row(b, a);
            assert_eq!(same_exchanged, either_order || x.magnitude == y.magnitude);
        }
    }
}

/// Exchanging the operands of an addition, and turning a sum into a difference with the
/// sign of b flipped, leave the rounded result as it is. Both follow from the papers in every
/// format.
#[test]
fn exchange_and_flip_in_all_formats() {
    let mut random = Random::new(0x0E0F);
    for (w, f) in every_format() {
        for mode in 0..=LARGEST_MODE {
            let [add, subtract] = [0, 1].map(|op| Adder::new(w, f, op, mode).unwrap());
            for _ in 0..100 {
                let (a, b) = pair(&mut random, add.format);
                let sum = add.result(a, b);
                assert_eq!(sum, add.result(b, a));
                assert_eq!(sum, subtract.result(a, b ^ add.format.sign_bit()));
            }
        }
    }
}

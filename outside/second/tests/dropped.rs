//! The bits below the last fraction bit (document 02, W-206), against the paper's examples, slower
//! accounts of its words, and the rounding that they decide.

use second::arith::{every_setting, Adder};
use second::dropped::{Below, Dropped};
use second::fits::{Case, Computed};
use second::format::{every_format, ones, LARGEST_G, LARGEST_MODE};
use second::mask::Mask;
use second::operand::Operand;
use second::random::Random;
use second::sample::{dropping_pair, pair, SMALL};
use second::wide::Wide;

fn below(adder: &Adder, a: u64, b: u64) -> Option<Below> {
    Computed::of(adder, a, b).below
}

/// The words of two operands of format 3/4 for every g from 0 on.
fn words(operation: u64, a: u64, b: u64) -> Option<[u64; 9]> {
    let adder = Adder::new(3, 4, operation, 0).unwrap();
    let below = below(&adder, a, b)?;
    Some([0, 1, 2, 3, 4, 5, 6, 7, 8].map(|g| below.word(g)))
}

/// 30 + 02 is 10000.10, a tie, and 45 + 2B is 11011.110, in units of their last bits.
#[test]
fn examples_of_the_request() {
    let tie = words(0, 0x30, 0x02).unwrap();
    assert_eq!(tie, [1, 2, 4, 8, 16, 32, 64, 128, 256]);
    let above = words(0, 0x45, 0x2B).unwrap();
    assert_eq!(above, [1, 3, 6, 12, 24, 48, 96, 192, 384]);
}

/// In decimal steps: 992 + 136 = 1128 is past the largest number, 992, and 10001.101000 in units
/// of the last bit; 992 + 992 is exact; 992 − 1 = 991 is 11110.11111.
#[test]
fn overflow_has_dropped_bits() {
    let over = words(0, 0x6F, 0x41).unwrap();
    assert_eq!(over, [1, 3, 5, 10, 20, 40, 80, 160, 320]);
    assert_eq!(words(0, 0x6F, 0x6F), Some([0; 9]));
    let under = words(1, 0x6F, 0x01).unwrap();
    assert_eq!(under, [1, 3, 7, 15, 31, 62, 124, 248, 496]);
}

/// Two subnormal numbers make a normal one without a bit dropped; 0F is below the smallest normal
/// number, and 10 is that.
#[test]
fn around_the_smallest_normal_number() {
    assert_eq!(words(0, 0x0F, 0x01), Some([0; 9]));
    assert_eq!(words(0, 0x10, 0x00), Some([0; 9]));
    assert_eq!(words(1, 0x11, 0x02), None);
    assert_eq!(words(0, 0x0F, 0x00), None);
    assert_eq!(words(1, 0x30, 0x30), None);
    assert_eq!(words(0, 0x70, 0x30), None);
    assert_eq!(words(0, 0x30, 0x71), None);
}

/// The magnitude of a finite word of a small format, in smallest steps.
fn steps((w, f): (u64, u64), word: u64) -> Option<i128> {
    let index = word % (1 << (w + f));
    let (e, t) = (index >> f, i128::from(index % (1 << f)));
    let size = match e {
        0 => t,
        _ => (t + (1 << f)) << (e - 1),
    };
    let value = if word >> (w + f) & 1 == 1 {
        -size
    } else {
        size
    };
    (e != (1 << w) - 1).then_some(value)
}

/// The paper's words over a fixed point: 16 places below a step, more than any g asks for, so that
/// every bit that is asked for stands somewhere.
fn by_fixed_point(format: (u64, u64), exact: i128, g: u64) -> Option<u64> {
    let size = exact.unsigned_abs() << 16;
    (exact.unsigned_abs() >= 1 << format.1).then_some(())?;
    let last = u64::from(size.ilog2()) - format.1 - g;
    let bits = (size >> last) as u64 % (1 << g);
    Some(2 * bits + u64::from(size & ((1 << last) - 1) != 0))
}

#[test]
fn small_formats_by_a_fixed_point() {
    for (w, f) in SMALL {
        let adders = [0, 1].map(|operation| Adder::new(w, f, operation, 0).unwrap());
        let count = 2u64 << (w + f);
        for (a, b) in (0..count).flat_map(|a| (0..count).map(move |b| (a, b))) {
            for (adder, sign) in adders.iter().zip([1, -1]) {
                let exact = steps((w, f), a).zip(steps((w, f), b));
                let exact = exact.map(|(x, y)| x + sign * y);
                let below = below(adder, a, b);
                for g in 0..=LARGEST_G {
                    let wanted = exact.and_then(|exact| by_fixed_point((w, f), exact, g));
                    assert_eq!(
                        below.map(|below| below.word(g)),
                        wanted,
                        "{w}/{f} {a:x} {b:x}"
                    );
                }
            }
        }
    }
}

/// The words by long division: what is left of the exact result below its last kept bit is doubled,
/// and gives a digit where it reaches that bit.
fn by_division(adder: &Adder, exact: &Wide, g: u64) -> u64 {
    let unit_exponent = exact.digits() - adder.format.precision();
    let unit = Wide::scaled(1, unit_exponent);
    let mut left = exact.modulo_power(unit_exponent);
    let mut word = 0;
    for _ in 0..g {
        left = left.plus(&left);
        let digit = left >= unit;
        if digit {
            left = left.minus(&unit);
        }
        word = 2 * word + u64::from(digit);
    }
    2 * word + u64::from(left != Wide::ZERO)
}

/// Pairs of every format, half of them with chosen bits below the last one, and their adders.
fn sampled(seed: u64, each: u64) -> impl Iterator<Item = (Adder, u64, u64)> {
    let mut random = Random::new(seed);
    let numbers = every_format().flat_map(|format| every_setting().map(move |set| (format, set)));
    let adders = numbers.map(|((w, f), [operation, mode])| Adder::new(w, f, operation, mode));
    adders.flat_map(move |adder| {
        let adder = adder.unwrap();
        let draw = |n| match n % 2 {
            0 => pair(&mut random, adder.format),
            _ => dropping_pair(&mut random, adder.format),
        };
        let pairs: Vec<_> = (0..each).map(draw).collect();
        pairs.into_iter().map(move |(a, b)| (adder, a, b))
    })
}

#[test]
fn all_formats_by_division() {
    let (mut ties, mut beside, mut exact) = (0, 0, 0);
    for (adder, a, b) in sampled(0xD1F1, 60) {
        let Some(below) = below(&adder, a, b) else {
            continue;
        };
        let magnitude = adder.exact(a, b).unwrap();
        for g in 0..=LARGEST_G {
            assert_eq!(below.word(g), by_division(&adder, &magnitude, g));
        }
        match below.word(8) {
            0 => exact += 1,
            0x100 => ties += 1,
            0x101 | 0xFF => beside += 1,
            _ => {}
        }
    }
    let counts = [ties, beside, exact];
    assert!(counts.iter().all(|&count| count > 5000), "{counts:?}");
}

/// Whether a magnitude with this last bit is rounded away from zero, by the first dropped bit and
/// whether anything stands below it.
fn goes_up(mode: u64, negative: bool, odd: bool, first: bool, rest: bool) -> bool {
    match mode {
        0 => first && (rest || odd),
        1 => false,
        2 => !negative && (first || rest),
        3 => negative && (first || rest),
        _ => first,
    }
}

/// Exponent and fraction of the result, from the exact magnitude's leading digits and a word of
/// dropped bits.
fn rounded_by_bits(adder: &Adder, exact: &Wide, negative: bool, g: u64, word: u64) -> u64 {
    let format = adder.format;
    let mode = adder.mode as u64;
    let unit_exponent = exact.digits() - format.precision();
    let kept = exact.quotient_by_power(unit_exponent);
    let (first, rest) = (word >> g == 1, word & ((1 << g) - 1) != 0);
    let up = goes_up(mode, negative, kept % 2 == 1, first, rest);
    let index = (u64::from(unit_exponent) << format.fraction_bits()) + kept + u64::from(up);
    let to_infinity = match mode {
        0 | 4 => true,
        1 => false,
        _ => (mode == 3) == negative,
    };
    match index > format.largest_finite() {
        false => index,
        true if to_infinity => format.infinity(),
        true => format.largest_finite(),
    }
}

/// From g = 1 on the bits decide the result in all five modes, an overflow too.
#[test]
fn the_bits_decide_the_rounding() {
    for (adder, a, b) in sampled(0x40D1, 60) {
        let Some(below) = below(&adder, a, b) else {
            continue;
        };
        let (c, sign) = (adder.result(a, b), adder.format.sign_bit());
        let exact = adder.exact(a, b).unwrap();
        for g in 1..=LARGEST_G {
            let result = rounded_by_bits(&adder, &exact, c & sign != 0, g, below.word(g));
            assert_eq!(c & !sign, result, "{adder:?} {a:x} {b:x} {g}");
        }
    }
}

/// There are bits below exactly where both operands are finite and the result is no smaller than
/// the smallest normal number. Below that nothing is rounded, so c tells it in every mode.
#[test]
fn smaller_and_special_results_have_none() {
    for (w, f) in SMALL {
        let count = 2u64 << (w + f);
        for mode in 0..=LARGEST_MODE {
            let adder = Adder::new(w, f, 0, mode).unwrap();
            for (a, b) in (0..count).flat_map(|a| (0..count).map(move |b| (a, b))) {
                let operands = [a, b].map(|word| Operand::of(adder.format, word));
                let finite = operands.iter().all(|o| matches!(o, Operand::Finite(_)));
                let Computed { case, below } = Computed::of(&adder, a, b);
                let normal = case.c & adder.format.infinity() != 0;
                assert_eq!(below.is_some(), finite && normal);
            }
        }
    }
}

/// Where there are no bits below, a mask that fixes any of them is not met, whatever it says, and
/// one that fixes none is. One that fixes all is met by its own bits alone.
#[test]
fn masks_are_met() {
    let adder = Adder::new(3, 4, 0, 0).unwrap();
    let [none, some] = [(0x0F, 0x00), (0x30, 0x02)].map(|(a, b)| below(&adder, a, b));
    for g in 0..=LARGEST_G {
        let meets = |care, value, below| {
            let mask = Mask { care, value };
            Dropped { g, mask }.is_met(below)
        };
        assert!(meets(0, 0, none) && meets(0, 0, some));
        for bit in (0..=g).map(|i| 1 << i) {
            assert!(!meets(bit, 0, none) && !meets(bit, bit, none));
        }
        let (all, word) = (ones(g as u32 + 1), some.unwrap().word(g));
        for other in 0..=all {
            assert_eq!(meets(all, other, some), other == word);
        }
    }
}

/// The bits below a result written as digits, the first dropped bit first; zeros follow.
fn word_of(digits: &str, g: u64) -> u64 {
    let is_one = |place: u64| digits.as_bytes().get(place as usize) == Some(&b'1');
    let bits = (0..g).fold(0, |word, place| 2 * word + u64::from(is_one(place)));
    let sticky = (g..digits.len() as u64).any(is_one);
    2 * bits + u64::from(sticky)
}

/// An adder with two words of its format: 1, and half of the unit of 1.
struct Around {
    adder: Adder,
    one: u64,
    half: u64,
}

fn around(w: u64, f: u64, operation: u64, mode: u64) -> Around {
    let bias = (1 << (w - 1)) - 1;
    Around {
        adder: Adder::new(w, f, operation, mode).unwrap(),
        one: bias << f,
        half: (bias - f - 1) << f,
    }
}

impl Around {
    /// The case of 1 and another word, which has these digits below its last fraction bit.
    fn with(&self, other: u64, digits: &str) -> Case {
        let Computed { case, below } = Computed::of(&self.adder, self.one, other);
        for g in 0..=LARGEST_G {
            let word = below.expect("a normal result").word(g);
            assert_eq!(word, word_of(digits, g), "{:?} {other:x} {g}", self.adder);
        }
        case
    }
}

const FORMATS: [(u64, u64); 3] = [(5, 2), (8, 23), (11, 52)];

/// 1 + half a unit is a tie: the first dropped bit is 1, the others and the sticky bit are 0. The
/// next number above half a unit makes a sum just above the tie, the next below one just below it.
#[test]
fn ties_and_beside_them() {
    for (w, f) in FORMATS {
        for mode in 0..=LARGEST_MODE {
            let around = around(w, f, 0, mode);
            let (one, half, up) = (around.one, around.half, around.one + 1);
            let zeros = "0".repeat(f as usize - 1);
            let tie = around.with(half, "1");
            assert_eq!(tie.c, [one, one, up, one, up][mode as usize]);
            let above = around.with(half + 1, &format!("1{zeros}1"));
            assert_eq!(above.c, [up, one, up, one, up][mode as usize]);
            let below = around.with(half - 1, &format!("0{}", "1".repeat(f as usize + 1)));
            assert_eq!(below.c, [one, one, up, one, one][mode as usize]);
        }
    }
}

/// 1 and its own unit make an exact sum. 1 and a power of two far below have one dropped bit, at
/// last only the sticky bit; less the smallest number, 1 is just below itself: all bits are ones.
#[test]
fn exact_and_inexact() {
    for (w, f) in FORMATS {
        for mode in 0..=LARGEST_MODE {
            let sum = around(w, f, 0, mode);
            assert_eq!(sum.with(sum.half + (1 << f), "").c, sum.one + 1);
            assert_eq!(sum.with(0, "").c, sum.one);
            for place in 0..=LARGEST_G {
                let digits = format!("{}1", "0".repeat(place as usize));
                sum.with(sum.half - (place << f), &digits);
            }
            let difference = around(w, f, 1, mode);
            let (one, down) = (difference.one, difference.one - 1);
            // 1 is 2^(bias − 1 + f) smallest steps, and one less has a digit less, all ones.
            let bias = one >> f;
            let case = difference.with(1, &"1".repeat(bias as usize - 2));
            assert_eq!(case.c, [one, down, one, down, one][mode as usize]);
        }
    }
}

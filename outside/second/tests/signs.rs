//! The rule about signs against all pairs of words of small formats, and against samples of the
//! pairs of every format.

use second::arith::{every_setting, Adder};
use second::choice::Job;
use second::fits::Conditions;
use second::format::{every_format, NO_CASE};
use second::mask::Mask;
use second::random::Random;
use second::sample::pair;
use second::signs::{leave_no_case, refusal};
use second::table::Table;

/// Formats with words of at most eight bits.
fn small_formats() -> impl Iterator<Item = (u64, u64)> {
    (2..=5).flat_map(|w| (2..=7 - w).map(move |f| (w, f)))
}

/// Every adder of a format.
fn adders((w, f): (u64, u64)) -> impl Iterator<Item = Adder> {
    every_setting().map(move |[operation, mode]| Adder::new(w, f, operation, mode).unwrap())
}

/// The mask that leaves the sign free, fixes it to 0 or fixes it to 1.
fn sign_mask(adder: &Adder, choice: u64) -> Mask {
    let sign = adder.format.sign_bit();
    match choice {
        0 => Mask::FREE,
        1 => Mask {
            care: sign,
            value: 0,
        },
        _ => Mask {
            care: sign,
            value: sign,
        },
    }
}

/// Conditions that fix signs only, by a number below 27.
fn sign_conditions(adder: &Adder, number: u64) -> Conditions {
    let format = adder.format;
    let (w, f) = (format.exponent_bits(), format.fraction_bits());
    let [operation, mode] = [adder.operation as u64, adder.mode as u64];
    let mut conditions = Conditions::free(u64::from(w), u64::from(f), operation, mode);
    conditions.a = sign_mask(adder, number % 3);
    conditions.b = sign_mask(adder, number / 3 % 3);
    conditions.c = sign_mask(adder, number / 9);
    conditions
}

/// Where only signs are fixed, the rule finds exactly the jobs that no pair of words fits.
#[test]
fn small_formats_by_all_pairs() {
    for adder in small_formats().flat_map(adders) {
        let table = Table::new(adder).unwrap();
        let mut refused = 0;
        for conditions in (0..27).map(|number| sign_conditions(&adder, number)) {
            let words = [0, 0];
            let by_pairs = table.generate(&Job { conditions, words });
            let by_signs = leave_no_case(&conditions, &adder);
            assert_eq!(by_pairs == Err(NO_CASE), by_signs, "{conditions:x?}");
            refused += u32::from(by_signs);
        }
        assert_eq!(refused, 1);
    }
}

/// Effective operands of sign + have a result of sign bit 0, in samples of every format.
#[test]
fn all_formats_by_sampled_pairs() {
    let mut random = Random::new(0x5161);
    for adder in every_format().flat_map(adders) {
        let sign = adder.format.sign_bit();
        let plus = adder.operation.effective(adder.format, 0);
        for _ in 0..300 {
            let (a, b) = pair(&mut random, adder.format);
            let c = adder.result(a % sign, b % sign + plus);
            assert_eq!(c & sign, 0, "{adder:?} {a:x} {b:x}");
        }
    }
}

/// Every other cause comes before 7.
#[test]
fn a_refusal_is_the_first() {
    let adder = Adder::new(8, 23, 0, 0).unwrap();
    // a and b +, c −.
    let mut job = Job {
        conditions: sign_conditions(&adder, 1 + 3 + 18),
        words: [0, 0],
    };
    assert_eq!(refusal(&job), Some(NO_CASE));
    job.words[1] = 1 << 32;
    assert_eq!(refusal(&job), Some(6));
    job.conditions.b.value = 1;
    assert_eq!(refusal(&job), Some(14));
    job.words = [0, 0];
    job.conditions = sign_conditions(&adder, 1 + 3);
    assert_eq!(refusal(&job), None);
}

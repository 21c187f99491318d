//! Single and double precision against the processor: in its four rounding modes, and in mode 4,
//! which it has not, by its mode 0 and what shows the ties.
//!
//! SECOND_SEED gives another seed, decimal or with 0x before hexadecimal digits.

use std::ops::{Add, Neg, Sub};

use second::arith::Adder;
use second::fits::Computed;
use second::format::LARGEST_G;
use second::random::{seed, Random};
use second::sample::{dropping_pair, pair};

const PAIRS: usize = 1_000_000;
const SEED: u64 = 0x0001_0754_2008;

/// A format that the processor has.
trait Native: Copy + PartialOrd + Add<Output = Self> + Sub<Output = Self> + Neg<Output = Self> {
    /// w and f.
    const FORMAT: (u64, u64);
    fn of(word: u64) -> Self;
    fn word(self) -> u64;
    fn abs(self) -> Self;
    fn is_nan(self) -> bool;
}

macro_rules! native {
    ($float:ident, $bits:ty, $format:expr) => {
        impl Native for $float {
            const FORMAT: (u64, u64) = $format;

            fn of(word: u64) -> Self {
                $float::from_bits(word as $bits)
            }

            fn word(self) -> u64 {
                u64::from(self.to_bits())
            }

            fn abs(self) -> Self {
                $float::abs(self)
            }

            fn is_nan(self) -> bool {
                $float::is_nan(self)
            }
        }
    };
}

native!(f32, u32, (8, 23));
native!(f64, u64, (11, 52));

fn adder<T: Native>(operation: u64, mode: u64) -> Adder {
    let (w, f) = T::FORMAT;
    Adder::new(w, f, operation, mode).unwrap()
}

fn random() -> Random {
    let given = std::env::var("SECOND_SEED").ok();
    let seed = seed(given.as_deref(), SEED).expect("SECOND_SEED is no number");
    println!("seed {seed:#x}");
    Random::new(seed)
}

/// Compares both operations in one mode on the same pairs. Every NaN of the processor is taken for
/// the one that document 01 names; IEEE 754 leaves the pattern free.
fn compare<T: Native>(mode: u64, processor: impl Fn(u64, T, T) -> T) {
    let mut random = random();
    let adders = [0, 1].map(|operation| adder::<T>(operation, mode));
    for _ in 0..PAIRS {
        let (a, b) = pair(&mut random, adders[0].format);
        for (operation, adder) in (0..).zip(&adders) {
            let result = processor(operation, T::of(a), T::of(b));
            let expected = if result.is_nan() {
                adder.format.nan()
            } else {
                result.word()
            };
            assert_eq!(
                adder.result(a, b),
                expected,
                "{a:x} {b:x} operation {operation} mode {mode}"
            );
        }
    }
}

/// The sum or difference by the language's own operators.
fn nearest<T: Native>(operation: u64, a: T, b: T) -> T {
    match operation {
        0 => a + b,
        _ => a - b,
    }
}

#[test]
fn nearest_by_the_language() {
    compare::<f32>(0, nearest);
    compare::<f64>(0, nearest);
}

/// Where two numbers are as near, the larger one. The error of a sum is itself a number, and the
/// processor gives it: the larger operand is taken from the sum again, and that from the smaller
/// one, both without rounding. The sum lies half way to the next number away from zero where
/// twice the error reaches that. An overflow is infinite in both nearest modes.
fn ties_away<T: Native>(operation: u64, a: T, b: T) -> T {
    let b = if operation == 0 { b } else { -b };
    let (large, small) = if a.abs() < b.abs() { (b, a) } else { (a, b) };
    let sum = a + b;
    let error = small - (sum - large);
    let next = T::of(sum.word().wrapping_add(1));
    if next - sum == error + error {
        next
    } else {
        sum
    }
}

#[test]
fn ties_away_by_the_error() {
    compare::<f32>(4, ties_away);
    compare::<f64>(4, ties_away);
}

/// The same in single precision by a sum in double precision. One that lies half way has at most
/// 48 bits from end to end, so that double precision holds it, and no other sum is rounded there
/// to a half-way number.
fn ties_away_in_single(operation: u64, a: f32, b: f32) -> f32 {
    let sum = nearest(operation, a, b);
    let exact = nearest(operation, f64::from(a), f64::from(b));
    let next = f32::of(sum.word() + 1);
    if f64::from(next) - exact == exact - f64::from(sum) {
        next
    } else {
        sum
    }
}

#[test]
fn ties_away_by_a_wider_sum() {
    compare::<f32>(4, ties_away_in_single);
}

/// The bits below a sum in single precision, by a sum in double precision: that has 29 fraction
/// bits more, and what it loses is the error. Where the error points back towards zero, the number
/// before is the one that begins with the digits of the exact sum.
fn bits_by_a_wider_sum(a: f32, b: f32, g: u64) -> Option<u64> {
    let [a, b] = [a, b].map(f64::from);
    let (large, small) = if a.abs() < b.abs() { (b, a) } else { (a, b) };
    let sum = a + b;
    let error = small - (sum - large);
    let back = error != 0.0 && (error < 0.0) != (sum < 0.0);
    let word = sum.to_bits() - u64::from(back);
    let is_normal = sum.is_finite() && sum.abs() >= f64::from(f32::MIN_POSITIVE);
    let left = 29 - g;
    let sticky = error != 0.0 || word & ((1 << left) - 1) != 0;
    is_normal.then_some((word >> left) % (1 << g) * 2 + u64::from(sticky))
}

#[test]
fn dropped_bits_by_a_wider_sum() {
    let mut random = random();
    let adder = adder::<f32>(0, 0);
    for n in 0..PAIRS {
        let (a, b) = [pair, dropping_pair][n % 2](&mut random, adder.format);
        let below = Computed::of(&adder, a, b).below;
        for g in 0..=LARGEST_G {
            let wanted = bits_by_a_wider_sum(f32::of(a), f32::of(b), g);
            assert_eq!(below.map(|below| below.word(g)), wanted, "{a:x} {b:x} {g}");
        }
    }
}

#[cfg(target_arch = "x86_64")]
mod control_word {
    use super::{compare, Native};
    use std::arch::asm;

    /// All exceptions masked, no flags, subnormal numbers kept.
    const CONTROL: u32 = 0x1F80;

    /// The control word for document 01's mode, which counts the directions otherwise than
    /// the processor does.
    fn control(mode: u64) -> u32 {
        let field = match mode {
            0 => 0,
            1 => 3,
            2 => 2,
            _ => 1,
        };
        CONTROL | field << 13
    }

    /// One instruction under a control word. Setting, computing and restoring stand in one
    /// block, so that no other floating-point instruction can come between them.
    macro_rules! under_control {
        ($float:ty, $instruction:literal, $control:expr, $a:expr, $b:expr) => {{
            let control: u32 = $control;
            let mut saved: u32 = 0;
            let result: $float;
            // The block reads `control`, writes `saved`, and leaves the control register as
            // it found it.
            unsafe {
                asm!(
                    "stmxcsr dword ptr [{saved}]",
                    "ldmxcsr dword ptr [{control}]",
                    concat!($instruction, " {x}, {y}"),
                    "ldmxcsr dword ptr [{saved}]",
                    saved = in(reg) &mut saved,
                    control = in(reg) &control,
                    x = inout(xmm_reg) $a => result,
                    y = in(xmm_reg) $b,
                    options(nostack)
                );
            }
            result
        }};
    }

    /// A format with the instructions that add and subtract in it.
    trait Controlled: Native {
        fn compute(control: u32, operation: u64, a: Self, b: Self) -> Self;
    }

    macro_rules! controlled {
        ($float:ty, $add:literal, $subtract:literal) => {
            impl Controlled for $float {
                fn compute(control: u32, operation: u64, a: Self, b: Self) -> Self {
                    match operation {
                        0 => under_control!($float, $add, control, a, b),
                        _ => under_control!($float, $subtract, control, a, b),
                    }
                }
            }
        };
    }

    controlled!(f32, "addss", "subss");
    controlled!(f64, "addsd", "subsd");

    fn compare_under_control<T: Controlled>(mode: u64) {
        compare::<T>(mode, |operation, a, b| {
            T::compute(control(mode), operation, a, b)
        });
    }

    /// The words of 1 + half a unit and of −1 − half a unit in modes 0 to 3.
    fn around_one<T: Controlled>(one: u64, half_unit: u64) -> [[u64; 4]; 2] {
        let [one, half_unit] = [one, half_unit].map(T::of);
        [(0, one), (1, -one)].map(|(operation, a)| {
            [0, 1, 2, 3].map(|mode| T::compute(control(mode), operation, a, half_unit).word())
        })
    }

    /// The control word is obeyed: a tie goes to even, and elsewhere by direction.
    #[test]
    fn control_is_obeyed() {
        let (one, minus) = (0x3F80_0000, 0xBF80_0000);
        assert_eq!(
            around_one::<f32>(one, 0x3380_0000),
            [[one, one, one + 1, one], [minus, minus, minus, minus + 1]]
        );
        let (one, minus) = (0x3FF0_0000_0000_0000, 0xBFF0_0000_0000_0000);
        assert_eq!(
            around_one::<f64>(one, 0x3CA0_0000_0000_0000),
            [[one, one, one + 1, one], [minus, minus, minus, minus + 1]]
        );
    }

    #[test]
    fn single_precision() {
        (0..4).for_each(compare_under_control::<f32>);
    }

    #[test]
    fn double_precision() {
        (0..4).for_each(compare_under_control::<f64>);
    }
}

/// Which of the hard places a pair is: cancelled, overflow, both subnormal, nearly cancelled, tie.
/// A tie shows where the two nearest modes differ, which is at every second one.
fn places([even, away]: &[Adder; 2], a: u64, b: u64) -> [bool; 5] {
    let format = even.format;
    let size = |word: u64| word % format.sign_bit();
    let [x, y, sum] = [a, b, even.result(a, b)].map(size);
    let (hidden, infinity) = (1 << format.fraction_bits(), format.infinity());
    let finite = x < infinity && y < infinity;
    [
        finite && sum == 0,
        finite && sum == infinity,
        (1..hidden).contains(&x) && (1..hidden).contains(&y),
        finite && sum != 0 && sum + 12 * hidden < x,
        finite && sum != size(away.result(a, b)),
    ]
}

/// The pairs reach the places for which they are made.
fn reach<T: Native>() {
    let mut random = random();
    let adders = [0, 4].map(|mode| adder::<T>(0, mode));
    let mut counts = [0; 5];
    for _ in 0..100_000 {
        let (a, b) = pair(&mut random, adders[0].format);
        for (count, reached) in counts.iter_mut().zip(places(&adders, a, b)) {
            *count += u32::from(reached);
        }
    }
    println!("cancelled, overflow, subnormal, nearly cancelled, tie: {counts:?}");
    assert!(counts.iter().all(|&count| count > 500), "{counts:?}");
}

#[test]
fn pairs_reach_the_hard_places() {
    reach::<f32>();
    reach::<f64>();
}

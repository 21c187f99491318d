//! Random words, pairs and jobs that favour hard places: close exponents, cancellation,
//! subnormal numbers, ties, overflow, special words. For test programs.

use crate::arith::Adder;
use crate::choice::Job;
use crate::dropped::{Below, Dropped};
use crate::fits::{Case, Computed, Conditions};
use crate::format::{
    ones, Format, LARGEST_F, LARGEST_G, LARGEST_MODE, LARGEST_W, SMALLEST_F, SMALLEST_W,
};
use crate::mask::Mask;
use crate::random::Random;
use crate::whole::WholeJob;
use crate::within;

/// Formats with words of at most eight bits.
pub const SMALL: [(u64, u64); 10] = [
    (2, 2),
    (2, 3),
    (2, 4),
    (2, 5),
    (3, 2),
    (3, 3),
    (3, 4),
    (4, 2),
    (4, 3),
    (5, 2),
];

/// A word of the format, often with a special exponent or a special fraction.
pub fn word(random: &mut Random, format: Format) -> u64 {
    let top = (1 << format.exponent_bits()) - 1;
    let exponent = match random.below(8) {
        0 => random.below(3),
        1 => top - random.below(3),
        _ => random.bits(format.exponent_bits()),
    };
    let fraction = fraction(random, format);
    compose(random, format, exponent as i64, fraction)
}

/// A pair of words of the format.
pub fn pair(random: &mut Random, format: Format) -> (u64, u64) {
    let a = word(random, format);
    let b = match random.below(8) {
        0 => word(random, format),
        1 => at_distance(random, format, a, 3, 0),
        2 | 3 => at_distance(random, format, a, format.precision() + 4, 0),
        // From here on the lower operand lies wholly below the other's last bits.
        4 => at_distance(random, format, a, 5, format.precision() - 2),
        5 => nearly(random, format, a),
        6 => return among(random, format, 0),
        _ => return among(random, format, (1 << format.exponent_bits()) - 4),
    };
    if random.one_in(2) {
        (a, b)
    } else {
        (b, a)
    }
}

/// A pair of finite words with equal exponents and unlike effective signs: the row goes by which of
/// them is a.
pub fn opposed_pair(random: &mut Random, adder: &Adder) -> (u64, u64) {
    let format = adder.format;
    let finite = (1 << format.exponent_bits()) - 1;
    let exponent = match random.below(4) {
        0 => 0,
        _ => random.below(finite),
    };
    let negative = random.one_in(2);
    let [a, b] = [negative, !negative].map(|negative| {
        let fraction = fraction(random, format);
        format.signed(negative, (exponent << format.fraction_bits()) + fraction)
    });
    (a, adder.operation.effective(format, b))
}

/// A pair of finite words of which one lies below the other, so far as up to a few bits beyond all
/// that a job can name. What stands below the other's last bit is chosen: nothing, the last bit, a
/// tie, just off a tie, all ones, or any bits.
pub fn dropping_pair(random: &mut Random, format: Format) -> (u64, u64) {
    let finite = (1 << format.exponent_bits()) - 1;
    let exponent = random.below(finite) as i64;
    let high = fraction(random, format);
    let gap = 1 + random.below(u64::from(format.precision()) + LARGEST_G + 2);
    let dropped = gap.min(u64::from(format.fraction_bits())) as u32;
    let (all, tie) = (ones(dropped), 1 << (dropped - 1));
    let bits = match random.below(8) {
        0 => 0,
        1 => 1,
        2 | 3 => tie,
        4 => tie - 1,
        5 => (tie + 1) & all,
        6 => all,
        _ => random.bits(dropped),
    };
    let low = random.bits(format.fraction_bits()) & !all | bits;
    let high = compose(random, format, exponent, high);
    let low = compose(random, format, exponent - gap as i64, low);
    if random.one_in(2) {
        (high, low)
    } else {
        (low, high)
    }
}

/// A fraction: random, empty, full, one bit, few bits, or ones at one end.
fn fraction(random: &mut Random, format: Format) -> u64 {
    let f = format.fraction_bits();
    let full = (1 << f) - 1;
    match random.below(8) {
        0 => 0,
        1 => full,
        2 => 1 << random.below(u64::from(f)),
        3 => full - (1 << random.below(u64::from(f))),
        4 => random.bits(f) & random.bits(f) & random.bits(f),
        5 => full >> random.below(u64::from(f)),
        _ => random.bits(f),
    }
}

/// A word with a random sign; an exponent outside the field is moved to its nearest end.
fn compose(random: &mut Random, format: Format, exponent: i64, fraction: u64) -> u64 {
    let exponent = exponent.clamp(0, (1 << format.exponent_bits()) - 1) as u64;
    let index = (exponent << format.fraction_bits()) + fraction;
    format.signed(random.one_in(2), index)
}

fn exponent_of(format: Format, word: u64) -> i64 {
    ((word & (format.sign_bit() - 1)) >> format.fraction_bits()) as i64
}

/// A word whose exponent lies `least` to `least + spread` − 1 below that of `a`.
fn at_distance(random: &mut Random, format: Format, a: u64, spread: u32, least: u32) -> u64 {
    let distance = u64::from(least) + random.below(u64::from(spread));
    let fraction = fraction(random, format);
    compose(
        random,
        format,
        exponent_of(format, a) - distance as i64,
        fraction,
    )
}

/// A word a few places from `a` in the order of magnitudes, with a random sign.
fn nearly(random: &mut Random, format: Format, a: u64) -> u64 {
    let index = (a & (format.sign_bit() - 1)) + random.below(9);
    let index = index.saturating_sub(4).min(format.sign_bit() - 1);
    format.signed(random.one_in(2), index)
}

/// Two words with exponents in the four from `low` on.
fn among(random: &mut Random, format: Format, low: i64) -> (u64, u64) {
    let mut one = || {
        let exponent = low + random.below(4) as i64;
        let fraction = fraction(random, format);
        compose(random, format, exponent, fraction)
    };
    (one(), one())
}

/// Half, single and double precision.
const IN_USE: [(u64, u64); 3] = [(5, 10), (8, 23), (11, 52)];

/// w, f, operation and mode, each anywhere within its limits; every fourth format is one in use.
pub fn numbers(random: &mut Random) -> [u64; 4] {
    let mut between = |low, high| low + random.below(high - low + 1);
    let (w, f) = match between(0, 11) {
        n @ 0..=2 => IN_USE[n as usize],
        _ => (
            between(SMALLEST_W, LARGEST_W),
            between(SMALLEST_F, LARGEST_F),
        ),
    };
    [w, f, between(0, 1), between(0, LARGEST_MODE)]
}

/// How many of 64 bits to fix in the masks of a and b so that about six bits of the two stay free,
/// whatever the format: few enough to try them all.
pub fn all_but_few([w, f, _, _]: [u64; 4]) -> u64 {
    64 - 64 * 6 / (2 * (w + f + 1))
}

/// A job that no number but 7 refuses. Its masks take their values from a true case,
/// and in one of two jobs one fixed bit is turned, so that both answers are frequent. In
/// each of the masks of a and b about `care_a_b` of 64 bits are fixed. One of four states bounds.
pub fn job(random: &mut Random, numbers: [u64; 4], care_a_b: u64) -> Job {
    let adder = adder(numbers);
    let (a, b) = pair(random, adder.format);
    let computed = Computed::of(&adder, a, b);
    let dropped = perhaps_dropped(random, computed.below);
    job_around(random, &adder, computed.case, dropped, care_a_b)
}

/// The same around a case of opposed operands, whose exponents are fixed.
pub fn opposed_job(random: &mut Random, numbers: [u64; 4], care_a_b: u64) -> Job {
    let adder = adder(numbers);
    let (a, b) = opposed_pair(random, &adder);
    let computed = Computed::of(&adder, a, b);
    let dropped = perhaps_dropped(random, computed.below);
    let mut job = job_around(random, &adder, computed.case, dropped, care_a_b);
    let field = adder.format.infinity();
    let masks = &mut job.conditions;
    for (mask, word) in [(&mut masks.a, a), (&mut masks.b, b)] {
        mask.care |= field;
        mask.value = mask.value & !field | word & field;
    }
    job
}

/// The same around a case with chosen bits below its last one; some of these are always asked for.
pub fn dropped_job(random: &mut Random, numbers: [u64; 4], care_a_b: u64) -> Job {
    let adder = adder(numbers);
    let (a, b) = dropping_pair(random, adder.format);
    let Computed { case, below } = Computed::of(&adder, a, b);
    let mut dropped = Dropped::FREE;
    while dropped == Dropped::FREE {
        dropped = dropped_around(random, below);
    }
    job_around(random, &adder, case, dropped, care_a_b)
}

/// One of these jobs that states bounds.
pub fn bounded_job(random: &mut Random, numbers: [u64; 4], care_a_b: u64) -> Job {
    let draw = [job, opposed_job, dropped_job][random.below(3) as usize];
    let mut drawn = std::iter::repeat_with(|| draw(random, numbers, care_a_b));
    drawn
        .find(|job| job.conditions.bounds != [None; 3])
        .expect("an endless supply")
}

fn adder([w, f, operation, mode]: [u64; 4]) -> Adder {
    Adder::new(w, f, operation, mode).expect("numbers within their limits")
}

fn job_around(
    random: &mut Random,
    adder: &Adder,
    case: Case,
    dropped: Dropped,
    care_a_b: u64,
) -> Job {
    let format = adder.format;
    let width = format.width();
    let care_c = 8 * (2 + random.below(7));
    let care_row = 8 * random.below(5);
    let mut conditions = Conditions::free(
        u64::from(format.exponent_bits()),
        u64::from(format.fraction_bits()),
        adder.operation as u64,
        adder.mode as u64,
    );
    conditions.a = mask_around(random, case.a, width, care_a_b);
    conditions.b = mask_around(random, case.b, width, care_a_b);
    conditions.c = mask_around(random, case.c, width, care_c);
    if let Some(row) = case.row {
        conditions.carries = mask_around(random, row, format.precision(), care_row);
    }
    conditions.dropped = dropped;
    conditions.bounds = within::perhaps(random, format, [case.a, case.b, case.c]);
    if random.one_in(2) {
        turn(random, &mut conditions);
    }
    let words = match random.below(3) {
        0 => [0, 0],
        _ => [random.bits(width), random.bits(width)],
    };
    Job { conditions, words }
}

/// A job that no number but 7 refuses, whose masks are made around no case: each fixes about a
/// quarter, a half or three quarters of its bits, at random. One in three asks for dropped bits,
/// and one in four states bounds.
pub fn unrelated_job(random: &mut Random, numbers: [u64; 4]) -> Job {
    let [w, f, operation, mode] = numbers;
    let format = Format::new(w, f).expect("numbers within their limits");
    let width = format.width();
    let care = 16 * (1 + random.below(3));
    let mut any = |width| {
        let word = random.bits(width);
        mask_around(random, word, width, care)
    };
    let mut conditions = Conditions::free(w, f, operation, mode);
    conditions.a = any(width);
    conditions.b = any(width);
    conditions.c = any(width);
    conditions.carries = any(format.precision());
    conditions.dropped = perhaps_dropped(random, None);
    let words = [0; 3].map(|_| word(random, format));
    conditions.bounds = within::perhaps(random, format, words);
    let words = [random.bits(width), random.bits(width)];
    Job { conditions, words }
}

/// A mask that a word meets, with about `care` of 64 bits fixed.
fn mask_around(random: &mut Random, word: u64, width: u32, care: u64) -> Mask {
    let care = (0..width)
        .filter(|_| random.below(64) < care)
        .map(|i| 1 << i)
        .sum();
    Mask {
        care,
        value: word & care,
    }
}

/// What the bits below a result meet, with any g, often the largest, and about half of the bits
/// fixed or all; where there are none, any bits.
fn dropped_around(random: &mut Random, below: Option<Below>) -> Dropped {
    let g = match random.below(4) {
        0 => LARGEST_G,
        _ => random.below(LARGEST_G + 1),
    };
    let width = g as u32 + 1;
    let word = match below {
        Some(below) => below.word(g),
        None => random.bits(width),
    };
    let care = 32 << random.below(2);
    let mask = mask_around(random, word, width, care);
    Dropped { g, mask }.taken()
}

/// The same in one of three cases, else nothing.
fn perhaps_dropped(random: &mut Random, below: Option<Below>) -> Dropped {
    match random.below(3) {
        0 => dropped_around(random, below),
        _ => Dropped::FREE,
    }
}

/// Turns one bit among those that the masks of c, of the carries and of the dropped bits fix, where
/// there is one.
fn turn(random: &mut Random, conditions: &mut Conditions) {
    let Conditions {
        c,
        carries,
        dropped,
        ..
    } = conditions;
    let masks = [c, carries, &mut dropped.mask];
    let count = |mask: &Mask| u64::from(mask.care.count_ones());
    let fixed = masks.iter().map(|mask| count(mask)).sum();
    if fixed == 0 {
        return;
    }
    let mut place = random.below(fixed);
    for mask in masks {
        let mut bits = (0..64).map(|i| 1 << i).filter(|bit| mask.care & bit != 0);
        if let Some(bit) = bits.nth(place as usize) {
            mask.value ^= bit;
            return;
        }
        place -= count(mask);
    }
}

/// A whole-number job of a length from 1 to 32 in which every bit is fixed to 0.
pub fn zeros(n: u64) -> WholeJob {
    let fixed = |width: u64| Mask {
        care: ones(width as u32),
        value: 0,
    };
    WholeJob {
        n,
        x: fixed(n),
        y: fixed(n),
        z: fixed(n),
        carries: fixed(n + 1),
        words: [0; 3],
    }
}

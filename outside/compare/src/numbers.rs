//! The rounded result, the carry row and joining.

use second::arith::{every_setting, rounded, Adder};
use second::format::{every_format, Format, LARGEST_F, LARGEST_MODE, LARGEST_W};
use second::mask::Mask;
use second::random::Random;
use second::row::carry_row;
use second::sample::{opposed_pair, pair};
use vindacsor::buffer;

use crate::call::{compare, Tally};
use crate::damage::{damaged_number, damaged_word};

/// The four numbers and the two operands of a call.
#[derive(Debug)]
struct Sum {
    w: u64,
    f: u64,
    operation: u64,
    mode: u64,
    a: u64,
    b: u64,
}

/// Every format, operation and mode.
pub fn every_adder() -> Vec<[u64; 4]> {
    every_format()
        .flat_map(|(w, f)| every_setting().map(move |[operation, mode]| [w, f, operation, mode]))
        .collect()
}

/// Every format, operation and mode in turn, again and again.
fn adders() -> impl Iterator<Item = [u64; 4]> {
    every_adder().into_iter().cycle()
}

/// A sum of the given format, operation and mode, perhaps damaged.
fn sum(random: &mut Random, numbers: [u64; 4]) -> Sum {
    let [w, f, ..] = numbers;
    let format = Format::new(w, f).expect("within the limits");
    let operands = pair(random, format);
    perhaps_damaged_sum(random, numbers, operands)
}

/// The sum of two operands; one in six has a number or two that are not as they should be.
fn perhaps_damaged_sum(
    random: &mut Random,
    [w, f, operation, mode]: [u64; 4],
    (a, b): (u64, u64),
) -> Sum {
    let format = Format::new(w, f).expect("within the limits");
    let mut sum = Sum {
        w,
        f,
        operation,
        mode,
        a,
        b,
    };
    if random.one_in(6) {
        for _ in 0..1 + random.below(2) {
            match random.below(6) {
                0 => sum.w = damaged_number(random, LARGEST_W),
                1 => sum.f = damaged_number(random, LARGEST_F),
                2 => sum.operation = damaged_number(random, 1),
                3 => sum.mode = damaged_number(random, LARGEST_MODE),
                4 => sum.a = damaged_word(random, a, format.width()),
                _ => sum.b = damaged_word(random, b, format.width()),
            }
        }
    }
    sum
}

/// The rounded result, on `count` calls.
pub fn results(random: &mut Random, count: u64) -> Result<Tally, String> {
    let mut tally = Tally::default();
    for adder in adders().take(count as usize) {
        let s = sum(random, adder);
        let reply = rounded(s.w, s.f, s.operation, s.mode, s.a, s.b).map(|c| vec![c]);
        let call = |out: &mut [u8]| buffer::result(s.w, s.f, s.operation, s.mode, s.a, s.b, out);
        compare(random, &mut tally, &reply, call, || {
            format!("rounded result of {s:x?}")
        })?;
    }
    Ok(tally)
}

/// The carry row, on `count` calls.
pub fn rows(random: &mut Random, count: u64) -> Result<Tally, String> {
    each_row(random, count, sum)
}

/// The carry row of operands with equal exponents and unlike effective signs, on `count` calls.
pub fn opposed_rows(random: &mut Random, count: u64) -> Result<Tally, String> {
    each_row(random, count, |random, numbers| {
        let [w, f, operation, mode] = numbers;
        let adder = Adder::new(w, f, operation, mode).expect("within the limits");
        let operands = opposed_pair(random, &adder);
        perhaps_damaged_sum(random, numbers, operands)
    })
}

/// The carry row, on `count` sums that are so made.
fn each_row(
    random: &mut Random,
    count: u64,
    make: fn(&mut Random, [u64; 4]) -> Sum,
) -> Result<Tally, String> {
    let mut tally = Tally::default();
    for adder in adders().take(count as usize) {
        let s = make(random, adder);
        let reply = carry_row(s.w, s.f, s.operation, s.a, s.b)
            .map(|row| row.map_or(vec![0, 0], |row| vec![1, row]));
        let call = |out: &mut [u8]| buffer::row(s.w, s.f, s.operation, s.a, s.b, out);
        compare(random, &mut tally, &reply, call, || {
            format!("carry row of {s:x?}")
        })?;
    }
    Ok(tally)
}

/// A mask whose value stands in its care but for one in ten.
fn any_mask(random: &mut Random) -> Mask {
    let care = random.word() & random.word();
    let value = random.word() & care;
    let outside = if random.one_in(10) {
        1 << random.below(64)
    } else {
        0
    };
    Mask {
        care,
        value: value | outside,
    }
}

/// A second mask: any, or one that agrees with the first.
fn other_mask(random: &mut Random, one: Mask) -> Mask {
    let other = any_mask(random);
    if random.one_in(3) {
        return other;
    }
    let both = one.care & other.care;
    Mask {
        care: other.care,
        value: other.value & !both | one.value & both,
    }
}

/// Joining, on `count` calls.
pub fn joinings(random: &mut Random, count: u64) -> Result<Tally, String> {
    let mut tally = Tally::default();
    for _ in 0..count {
        let one = any_mask(random);
        let other = other_mask(random, one);
        let reply = one.join(&other).map(|mask| vec![mask.care, mask.value]);
        let call = |out: &mut [u8]| buffer::join(given(one), given(other), out);
        compare(random, &mut tally, &reply, call, || {
            format!("joining {one:x?} and {other:x?}")
        })?;
    }
    Ok(tally)
}

/// A mask of the second implementation as the library takes it.
pub fn given(mask: Mask) -> vindacsor::Mask {
    vindacsor::Mask {
        care: mask.care,
        value: mask.value,
    }
}

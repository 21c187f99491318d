//! Jobs that ask for bits below the last one (document 02, W-206): the generator, confirmation, and
//! what a g means where nothing is fixed.

use std::ops::RangeInclusive;

use second::choice::{generate, Job};
use second::dropped::Dropped;
use second::fits::{confirm, Case, Conditions};
use second::format::{ones, Refusal, LARGEST_G, LARGEST_MODE, NO_CASE};
use second::mask::Mask;
use second::random::Random;
use second::record::{read, write, Reply, LONGEST_RECORD};
use second::sample::{all_but_few, dropped_job, job, numbers};

const FORMATS: [(u64, u64); 3] = [(5, 2), (8, 23), (11, 52)];

fn fixed(care: u64, value: u64) -> Mask {
    Mask { care, value }
}

/// Adding to 1 a number whose last two bits are free, with all of the bits below the last one
/// fixed.
struct Sum {
    format: (u64, u64),
    mode: u64,
    one: u64,
    other: u64,
    dropped: Dropped,
}

impl Sum {
    fn job(&self) -> Job {
        let (w, f) = self.format;
        let all = ones((w + f + 1) as u32);
        let mut conditions = Conditions::free(w, f, 0, self.mode);
        conditions.a = fixed(all, self.one);
        conditions.b = fixed(all & !3, self.other);
        conditions.dropped = self.dropped;
        let words = [0, 0];
        Job { conditions, words }
    }

    /// The last two bits of the number that the generator finds. The found case is confirmed, and
    /// is not where one of the fixed bits is turned.
    fn found(&self) -> Result<u64, Refusal> {
        let job = self.job();
        let Case { a, b, c, .. } = generate(&job)?;
        assert_eq!(confirm(&job.conditions, a, b, c), Ok(true));
        for bit in 0..=self.dropped.g {
            let mut other = job;
            other.conditions.dropped.mask.value ^= 1 << bit;
            assert_eq!(confirm(&other.conditions, a, b, c), Ok(false));
        }
        Ok(b - self.other)
    }
}

/// From g = 1 on there is a first dropped bit.
const FROM_1: RangeInclusive<u64> = 1..=LARGEST_G;

/// The sums of every format, mode and g of a range. The number, but for its last two bits, goes by
/// half a unit of 1; the word of the bits below goes by g.
fn sums(other: fn(u64) -> u64, gs: RangeInclusive<u64>, word: fn(u64) -> u64) -> Vec<Sum> {
    let mut sums = Vec::new();
    for (w, f) in FORMATS {
        let bias = (1 << (w - 1)) - 1;
        let half = (bias - f - 1) << f;
        for mode in 0..=LARGEST_MODE {
            sums.extend(gs.clone().map(|g| Sum {
                format: (w, f),
                mode,
                one: bias << f,
                other: other(half) & !3,
                dropped: Dropped {
                    g,
                    mask: fixed(ones(g as u32 + 1), word(g)),
                },
            }));
        }
    }
    sums
}

/// The first dropped bit is 1, the others and the sticky bit are 0: 1 and half a unit alone.
#[test]
fn ties_are_found() {
    for sum in sums(|half| half, FROM_1, |g| 1 << g) {
        assert_eq!(sum.found(), Ok(0));
    }
}

/// The next number above half a unit. With 2 fraction bits its last bit is the third dropped one,
/// so that nothing is left for the sticky bit from g = 3 on.
#[test]
fn just_above_a_tie() {
    for sum in sums(|half| half, FROM_1, |g| 1 << g | 1) {
        let is_near = sum.format.1 > 2 || sum.dropped.g < 3;
        let wanted = if is_near { Ok(1) } else { Err(NO_CASE) };
        assert_eq!(sum.found(), wanted);
    }
}

/// The first dropped bit is 0 and all else 1: the numbers before half a unit. With 2 fraction bits
/// these have three ones at most, and from g = 4 on more are asked for.
#[test]
fn just_below_a_tie() {
    for sum in sums(|half| half - 1, FROM_1, |g| (1 << g) - 1) {
        let wanted = match (sum.format.1, sum.dropped.g) {
            (2, 2) => Ok(1),
            (2, 3) => Ok(3),
            (2, 4..) => Err(NO_CASE),
            _ => Ok(0),
        };
        assert_eq!(sum.found(), wanted);
    }
}

/// The sticky bit alone, g = 0: 1 and its unit with the last two bits 0 make an exact sum, with
/// another number an inexact one.
#[test]
fn exact_and_inexact() {
    for mut sum in sums(|half| half, 0..=0, |_| 0) {
        sum.other += 1 << sum.format.1;
        for sticky in [0, 1] {
            sum.dropped.mask.value = sticky;
            assert_eq!(sum.found(), Ok(sticky));
        }
    }
}

/// In format 3/4, c fixed: what the generator says of a mask that fixes nothing, and of one that
/// fixes the sticky bit to 0 or to 1.
fn by_result(c: u64) -> [bool; 3] {
    [(0, 0), (1, 0), (1, 1)].map(|(care, value)| {
        let mut conditions = Conditions::free(3, 4, 0, 0);
        conditions.c = fixed(0xFF, c);
        // No infinite or NaN operand.
        conditions.a = fixed(0x40, 0);
        conditions.b = fixed(0x10, 0);
        conditions.dropped.mask = fixed(care, value);
        let words = [0, 0];
        generate(&Job { conditions, words }).is_ok()
    })
}

/// Zeros and results below the smallest normal number meet only a mask that fixes nothing. That
/// number itself is always exact; others are exact or not.
#[test]
fn small_results() {
    for c in [0x00, 0x01, 0x0F, 0x80, 0x8F] {
        assert_eq!(by_result(c), [true, false, false], "{c:x}");
    }
    assert_eq!(by_result(0x10), [true, true, false]);
    for c in [0x3F, 0xBF] {
        assert_eq!(by_result(c), [true; 3], "{c:x}");
    }
}

#[test]
fn overflow_and_special_operands() {
    let with = |a, b, mask| {
        let mut conditions = Conditions::free(3, 4, 0, 0);
        conditions.a = fixed(0xFF, a);
        conditions.b = fixed(0xFF, b);
        conditions.dropped = Dropped { g: 3, mask };
        let words = [0, 0];
        generate(&Job { conditions, words }).map(|case| case.c)
    };
    // 6F + 41 overflows with 101 dropped and nothing below.
    assert_eq!(with(0x6F, 0x41, fixed(0xF, 0xA)), Ok(0x70));
    assert_eq!(with(0x6F, 0x41, fixed(0xF, 0xB)), Err(NO_CASE));
    // An infinity and a NaN have no such bits, not even zeros.
    for (a, c) in [(0x70, 0x70), (0x71, 0x78)] {
        assert_eq!(with(a, 0x41, Mask::FREE), Ok(c));
        for bit in [1, 2, 4, 8] {
            assert_eq!(with(a, 0x41, fixed(bit, 0)), Err(NO_CASE));
        }
    }
}

/// A g beside nothing fixed is tested for 17 and then taken as 0: the answers and the bytes are
/// those of the job without it.
#[test]
fn a_g_with_nothing_fixed() {
    let mut random = Random::new(0x6000);
    for n in 0..2000 {
        let numbers = numbers(&mut random);
        let mut plain = job(&mut random, numbers, all_but_few(numbers));
        plain.conditions.dropped = Dropped::FREE;
        let mut with_g = plain;
        with_g.conditions.dropped.g = n % 12;
        let mut buffers = [[0xA5; LONGEST_RECORD]; 2];
        let written = [(0, &plain), (1, &with_g)].map(|(i, job)| write(job, &mut buffers[i]));
        if n % 12 > LARGEST_G {
            let conditions = &with_g.conditions;
            assert_eq!(written[1], Err(17));
            assert_eq!(generate(&with_g), Err(17));
            assert_eq!(confirm(conditions, 0, 0, 0), Err(17));
            continue;
        }
        assert_eq!(generate(&with_g), generate(&plain));
        assert_eq!((written[1], buffers[1]), (written[0], buffers[0]));
        assert_eq!(read(&buffers[1]).0, Reply::Job(plain));
    }
}

/// Asking for dropped bits never adds a case, and a case that is found without them and meets them
/// is found again.
#[test]
fn asking_for_more_adds_nothing() {
    let mut random = Random::new(0xF13E);
    let mut counts = [0; 3];
    for _ in 0..3000 {
        let numbers = numbers(&mut random);
        let job = dropped_job(&mut random, numbers, all_but_few(numbers));
        let mut freer = job;
        freer.conditions.dropped = Dropped::FREE;
        let (found, before) = (generate(&job), generate(&freer));
        let Ok(case) = before else {
            assert_eq!(found, before);
            continue;
        };
        let still_fits = confirm(&job.conditions, case.a, case.b, case.c) == Ok(true);
        assert_eq!(found == before, still_fits);
        counts[usize::from(found.is_ok()) + usize::from(still_fits)] += 1;
    }
    // None any more, another one, and the same.
    assert!(counts.iter().all(|&count| count > 100), "{counts:?}");
}

//! Bits below the last (document 02, W-206) through the exported functions and the listing program.

use compare::call::Tally;
use compare::damage::dropped_field;
use compare::files::{record, returned, whole_reading};
use compare::program::listed;
use second::arith::Adder;
use second::choice::{generate, Job};
use second::dropped::Dropped;
use second::fits::{confirm, Computed, Conditions};
use second::format::{ones, LARGEST_G, LARGEST_MODE};
use second::listing::listing;
use second::mask::Mask;
use second::random::Random;
use second::record::{dropped_bytes, encode, unchecked};
use second::sample::{dropped_job, numbers};
use second::table::Table;

/// A job of a format that adds, with all of the bits below the last one fixed.
fn job((w, f): (u64, u64), mode: u64, g: u64, word: u64) -> Job {
    let mut conditions = Conditions::free(w, f, 0, mode);
    let care = ones(g as u32 + 1);
    let mask = Mask { care, value: word };
    conditions.dropped = Dropped { g, mask };
    let words = [0, 0];
    Job { conditions, words }
}

/// The job with both operands fixed.
fn with_operands(mut job: Job, a: u64, b: u64) -> Job {
    let masks = &mut job.conditions;
    let care = ones((masks.w + masks.f + 1) as u32);
    masks.a = Mask { care, value: a };
    masks.b = Mask { care, value: b };
    job
}

/// Whether a case of these operands is confirmed; the generator finds it exactly then.
fn fits(job: Job, a: u64, b: u64) -> bool {
    let adder = job.check().expect("a well-made job");
    let c = adder.result(a, b);
    let yes = vindacsor::confirm(&record(&job), a, b, c).expect("a well-made job");
    assert_eq!(confirm(&job.conditions, a, b, c), Ok(yes));
    let found = vindacsor::generate(&record(&with_operands(job, a, b)));
    assert_eq!(found.is_ok(), yes);
    assert_eq!(found.map_or(c, |case| case.c), c);
    yes
}

const FORMATS: [(u64, u64); 3] = [(5, 2), (8, 23), (11, 52)];

/// 1, and half of its unit.
fn one_and_half_unit(w: u64, f: u64) -> [u64; 2] {
    let bias = (1 << (w - 1)) - 1;
    [bias << f, (bias - f - 1) << f]
}

/// 30 + 02 has 8 at g = 3, a tie, and 45 + 2B has 6 at g = 2.
#[test]
fn examples_of_the_request() {
    for (a, b, g, word) in [(0x30, 0x02, 3, 8), (0x45, 0x2B, 2, 6)] {
        for mode in 0..=LARGEST_MODE {
            for other in 0..2 << g {
                assert_eq!(fits(job((3, 4), mode, g, other), a, b), other == word);
            }
        }
    }
}

/// Half a unit of 1, and the numbers beside it: a tie, just above it and just below it. With 2
/// fraction bits those beside it are not so near that a large g would not see their last bit.
#[test]
fn ties_and_beside_them() {
    for (w, f) in FORMATS {
        let [one, half] = one_and_half_unit(w, f);
        let settings = (0..=LARGEST_MODE).flat_map(|mode| (1..=LARGEST_G).map(move |g| (mode, g)));
        for (mode, g) in settings {
            for b in [half - 1, half, half + 1] {
                let has = |word| fits(job((w, f), mode, g, word), one, b);
                assert_eq!(has(1 << g), b == half);
                assert_eq!(has(1 << g | 1), b == half + 1 && (f > 2 || g < 3));
                assert_eq!(has((1 << g) - 1), b == half - 1 && (f > 2 || g < 4));
            }
        }
    }
}

/// The sticky bit alone, g = 0.
#[test]
fn exact_and_inexact() {
    for (w, f) in FORMATS {
        let [one, half] = one_and_half_unit(w, f);
        let unit = half + (1 << f);
        for mode in 0..=LARGEST_MODE {
            for (b, sticky) in [(unit, 0), (0, 0), (half, 1), (unit + 1, 1), (1, 1)] {
                let has = |word| fits(job((w, f), mode, 0, word), one, b);
                assert_eq!([has(0), has(1)], [sticky == 0, sticky == 1]);
            }
        }
    }
}

/// With nothing but the dropped bits fixed there is a case of every word, here in one mode after
/// the other. The chosen operands have these bits, and the listing program prints such cases.
#[test]
fn every_word_has_a_case() {
    let mut file = Vec::new();
    for (w, f) in [(8, 23), (11, 52)] {
        for g in 0..=LARGEST_G {
            for word in 0..2 << g {
                let job = job((w, f), word % (LARGEST_MODE + 1), g, word);
                let case = vindacsor::generate(&record(&job)).expect("a case");
                let adder = job.check().expect("a well-made job");
                let computed = Computed::of(&adder, case.a, case.b);
                assert_eq!(computed.case.c, case.c);
                assert_eq!(computed.below.map(|below| below.word(g)), Some(word));
                if word % 37 == 0 {
                    file.extend(record(&with_operands(job, case.a, case.b)));
                }
            }
        }
    }
    assert_eq!(listed(&file), listing(&file, generate));
}

/// Zeros, results below the smallest normal number, and infinite and NaN operands meet only a mask
/// that fixes nothing; an overflow has dropped bits.
#[test]
fn by_kind_of_result() {
    for (a, b) in [
        (0, 0),
        (0x01, 0x02),
        (0x30, 0xB0),
        (0x11, 0x82),
        (0x70, 0x30),
        (0x30, 0x7F),
    ] {
        for value in [0, 1] {
            assert!(!fits(job((3, 4), 0, 0, value), a, b));
        }
        let mut free = job((3, 4), 0, 0, 0);
        free.conditions.dropped = Dropped::FREE;
        assert!(fits(free, a, b));
    }
    assert!(fits(job((3, 4), 0, 0, 0), 0x0F, 0x01));
    for mode in 0..=LARGEST_MODE {
        assert!(fits(job((3, 4), mode, 3, 10), 0x6F, 0x41));
        assert!(fits(job((3, 4), mode, 8, 0), 0x6F, 0x6F));
    }
}

/// What reading, confirmation and the generator return for a record of format 3/4 that has the
/// field alone.
fn with_field(field: [u8; 5]) -> [u64; 3] {
    returned(&[&[0x40, 3, 4, 0], &field[..]].concat(), [0; 3])
}

/// Every g with nothing in care, without a value and with one outside care.
#[test]
fn nothing_in_care() {
    for g in 0..=u8::MAX {
        let number = if u64::from(g) > LARGEST_G { 17 } else { 10 };
        assert_eq!(with_field([g, 0, 0, 0, 0]), [number; 3]);
        for bit in (0..16).map(|i| 1u16 << i) {
            let [low, high] = bit.to_le_bytes();
            assert_eq!(with_field([g, 0, 0, low, high]), [17; 3]);
        }
    }
}

/// Every g with one bit fixed, to 0 and to 1. Where it is within its width, the generator says what
/// all pairs of words say: in this format no more than six bits are dropped.
#[test]
fn one_bit_fixed() {
    let adder = Adder::new(3, 4, 0, 0).expect("within the limits");
    let table = Table::new(adder).expect("a small format");
    for (g, care) in (0..=255).flat_map(|g| (0..16).map(move |i| (g, 1 << i))) {
        for value in [0, care] {
            let mask = Mask { care, value };
            let dropped = Dropped { g, mask };
            let numbers = with_field(dropped_bytes(&dropped));
            let mut job = job((3, 4), 0, 0, 0);
            job.conditions.dropped = dropped;
            let wanted = match table.generate(&job).err() {
                Some(17) => [17; 3],
                number => [0, 0, number.map_or(0, u64::from)],
            };
            assert_eq!(numbers, wanted, "{dropped:x?}");
        }
    }
}

/// Each cut is 8.
#[test]
fn cuts() {
    let file = [0x40, 3, 4, 0, 3, 1, 0, 0, 0];
    for length in 1..file.len() {
        assert_eq!(returned(&file[..length], [0; 3]), [8; 3]);
    }
}

/// Good and bad fields beside the others of a job, and g stated beside nothing fixed.
#[test]
fn fields_of_any_job() {
    let (mut random, mut tally) = (Random::new(0xD20F), Tally::default());
    for n in 0..4000 {
        let numbers = numbers(&mut random);
        let mut job = dropped_job(&mut random, numbers, 32);
        // The field is the last.
        job.conditions.bounds = [None; 3];
        let mut file = encode(&job).expect("a well-made job");
        match n % 4 {
            0 => {
                let from = file.len() - 5;
                file[from..].copy_from_slice(&dropped_field(&mut random));
            }
            1 => {
                job.conditions.dropped.mask = Mask::FREE;
                file = unchecked(u16::from(file[0]), &job);
            }
            _ => {}
        }
        file.extend([0, 3, 4, 0]);
        whole_reading(&mut random, &mut tally, &file).unwrap();
    }
    let reached = [10, 17].map(|number| tally.refused(number));
    assert!(reached.iter().all(|&count| count > 100), "{reached:?}");
}

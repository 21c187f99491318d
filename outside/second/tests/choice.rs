//! The choice among fitting cases, against the two ways in which document 01 states it.

use second::arith::Adder;
use second::choice::{free_bits, generate, Job};
use second::dropped::Dropped;
use second::fits::{confirm, Case, Computed};
use second::format::{LARGEST_MODE, NO_CASE};
use second::mask::Mask;
use second::random::Random;
use second::sample::{all_but_few, bounded_job, dropped_job, job, numbers};
use second::table::Table;
use second::whole::{generate_whole, WholeCase, WholeJob};

/// Every fitting case of a small format.
fn all_fitting(job: &Job, adder: &Adder) -> Vec<Case> {
    let count = 1u64 << adder.format.width();
    (0..count)
        .flat_map(|a| (0..count).map(move |b| (a, b)))
        .map(|(a, b)| Computed::of(adder, a, b))
        .filter(|computed| computed.meets(&job.conditions, adder.format))
        .map(|computed| computed.case)
        .collect()
}

/// The cases that are left when each bit of `part`, from the top, follows `word` where some
/// case allows it.
fn follow(cases: Vec<Case>, width: u32, word: u64, part: fn(&Case) -> u64) -> Vec<Case> {
    (0..width).rev().fold(cases, |left, i| {
        let agrees = |case: &Case| (part(case) ^ word) >> i & 1 == 0;
        if left.iter().any(agrees) {
            left.into_iter().filter(agrees).collect()
        } else {
            left
        }
    })
}

fn by_bits(fitting: &[Case], job: &Job, width: u32) -> Option<Case> {
    let left = follow(fitting.to_vec(), width, job.words[0], |case| case.a);
    let left = follow(left, width, job.words[1], |case| case.b);
    assert!(left.len() <= 1);
    left.first().copied()
}

fn by_smallest(fitting: &[Case], job: &Job) -> Option<Case> {
    let [first, second] = job.words;
    let key = |case: &&Case| (case.a ^ first, case.b ^ second);
    fitting.iter().min_by_key(key).copied()
}

#[test]
fn both_statements_of_the_choice_agree() {
    let mut random = Random::new(0xC401);
    let mut found = [0; 2];
    for n in 0..2000 {
        let w = 2 + random.below(2);
        let numbers = [w, 2, random.below(2), random.below(LARGEST_MODE + 1)];
        let care = 16 + random.below(49);
        let job = [job, dropped_job][n % 2](&mut random, numbers, care);
        let adder = job.check().unwrap();
        let fitting = all_fitting(&job, &adder);
        let expected = by_bits(&fitting, &job, adder.format.width());
        assert_eq!(expected, by_smallest(&fitting, &job));
        assert_eq!(generate(&job), expected.ok_or(NO_CASE));
        found[n % 2] += u32::from(expected.is_some());
    }
    // Both answers are frequent enough to mean something.
    println!("{found:?} found");
    let is_enough = |count| (150..850).contains(count);
    assert!(found.iter().all(is_enough), "{found:?} found");
}

#[test]
fn table_answers_like_the_generator() {
    let mut random = Random::new(0x7AB1);
    for operation in 0..2 {
        for mode in 0..=LARGEST_MODE {
            let adder = Adder::new(3, 4, operation, mode).unwrap();
            let table = Table::new(adder).unwrap();
            for n in 0..200 {
                let care = random.below(49);
                let numbers = [3, 4, operation, mode];
                let job = [job, dropped_job, bounded_job][n % 3](&mut random, numbers, care);
                assert_eq!(table.generate(&job), generate(&job));
            }
        }
    }
    assert!(Table::new(Adder::new(8, 23, 0, 0).unwrap()).is_none());
}

/// With random words taken from a fitting case, that case is the answer.
#[test]
fn every_fitting_case_is_some_answer() {
    let mut random = Random::new(0xE7E2);
    for _ in 0..50 {
        let numbers = [3, 3, random.below(2), random.below(LARGEST_MODE + 1)];
        let mut job = job(&mut random, numbers, 32);
        let adder = job.check().unwrap();
        for case in all_fitting(&job, &adder) {
            job.words = [case.a, case.b];
            assert_eq!(generate(&job), Ok(case));
        }
    }
}

/// The words of a mask with few free bits, in the order of whole numbers.
fn words_of(mask: &Mask, width: u32) -> Vec<u64> {
    (0..width).rev().fold(vec![0], |words, i| {
        let bits: Vec<u64> = (0..2)
            .filter(|bit| mask.care >> i & 1 == 0 || mask.value >> i & 1 == *bit)
            .collect();
        words
            .iter()
            .flat_map(|word| bits.iter().map(move |bit| word | bit << i))
            .collect()
    })
}

/// Jobs of every format with few free bits.
#[test]
fn wide_formats_with_few_free_bits() {
    let mut random = Random::new(0x51D3);
    let (mut found, mut doubles) = (0, 0);
    for n in 0..3000 {
        let numbers = numbers(&mut random);
        let draw = [job, dropped_job, bounded_job][n % 3];
        let job = draw(&mut random, numbers, all_but_few(numbers));
        let adder = job.check().unwrap();
        if free_bits(&job.conditions, &adder) > 10 {
            continue;
        }
        let width = adder.format.width();
        let [first, second] = job.words;
        let expected = words_of(&job.conditions.a, width)
            .into_iter()
            .flat_map(|a| {
                words_of(&job.conditions.b, width)
                    .into_iter()
                    .map(move |b| (a, b))
            })
            .map(|(a, b)| Case::of(&adder, a, b))
            .filter(|case| confirm(&job.conditions, case.a, case.b, case.c).unwrap())
            .min_by_key(|case| (case.a ^ first, case.b ^ second));
        assert_eq!(generate(&job), expected.ok_or(NO_CASE));
        found += u32::from(expected.is_some());
        doubles += u32::from(width == 64);
    }
    println!("{found} found, {doubles} jobs of 64-bit words");
    assert!(found > 450 && doubles > 150, "{found} found, {doubles}");
}

/// A carry mask that fixes a bit is met by no infinite operand, and one that fixes none is.
#[test]
fn no_row_meets_only_a_free_mask() {
    let mut job = job(&mut Random::new(1), [3, 4, 0, 0], 0);
    job.words = [0, 0];
    job.conditions.c = Mask::FREE;
    job.conditions.carries = Mask::FREE;
    job.conditions.dropped = Dropped::FREE;
    job.conditions.a = Mask {
        care: 0xFF,
        value: 0x70,
    };
    let infinite = Case {
        a: 0x70,
        b: 0,
        c: 0x70,
        row: None,
    };
    assert_eq!(generate(&job), Ok(infinite));
    job.conditions.carries = Mask { care: 1, value: 0 };
    assert_eq!(generate(&job), Err(NO_CASE));
}

/// A result fixed to another NaN than the one of document 01 is never met.
#[test]
fn other_nans_are_no_result() {
    for c in [0x71, 0x79, 0x7F, 0xF8] {
        let mut job = job(&mut Random::new(1), [3, 4, 0, 0], 0);
        job.conditions.carries = Mask::FREE;
        job.conditions.dropped = Dropped::FREE;
        job.conditions.c = Mask {
            care: 0xFF,
            value: c,
        };
        assert_eq!(generate(&job), Err(NO_CASE));
    }
}

/// Every case of whole numbers by the equation, with carries passed from bit to bit.
fn all_whole(job: &WholeJob) -> Vec<WholeCase> {
    let n = job.n as u32;
    let count = 1u64 << n;
    let mut cases = Vec::new();
    for x in 0..count {
        for y in 0..count {
            for z in 0..count {
                for carries in 0..2 * count {
                    let [into, out] = [carries, carries >> 1];
                    let bit = |word: u64, i: u32| word >> i & 1;
                    let column =
                        |i| bit(x, i) + bit(y, i) + bit(into, i) == bit(z, i) + 2 * bit(out, i);
                    let case = WholeCase { x, y, z, carries };
                    if (0..n).all(column) && case.meets(job) {
                        assert_eq!(x + y + carries % 2, z + (carries >> n << n));
                        cases.push(case);
                    }
                }
            }
        }
    }
    cases
}

fn random_mask(random: &mut Random, width: u32) -> Mask {
    let care = random.bits(width);
    Mask {
        care,
        value: random.bits(width) & care,
    }
}

#[test]
fn whole_numbers_by_the_equation() {
    let mut random = Random::new(0x3017);
    let mut found = 0;
    for _ in 0..2000 {
        let n = 1 + random.below(3);
        let width = n as u32;
        let job = WholeJob {
            n,
            x: random_mask(&mut random, width),
            y: random_mask(&mut random, width),
            z: random_mask(&mut random, width),
            carries: random_mask(&mut random, width + 1),
            words: [0; 3].map(|_| random.bits(width)),
        };
        let [first, second, third] = job.words;
        let expected = all_whole(&job)
            .into_iter()
            .min_by_key(|case| (case.x ^ first, case.y ^ second, case.z ^ third));
        assert_eq!(generate_whole(&job), expected.ok_or(NO_CASE));
        found += u32::from(expected.is_some());
    }
    println!("{found} found");
    assert!((500..1500).contains(&found), "{found} found");
}

/// The full length: 33 carry bits, with both numbers fixed.
#[test]
fn whole_numbers_of_full_length() {
    let ones = 0xFFFF_FFFF;
    let all = Mask {
        care: ones,
        value: ones,
    };
    let mut job = WholeJob {
        n: 32,
        x: all,
        y: all,
        z: Mask::FREE,
        carries: Mask::FREE,
        words: [0, 0, ones],
    };
    let case = |z, carries| WholeCase {
        x: ones,
        y: ones,
        z,
        carries,
    };
    assert_eq!(generate_whole(&job), Ok(case(ones, 0x1_FFFF_FFFF)));
    job.words[2] = 0;
    assert_eq!(generate_whole(&job), Ok(case(ones - 1, 0x1_FFFF_FFFE)));
    job.carries = Mask {
        care: 1 << 32,
        value: 0,
    };
    assert_eq!(generate_whole(&job), Err(NO_CASE));
}

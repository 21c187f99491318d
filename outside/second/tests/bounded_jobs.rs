//! Jobs that state bounds (document 02, W-207): the generator and confirmation, against all pairs
//! of words and the values of these.

mod values;

use second::arith::{every_setting, Adder};
use second::bounds::Bounds;
use second::choice::{free_bits, generate, Job};
use second::fits::{confirm, Case, Computed, Conditions};
use second::format::{BAD_BOUNDS, LARGEST_MODE, NO_CASE};
use second::malform::malform_bounds;
use second::mask::Mask;
use second::random::Random;
use second::record::{encode, map_of, read, unchecked, Reply};
use second::sample::{all_but_few, bounded_job, job, numbers, unrelated_job};
use second::table::Table;
use values::value;

/// Whether words of a small format lie within bounds, by their values.
fn are_within(small: (u64, u64), bounds: &[Option<Bounds>; 3], words: [u64; 3]) -> bool {
    bounds.iter().zip(words).all(|(bounds, word)| match bounds {
        None => true,
        Some(bounds) => {
            let [low, high, value] = [bounds.low, bounds.high, word].map(|word| value(small, word));
            value.is_some() && low <= value && value <= high
        }
    })
}

/// All that can be computed in a small format.
fn all_computed(adder: &Adder) -> Vec<Computed> {
    let count = 1u64 << adder.format.width();
    (0..count)
        .flat_map(|a| (0..count).map(move |b| (a, b)))
        .map(|(a, b)| Computed::of(adder, a, b))
        .collect()
}

/// The chosen case among all that meet the masks and have words within bounds, by their values.
fn chosen(all: &[Computed], adder: &Adder, job: &Job) -> Option<Case> {
    let small = (job.conditions.w, job.conditions.f);
    let mut masks = job.conditions;
    masks.bounds = [None; 3];
    let [first, second] = job.words;
    all.iter()
        .filter(|computed| {
            let Case { a, b, c, .. } = computed.case;
            computed.meets(&masks, adder.format)
                && are_within(small, &job.conditions.bounds, [a, b, c])
        })
        .map(|computed| computed.case)
        .min_by_key(|case| (case.a ^ first, case.b ^ second))
}

/// Every legal pair of words as the bounds of a, of b and of c, with nothing else stated.
#[test]
fn every_bounds_of_one_word() {
    let mut random = Random::new(0x0B0D);
    for [operation, mode] in every_setting() {
        let adder = Adder::new(2, 2, operation, mode).unwrap();
        let (all, table) = (all_computed(&adder), Table::new(adder).unwrap());
        for (low, high) in (0..32).flat_map(|low| (0..32).map(move |high| (low, high))) {
            let bounds = Bounds { low, high };
            if bounds.check(adder.format).is_err() {
                continue;
            }
            for place in 0..3 {
                let mut conditions = Conditions::free(2, 2, operation, mode);
                conditions.bounds[place] = Some(bounds);
                let words = [random.bits(5), random.bits(5)];
                let job = Job { conditions, words };
                let wanted = chosen(&all, &adder, &job).ok_or(NO_CASE);
                assert_eq!(table.generate(&job), wanted, "{job:x?}");
            }
        }
    }
}

/// Bounds on one, two and three words beside masks, of the carries and of the dropped bits too.
#[test]
fn bounds_beside_masks() {
    let mut random = Random::new(0x3A5B);
    // By how many words have bounds, and whether a case was found.
    let mut counts = [[0; 2]; 3];
    for (w, f) in [(2, 2), (2, 3), (3, 2), (3, 3)] {
        for [operation, mode] in every_setting() {
            let adder = Adder::new(w, f, operation, mode).unwrap();
            let all = all_computed(&adder);
            for n in 0..60 {
                let care = 8 * random.below(7);
                let numbers = [w, f, operation, mode];
                let job = match n % 4 {
                    0 => unrelated_job(&mut random, numbers),
                    _ => bounded_job(&mut random, numbers, care),
                };
                let wanted = chosen(&all, &adder, &job);
                assert_eq!(generate(&job), wanted.ok_or(NO_CASE), "{job:x?}");
                let stated = job.conditions.bounds.iter().flatten().count();
                if stated > 0 {
                    counts[stated - 1][usize::from(wanted.is_some())] += 1;
                }
            }
        }
    }
    let is_enough = |&count: &i32| count > 100;
    assert!(counts.as_flattened().iter().all(is_enough), "{counts:?}");
}

/// Confirmation says yes exactly where c is the result, the masks are met and the values lie
/// within.
#[test]
fn confirmed_by_value() {
    let mut random = Random::new(0xC04F);
    let mut counts = [0; 2];
    for _ in 0..200 {
        let numbers = [3, 2, random.below(2), random.below(LARGEST_MODE + 1)];
        let mut job = bounded_job(&mut random, numbers, 8);
        job.conditions.carries = Mask::FREE;
        let adder = job.check().unwrap();
        let mut masks = job.conditions;
        masks.bounds = [None; 3];
        for (a, b) in (0..64).flat_map(|a| (0..64).map(move |b| (a, b))) {
            let c = adder.result(a, b);
            let before = confirm(&masks, a, b, c).unwrap();
            let wanted = before && are_within((3, 2), &job.conditions.bounds, [a, b, c]);
            assert_eq!(confirm(&job.conditions, a, b, c), Ok(wanted));
            assert_eq!(confirm(&job.conditions, a, b, c ^ 1), Ok(false));
            counts[usize::from(wanted)] += u32::from(before);
        }
    }
    assert!(counts.iter().all(|&count| count > 500), "{counts:?}");
}

/// Bounds never add a case, and a case that is found without them and lies within is found again.
#[test]
fn bounds_add_nothing() {
    let mut random = Random::new(0x7164);
    let mut counts = [0; 3];
    for _ in 0..6000 {
        let numbers = numbers(&mut random);
        let job = bounded_job(&mut random, numbers, all_but_few(numbers));
        let adder = job.check().unwrap();
        if free_bits(&job.conditions, &adder) > 10 {
            continue;
        }
        let mut freer = job;
        freer.conditions.bounds = [None; 3];
        let (found, before) = (generate(&job), generate(&freer));
        let Ok(case) = before else {
            assert_eq!(found, before);
            continue;
        };
        let still_fits = confirm(&job.conditions, case.a, case.b, case.c) == Ok(true);
        assert_eq!(found == before, still_fits);
        counts[usize::from(found.is_ok()) + usize::from(still_fits)] += 1;
    }
    // None any more, another one, and the same.
    assert!(counts.iter().all(|&count| count > 50), "{counts:?}");
}

/// The two infinities shut out NaNs and nothing else, so they are no default.
#[test]
fn the_infinities_shut_out_nans() {
    let mut conditions = Conditions::free(3, 4, 0, 0);
    let all = Some(Bounds {
        low: 0xF0,
        high: 0x70,
    });
    let fixed = |value| Mask { care: 0xFF, value };
    let words = [0, 0];
    // c is the one NaN; a is any NaN; infinities of unlike sign.
    conditions.c = fixed(0x78);
    assert!(generate(&Job { conditions, words }).is_ok());
    for place in 0..2 {
        let mut bounded = conditions;
        bounded.bounds[place] = all;
        let case = generate(&Job {
            conditions: bounded,
            words,
        })
        .unwrap();
        let operands = [case.a, case.b];
        assert!(operands[place] & 0x7F <= 0x70 && case.c == 0x78);
        assert_eq!(confirm(&bounded, 0x70, 0xF0, 0x78), Ok(true));
    }
    conditions.bounds[2] = all;
    assert_eq!(generate(&Job { conditions, words }), Err(NO_CASE));
}

/// The zeros are one number: bounds at either of them let both through, and masks tell them apart.
#[test]
fn zeros_of_either_sign() {
    for (low, high) in [(0, 0x80), (0x80, 0), (0, 0), (0x80, 0x80)] {
        let mut conditions = Conditions::free(3, 4, 0, 0);
        conditions.bounds = [Some(Bounds { low, high }); 3];
        let words = [0x80, 0x80];
        let minus = generate(&Job { conditions, words }).unwrap();
        assert_eq!((minus.a, minus.b, minus.c), (0x80, 0x80, 0x80));
        conditions.b = Mask {
            care: 0x80,
            value: 0,
        };
        let unlike = generate(&Job { conditions, words }).unwrap();
        assert_eq!((unlike.a, unlike.b, unlike.c), (0x80, 0, 0));
    }
}

/// c one place above the largest sum of the bounds of a and b: none, and with that sum itself one.
#[test]
fn the_largest_sum() {
    for (w, f) in [(3, 4), (8, 23), (11, 52)] {
        let one = ((1 << (w - 1)) - 1) << f;
        let mut conditions = Conditions::free(w, f, 0, 0);
        // All but few bits of a and b are fixed, so that the pairs can be tried.
        let few = Mask {
            care: (u64::MAX >> (63 - w - f)) & !7,
            value: one,
        };
        [conditions.a, conditions.b] = [few; 2];
        let up_to = |high| Some(Bounds { low: one, high });
        conditions.bounds = [up_to(one + 3), up_to(one + 5), None];
        let words = [one, one];
        let c_from = |low| {
            let mut conditions = conditions;
            conditions.bounds[2] = Some(Bounds { low, high: low + 9 });
            generate(&Job { conditions, words }).map(|case| [case.a, case.b, case.c])
        };
        // (1 + 3 units) + (1 + 5 units) is 2 and 4 of its own units.
        let sum = one + (1 << f) + 4;
        assert_eq!(c_from(sum), Ok([one + 2, one + 5, sum]), "{w} {f}");
        assert_eq!(c_from(sum + 1), Err(NO_CASE));
    }
}

/// 18 in the generator, in confirmation, in writing and in reading.
#[test]
fn bad_bounds_everywhere() {
    let mut random = Random::new(0x1818);
    for _ in 0..3000 {
        let numbers = numbers(&mut random);
        let mut job = job(&mut random, numbers, 32);
        malform_bounds(&mut random, &mut job);
        assert_eq!(generate(&job), Err(BAD_BOUNDS));
        assert_eq!(confirm(&job.conditions, 0, 0, 0), Err(BAD_BOUNDS));
        assert_eq!(encode(&job), Err(BAD_BOUNDS));
        let file = unchecked(map_of(&job), &job);
        assert_eq!(read(&file), (Reply::Refused(BAD_BOUNDS), &file[..]));
    }
}

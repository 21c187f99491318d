//! Which mask is malformed (document 02, W-203 and W-206), wherever masks are taken. Any of the
//! masks of a job may be: the number is that of the first, in the order a, b, c, carries, dropped
//! bits, or x, y, z, carries, by the paper and by the second implementation. Lent bytes are then as
//! they were.

use compare::call::Part;
use compare::files::{confirmations, readings, returned, wide_generations};
use compare::numbers::given;
use compare::program::listed;
use compare::whole;
use second::choice::{generate, Job};
use second::fits::Conditions;
use second::format::Refusal;
use second::listing::listing;
use second::malform::{malform_job, malform_whole_job, MASKS, WHOLE_MASKS};
use second::mask::Mask;
use second::random::Random;
use second::record::{map_of, read, unchecked, word_bytes, Reply};
use second::sample::{job, numbers, zeros};
use second::whole::{generate_whole, WholeJob};
use vindacsor::buffer;

/// The numbers of the masks, in the order of the masks; whole numbers have all but the last.
const NUMBERS: [u64; 5] = [5, 14, 15, 16, 17];

/// The number for a set of malformed masks, whose bit 0 stands for the first mask; none where the
/// set is empty.
fn number(set: u64) -> Option<u64> {
    NUMBERS.get(set.trailing_zeros() as usize).copied()
}

/// The bytes of a job, good or not.
fn bytes(job: &Job) -> Vec<u8> {
    unchecked(map_of(job), job)
}

/// Any format, every set of malformed masks. Proposed words that are too wide come after the masks.
#[test]
fn records_of_any_format() {
    let mut random = Random::new(0x5141);
    for n in 0..3000 {
        let set = 1 + n % 31;
        let (numbers, care) = (numbers(&mut random), 8 * random.below(9));
        let mut job = job(&mut random, numbers, care);
        malform_job(&mut random, &mut job, set);
        let file = bytes(&job);
        let wanted = number(set).expect("a malformed mask");
        assert_eq!(read(&file).0, Reply::Refused(wanted as Refusal));
        assert_eq!(returned(&file, [0; 3]), [wanted; 3], "{file:02x?}");
        assert_eq!(returned(&file, [u64::MAX; 3]), [wanted; 3]);
    }
}

/// Format 3/4 with c fixed to a NaN that no result is, and the masks of a set malformed besides.
fn small_job(random: &mut Random, set: u64) -> Job {
    let mut conditions = Conditions::free(3, 4, 0, 1);
    conditions.c = Mask {
        care: 0xFF,
        value: 0x7F,
    };
    let words = [0, 0];
    let mut job = Job { conditions, words };
    malform_job(random, &mut job, set);
    job
}

/// Each set of malformed masks, the empty one too, several times over, where there are so many
/// masks.
fn sets(masks: u64) -> impl Iterator<Item = u64> {
    (0..10 << masks).map(move |n| n % (1 << masks))
}

/// A number, and what brings it about in a job.
type Fault = (u64, fn(&mut Job));

/// What comes before the masks in a job.
const BEFORE: [Fault; 4] = [
    (1, |job| job.conditions.w = 12),
    (2, |job| job.conditions.f = 1),
    (3, |job| job.conditions.operation = 2),
    (4, |job| job.conditions.mode = 5),
];

#[test]
fn other_faults_before_the_masks() {
    let mut random = Random::new(0x1405);
    for set in sets(MASKS) {
        for (wanted, fault) in BEFORE {
            let mut job = small_job(&mut random, set);
            fault(&mut job);
            assert_eq!(returned(&bytes(&job), [0; 3]), [wanted; 3]);
        }
        let mut file = bytes(&small_job(&mut random, set));
        assert_eq!(returned(&file[..file.len() - 1], [0; 3]), [8; 3]);
        // A second map with a bit too many.
        file[0] |= 0x80;
        file.insert(1, 8);
        assert_eq!(returned(&file, [0; 3]), [9; 3]);
    }
}

#[test]
fn other_faults_after_the_masks() {
    let mut random = Random::new(0x1606);
    for set in sets(MASKS) {
        let mut job = small_job(&mut random, set);
        let wanted = |others: [u64; 3]| number(set).map_or(others, |number| [number; 3]);
        // No case fits.
        assert_eq!(returned(&bytes(&job), [0; 3]), wanted([0, 0, 7]));
        // A proposed word is too wide.
        assert_eq!(returned(&bytes(&job), [0, 0x100, 0]), wanted([0, 6, 7]));
        // Random words that say their default.
        let default = unchecked(map_of(&job) | 0x20, &job);
        assert_eq!(returned(&default, [0; 3]), wanted([10; 3]));
        // A random word is too wide.
        job.words[1] = 0x100;
        assert_eq!(returned(&bytes(&job), [0; 3]), wanted([6; 3]));
    }
}

/// The listing stops at the record and prints the number alone.
#[test]
fn listed_by_number() {
    let mut random = Random::new(0x1157);
    for set in sets(MASKS).filter(|&set| set > 0) {
        let job = small_job(&mut random, set);
        let file = [&[0, 3, 4, 0], &bytes(&job)[..], &[0, 3, 4, 0]].concat();
        let found = "1 found 00000000 00000000 00000000 00000000";
        let number = number(set).expect("a malformed mask");
        let text = format!("{found}\n2 refused {number}\nend 2\n");
        assert_eq!(listing(&file, generate), text);
        assert_eq!(listed(&file), text);
    }
}

/// What reading returns where one of the first four masks alone fixes one bit.
fn read_with_bit((w, f): (u64, u64), place: usize, bit: u64) -> u64 {
    let mut conditions = Conditions::free(w, f, 0, 0);
    let care = 1 << bit;
    *conditions.masks_mut()[place] = Mask { care, value: 0 };
    let words = [0, 0];
    let file = bytes(&Job { conditions, words });
    buffer::read(&file, &mut [0; 8])
}

/// Each mask of a record is held against its own width, that of the carries f + 1.
#[test]
fn widths_in_records() {
    for format in [(3, 4), (8, 23), (8, 24), (11, 51), (11, 52)] {
        let (w, f) = format;
        for (place, top) in [(0, w + f), (1, w + f), (2, w + f), (3, f)] {
            assert_eq!(read_with_bit(format, place, top), 0);
            for bit in top + 1..8 * word_bytes(w, f) as u64 {
                assert_eq!(read_with_bit(format, place, bit), NUMBERS[place]);
            }
        }
    }
}

/// What the generator of whole numbers returns, which is what the second implementation says.
fn whole_number(job: &WholeJob) -> u64 {
    let mut out = [0xA5; 32];
    let number = buffer::whole(&whole::given(job), &mut out);
    assert_eq!(out == [0xA5; 32], number != 0);
    let second = generate_whole(job).err().map_or(0, u64::from);
    assert_eq!(number, second, "{job:x?}");
    number
}

#[test]
fn whole_numbers() {
    let mut random = Random::new(0x3012);
    for set in sets(WHOLE_MASKS) {
        for n in [1, 2, 31, 32] {
            let mut job = zeros(n);
            malform_whole_job(&mut random, &mut job, set);
            assert_eq!(whole_number(&job), number(set).unwrap_or(0));
            // A carry out of zeros: no case fits.
            job.carries.value |= 1 << n & job.carries.care;
            assert_eq!(whole_number(&job), number(set).unwrap_or(7));
            job.words[2] = 1 << n;
            assert_eq!(whole_number(&job), number(set).unwrap_or(6));
            for n in [0, 33, 1 << 32] {
                assert_eq!(whole_number(&WholeJob { n, ..job }), 12);
            }
        }
    }
}

#[test]
fn widths_of_whole_numbers() {
    for n in [1, 2, 31, 32] {
        for (place, width) in [(0, n), (1, n), (2, n), (3, n + 1)] {
            for bit in width..64 {
                let mut job = zeros(n);
                job.masks_mut()[place].care |= 1 << bit;
                assert_eq!(whole_number(&job), NUMBERS[place]);
            }
        }
    }
}

/// Joining has one number for both masks, before 13, and knows no width.
#[test]
fn joined_masks() {
    let all = Mask {
        care: u64::MAX,
        value: u64::MAX,
    };
    for bit in (0..64).map(|i| 1 << i) {
        // This one disagrees with the other mask too.
        let outside = Mask {
            care: !bit,
            value: bit,
        };
        for (one, other) in [(outside, all), (all, outside), (outside, outside)] {
            let mut out = [0xA5; 16];
            let number = buffer::join(given(one), given(other), &mut out);
            assert_eq!((number, out), (5, [0xA5; 16]));
            assert_eq!(one.join(&other), Err(5));
        }
        assert_eq!(buffer::join(given(all), given(all), &mut [0; 16]), 0);
    }
}

/// The random calls come to each of the masks, wherever masks are taken.
#[test]
fn random_calls_reach_every_mask() {
    let of_cases: [Part; 3] = [readings, confirmations, wide_generations];
    let parts = of_cases.map(|part| (part, &NUMBERS[..]));
    let whole_numbers: (Part, _) = (whole::generations, &NUMBERS[..4]);
    for (part, numbers) in parts.into_iter().chain([whole_numbers]) {
        let tally = part(&mut Random::new(0x7A11), 4000).expect("alike");
        let reached = |&number: &u64| tally.refused(number as Refusal) > 0;
        assert!(numbers.iter().all(reached));
    }
}

//! The size of a word in records and in the listing (document 02, W-202): by the bytes of w and f,
//! good or not, and not by the values.

use compare::call::Tally;
use compare::damage::raw_record;
use compare::files::whole_reading;
use compare::program::listed;
use second::bounds::Bounds;
use second::choice::{generate, Job};
use second::dropped::Dropped;
use second::fits::Conditions;
use second::listing::listing;
use second::mask::Mask;
use second::random::Random;
use second::record::{encode, LONGEST_RECORD};

/// Formats of words with 31, 32 and 33 bits, and the widest.
const NEAR_BORDER: [(u8, u8); 7] = [
    (8, 22),
    (8, 23),
    (2, 29),
    (11, 20),
    (8, 24),
    (9, 23),
    (11, 52),
];

/// Any two bytes for w and f: a record of full length, and one byte less.
#[test]
fn every_w_and_f() {
    let (mut random, mut tally) = (Random::new(0x3264), Tally::default());
    for (w, f) in (0..=255).flat_map(|w| (0..=255).map(move |f| (w, f))) {
        let record = raw_record(&mut random, w, f);
        for file in [&record[..], &record[..record.len() - 1]] {
            whole_reading(&mut random, &mut tally, file).unwrap();
        }
    }
}

/// A job that states everything, with all bits fixed around the sum of the smallest normal number
/// and zero, and bounds from a zero to that number.
fn full_job(w: u8, f: u8) -> Job {
    let all = |width: u8, value| Mask {
        care: u64::MAX >> (64 - width),
        value,
    };
    let mut conditions = Conditions::free(u64::from(w), u64::from(f), 0, 1);
    conditions.a = all(w + f + 1, 1 << f);
    conditions.b = all(w + f + 1, 0);
    conditions.c = all(w + f + 1, 1 << f);
    conditions.carries = all(f + 1, 0);
    conditions.dropped = Dropped {
        g: 8,
        mask: all(9, 0),
    };
    let (low, high) = (1 << (w + f), 1 << f);
    conditions.bounds = [Some(Bounds { low, high }); 3];
    let words = [all(w + f + 1, 0).care; 2];
    Job { conditions, words }
}

/// The longest record of each format is read whole, and no part of it.
#[test]
fn longest_records() {
    for (w, f) in NEAR_BORDER {
        let record = encode(&full_job(w, f)).expect("a well-made job");
        let long = u32::from(w) + u32::from(f) + 1 > 32;
        assert_eq!(record.len(), if long { LONGEST_RECORD } else { 75 });
        assert_eq!(LONGEST_RECORD, vindacsor::LONGEST_RECORD);
        assert_eq!(vindacsor::read(&record), Ok(Some(record.len())));
        for length in 1..record.len() {
            let cut = vindacsor::read(&record[..length]);
            assert_eq!(cut, Err(vindacsor::Refusal(8)));
        }
        let case = vindacsor::generate(&record).expect("a case");
        let smallest = 1 << f;
        assert_eq!((case.a, case.b, case.c), (smallest, 0, smallest));
        assert_eq!(case.row, Some(0));
    }
}

/// Words have the digits that their format asks for, in files of jobs that fix nothing or all.
#[test]
fn digits_go_by_the_format() {
    for (w, f) in NEAR_BORDER {
        let full = encode(&full_job(w, f)).expect("a well-made job");
        let file = [vec![0, w, f, 0], full].concat();
        let text = listing(&file, generate);
        let width = u32::from(w) + u32::from(f) + 1;
        assert_eq!(text.contains(" 0000000000000000 "), width > 32);
        assert_eq!(listed(&file), text);
    }
}

/// A record whose w or f is refused ends the listing with 1 or 2 where it has its full length, and
/// else with 8.
#[test]
fn refused_formats_are_listed_by_their_length() {
    let mut random = Random::new(0x1208);
    for (w, f) in [
        (1, 30),
        (1, 31),
        (2, 53),
        (12, 19),
        (12, 20),
        (30, 1),
        (31, 1),
        (255, 255),
    ] {
        let record = raw_record(&mut random, w, f);
        for file in [&record[..], &record[..record.len() - 1]] {
            assert_eq!(listed(file), listing(file, generate));
        }
    }
}

//! Malformed masks (document 02, W-203 and W-206): each of the masks of a job has a number of its
//! own, and where several are malformed the first in the order a, b, c, carries, dropped bits, or
//! x, y, z, carries, is the one that is named.

use second::choice::{generate, Job};
use second::dropped::Dropped;
use second::fits::{confirm, Conditions};
use second::format::{ones, Refusal, LARGEST_G};
use second::listing::listing;
use second::malform::{malform_job, malform_whole_job, MASKS, WHOLE_MASKS};
use second::mask::Mask;
use second::random::Random;
use second::record::{encode, map_of, read, unchecked, write, Reply, LONGEST_RECORD};
use second::sample::{job, numbers, zeros};
use second::whole::generate_whole;

/// The numbers of the masks, in the order of the masks; whole numbers have all but the last.
const NUMBERS: [Refusal; 5] = [5, 14, 15, 16, 17];

/// How many jobs are tried for each set of malformed masks.
const EACH: u64 = 400;

/// The number for a set of malformed masks, whose bit 0 stands for the first mask; none where the
/// set is empty.
fn number(set: u64) -> Option<Refusal> {
    NUMBERS.get(set.trailing_zeros() as usize).copied()
}

/// Every set of malformed masks, again and again, where there are so many masks.
fn sets(masks: u64) -> impl Iterator<Item = u64> {
    let count = 1 << masks;
    (0..count * EACH).map(move |n| n % count)
}

/// Jobs of any format, each with the set of its malformed masks.
fn jobs() -> Vec<(Job, u64)> {
    let mut random = Random::new(0x3A5C);
    let one = |set| {
        let numbers = numbers(&mut random);
        let care = 8 * random.below(9);
        let mut job = job(&mut random, numbers, care);
        malform_job(&mut random, &mut job, set);
        (job, set)
    };
    sets(MASKS).map(one).collect()
}

/// Exactly the masks of the set are malformed, some by a value bit outside care alone, others by a
/// bit above the width alone, and that of the dropped bits by g alone too.
#[test]
fn the_jobs_are_what_they_are_called() {
    let (mut ways, mut by_g) = ([0; 3], 0);
    for (job, set) in jobs() {
        let c = &job.conditions;
        let [width, precision] = [c.w + c.f + 1, c.f + 1].map(|width| width as u32);
        let many = c.dropped.g > LARGEST_G;
        let masks = c.masks().into_iter().chain([c.dropped.mask]);
        let widths = [width, width, width, precision, c.dropped.g as u32 + 1];
        for (place, (mask, width)) in masks.zip(widths).enumerate() {
            let malformed = set >> place & 1 == 1;
            if place == 4 && many {
                assert!(malformed);
                by_g += 1;
                continue;
            }
            let outside = mask.value & !mask.care != 0;
            let above = (mask.value | mask.care) & !ones(width) != 0;
            assert_eq!(malformed, outside || above, "{job:x?}");
            assert_eq!(malformed, !mask.is_well_formed(width));
            if malformed {
                ways[usize::from(outside) + 2 * usize::from(above) - 1] += 1;
            }
        }
    }
    let enough = |&count: &i32| count > 1000;
    assert!(ways.iter().chain([&by_g]).all(enough), "{ways:?} {by_g}");
}

#[test]
fn the_generator_and_confirmation_name_the_first() {
    for (job, set) in jobs() {
        assert_eq!(job.check().err(), number(set), "{job:x?}");
        assert_eq!(confirm(&job.conditions, 0, 0, 0).err(), number(set));
        if set > 0 {
            assert_eq!(generate(&job).err(), number(set));
        }
    }
}

#[test]
fn writing_names_the_first_and_writes_nothing() {
    for (job, set) in jobs() {
        let mut buffer = [0xA5; LONGEST_RECORD];
        assert_eq!(encode(&job).err(), number(set));
        assert_eq!(write(&job, &mut buffer).err(), number(set));
        assert_eq!(buffer == [0xA5; LONGEST_RECORD], set > 0);
    }
}

/// A record is refused from its beginning on, and what stands after it is not reached.
#[test]
fn reading_and_the_listing_name_the_first() {
    for (job, set) in jobs() {
        let rest = [0xFF; 2];
        let file = [unchecked(map_of(&job), &job), rest.to_vec()].concat();
        let Some(number) = number(set) else {
            assert_eq!(read(&file), (Reply::Job(job), &rest[..]));
            continue;
        };
        assert_eq!(read(&file), (Reply::Refused(number), &file[..]));
        let two = [&[0, 3, 4, 0], &file[..]].concat();
        let found = "1 found 00000000 00000000 00000000 00000000";
        let text = format!("{found}\n2 refused {number}\nend 2\n");
        assert_eq!(listing(&two, generate), text);
    }
}

#[test]
fn the_whole_number_generator_names_the_first() {
    let mut random = Random::new(0x303A);
    for set in sets(WHOLE_MASKS) {
        let mut job = zeros(1 + random.below(32));
        malform_whole_job(&mut random, &mut job, set);
        assert_eq!(job.check().err(), number(set));
        assert_eq!(generate_whole(&job).err(), number(set), "{job:x?}");
    }
}

/// What conditions are refused with where one of the first four masks fixes one bit.
fn with_one_bit((w, f): (u64, u64), place: usize, bit: u64) -> Option<Refusal> {
    let mut conditions = Conditions::free(w, f, 0, 0);
    let care = 1 << bit;
    *conditions.masks_mut()[place] = Mask { care, value: 0 };
    conditions.check(&[]).err()
}

/// Each mask is held against its own width: above that of the carries there are bits that a word
/// has.
#[test]
fn each_mask_by_its_width() {
    for format in [(3, 4), (8, 23), (8, 24), (11, 51), (11, 52)] {
        let (w, f) = format;
        for (place, top) in [(0, w + f), (1, w + f), (2, w + f), (3, f)] {
            assert_eq!(with_one_bit(format, place, top), None);
            // Nothing stands above 64 bits.
            for bit in top + 1..64 {
                assert_eq!(with_one_bit(format, place, bit), Some(NUMBERS[place]));
            }
        }
    }
}

/// The mask of the dropped bits has g + 1 bits, and no g above 8 has one.
#[test]
fn the_mask_of_the_dropped_bits_by_g() {
    let refusal = |g, care, value| {
        let mut conditions = Conditions::free(3, 4, 0, 0);
        let mask = Mask { care, value };
        conditions.dropped = Dropped { g, mask };
        conditions.check(&[]).err()
    };
    for g in 0..=LARGEST_G {
        for bit in 0..64 {
            let wanted = (bit > g).then_some(17);
            assert_eq!(refusal(g, 1 << bit, 0), wanted);
            assert_eq!(refusal(g, 1 << bit, 1 << bit), wanted);
            // Nothing in care, and a value.
            assert_eq!(refusal(g, 0, 1 << bit), Some(17));
        }
        // A g beside nothing fixed is tested all the same.
        assert_eq!(refusal(g, 0, 0), None);
    }
    let high = (0..64).map(|bit| 1 << bit).filter(|&g| g > LARGEST_G);
    for g in (LARGEST_G + 1..300).chain(high).chain([u64::MAX]) {
        assert_eq!(refusal(g, 0, 0), Some(17));
        assert_eq!(refusal(g, 1, 1), Some(17));
    }
}

/// Joining has one number for both masks, and knows no width.
#[test]
fn joining_names_neither() {
    let masks = || {
        (0..16).map(|bits| Mask {
            care: bits / 4,
            value: bits % 4,
        })
    };
    for (one, other) in masks().flat_map(|one| masks().map(move |other| (one, other))) {
        let outside = [one, other].map(|mask| mask.value & !mask.care != 0);
        let refusal = one.join(&other).err();
        assert_eq!(refusal == Some(5), outside.contains(&true));
        assert!([None, Some(5), Some(13)].contains(&refusal));
    }
    let top = Mask {
        care: 1 << 63,
        value: 1 << 63,
    };
    assert_eq!(top.join(&Mask::FREE), Ok(top));
}

//! Numbers, words, masks and files that are not as they should be, or nearly.

use second::bounds::Bounds;
use second::choice::Job;
use second::dropped::Dropped;
use second::format::{LARGEST_F, LARGEST_G, LARGEST_MODE, LARGEST_W};
use second::malform::{malform_bounds, malform_job, MASKS};
use second::mask::Mask;
use second::random::Random;
use second::record::{dropped_bytes, map_of, unchecked, word_bytes};

/// A number up to just above a limit, or any.
pub fn damaged_number(random: &mut Random, limit: u64) -> u64 {
    if random.one_in(4) {
        random.word()
    } else {
        near(random, limit)
    }
}

/// A number up to just above a limit.
fn near(random: &mut Random, limit: u64) -> u64 {
    random.below(limit + 4)
}

/// The word with a bit above its width, or any; one of 64 bits has none above it.
pub fn damaged_word(random: &mut Random, word: u64, width: u32) -> u64 {
    let above = 64 - u64::from(width);
    match random.below(3) {
        1 if above > 0 => word | 1 << width,
        2 if above > 0 => word | 1 << (u64::from(width) + random.below(above)),
        _ => random.word(),
    }
}

/// A record of full length with any two bytes for w and f, by which its words have four or eight
/// bytes. Its fields are good ones but for a few.
pub fn raw_record(random: &mut Random, w: u8, f: u8) -> Vec<u8> {
    let first = random.bits(8) as u8;
    let second = match first >> 7 {
        0 => None,
        _ => Some(second_map(random)),
    };
    let word_bytes = word_bytes(u64::from(w), u64::from(f));
    let mut record: Vec<u8> = [first].into_iter().chain(second).collect();
    record.extend([w, f, random.below(2) as u8]);
    let map = u16::from_le_bytes([first, second.unwrap_or(0)]);
    for bit in (0..16).filter(|bit| map >> bit & 1 == 1) {
        match bit {
            4 => record.push(1 + random.below(4) as u8),
            6 => record.extend(dropped_field(random)),
            7 | 11.. => {}
            bit => {
                let words = two_words(random, bit > 7);
                put_words(random, &mut record, word_bytes, words);
            }
        }
    }
    record
}

/// A second map: bounds of some words, but for a few that are empty or any.
fn second_map(random: &mut Random) -> u8 {
    match random.below(16) {
        0 => 0,
        1 => random.bits(8) as u8,
        _ => 1 + random.below(7) as u8,
    }
}

/// Two small words: bounds, a few of them the wrong way round, or what a mask of two bits can be.
fn two_words(random: &mut Random, bounds: bool) -> [u8; 2] {
    let low = random.bits(2) as u8;
    match bounds {
        true if random.one_in(8) => [low + 1, low],
        true => [low, low + random.bits(2) as u8],
        false => [3, low],
    }
}

/// Adds two words; the top byte of a few is any.
fn put_words(random: &mut Random, record: &mut Vec<u8>, word_bytes: usize, words: [u8; 2]) {
    for low in words {
        let end = record.len() + word_bytes;
        record.push(low);
        record.resize(end, 0);
        if random.one_in(32) {
            record[end - 1] = random.bits(8) as u8;
        }
    }
}

/// g, care and value of the dropped bits, as a record states them: good ones but for a few, which
/// have a g just above its limit or any, nothing in care, with a value or without, a bit just above
/// the width, or any bytes.
pub fn dropped_field(random: &mut Random) -> [u8; 5] {
    let mut g = random.below(LARGEST_G + 1);
    let mut care = 1 + random.below((2 << g) - 1);
    let mut value = random.bits(9) & care;
    match random.below(16) {
        0 => g = LARGEST_G + 1,
        1 => g = random.bits(8),
        2 => [care, value] = [0, 0],
        3 => care = 0,
        4 => care |= 2 << g,
        5 => value |= 2 << g,
        6 => [care, value] = [0, 1].map(|_| random.bits(16)),
        _ => {}
    }
    let mask = Mask { care, value };
    dropped_bytes(&Dropped { g, mask })
}

/// A record with any bytes for w and f, most often near their limits or such that w + f + 1 is
/// near the border of 32; whole, or a byte or more shorter or longer.
pub fn any_raw_record(random: &mut Random) -> Vec<u8> {
    let w = match random.below(4) {
        0 => random.bits(8),
        _ => near(random, LARGEST_W),
    };
    let f = match random.below(4) {
        0 => random.bits(8),
        1 => (30 + random.below(3)).saturating_sub(w),
        _ => near(random, LARGEST_F),
    };
    let mut record = raw_record(random, w as u8, f as u8);
    match random.below(4) {
        0 => record.truncate(record.len() - 1 - random.below(4) as usize),
        1 => record.resize(record.len() + 1 + random.below(4) as usize, 0),
        _ => {}
    }
    record
}

/// One or more of so many masks, as a set whose bit 0 stands for the first.
pub fn some_masks(random: &mut Random, count: u64) -> u64 {
    1 + random.below((1 << count) - 1)
}

/// The record of a job with one or more of its masks malformed, and perhaps another fault.
pub fn malformed_record(random: &mut Random, job: &Job) -> Vec<u8> {
    let mut job = *job;
    let set = some_masks(random, MASKS);
    malform_job(random, &mut job, set);
    with_another_fault(random, job)
}

/// The record of a job with bounds of one word that are wrong, a bound that is too wide, or both,
/// and perhaps another fault.
pub fn misbounded_record(random: &mut Random, job: &Job) -> Vec<u8> {
    let mut job = *job;
    let faults = 1 + random.below(3);
    if faults & 1 == 1 {
        malform_bounds(random, &mut job);
    }
    if faults & 2 == 2 {
        widen_bounds(random, &mut job);
    }
    with_another_fault(random, job)
}

/// Gives one of the words of a job bounds of which one is too wide, or any where a word has all
/// bits that can be given.
fn widen_bounds(random: &mut Random, job: &mut Job) {
    let c = &mut job.conditions;
    let width = (c.w + c.f + 1) as u32;
    let mut words = [0; 2];
    words[random.below(2) as usize] = damaged_word(random, 0, width);
    let [low, high] = words;
    c.bounds[random.below(3) as usize] = Some(Bounds { low, high });
}

/// The record of a job. Every second time it has another fault, or nearly: a number near or above
/// its limit, a random word that is too wide, a field that says its default, a g beside nothing
/// fixed, a second map that is empty or has other bits, or damaged bytes.
fn with_another_fault(random: &mut Random, mut job: Job) -> Vec<u8> {
    let fault = random.below(16);
    let c = &mut job.conditions;
    let width = (c.w + c.f + 1) as u32;
    match fault {
        0 => c.w = damaged_number(random, LARGEST_W),
        1 => c.f = damaged_number(random, LARGEST_F),
        2 => c.operation = damaged_number(random, 1),
        3 => c.mode = damaged_number(random, LARGEST_MODE),
        4 => job.words[random.below(2) as usize] = damaged_word(random, 0, width),
        5 if c.dropped == Dropped::FREE => c.dropped.g = near(random, LARGEST_G),
        _ => {}
    }
    let more = match fault {
        5 => 0x40,
        6 => random.bits(11) as u16,
        7 => 0x80 << random.below(9),
        _ => 0,
    };
    let mut record = unchecked(map_of(&job) | more, &job);
    if fault == 8 {
        damage_file(random, &mut record);
    }
    record
}

/// Damages a file in one to three places.
pub fn damage_file(random: &mut Random, file: &mut Vec<u8>) {
    for _ in 0..1 + random.below(3) {
        damage_once(random, file);
    }
}

fn damage_once(random: &mut Random, file: &mut Vec<u8>) {
    if file.is_empty() {
        file.push(random.bits(8) as u8);
        return;
    }
    let at = random.below(file.len() as u64) as usize;
    // The header's bytes are few but decide most.
    let at = if random.one_in(2) {
        at % 8 % file.len()
    } else {
        at
    };
    match random.below(7) {
        0 => file.truncate(at),
        1 => file[at] = random.bits(8) as u8,
        2 => file[at] = 0,
        3 => file[at] ^= 1 << random.below(8),
        4 => file.insert(at, random.bits(8) as u8),
        5 => drop(file.remove(at)),
        _ => {
            // A field that says its default, or part of it.
            let end = (at + 8).min(file.len());
            file[at..end].fill(0);
        }
    }
}

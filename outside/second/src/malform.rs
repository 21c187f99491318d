//! Malformed masks and bounds of jobs, for test programs.

use crate::choice::Job;
use crate::dropped::Dropped;
use crate::format::{Format, LARGEST_G};
use crate::mask::Mask;
use crate::random::Random;
use crate::record::word_bytes;
use crate::whole::WholeJob;
use crate::within;

/// How many masks a job for a case has, that of the dropped bits the last, and how many one for
/// whole numbers.
pub const MASKS: u64 = 5;
pub const WHOLE_MASKS: u64 = 4;

/// Malforms the masks of a set, whose bit 0 stands for the first of a job's five, in ways that the
/// job's record can state. The other masks stay.
pub fn malform_job(random: &mut Random, job: &mut Job, set: u64) {
    let c = &mut job.conditions;
    let widths = [c.w + c.f + 1, c.f + 1].map(|width| width as u32);
    let room = 8 * word_bytes(c.w, c.f) as u32;
    malform(random, c.masks_mut(), set, widths, room);
    if set >> (MASKS - 1) & 1 == 1 {
        malform_dropped(random, &mut c.dropped);
    }
}

/// Gives one of the words of a job whose format is good bounds that 18 refuses.
pub fn malform_bounds(random: &mut Random, job: &mut Job) {
    let c = &mut job.conditions;
    let format = Format::new(c.w, c.f).expect("within the limits");
    c.bounds[random.below(3) as usize] = Some(within::wrong(random, format));
}

/// The same for the four masks of whole numbers, which are given in 64 bits.
pub fn malform_whole_job(random: &mut Random, job: &mut WholeJob, set: u64) {
    let n = job.n as u32;
    malform(random, job.masks_mut(), set, [n, n + 1], 64);
}

/// Malforms four masks by a set. The first three have `width` bits, and each is given in `room`
/// bits.
fn malform(
    random: &mut Random,
    masks: [&mut Mask; 4],
    set: u64,
    [width, carries_width]: [u32; 2],
    room: u32,
) {
    let widths = [width, width, width, carries_width];
    for (place, (mask, width)) in masks.into_iter().zip(widths).enumerate() {
        if set >> place & 1 == 1 {
            malform_one(random, mask, u64::from(width), u64::from(room));
        }
    }
}

/// A value bit outside care, or, where there is room, a bit above the width, every second time the
/// first one there: in care, in value or in both.
fn malform_one(random: &mut Random, mask: &mut Mask, width: u64, room: u64) {
    if width == room || random.one_in(2) {
        let bit = 1 << random.below(width);
        mask.care &= !bit;
        mask.value |= bit;
    } else {
        let bit = 1 << (width + random.below(2) * random.below(room - width));
        let stands_in = 1 + random.below(3);
        mask.care |= bit * (stands_in & 1);
        mask.value |= bit * (stands_in >> 1);
    }
}

/// A g above its limit, every second time the first one there, beside a mask that is stated; or a
/// malformed mask, which a record gives in 16 bits.
fn malform_dropped(random: &mut Random, dropped: &mut Dropped) {
    if random.one_in(3) {
        let more = u64::from(u8::MAX) - LARGEST_G;
        dropped.g = LARGEST_G + 1 + random.below(2) * random.below(more);
        dropped.mask.care |= 1;
    } else {
        malform_one(random, &mut dropped.mask, dropped.g + 1, 16);
    }
}

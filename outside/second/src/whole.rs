//! The whole-number generator, by trying pairs (document 01, "Masks and choice", second
//! paragraph). The work doubles with every free bit of x and y.

use crate::format::{check_width, Refusal, NO_CASE, N_OUT_OF_RANGE};
use crate::mask::{check_masks, Mask};

pub const LARGEST_N: u64 = 32;

/// Length, masks and the three random words. The carry mask has N + 1 bits.
#[derive(Clone, Copy, Debug, PartialEq, Eq)]
pub struct WholeJob {
    pub n: u64,
    pub x: Mask,
    pub y: Mask,
    pub z: Mask,
    pub carries: Mask,
    pub words: [u64; 3],
}

/// x + y + (carry in) = z + 2^N × (carry out). Bit i of the carries goes into position i.
#[derive(Clone, Copy, Debug, PartialEq, Eq)]
pub struct WholeCase {
    pub x: u64,
    pub y: u64,
    pub z: u64,
    pub carries: u64,
}

impl WholeJob {
    /// The four masks, in the order in which they are checked.
    pub fn masks(&self) -> [Mask; 4] {
        [self.x, self.y, self.z, self.carries]
    }

    /// The same masks, to be changed.
    pub fn masks_mut(&mut self) -> [&mut Mask; 4] {
        [&mut self.x, &mut self.y, &mut self.z, &mut self.carries]
    }

    /// Refuses with 12, 5, 14 to 16, 6 and gives N.
    pub fn check(&self) -> Result<u32, Refusal> {
        if !(1..=LARGEST_N).contains(&self.n) {
            return Err(N_OUT_OF_RANGE);
        }
        let n = self.n as u32;
        check_masks(self.masks(), n, n + 1)?;
        for word in self.words {
            check_width(word, n)?;
        }
        Ok(n)
    }
}

impl WholeCase {
    /// The case of two numbers below 2^n and a carry in of 0 or 1.
    pub fn of(n: u32, x: u64, y: u64, carry_in: u64) -> WholeCase {
        let carry_into = |i: u32| (x % (1 << i) + y % (1 << i) + carry_in) >> i;
        WholeCase {
            x,
            y,
            z: (x + y + carry_in) % (1 << n),
            carries: (0..=n).map(|i| carry_into(i) << i).sum(),
        }
    }

    /// Whether all four words agree with every fixed bit.
    pub fn meets(&self, job: &WholeJob) -> bool {
        job.x.is_met(self.x)
            && job.y.is_met(self.y)
            && job.z.is_met(self.z)
            && job.carries.is_met(self.carries)
    }
}

/// The fitting case with the smallest x exclusive-or the first word, then y with the second,
/// then z with the third. Refuses with 12, 5, 14 to 16, 6, 7.
pub fn generate_whole(job: &WholeJob) -> Result<WholeCase, Refusal> {
    let n = job.check()?;
    let [first, second, third] = job.words;
    for x in job.x.words_near(n, first) {
        for y in job.y.words_near(n, second) {
            // The two carries in give unlike z, so the third word leaves one case at most.
            let found = [0, 1]
                .map(|carry_in| WholeCase::of(n, x, y, carry_in))
                .into_iter()
                .filter(|case| case.meets(job))
                .min_by_key(|case| case.z ^ third);
            if let Some(case) = found {
                return Ok(case);
            }
        }
    }
    Err(NO_CASE)
}

//! The bits below the last fraction bit (document 02, W-206): those of an exact result, and what a
//! job asks of them.

use crate::format::{Format, Refusal, BAD_DROPPED_MASK, LARGEST_G};
use crate::mask::Mask;
use crate::wide::Wide;

/// As many bits as a job can name at most.
const FIRST: u32 = LARGEST_G as u32;

/// What follows the fraction bits of an exact result: the first eight bits, and whether something
/// nonzero lies further down.
#[derive(Clone, Copy, Debug, PartialEq, Eq)]
pub struct Below {
    first: u8,
    further: bool,
}

impl Below {
    /// What follows the fraction bits of a magnitude, counted in smallest steps. None where that is
    /// less than the smallest normal number: 2^f steps, the least number of p digits.
    pub fn of(format: Format, exact: &Wide) -> Option<Below> {
        // The digits after the leading 1 and the fraction; there are none below a step.
        let after = exact.digits().checked_sub(format.precision())?;
        let is_one = |place: u32| place < after && exact.bit(after - 1 - place);
        let first = (0..FIRST)
            .filter(|&place| is_one(place))
            .map(|place| 1 << (FIRST - 1 - place))
            .sum();
        let further = exact.modulo_power(after.saturating_sub(FIRST)) != Wide::ZERO;
        Some(Below { first, further })
    }

    /// The first g bits, with the sticky bit below them. What is left of the first eight lies
    /// further down.
    pub fn word(self, g: u64) -> u64 {
        let left = LARGEST_G - g;
        let first = u64::from(self.first);
        let sticky = self.further || first & ((1 << left) - 1) != 0;
        first >> left << 1 | u64::from(sticky)
    }
}

/// What a job asks of these bits: g, the number of dropped bits, and a mask of g + 1 bits. Bit 0 is
/// the sticky bit, and bit g the first dropped bit.
#[derive(Clone, Copy, Debug, PartialEq, Eq)]
pub struct Dropped {
    pub g: u64,
    pub mask: Mask,
}

impl Dropped {
    /// Nothing fixed, and so no g.
    pub const FREE: Dropped = Dropped {
        g: 0,
        mask: Mask::FREE,
    };

    /// Refuses with 17.
    pub fn check(&self) -> Result<(), Refusal> {
        if self.g > LARGEST_G {
            return Err(BAD_DROPPED_MASK);
        }
        self.mask.check(self.g as u32 + 1, BAD_DROPPED_MASK)
    }

    /// How it is taken once it is checked: where no bit is fixed, g is 0.
    pub fn taken(self) -> Dropped {
        match self.mask {
            Mask::FREE => Dropped::FREE,
            _ => self,
        }
    }

    /// Whether the bits below a result agree with every fixed bit. Where there are none, only a
    /// mask that fixes no bit is met.
    pub fn is_met(&self, below: Option<Below>) -> bool {
        let word = below.map(|below| below.word(self.g));
        self.mask.is_met_by_optional(word)
    }
}

//! Limits, refusal numbers and the fixed words of a format (document 01, "Numbers of a format" and
//! "Causes and replies"; document 02, W-201 to W-203, W-206, W-207).

/// The number of a refusal, 1 to 18.
pub type Refusal = u8;

/// w below 2 or above 11.
pub const W_OUT_OF_RANGE: Refusal = 1;
/// f below 2 or above 52.
pub const F_OUT_OF_RANGE: Refusal = 2;
/// Operation above 1.
pub const UNKNOWN_OPERATION: Refusal = 3;
/// Mode above 4.
pub const UNKNOWN_MODE: Refusal = 4;
/// a's or x's mask malformed: a bit above its width, or a value bit outside care. In joining,
/// either mask: a value bit outside care.
pub const BAD_MASK: Refusal = 5;
/// Operand, proposed or random word or bound above w + f + 1 bits, or word above N bits for whole
/// numbers.
pub const WORD_TOO_WIDE: Refusal = 6;
/// No case fits.
pub const NO_CASE: Refusal = 7;
/// Record cut short.
pub const CUT_SHORT: Refusal = 8;
/// A bit from 3 on set in the second map.
pub const UNKNOWN_MAP_BIT: Refusal = 9;
/// Field that says its default, or empty second map.
pub const SAYS_DEFAULT: Refusal = 10;
/// Buffer too short for the record.
pub const BUFFER_TOO_SHORT: Refusal = 11;
/// N outside 1 to 32.
pub const N_OUT_OF_RANGE: Refusal = 12;
/// Two masks fix one bit unlike.
pub const MASKS_DISAGREE: Refusal = 13;
/// b's or y's mask malformed.
pub const BAD_SECOND_MASK: Refusal = 14;
/// c's or z's mask malformed.
pub const BAD_THIRD_MASK: Refusal = 15;
/// The carry mask malformed.
pub const BAD_CARRY_MASK: Refusal = 16;
/// g above 8, or the mask of the dropped bits and the sticky bit malformed.
pub const BAD_DROPPED_MASK: Refusal = 17;
/// A bound is a NaN, or a low bound exceeds its high one.
pub const BAD_BOUNDS: Refusal = 18;
/// The largest of these numbers.
pub const LAST_REFUSAL: Refusal = BAD_BOUNDS;

pub const SMALLEST_W: u64 = 2;
pub const LARGEST_W: u64 = 11;
pub const SMALLEST_F: u64 = 2;
pub const LARGEST_F: u64 = 52;
pub const LARGEST_MODE: u64 = 4;
/// The most dropped bits that a job names.
pub const LARGEST_G: u64 = 8;

/// A format within the limits. The fields are private so that no other can be made.
#[derive(Clone, Copy, Debug, PartialEq, Eq)]
pub struct Format {
    w: u32,
    f: u32,
}

impl Format {
    /// Refuses with 1, then 2.
    pub fn new(w: u64, f: u64) -> Result<Format, Refusal> {
        if !(SMALLEST_W..=LARGEST_W).contains(&w) {
            return Err(W_OUT_OF_RANGE);
        }
        if !(SMALLEST_F..=LARGEST_F).contains(&f) {
            return Err(F_OUT_OF_RANGE);
        }
        Ok(Format {
            w: w as u32,
            f: f as u32,
        })
    }

    /// w, the number of exponent bits.
    pub fn exponent_bits(self) -> u32 {
        self.w
    }

    /// f, the number of fraction bits.
    pub fn fraction_bits(self) -> u32 {
        self.f
    }

    /// The number of bits of a word, w + f + 1.
    pub fn width(self) -> u32 {
        self.w + self.f + 1
    }

    /// p, the number of bits of a significand and of a carry row.
    pub fn precision(self) -> u32 {
        self.f + 1
    }

    /// The word with the sign bit alone.
    pub fn sign_bit(self) -> u64 {
        1 << (self.w + self.f)
    }

    /// Positive infinity.
    pub fn infinity(self) -> u64 {
        self.sign_bit() - (1 << self.f)
    }

    /// The largest finite number. It stands just before infinity in the order of words.
    pub fn largest_finite(self) -> u64 {
        self.infinity() - 1
    }

    /// The one NaN that a result can be.
    pub fn nan(self) -> u64 {
        self.infinity() + (1 << (self.f - 1))
    }

    /// The word of a magnitude with a sign.
    pub fn signed(self, negative: bool, magnitude: u64) -> u64 {
        if negative {
            self.sign_bit() + magnitude
        } else {
            magnitude
        }
    }

    /// Refuses with 6 a word that is too wide. Words come in with 64 bits so that none is cut.
    pub fn check_word(self, word: u64) -> Result<(), Refusal> {
        check_width(word, self.width())
    }
}

/// w and f of every format.
pub fn every_format() -> impl Iterator<Item = (u64, u64)> + Clone {
    (SMALLEST_W..=LARGEST_W).flat_map(|w| (SMALLEST_F..=LARGEST_F).map(move |f| (w, f)))
}

/// The word of `width` ones, 1 to 64. A 1 moved up by the width would fall out at 64.
pub fn ones(width: u32) -> u64 {
    u64::MAX >> (64 - width)
}

/// Refuses with 6 a word of more than `width` bits.
pub fn check_width(word: u64, width: u32) -> Result<(), Refusal> {
    if word > ones(width) {
        return Err(WORD_TOO_WIDE);
    }
    Ok(())
}

//! Masks (document 01, "Masks and choice"; document 02, W-203): well formed, met, joined, the first
//! four of a job, and the words that meet one.

use crate::format::{
    ones, Refusal, BAD_CARRY_MASK, BAD_MASK, BAD_SECOND_MASK, BAD_THIRD_MASK, MASKS_DISAGREE,
};

/// Two words: in `care` a 1 says that the bit is fixed, `value` says to what.
#[derive(Clone, Copy, Debug, PartialEq, Eq)]
pub struct Mask {
    pub care: u64,
    pub value: u64,
}

impl Mask {
    /// The mask that fixes no bit.
    pub const FREE: Mask = Mask { care: 0, value: 0 };

    /// No value bit outside care, and no bit at `width` or above.
    pub fn is_well_formed(&self, width: u32) -> bool {
        self.is_within_care() && self.care <= ones(width)
    }

    /// Refuses a malformed mask with the number that its place has.
    pub(crate) fn check(&self, width: u32, number: Refusal) -> Result<(), Refusal> {
        if self.is_well_formed(width) {
            Ok(())
        } else {
            Err(number)
        }
    }

    /// Whether a word agrees with every fixed bit.
    pub fn is_met(&self, word: u64) -> bool {
        word & self.care == self.value
    }

    /// Whether a word that need not be there agrees with every fixed bit. Where there is none,
    /// only a mask that fixes no bit is met.
    pub fn is_met_by_optional(&self, word: Option<u64>) -> bool {
        match word {
            Some(word) => self.is_met(word),
            None => self.care == 0,
        }
    }

    /// The mask that fixes what either fixes. Refuses with 5 where a value stands outside its
    /// care, then with 13. It knows no width, so all 64 bits take part.
    pub fn join(&self, other: &Mask) -> Result<Mask, Refusal> {
        if !self.is_within_care() || !other.is_within_care() {
            return Err(BAD_MASK);
        }
        let both = self.care & other.care;
        if self.value & both != other.value & both {
            return Err(MASKS_DISAGREE);
        }
        Ok(Mask {
            care: self.care | other.care,
            value: self.value | other.value,
        })
    }

    /// The number of free bits of a well-formed mask.
    pub fn free_bits(&self, width: u32) -> u32 {
        width - self.care.count_ones()
    }

    /// Every word of `width` bits that meets a well-formed mask, by rising exclusive-or with
    /// `target`.
    pub fn words_near(&self, width: u32, target: u64) -> Nearest {
        let free = ones(width) & !self.care;
        Nearest {
            free,
            start: self.value | (target & free),
            next: Some(0),
        }
    }

    fn is_within_care(&self) -> bool {
        self.value & !self.care == 0
    }
}

/// The first four masks of a job, of a, b, c and the carries, or the four of whole numbers, of x, y,
/// z and the carries. The first three have `width` bits. Refuses with 5, 14, 15, 16, in this order.
pub fn check_masks(
    [first, second, third, carries]: [Mask; 4],
    width: u32,
    carries_width: u32,
) -> Result<(), Refusal> {
    for (mask, width, number) in [
        (first, width, BAD_MASK),
        (second, width, BAD_SECOND_MASK),
        (third, width, BAD_THIRD_MASK),
        (carries, carries_width, BAD_CARRY_MASK),
    ] {
        mask.check(width, number)?;
    }
    Ok(())
}

/// The words that meet a mask, nearest to a target first. They differ from `start`, the
/// nearest of all, in free bits only, and on fixed bits all of them differ from the target
/// alike. So the order by exclusive-or with the target is the order of the difference from
/// `start`, and the differences are all sets of free bits, taken as rising whole numbers.
pub struct Nearest {
    free: u64,
    start: u64,
    next: Option<u64>,
}

impl Iterator for Nearest {
    type Item = u64;

    fn next(&mut self) -> Option<u64> {
        let difference = self.next?;
        // With ones in all other positions the carry of the added 1 passes over them, so
        // this is the next larger number that has ones in free positions only, or 0 after
        // the last one.
        let following = (difference | !self.free).wrapping_add(1) & self.free;
        self.next = (following != 0).then_some(following);
        Some(self.start ^ difference)
    }
}

#[cfg(test)]
mod tests {
    use super::*;

    fn mask(care: u64, value: u64) -> Mask {
        Mask { care, value }
    }

    #[test]
    fn well_formed_by_width_and_care() {
        assert!(mask(0xFF, 0x81).is_well_formed(8));
        assert!(!mask(0x100, 0).is_well_formed(8));
        assert!(!mask(0x0F, 0x10).is_well_formed(8));
        assert!(mask(0xFFFF_FFFF, 0xFFFF_FFFF).is_well_formed(32));
        assert!(!mask(1 << 32, 0).is_well_formed(32));
        assert!(mask(1 << 32, 1 << 32).is_well_formed(33));
        assert!(!mask(1 << 63, 0).is_well_formed(63));
        assert!(mask(1 << 63, 1 << 63).is_well_formed(64));
        assert!(!mask(1 << 62, 1 << 63).is_well_formed(64));
    }

    #[test]
    fn joins_or_refuses() {
        assert_eq!(mask(3, 1).join(&mask(6, 4)), Ok(mask(7, 5)));
        assert_eq!(mask(3, 1).join(&mask(6, 2)), Err(MASKS_DISAGREE));
        assert_eq!(mask(3, 4).join(&mask(3, 1)), Err(BAD_MASK));
        assert_eq!(mask(3, 1).join(&mask(0, 1)), Err(BAD_MASK));
        assert_eq!(mask(3, 4).join(&mask(0, 1)), Err(BAD_MASK));
        // 5 comes before 13.
        assert_eq!(mask(1, 1).join(&mask(1, 2)), Err(BAD_MASK));
        assert_eq!(Mask::FREE.join(&mask(u64::MAX, 9)), Ok(mask(u64::MAX, 9)));
    }

    #[test]
    fn join_is_met_where_both_are() {
        let all = |care: u64| (0..8).map(move |value| mask(care, value));
        for x in (0..8).flat_map(all).filter(|m| m.is_well_formed(3)) {
            for y in (0..8).flat_map(all).filter(|m| m.is_well_formed(3)) {
                let joined = x.join(&y);
                for word in 0..8 {
                    let both = x.is_met(word) && y.is_met(word);
                    assert_eq!(both, joined.is_ok_and(|m| m.is_met(word)));
                }
            }
        }
    }

    #[test]
    fn words_come_nearest_first() {
        for care in 0..32u64 {
            for value in (0..32).filter(|value| value & !care == 0) {
                for target in 0..32 {
                    let m = mask(care, value);
                    let mut sorted: Vec<u64> = (0..32).filter(|&word| m.is_met(word)).collect();
                    sorted.sort_by_key(|word| word ^ target);
                    assert_eq!(m.words_near(5, target).collect::<Vec<_>>(), sorted);
                }
            }
        }
    }

    #[test]
    fn words_of_64_bits_come_nearest_first_too() {
        let (top, ends) = (1 << 63, 1 | 1 << 63);
        let words: Vec<u64> = mask(!ends, 6).words_near(64, top).collect();
        assert_eq!(words, [top | 6, top | 7, 6, 7]);
        let all_fixed: Vec<u64> = mask(u64::MAX, ends).words_near(64, 0).collect();
        assert_eq!(all_fixed, [ends]);
        let first_free: Vec<u64> = Mask::FREE.words_near(64, ends).take(2).collect();
        assert_eq!(first_free, [ends, top]);
    }
}

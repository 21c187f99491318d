//! Whole numbers of 2,112 bits. The exact sum of two finite numbers, counted in smallest steps, is
//! below 2^(2^w + f − 1), and the representable number above it is at most that. With w = 11 and
//! f = 52 this is 2^2099, so nothing here ever has to be cut.

use std::cmp::Ordering;

const LIMBS: usize = 33;

/// A number by its limbs, lowest first. Those in use end with one that is not 0, and the others
/// are 0: numbers of small formats cost little.
#[derive(Clone, Copy, Debug, PartialEq, Eq)]
pub struct Wide {
    used: usize,
    limbs: [u64; LIMBS],
}

impl Wide {
    pub const ZERO: Wide = Wide {
        used: 0,
        limbs: [0; LIMBS],
    };

    /// The number of these limbs, of which at most `used` are not 0.
    fn of(limbs: [u64; LIMBS], mut used: usize) -> Wide {
        while used > 0 && limbs[used - 1] == 0 {
            used -= 1;
        }
        Wide { used, limbs }
    }

    /// value × 2^by. The product must fit.
    pub fn scaled(value: u64, by: u32) -> Wide {
        let mut limbs = [0; LIMBS];
        let first = (by / 64) as usize;
        let product = u128::from(value) << (by % 64);
        limbs[first] = product as u64;
        let high = (product >> 64) as u64;
        if high == 0 {
            return Wide::of(limbs, first + 1);
        }
        limbs[first + 1] = high;
        Wide::of(limbs, first + 2)
    }

    /// self + other. The sum must fit.
    pub fn plus(&self, other: &Wide) -> Wide {
        let used = self.used.max(other.used);
        let mut limbs = [0; LIMBS];
        let mut carry = 0u128;
        for (i, limb) in limbs[..used].iter_mut().enumerate() {
            let sum = u128::from(self.limbs[i]) + u128::from(other.limbs[i]) + carry;
            *limb = sum as u64;
            carry = sum >> 64;
        }
        if carry == 0 {
            return Wide::of(limbs, used);
        }
        limbs[used] = 1;
        Wide::of(limbs, used + 1)
    }

    /// self − other, where other is at most self.
    pub fn minus(&self, other: &Wide) -> Wide {
        assert!(other <= self, "difference below zero");
        let mut limbs = [0; LIMBS];
        let mut borrow = false;
        for (i, limb) in limbs[..self.used].iter_mut().enumerate() {
            let (part, first) = self.limbs[i].overflowing_sub(other.limbs[i]);
            let (rest, second) = part.overflowing_sub(u64::from(borrow));
            *limb = rest;
            borrow = first || second;
        }
        Wide::of(limbs, self.used)
    }

    /// self mod 2^n.
    pub fn modulo_power(&self, n: u32) -> Wide {
        let mut limbs = self.limbs;
        for (i, limb) in limbs[..self.used].iter_mut().enumerate() {
            let below = n.saturating_sub(64 * i as u32);
            if below < 64 {
                *limb &= (1 << below) - 1;
            }
        }
        Wide::of(limbs, self.used)
    }

    /// self div 2^n. The quotient must have at most 64 bits.
    pub fn quotient_by_power(&self, n: u32) -> u64 {
        assert!(self.digits() <= n + 64, "quotient of more than 64 bits");
        let limb = |i: usize| u128::from(self.limbs.get(i).copied().unwrap_or(0));
        let first = (n / 64) as usize;
        ((limb(first) | limb(first + 1) << 64) >> (n % 64)) as u64
    }

    /// The number of binary digits, 0 for zero.
    pub fn digits(&self) -> u32 {
        match self.limbs[..self.used].last() {
            None => 0,
            Some(last) => 64 * self.used as u32 - last.leading_zeros(),
        }
    }

    /// Bit n, counted from the lowest.
    pub fn bit(&self, n: u32) -> bool {
        self.limbs[(n / 64) as usize] >> (n % 64) & 1 == 1
    }
}

impl Ord for Wide {
    fn cmp(&self, other: &Wide) -> Ordering {
        let [left, right] = [self, other].map(|number| number.limbs[..number.used].iter().rev());
        self.used.cmp(&other.used).then_with(|| left.cmp(right))
    }
}

impl PartialOrd for Wide {
    fn partial_cmp(&self, other: &Wide) -> Option<Ordering> {
        Some(self.cmp(other))
    }
}

#[cfg(test)]
mod tests {
    use super::*;

    /// The highest bit that there is.
    const TOP: u32 = 64 * LIMBS as u32 - 1;

    #[test]
    fn carries_and_borrows_pass_the_limbs() {
        let low = Wide::scaled(u64::MAX, 128);
        let one = Wide::scaled(1, 128);
        assert_eq!(low.plus(&one), Wide::scaled(1, 192));
        assert_eq!(one.plus(&low), Wide::scaled(1, 192));
        assert_eq!(Wide::scaled(1, 192).minus(&one), low);
        let step = Wide::scaled(1, 0);
        assert_eq!(
            Wide::scaled(1, TOP).minus(&step).plus(&step),
            Wide::scaled(1, TOP)
        );
        assert_eq!(one.minus(&one), Wide::ZERO);
        assert_eq!(one.minus(&Wide::ZERO), one);
    }

    #[test]
    fn scaling_crosses_a_limb() {
        let x = Wide::scaled(0b101, 63);
        assert!(x.bit(63) && !x.bit(64) && x.bit(65));
        assert_eq!(x, Wide::scaled(1, 63).plus(&Wide::scaled(1, 65)));
        assert_eq!(Wide::scaled(0, 500), Wide::ZERO);
    }

    #[test]
    fn remainder_keeps_the_bits_below() {
        let x = Wide::scaled(0xFFFF, 120);
        assert_eq!(x.modulo_power(124), Wide::scaled(0xF, 120));
        assert_eq!(x.modulo_power(128), Wide::scaled(0xFF, 120));
        assert_eq!(x.modulo_power(120), Wide::ZERO);
        assert_eq!(x.modulo_power(0), Wide::ZERO);
        assert_eq!(x.modulo_power(TOP), x);
    }

    #[test]
    fn quotient_keeps_the_bits_above() {
        let x = Wide::scaled(0xFFFF, 120).plus(&Wide::scaled(3, 0));
        assert_eq!(x.quotient_by_power(120), 0xFFFF);
        assert_eq!(x.quotient_by_power(124), 0xFFF);
        assert_eq!(x.quotient_by_power(128), 0xFF);
        assert_eq!(x.quotient_by_power(72), 0xFFFF << 48);
        assert_eq!(x.quotient_by_power(TOP), 0);
        assert_eq!(Wide::scaled(1, TOP).quotient_by_power(TOP), 1);
    }

    #[test]
    fn digits_are_counted() {
        for n in [0, 1, 63, 64, 65, 300, TOP] {
            assert_eq!(Wide::scaled(1, n).digits(), n + 1);
        }
        assert_eq!(Wide::scaled(7, 62).digits(), 65);
        assert_eq!(Wide::ZERO.digits(), 0);
    }

    #[test]
    fn order_looks_at_the_top_first() {
        assert!(Wide::scaled(1, 200) > Wide::scaled(u64::MAX, 100));
        assert!(Wide::scaled(2, 0) > Wide::scaled(1, 0));
        assert!(Wide::ZERO < Wide::scaled(1, 0));
        assert_eq!(
            Wide::scaled(3, 70).cmp(&Wide::scaled(6, 69)),
            Ordering::Equal
        );
    }
}

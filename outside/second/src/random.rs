//! A small deterministic random generator (splitmix64), so that a test run can be repeated
//! from its seed.

pub struct Random {
    state: u64,
}

impl Random {
    pub fn new(seed: u64) -> Random {
        Random { state: seed }
    }

    /// The next 64 bits.
    pub fn word(&mut self) -> u64 {
        self.state = self.state.wrapping_add(0x9E37_79B9_7F4A_7C15);
        let mut z = self.state;
        z = (z ^ (z >> 30)).wrapping_mul(0xBF58_476D_1CE4_E5B9);
        z = (z ^ (z >> 27)).wrapping_mul(0x94D0_49BB_1331_11EB);
        z ^ (z >> 31)
    }

    /// The next `count` bits, at most 64, from the top of a word.
    pub fn bits(&mut self, count: u32) -> u64 {
        self.word().checked_shr(64 - count).unwrap_or(0)
    }

    /// A number below `limit`. The remainder favours small numbers by less than one part in
    /// 2^40 for the limits that tests use.
    pub fn below(&mut self, limit: u64) -> u64 {
        self.word() % limit
    }

    /// True once in `count` times.
    pub fn one_in(&mut self, count: u64) -> bool {
        self.below(count) == 0
    }
}

/// The seed in a text, decimal or with 0x before hexadecimal digits; the default where there
/// is no text, and none where the text is no number.
pub fn seed(text: Option<&str>, default: u64) -> Option<u64> {
    match text {
        None => Some(default),
        Some(text) => match text.strip_prefix("0x") {
            Some(digits) => u64::from_str_radix(digits, 16).ok(),
            None => text.parse().ok(),
        },
    }
}

#[cfg(test)]
mod tests {
    use super::*;

    #[test]
    fn agrees_with_the_published_sequence() {
        let mut random = Random::new(1_234_567);
        assert_eq!(random.word(), 6_457_827_717_110_365_317);
        assert_eq!(random.word(), 3_203_168_211_198_807_973);
        assert_eq!(random.word(), 9_817_491_932_198_370_423);
    }

    #[test]
    fn seeds_are_read() {
        assert_eq!(seed(None, 5), Some(5));
        assert_eq!(seed(Some("12"), 5), Some(12));
        assert_eq!(seed(Some("0x12"), 5), Some(18));
        assert_eq!(seed(Some("x"), 5), None);
    }

    #[test]
    fn bits_stay_below_their_count() {
        let mut random = Random::new(1);
        assert_eq!(random.bits(0), 0);
        assert!((0..1000).all(|_| random.bits(3) < 8));
        assert!((0..1000).any(|_| random.bits(64) >> 63 == 1));
    }
}

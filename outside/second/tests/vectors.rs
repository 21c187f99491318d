//! Published vectors, as far as the papers print them without loss, and cases built from
//! the errors that the papers describe in words, in single and in double precision.

use second::arith::rounded;

/// A format and its words that the vectors name.
struct Words {
    w: u64,
    f: u64,
    one: u64,
    /// A half and a quarter of the unit of 1.
    half_unit: u64,
    quarter_unit: u64,
    /// The largest number below 2.
    below_two: u64,
    smallest_normal: u64,
    largest: u64,
    /// Half of the unit of the largest number.
    half_of_largest: u64,
    infinity: u64,
    nan: u64,
    negative_zero: u64,
}

const SINGLE: Words = Words {
    w: 8,
    f: 23,
    one: 0x3F80_0000,
    half_unit: 0x3380_0000,
    quarter_unit: 0x3300_0000,
    below_two: 0x3FFF_FFFF,
    smallest_normal: 0x0080_0000,
    largest: 0x7F7F_FFFF,
    half_of_largest: 0x7300_0000,
    infinity: 0x7F80_0000,
    nan: 0x7FC0_0000,
    negative_zero: 0x8000_0000,
};

const DOUBLE: Words = Words {
    w: 11,
    f: 52,
    one: 0x3FF0_0000_0000_0000,
    half_unit: 0x3CA0_0000_0000_0000,
    quarter_unit: 0x3C90_0000_0000_0000,
    below_two: 0x3FFF_FFFF_FFFF_FFFF,
    smallest_normal: 0x0010_0000_0000_0000,
    largest: 0x7FEF_FFFF_FFFF_FFFF,
    half_of_largest: 0x7C90_0000_0000_0000,
    infinity: 0x7FF0_0000_0000_0000,
    nan: 0x7FF8_0000_0000_0000,
    negative_zero: 0x8000_0000_0000_0000,
};

const BOTH: [Words; 2] = [SINGLE, DOUBLE];

/// The result in modes 0 to 4.
fn in_all_modes(w: u64, f: u64, operation: u64, a: u64, b: u64) -> [u64; 5] {
    [0, 1, 2, 3, 4].map(|mode| rounded(w, f, operation, mode, a, b).unwrap())
}

impl Words {
    fn sum(&self, a: u64, b: u64) -> [u64; 5] {
        in_all_modes(self.w, self.f, 0, a, b)
    }

    fn difference(&self, a: u64, b: u64) -> [u64; 5] {
        in_all_modes(self.w, self.f, 1, a, b)
    }

    fn minus_infinity(&self) -> u64 {
        self.infinity + self.negative_zero
    }
}

/// Source document 000.
#[test]
fn eight_bit_example() {
    assert_eq!(rounded(3, 4, 0, 0, 0x45, 0x2B), Ok(0x4C));
}

/// Source documents 001, 003 and 004: zeros.
#[test]
fn zeros() {
    for words in BOTH {
        let minus = words.negative_zero;
        assert_eq!(words.difference(minus, 0), [minus; 5]);
        assert_eq!(words.sum(minus, minus), [minus; 5]);
        assert_eq!(words.sum(0, 0), [0; 5]);
        let cancelled = [0, 0, 0, minus, 0];
        assert_eq!(words.sum(0, minus), cancelled);
        assert_eq!(words.sum(minus, 0), cancelled);
        assert_eq!(words.difference(0, 0), cancelled);
    }
}

/// Source documents 001, 003 and 004: infinities.
#[test]
fn infinities() {
    for words in BOTH {
        let [plus, minus] = [words.infinity, words.minus_infinity()];
        let least = words.largest + words.negative_zero;
        for finite in [0, 1, words.one, words.largest, least, words.negative_zero] {
            assert_eq!(words.sum(plus, finite), [plus; 5]);
            assert_eq!(words.sum(finite, minus), [minus; 5]);
            assert_eq!(words.difference(finite, plus), [minus; 5]);
            assert_eq!(words.difference(minus, finite), [minus; 5]);
        }
        assert_eq!(words.sum(plus, plus), [plus; 5]);
        assert_eq!(words.difference(minus, plus), [minus; 5]);
        assert_eq!(words.sum(plus, minus), [words.nan; 5]);
        assert_eq!(words.difference(plus, plus), [words.nan; 5]);
    }
}

/// Source documents 001, 003 and 004: NaNs. The pattern of the result is document 01's.
#[test]
fn nans() {
    for words in BOTH {
        let [plus, minus] = [words.infinity, words.minus_infinity()];
        let all_ones = words.negative_zero - 1;
        let negative = words.nan + words.negative_zero;
        for nan in [plus + 1, all_ones, negative, minus + 1, words.nan] {
            for other in [0, plus, minus, words.one, words.nan] {
                for (a, b) in [(nan, other), (other, nan)] {
                    assert_eq!(words.sum(a, b), [words.nan; 5]);
                    assert_eq!(words.difference(a, b), [words.nan; 5]);
                }
            }
        }
    }
}

/// Built from described errors: a far operand at or beside a tie.
#[test]
fn near_ties() {
    for words in BOTH {
        let Words {
            one,
            half_unit: half,
            quarter_unit: quarter,
            ..
        } = words;
        let [above, below] = [one + 1, one - 1];
        let up = [one, one, above, one, one];
        let down = [one, below, one, below, one];
        assert_eq!(words.sum(one, quarter), up);
        assert_eq!(words.difference(one, quarter), down);
        assert_eq!(
            words.difference(one, quarter + 1),
            [below, below, one, below, below]
        );
        assert_eq!(words.difference(one, quarter - 1), down);
        assert_eq!(words.sum(one, half + 1), [above, one, above, one, above]);
        assert_eq!(words.sum(one, half - 1), up);
        // The smallest number, far below everything else.
        assert_eq!(words.sum(one, 1), up);
        assert_eq!(words.difference(one, 1), down);
    }
}

/// Built from described errors: ties.
#[test]
fn ties() {
    for words in BOTH {
        let (one, half) = (words.one, words.half_unit);
        assert_eq!(words.sum(one, half), [one, one, one + 1, one, one + 1]);
        assert_eq!(
            words.sum(one + 1, half),
            [one + 2, one + 1, one + 2, one + 1, one + 2]
        );
    }
}

/// Built from described errors: rounding carries into the next exponent.
#[test]
fn next_exponent() {
    for words in BOTH {
        let last = words.below_two;
        let two = last + 1;
        assert_eq!(
            words.sum(last, words.half_unit),
            [two, last, two, last, two]
        );
        // From the largest subnormal number on, without rounding.
        let normal = words.smallest_normal;
        assert_eq!(words.sum(normal - 1, 1), [normal; 5]);
    }
}

/// Built from described errors: the end of the range.
#[test]
fn end_of_range() {
    for words in BOTH {
        let Words {
            largest, infinity, ..
        } = words;
        let half = words.half_of_largest;
        let only_up = [largest, largest, infinity, largest, largest];
        assert_eq!(words.sum(largest, 1), only_up);
        // Half a unit of the largest number is a tie, and goes to infinity.
        assert_eq!(
            words.sum(largest, half),
            [infinity, largest, infinity, largest, infinity]
        );
        assert_eq!(words.sum(largest, half - 1), only_up);
    }
}

/// Built from described errors: a subtraction that crosses a power of two.
#[test]
fn crossing_a_power_of_two() {
    assert_eq!(in_all_modes(3, 4, 1, 0x60, 0x10), [0x5F; 5]);
    // 2 less a quarter of the unit below it rounds down only where the mode says so.
    for words in BOTH {
        let two = words.below_two + 1;
        let below = words.below_two;
        assert_eq!(
            words.difference(two, words.quarter_unit),
            [two, below, two, below, two]
        );
    }
}

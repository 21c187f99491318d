//! Document 01's cases 1 to 13, by their numbers. All but 12 and 13 are in format w = 3,
//! f = 4.

use second::arith::rounded;
use second::choice::{generate, Job};
use second::dropped::Dropped;
use second::fits::{confirm, Case, Conditions};
use second::format::{
    every_format, ones, Refusal, F_OUT_OF_RANGE, LARGEST_MODE, NO_CASE, W_OUT_OF_RANGE,
};
use second::mask::Mask;
use second::row::carry_row;
use second::signs::refusal;
use second::whole::{generate_whole, WholeCase, WholeJob};

const FIRST: Case = Case {
    a: 0x45,
    b: 0x2B,
    c: 0x4C,
    row: Some(0x04),
};
const SECOND: Case = Case {
    a: 0x4D,
    b: 0x3B,
    c: 0x55,
    row: Some(0x1D),
};

/// The masks 0100x101, 001x1011 and 010xx10x.
fn conditions(mode: u64) -> Conditions {
    let mut conditions = Conditions::free(3, 4, 0, mode);
    conditions.a = mask("0100x101");
    conditions.b = mask("001x1011");
    conditions.c = mask("010xx10x");
    conditions
}

fn mask(text: &str) -> Mask {
    let read = |one: &str| u64::from_str_radix(one, 2).unwrap();
    Mask {
        care: read(&text.replace('0', "1").replace('x', "0")),
        value: read(&text.replace('x', "0")),
    }
}

fn choose(conditions: Conditions, first: u64, second: u64) -> Result<Case, Refusal> {
    generate(&Job {
        conditions,
        words: [first, second],
    })
}

/// Every fitting case of eight-bit words, found by confirmation alone.
fn all_fitting(conditions: &Conditions) -> Vec<(u64, u64, u64)> {
    let words = 0..256u64;
    let mut found = Vec::new();
    for a in words.clone() {
        for b in words.clone() {
            let c = rounded(3, 4, 0, conditions.mode, a, b).unwrap();
            if confirm(conditions, a, b, c).unwrap() {
                found.push((a, b, c));
            }
        }
    }
    found
}

fn sum(operation: u64, mode: u64, a: u64, b: u64) -> u64 {
    rounded(3, 4, operation, mode, a, b).unwrap()
}

#[test]
fn the_masks_are_those_of_the_listed_file() {
    let c = conditions(0);
    assert_eq!((c.a.care, c.a.value), (0xF7, 0x45));
    assert_eq!((c.b.care, c.b.value), (0xEF, 0x2B));
    assert_eq!((c.c.care, c.c.value), (0xE6, 0x44));
}

#[test]
fn case_1_two_cases_fit() {
    let expected = vec![(0x45, 0x2B, 0x4C), (0x4D, 0x3B, 0x55)];
    assert_eq!(all_fitting(&conditions(0)), expected);
    assert_eq!(carry_row(3, 4, 0, 0x45, 0x2B), Ok(Some(0x04)));
    assert_eq!(carry_row(3, 4, 0, 0x4D, 0x3B), Ok(Some(0x1D)));
    // A wrong result is a no, though it meets the mask.
    assert_eq!(confirm(&conditions(0), 0x45, 0x2B, 0x4D), Ok(false));
}

#[test]
fn case_2_the_words_choose() {
    assert_eq!(choose(conditions(0), 0, 0), Ok(FIRST));
    assert_eq!(choose(conditions(0), 0x4D, 0), Ok(SECOND));
}

#[test]
fn case_3_other_modes() {
    assert_eq!(all_fitting(&conditions(3)), [(0x4D, 0x3B, 0x55)]);
    assert_eq!(all_fitting(&conditions(2)), [(0x45, 0x2B, 0x4C)]);
    for words in [0, 0x45, 0x4D, 0xFF] {
        assert_eq!(choose(conditions(3), words, 0), Ok(SECOND));
        assert_eq!(choose(conditions(2), words, 0), Ok(FIRST));
    }
}

#[test]
fn case_4_a_carry_that_none_has() {
    let mut fixed = conditions(0);
    fixed.carries = Mask { care: 2, value: 2 };
    assert_eq!(choose(fixed, 0, 0), Err(NO_CASE));
}

#[test]
fn case_5_cancelled_sum() {
    let results = [0, 1, 2, 3, 4].map(|mode| sum(1, mode, 0x30, 0x30));
    assert_eq!(results, [0x00, 0x00, 0x00, 0x80, 0x00]);
}

#[test]
fn case_6_overflow() {
    let results = [0, 1, 2, 3, 4].map(|mode| sum(0, mode, 0x6F, 0x6F));
    assert_eq!(results, [0x70, 0x6F, 0x70, 0x6F, 0x70]);
    let mirrored = [0, 1, 2, 3, 4].map(|mode| sum(0, mode, 0xEF, 0xEF));
    assert_eq!(mirrored, [0xF0, 0xEF, 0xEF, 0xF0, 0xF0]);
}

#[test]
fn case_7_infinities_of_unlike_sign() {
    assert_eq!(
        [0, 1, 2, 3, 4].map(|mode| sum(1, mode, 0x70, 0x70)),
        [0x78; 5]
    );
    assert_eq!(carry_row(3, 4, 1, 0x70, 0x70), Ok(None));
}

#[test]
fn case_8_subnormal_to_normal() {
    assert_eq!(
        [0, 1, 2, 3, 4].map(|mode| sum(0, mode, 0x0F, 0x01)),
        [0x10; 5]
    );
}

#[test]
fn case_9_ties() {
    assert_eq!(sum(0, 0, 0x30, 0x02), 0x30);
    assert_eq!(sum(0, 2, 0x30, 0x02), 0x31);
    assert_eq!(sum(0, 0, 0x31, 0x02), 0x32);
}

/// Document 02, W-201: mode 4.
#[test]
fn ties_away() {
    for sign in [0, 0x80] {
        assert_eq!(sum(0, 4, 0x30 + sign, 0x02 + sign), 0x31 + sign);
        assert_eq!(sum(0, 4, 0x31 + sign, 0x02 + sign), 0x32 + sign);
    }
    let expected = vec![(0x45, 0x2B, 0x4C), (0x4D, 0x3B, 0x55)];
    assert_eq!(all_fitting(&conditions(4)), expected);
}

#[test]
fn case_10_borrows() {
    assert_eq!(carry_row(3, 4, 1, 0x30, 0x01), Ok(Some(0x0F)));
    assert_eq!(sum(1, 0, 0x30, 0x01), 0x30);
    assert_eq!(sum(1, 3, 0x30, 0x01), 0x2F);
}

/// Document 02, W-205: with equal exponents a is L, e = 0 among them; e = 0 and e = 1 are not
/// equal, though their units are.
#[test]
fn borrows_by_the_exponent() {
    let row = |a, b| carry_row(3, 4, 1, a, b);
    assert_eq!(
        [row(0x30, 0x31), row(0x31, 0x30)],
        [Ok(Some(0x1F)), Ok(Some(0x00))]
    );
    assert_eq!(
        [row(0x05, 0x0A), row(0x0A, 0x05)],
        [Ok(Some(0x1A)), Ok(Some(0x05))]
    );
    assert_eq!([row(0x05, 0x10), row(0x10, 0x05)], [Ok(Some(0x0F)); 2]);
}

/// Document 02, W-206: 30 + 02 has 100 and a sticky bit of 0 below its last bit, 45 + 2B has 11 and
/// one of 0.
#[test]
fn bits_below_the_last() {
    for (g, word, a, b) in [(3, 8, 0x30, 0x02), (2, 6, 0x45, 0x2B)] {
        let c = sum(0, 0, a, b);
        for other in 0..2 << g {
            let mut fixed = Conditions::free(3, 4, 0, 0);
            let mask = Mask {
                care: (2 << g) - 1,
                value: other,
            };
            fixed.dropped = Dropped { g, mask };
            assert_eq!(confirm(&fixed, a, b, c), Ok(other == word));
        }
    }
}

#[test]
fn case_11_whole_numbers() {
    let fixed = |care, value| Mask { care, value };
    let job = WholeJob {
        n: 2,
        x: fixed(3, 3),
        y: fixed(3, 1),
        z: Mask::FREE,
        carries: fixed(1, 0),
        words: [0, 0, 0],
    };
    let case = WholeCase {
        x: 3,
        y: 1,
        z: 0,
        carries: 6,
    };
    assert_eq!(generate_whole(&job), Ok(case));
}

/// What each function that takes a format answers where both operands are fixed to 0.
fn acceptance(w: u64, f: u64) -> [Option<Refusal>; 4] {
    let mut conditions = Conditions::free(w, f, 0, 0);
    let care = ones((w.clamp(2, 11) + f.clamp(2, 52) + 1) as u32);
    conditions.a = Mask { care, value: 0 };
    conditions.b = conditions.a;
    [
        rounded(w, f, 0, 0, 0, 0).err(),
        carry_row(w, f, 0, 0, 0).err(),
        confirm(&conditions, 0, 0, 0).err(),
        choose(conditions, 0, 0).err(),
    ]
}

/// With the limits of document 02, W-202.
#[test]
fn case_12_limits() {
    for f in [2, 52] {
        assert_eq!(acceptance(2, f), [None; 4]);
        assert_eq!(acceptance(11, f), [None; 4]);
        assert_eq!(acceptance(1, f), [Some(W_OUT_OF_RANGE); 4]);
        assert_eq!(acceptance(12, f), [Some(W_OUT_OF_RANGE); 4]);
    }
    for w in [2, 11] {
        assert_eq!(acceptance(w, 1), [Some(F_OUT_OF_RANGE); 4]);
        assert_eq!(acceptance(w, 53), [Some(F_OUT_OF_RANGE); 4]);
    }
}

/// Signs of a and b fixed to 0 and c's to 1.
fn fixed_signs(w: u64, f: u64, mode: u64) -> Conditions {
    let sign = 1 << (w + f);
    let mut conditions = Conditions::free(w, f, 0, mode);
    conditions.a = Mask {
        care: sign,
        value: 0,
    };
    conditions.b = conditions.a;
    conditions.c = Mask {
        care: sign,
        value: sign,
    };
    conditions
}

/// By trying all pairs of words in small formats, and in every format, 8/23 and 11/52 among them,
/// by the rule about signs.
#[test]
fn case_13_signs() {
    for (w, f) in every_format() {
        for mode in 0..=LARGEST_MODE {
            let conditions = fixed_signs(w, f, mode);
            if w + f < 8 {
                assert_eq!(choose(conditions, 0, 0), Err(NO_CASE));
            }
            let words = [0, 0];
            assert_eq!(refusal(&Job { conditions, words }), Some(NO_CASE));
        }
    }
}

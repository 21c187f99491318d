//! Bounds (document 02, W-207) against the values of words: in small formats every pair of words,
//! in single and double precision the processor's own order.

mod values;

use std::cmp::Ordering;

use second::bounds::{Bounds, Number};
use second::format::{every_format, Format, BAD_BOUNDS};
use second::random::Random;
use second::sample::{pair, word, SMALL};
use second::within::{place_of, word_at, wrong};
use values::value;

fn format((w, f): (u64, u64)) -> Format {
    Format::new(w, f).unwrap()
}

/// The order of two words, none where one is a NaN.
fn order(format: Format, one: u64, other: u64) -> Option<Ordering> {
    let [one, other] = [one, other].map(|word| Number::of(format, word));
    Some(one?.cmp(&other?))
}

#[test]
fn every_pair_of_small_words_by_value() {
    for small in SMALL {
        let words = 0..1 << (small.0 + small.1 + 1);
        for (low, high) in words
            .clone()
            .flat_map(|one| words.clone().map(move |other| (one, other)))
        {
            let values = [low, high].map(|word| value(small, word));
            let by_value = match values {
                [Some(low), Some(high)] => Some(low.cmp(&high)),
                _ => None,
            };
            assert_eq!(order(format(small), low, high), by_value);
            let is_legal = by_value.is_some_and(Ordering::is_le);
            let checked = Bounds { low, high }.check(format(small));
            assert_eq!(checked.err(), (!is_legal).then_some(BAD_BOUNDS));
        }
    }
}

/// Both ends are included.
#[test]
fn every_word_within_every_bounds_by_value() {
    for small in [(2, 2), (2, 3), (3, 2)] {
        let words = || (0..1 << (small.0 + small.1 + 1)).map(|word| (word, value(small, word)));
        for (low, from) in words() {
            for (high, to) in words() {
                let bounds = Bounds { low, high };
                if bounds.check(format(small)).is_err() {
                    continue;
                }
                for (word, value) in words() {
                    let is_within = value.is_some() && from <= value && value <= to;
                    assert_eq!(bounds.admit(format(small), word), is_within);
                }
            }
        }
    }
}

/// The order of `f32` and `f64` on the processor. Equal words, and words a few places apart, are
/// frequent among the pairs.
#[test]
fn the_processor_orders_alike() {
    let mut random = Random::new(0x0DE7);
    let mut counts = [0; 4];
    for _ in 0..200_000 {
        let (x, y) = pair(&mut random, format((8, 23)));
        let [one, other] = [x, y].map(|word| f32::from_bits(word as u32));
        assert_eq!(order(format((8, 23)), x, y), one.partial_cmp(&other));
        let (x, y) = pair(&mut random, format((11, 52)));
        let [one, other] = [x, y].map(f64::from_bits);
        let wanted = one.partial_cmp(&other);
        assert_eq!(order(format((11, 52)), x, y), wanted);
        counts[wanted.map_or(3, |order| (order as i8 + 1) as usize)] += 1;
    }
    assert!(counts.iter().all(|&count| count > 1000), "{counts:?}");
}

/// The zeros are one number, the infinities are the ends, and a NaN lies within no bounds.
#[test]
fn zeros_infinities_and_nans() {
    for (w, f) in every_format() {
        let format = format((w, f));
        let [zero, minus_zero] = [0, format.sign_bit()];
        let [infinity, minus_infinity] =
            [false, true].map(|sign| format.signed(sign, format.infinity()));
        for (low, high) in [(zero, minus_zero), (minus_zero, zero), (zero, zero)] {
            let bounds = Bounds { low, high };
            assert_eq!(bounds.check(format), Ok(()));
            let admitted = [zero, minus_zero, 1, minus_zero + 1, format.nan(), infinity];
            let wanted = [true, true, false, false, false, false];
            assert_eq!(admitted.map(|word| bounds.admit(format, word)), wanted);
        }
        let all = Bounds {
            low: minus_infinity,
            high: infinity,
        };
        assert_eq!(all.check(format), Ok(()));
        let mut random = Random::new(w << 8 | f);
        for word in (0..50).map(|_| word(&mut random, format)) {
            let is_nan = word & infinity == infinity && word % (1 << f) != 0;
            assert_eq!(all.admit(format, word), !is_nan);
            assert_eq!(Number::of(format, word).is_none(), is_nan);
        }
    }
}

/// The places of the samples are in the order of the numbers, in every format.
#[test]
fn places_are_in_order() {
    let mut random = Random::new(0x91AC);
    for numbers in every_format() {
        let format = format(numbers);
        for _ in 0..40 {
            let one = word(&mut random, format);
            let Some(place) = place_of(format, one) else {
                assert_eq!(Number::of(format, one), None);
                continue;
            };
            assert_eq!(
                place_of(format, word_at(&mut random, format, place)),
                Some(place)
            );
            let next = word_at(&mut random, format, place + 1);
            let is_last = place == format.infinity() as i64;
            let wanted = if is_last {
                Ordering::Equal
            } else {
                Ordering::Less
            };
            assert_eq!(order(format, one, next), Some(wanted));
        }
    }
}

/// Wrong bounds are wrong in each way: a NaN at an end or at both, neighbours the wrong way round,
/// and others.
#[test]
fn wrong_bounds_are_refused() {
    let mut random = Random::new(0xBAD5);
    let mut ways = [0; 5];
    for (w, f) in every_format() {
        let format = format((w, f));
        for _ in 0..40 {
            let bounds = wrong(&mut random, format);
            assert_eq!(bounds.check(format), Err(BAD_BOUNDS), "{bounds:x?}");
            let way = match bounds.words().map(|word| place_of(format, word)) {
                [None, None] => 0,
                [None, _] => 1,
                [_, None] => 2,
                [Some(low), Some(high)] if low == high + 1 => 3,
                _ => 4,
            };
            ways[way] += 1;
        }
    }
    assert!(ways.iter().all(|&count| count > 1000), "{ways:?}");
}

//! Random bounds that favour hard places: equal and neighbouring ends, zeros of either sign, the
//! ends of the subnormal and of the finite numbers, infinities. For test programs.

use std::cmp::Ordering;

use crate::bounds::Bounds;
use crate::format::Format;
use crate::random::Random;

/// The bounds of a, b and c.
pub type Stated = [Option<Bounds>; 3];

/// Where a word stands in the order of numbers, counted from the zeros; a NaN stands nowhere.
pub fn place_of(format: Format, word: u64) -> Option<i64> {
    let index = word & (format.sign_bit() - 1);
    let place = index as i64;
    (index <= format.infinity()).then_some(if word == index { place } else { -place })
}

/// The word at a place, or at the nearest end. A zero has either sign.
pub fn word_at(random: &mut Random, format: Format, place: i64) -> u64 {
    let last = format.infinity() as i64;
    let place = place.clamp(-last, last);
    let negative = match place.cmp(&0) {
        Ordering::Less => true,
        Ordering::Equal => random.one_in(2),
        Ordering::Greater => false,
    };
    format.signed(negative, place.unsigned_abs())
}

/// A place at which something changes: a zero, the ends of the subnormal numbers, of the normal
/// ones and of all, with either sign.
fn landmark(random: &mut Random, format: Format) -> i64 {
    let smallest_normal = 1 << format.fraction_bits();
    let infinity = format.infinity();
    let places = [
        0,
        0,
        1,
        smallest_normal - 1,
        smallest_normal,
        infinity - 1,
        infinity,
    ];
    let place = places[random.below(places.len() as u64) as usize] as i64;
    if random.one_in(2) {
        place
    } else {
        -place
    }
}

/// A place for an end: that of a word, one near it, one so many digits away, a landmark or any.
fn end(random: &mut Random, format: Format, place: i64) -> i64 {
    let away = match random.below(8) {
        0 => 0,
        1 | 2 => random.below(4),
        3 | 4 => {
            let digits = random.below(u64::from(format.width() - 1));
            random.bits(digits as u32)
        }
        5 | 6 => return landmark(random, format),
        _ => {
            let index = random.below(format.infinity() + 1) as i64;
            return if random.one_in(2) { index } else { -index };
        }
    } as i64;
    place.saturating_add(if random.one_in(2) { away } else { -away })
}

/// Bounds whose ends are at two places.
pub fn between(random: &mut Random, format: Format, one: i64, other: i64) -> Bounds {
    Bounds {
        low: word_at(random, format, one.min(other)),
        high: word_at(random, format, one.max(other)),
    }
}

/// Bounds that a word lies within; one time of eight any near it, and one of eight such that shut
/// it out by one place, where there is one beside it. Around a NaN, any.
fn around(random: &mut Random, format: Format, word: u64) -> Bounds {
    let place = place_of(format, word).unwrap_or_else(|| landmark(random, format));
    let [one, other] = [0; 2].map(|_| end(random, format, place));
    let [one, other] = match random.below(16) {
        0 | 1 => [one, other],
        2 => [place + 1, one.max(place + 1)],
        3 => [place - 1, one.min(place - 1)],
        _ => [one.min(place), other.max(place)],
    };
    between(random, format, one, other)
}

/// Bounds around one, two or all of three words.
pub fn around_some(random: &mut Random, format: Format, words: [u64; 3]) -> Stated {
    let sets = [1, 2, 4, 3, 5, 6, 7, 7, 7];
    let set = sets[random.below(sets.len() as u64) as usize];
    let is_in = |place: usize| set >> place & 1 == 1;
    [0, 1, 2].map(|place| is_in(place).then(|| around(random, format, words[place])))
}

/// The same in one of four cases, else none.
pub fn perhaps(random: &mut Random, format: Format, words: [u64; 3]) -> Stated {
    match random.below(4) {
        0 => around_some(random, format, words),
        _ => [None; 3],
    }
}

/// Bounds with a NaN at an end or at both, or with low above high, every second time by one place.
pub fn wrong(random: &mut Random, format: Format) -> Bounds {
    let nan = |random: &mut Random| {
        let fraction = 1 + random.below((1 << format.fraction_bits()) - 1);
        format.signed(random.one_in(2), format.infinity() + fraction)
    };
    let place = landmark(random, format);
    let good = {
        let other = end(random, format, place);
        between(random, format, place, other)
    };
    match random.below(5) {
        0 => Bounds {
            low: nan(random),
            ..good
        },
        1 => Bounds {
            high: nan(random),
            ..good
        },
        2 => Bounds {
            low: nan(random),
            high: nan(random),
        },
        which => {
            // The first place has none below it.
            let low = place.max(1 - format.infinity() as i64);
            let high = match which {
                3 => low - 1,
                _ => end(random, format, low).min(low - 1),
            };
            Bounds {
                low: word_at(random, format, low),
                high: word_at(random, format, high),
            }
        }
    }
}

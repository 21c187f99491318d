//! The masks and bounds of a job of a kind that has bounds.

use second::arith::{Adder, Operation};
use second::bounds::Bounds;
use second::fits::Case;
use second::format::Format;
use second::random::Random;
use second::within::{between, place_of, Stated};

use crate::conditions::{any_case, around, care, first, mask, Words, HALF};

/// About one in sixteen bits.
const SPARSE: u64 = 1;

/// A case whose operands are finite, with the places of its words in the order of numbers: so c is
/// a number too.
struct Placed {
    case: Case,
    places: [i64; 3],
}

impl Placed {
    fn draw(random: &mut Random, adder: &Adder) -> Placed {
        let case = first(|| any_case(random, adder), |case| case.row.is_some());
        let place = |word| place_of(adder.format, word).expect("no NaN");
        Placed {
            case,
            places: [case.a, case.b, case.c].map(place),
        }
    }
}

/// The last place, that of infinity.
fn last(format: Format) -> i64 {
    format.infinity() as i64
}

/// So many of the three words, at random.
fn chosen(random: &mut Random, count: usize) -> [bool; 3] {
    let mut words = [false; 3];
    while words.iter().filter(|&&word| word).count() < count {
        words[random.below(3) as usize] = true;
    }
    words
}

/// Ends anywhere below and above a place.
fn wide_ends(random: &mut Random, format: Format, place: i64) -> [i64; 2] {
    let last = last(format);
    let down = random.below(place.abs_diff(-last) + 1);
    let up = random.below(place.abs_diff(last) + 1);
    [
        place.saturating_sub_unsigned(down),
        place.saturating_add_unsigned(up),
    ]
}

/// Ends up to a factor of two below and above a place, each at a distance of any number of digits.
fn narrow_ends(random: &mut Random, format: Format, place: i64) -> [i64; 2] {
    let mut away = || {
        let digits = random.below(u64::from(format.precision()));
        random.bits(digits as u32) as i64
    };
    [place - away(), place + away()]
}

/// Bounds of so many words, with such ends around their places.
fn around_places(
    random: &mut Random,
    format: Format,
    places: [i64; 3],
    words: usize,
    ends: fn(&mut Random, Format, i64) -> [i64; 2],
) -> Stated {
    let chosen = chosen(random, words);
    [0, 1, 2].map(|i| {
        let [low, high] = ends(random, format, places[i]);
        chosen[i].then(|| between(random, format, low, high))
    })
}

/// Masks of fractions alone, half fixed around a case.
fn half_fractions(random: &mut Random, format: Format, case: &Case) -> Words {
    let f = format.fraction_bits();
    [case.a, case.b, case.c].map(|word| mask(word, care(random, f, HALF)))
}

/// Few bits fixed around a true case, and bounds of so many words, with any ends around it.
pub fn wide(random: &mut Random, adder: &Adder, words: usize) -> (Words, Stated) {
    let Placed { case, places } = Placed::draw(random, adder);
    let masks = around(random, adder, &case, SPARSE);
    let stated = around_places(random, adder.format, places, words, wide_ends);
    (masks, stated)
}

/// Fractions half fixed around a true case, and bounds of so many words that are close to it.
pub fn narrow(random: &mut Random, adder: &Adder, words: usize) -> (Words, Stated) {
    let Placed { case, places } = Placed::draw(random, adder);
    let masks = half_fractions(random, adder.format, &case);
    let stated = around_places(random, adder.format, places, words, narrow_ends);
    (masks, stated)
}

/// The same with one of the fixed bits turned, in any of the words.
pub fn narrow_turned(random: &mut Random, adder: &Adder, words: usize) -> (Words, Stated) {
    let (mut masks, stated) = narrow(random, adder, words);
    let mask = &mut masks[random.below(3) as usize];
    let bit = 1 << random.below(u64::from(adder.format.fraction_bits()));
    mask.value ^= mask.care & bit;
    (masks, stated)
}

/// The places of the least and the greatest rounded result within bounds of finite operands: sums
/// and their rounding keep the order.
fn reach(adder: &Adder, a: Bounds, b: Bounds) -> [i64; 2] {
    let b = match adder.operation {
        Operation::Add => [b.low, b.high],
        Operation::Subtract => [b.high, b.low],
    };
    let place = |a, b| place_of(adder.format, adder.result(a, b)).expect("no NaN");
    [place(a.low, b[0]), place(a.high, b[1])]
}

/// Few bits fixed around a true case, bounds of a and b around it, finite ones, and bounds of c
/// that lie beyond all results of these: so many places away or up to twice as many, the other end
/// anywhere beyond.
pub fn beyond(random: &mut Random, adder: &Adder, by: u64) -> (Words, Stated) {
    let format = adder.format;
    let largest = last(format) - 1;
    loop {
        let Placed { case, places } = Placed::draw(random, adder);
        let [a, b] = [0, 1].map(|i| {
            let ends = [wide_ends, narrow_ends][random.below(2) as usize];
            let [low, high] = ends(random, format, places[i]);
            let finite = |end: i64| end.clamp(-largest, largest);
            between(random, format, finite(low), finite(high))
        });
        let [least, greatest] = reach(adder, a, b);
        let away = by + random.below(by + 1);
        let is_above = random.one_in(2);
        let near = match is_above {
            true => greatest.saturating_add_unsigned(away),
            false => least.saturating_sub_unsigned(away),
        };
        if near.unsigned_abs() > format.infinity() {
            continue;
        }
        let [below, above] = wide_ends(random, format, near);
        let end = if is_above { above } else { below };
        let c = between(random, format, near, end);
        let masks = around(random, adder, &case, SPARSE);
        return (masks, [Some(a), Some(b), Some(c)]);
    }
}

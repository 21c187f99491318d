//! The masks of a job of a kind.

use second::arith::Adder;
use second::dropped::Dropped;
use second::fits::{Case, Computed, Conditions};
use second::format::{ones, Format, LARGEST_G};
use second::mask::Mask;
use second::random::Random;
use second::sample::{dropping_pair, opposed_pair, pair};
use second::within::{around_some, Stated};

use crate::bounded;
use crate::kinds::{Kind, CANCELLED};

/// The masks of a, b and c.
pub type Words = [Mask; 3];
/// The masks of a, b, c, the carries and the dropped bits, of which there are `LARGEST_G`.
type Masks = [Mask; 5];
/// The bits of the last mask, and those of a tie.
const BELOW: u32 = LARGEST_G as u32 + 1;
const TIE: u64 = 1 << LARGEST_G;

/// About half of the bits, of 16.
pub const HALF: u64 = 8;

/// The conditions of a job of a kind. One that is to be impossible may have a case.
pub fn conditions(random: &mut Random, adder: &Adder, kind: Kind) -> Conditions {
    let (masks, bounds) = masks_and_bounds(random, adder, kind);
    let [a, b, c, carries, below] = masks;
    let dropped = Dropped {
        g: LARGEST_G,
        mask: below,
    };
    Conditions {
        w: u64::from(adder.format.exponent_bits()),
        f: u64::from(adder.format.fraction_bits()),
        operation: adder.operation as u64,
        mode: adder.mode as u64,
        a,
        b,
        c,
        carries,
        dropped: dropped.taken(),
        bounds,
    }
}

/// What a job of a kind asks for.
fn masks_and_bounds(random: &mut Random, adder: &Adder, kind: Kind) -> (Masks, Stated) {
    let masks = match kind {
        Kind::Wide { words } => return beside(bounded::wide(random, adder, words)),
        Kind::Narrow { words } => return beside(bounded::narrow(random, adder, words)),
        Kind::Turned { words } => return beside(bounded::narrow_turned(random, adder, words)),
        Kind::Beyond { far } => return beside(bounded::beyond(random, adder, places(adder, far))),
        Kind::Mixed { below, bounds } => return mixed(random, adder, below, bounds),
        Kind::Fixed { of_16, carries } => fixed(random, adder, of_16, carries),
        Kind::Cancelled => alone(cancelled(random, adder)),
        Kind::Subnormal => alone(subnormal(random, adder)),
        Kind::Overflow => alone(overflow(random, adder)),
        Kind::Result => alone(result(random, adder)),
        Kind::Fractions => alone(fractions(random, adder.format)),
        Kind::Signs => alone(signs(adder.format)),
        Kind::ExponentOfC => alone(other_exponent(random, adder)),
        Kind::Carries => other_carry(random, adder),
        Kind::Opposed => opposed(random, adder),
        Kind::Below => below(random, adder),
        Kind::Tie => tie(random, adder),
        Kind::OtherBelow => other_below(random, adder),
        Kind::OddTie => odd_tie(),
    };
    (masks, [None; 3])
}

/// How far c's bounds are to lie from all results: a factor of two, or one place.
fn places(adder: &Adder, far: bool) -> u64 {
    match far {
        true => 1 << adder.format.fraction_bits(),
        false => 1,
    }
}

/// The masks of a, b and c, with nothing else fixed, beside bounds.
fn beside((words, bounds): (Words, Stated)) -> (Masks, Stated) {
    (alone(words), bounds)
}

/// A care word with about `of_16` of 16 bits.
pub fn care(random: &mut Random, width: u32, of_16: u64) -> u64 {
    (0..width)
        .filter(|_| random.below(16) < of_16)
        .map(|i| 1 << i)
        .sum()
}

/// The mask that fixes the bits in care to those of a word.
pub fn mask(word: u64, care: u64) -> Mask {
    Mask {
        care,
        value: word & care,
    }
}

/// The mask with some bits fixed to those of a word, whatever it said of them.
pub fn with(mask: Mask, word: u64, bits: u64) -> Mask {
    Mask {
        care: mask.care | bits,
        value: mask.value & !bits | word & bits,
    }
}

/// The mask with some bits free.
pub fn without(mask: Mask, bits: u64) -> Mask {
    Mask {
        care: mask.care & !bits,
        value: mask.value & !bits,
    }
}

/// The bits of the exponent field: infinity has these alone.
pub fn exponent_field(format: Format) -> u64 {
    format.infinity()
}

fn exponent(format: Format, word: u64) -> u64 {
    (word & exponent_field(format)) >> format.fraction_bits()
}

/// The lowest 1 of a word.
fn lowest(word: u64) -> u64 {
    word & word.wrapping_neg()
}

/// The case of a pair of words.
pub fn any_case(random: &mut Random, adder: &Adder) -> Case {
    let (a, b) = pair(random, adder.format);
    Case::of(adder, a, b)
}

/// The case of two finite words with unlike effective signs, close to each other in the order of
/// magnitudes.
fn close_case(random: &mut Random, adder: &Adder) -> Case {
    let format = adder.format;
    let low = random.below(format.largest_finite());
    let digits = random.below(u64::from(format.fraction_bits()));
    let apart = 1 + random.bits(digits as u32);
    let high = (low + apart).min(format.largest_finite());
    let (x, y) = match random.below(2) {
        0 => (low, high),
        _ => (high, low),
    };
    let negative = random.one_in(2);
    let [a, b] = [format.signed(negative, x), format.signed(!negative, y)];
    Case::of(adder, a, adder.operation.effective(format, b))
}

/// The first case drawn that is as wanted.
pub fn first(draw: impl FnMut() -> Case, wanted: impl Fn(&Case) -> bool) -> Case {
    let mut cases = std::iter::repeat_with(draw);
    cases.find(wanted).expect("an endless supply")
}

/// The masks of a, b and c around a case, with about `of_16` of 16 bits fixed.
pub fn around(random: &mut Random, adder: &Adder, case: &Case, of_16: u64) -> Words {
    let width = adder.format.width();
    [case.a, case.b, case.c].map(|word| mask(word, care(random, width, of_16)))
}

/// The masks of a, b and c, with nothing else fixed.
fn alone(words: Words) -> Masks {
    with_row(words, Mask::FREE)
}

/// The masks of a, b and c, with one of the carries.
fn with_row([a, b, c]: Words, carries: Mask) -> Masks {
    [a, b, c, carries, Mask::FREE]
}

/// The masks of a, b and c, with one of the dropped bits.
fn with_below([a, b, c]: Words, below: Mask) -> Masks {
    [a, b, c, Mask::FREE, below]
}

fn fixed(random: &mut Random, adder: &Adder, of_16: u64, carries: bool) -> Masks {
    let case = any_case(random, adder);
    let words = around(random, adder, &case, of_16);
    let row = case.row.filter(|_| carries);
    let precision = adder.format.precision();
    let carries = row.map_or(Mask::FREE, |row| mask(row, care(random, precision, of_16)));
    with_row(words, carries)
}

/// The exponent bits from the top on that have to stay for the field to be `least` or more.
fn top_bits(format: Format, word: u64, least: u64) -> u64 {
    let from = exponent(format, word);
    let low_bits = (0..format.exponent_bits()).rfind(|&low| from >> low << low >= least);
    let low_bits = low_bits.expect("a field that is so large");
    exponent_field(format) & !ones(format.fraction_bits() + low_bits)
}

fn cancelled(random: &mut Random, adder: &Adder) -> Words {
    let format = adder.format;
    let least = |case: &Case| exponent(format, case.c) + CANCELLED;
    let case = first(
        || close_case(random, adder),
        |case| {
            let mut operands = [case.a, case.b].into_iter();
            operands.all(|word| least(case) <= exponent(format, word))
        },
    );
    let [a, b, c] = around(random, adder, &case, HALF);
    let field = exponent_field(format);
    let [a, b] = [(a, case.a), (b, case.b)].map(|(mask, word)| {
        let top = top_bits(format, word, least(&case));
        with(without(mask, field), word, top)
    });
    [a, b, with(c, case.c, field)]
}

fn subnormal(random: &mut Random, adder: &Adder) -> Words {
    let format = adder.format;
    let fraction = ones(format.fraction_bits());
    let case = first(
        || match random.below(2) {
            0 => any_case(random, adder),
            _ => close_case(random, adder),
        },
        |case| exponent(format, case.c) == 0 && case.c & fraction != 0,
    );
    let [a, b, c] = around(random, adder, &case, HALF);
    let c = with(c, case.c, exponent_field(format) | lowest(case.c));
    [a, b, c]
}

fn overflow(random: &mut Random, adder: &Adder) -> Words {
    let format = adder.format;
    let field = exponent_field(format);
    let is_finite = |word: u64| word & field != field;
    let case = first(
        || any_case(random, adder),
        |case| case.row.is_some() && !is_finite(case.c),
    );
    let [a, b, c] = around(random, adder, &case, HALF);
    let [a, b] =
        [(a, case.a), (b, case.b)].map(|(mask, word)| with(mask, word, lowest(!word & field)));
    [a, b, with(c, case.c, format.sign_bit() - 1)]
}

fn result(random: &mut Random, adder: &Adder) -> Words {
    let c = mask(any_case(random, adder).c, ones(adder.format.width()));
    [Mask::FREE, Mask::FREE, c]
}

fn fractions(random: &mut Random, format: Format) -> Words {
    [0; 3].map(|_| mask(random.word(), ones(format.fraction_bits())))
}

fn signs(format: Format) -> Words {
    let sign = format.sign_bit();
    [0, 0, sign].map(|word| mask(word, sign))
}

fn other_exponent(random: &mut Random, adder: &Adder) -> Words {
    let case = any_case(random, adder);
    let [a, b, c] = around(random, adder, &case, HALF);
    let field = exponent_field(adder.format);
    let [a, b] = [a, b].map(|mask| without(mask, field & random.word()));
    [a, b, with(c, random.word(), field)]
}

fn other_carry(random: &mut Random, adder: &Adder) -> Masks {
    let case = first(|| any_case(random, adder), |case| case.row.is_some());
    let row = case.row.expect("there is one");
    let words = around(random, adder, &case, HALF);
    let precision = adder.format.precision();
    let carries = mask(row, care(random, precision, HALF));
    let turned = 1 << random.below(u64::from(precision));
    with_row(words, with(carries, !row, turned))
}

fn opposed(random: &mut Random, adder: &Adder) -> Masks {
    let (a, b) = opposed_pair(random, adder);
    let case = Case::of(adder, a, b);
    let row = case.row.expect("finite operands");
    let [a, b, c] = around(random, adder, &case, HALF);
    let field = exponent_field(adder.format);
    let [a, b] = [(a, case.a), (b, case.b)].map(|(mask, word)| with(mask, word, field));
    let carries = mask(row, care(random, adder.format.precision(), HALF));
    with_row([a, b, c], carries)
}

/// A case with dropped bits that are as wanted, and these.
fn dropping_case(random: &mut Random, adder: &Adder, wanted: impl Fn(u64) -> bool) -> (Case, u64) {
    let drawn = || {
        let (a, b) = dropping_pair(random, adder.format);
        let Computed { case, below } = Computed::of(adder, a, b);
        Some((case, below?.word(LARGEST_G)))
    };
    let mut cases = std::iter::repeat_with(drawn).flatten();
    cases
        .find(|&(_, word)| wanted(word))
        .expect("an endless supply")
}

fn below(random: &mut Random, adder: &Adder) -> Masks {
    let (case, word) = dropping_case(random, adder, |_| true);
    let words = around(random, adder, &case, HALF);
    with_below(words, mask(word, care(random, BELOW, HALF)))
}

fn tie(random: &mut Random, adder: &Adder) -> Masks {
    let (case, _) = dropping_case(random, adder, |word| word == TIE);
    let words = around(random, adder, &case, HALF);
    with_below(words, mask(TIE, ones(BELOW)))
}

fn other_below(random: &mut Random, adder: &Adder) -> Masks {
    let (case, word) = dropping_case(random, adder, |_| true);
    let words = around(random, adder, &case, HALF);
    let turned = 1 << random.below(u64::from(BELOW));
    with_below(words, mask(word ^ turned, ones(BELOW)))
}

fn odd_tie() -> Masks {
    let words = [Mask::FREE, Mask::FREE, mask(1, 1)];
    with_below(words, mask(TIE, ones(BELOW)))
}

/// A mask with any share of the bits fixed, three times of four to those of a word.
fn any_share(random: &mut Random, word: u64, width: u32) -> Mask {
    let of_16 = random.below(17);
    let word = match random.below(4) {
        0 => random.bits(width),
        _ => word,
    };
    mask(word, care(random, width, of_16))
}

fn mixed(random: &mut Random, adder: &Adder, with_below: bool, bounds: bool) -> (Masks, Stated) {
    let (a, b) = pair(random, adder.format);
    let Computed { case, below } = Computed::of(adder, a, b);
    let (width, precision) = (adder.format.width(), adder.format.precision());
    let [a, b, c] = [case.a, case.b, case.c].map(|word| any_share(random, word, width));
    let carries = any_share(random, case.row.unwrap_or(0), precision);
    let word = below.map_or(0, |below| below.word(LARGEST_G));
    let below = match with_below {
        true => any_share(random, word, BELOW),
        false => Mask::FREE,
    };
    let stated = match bounds {
        true => around_some(random, adder.format, [case.a, case.b, case.c]),
        false => [None; 3],
    };
    ([a, b, c, carries, below], stated)
}

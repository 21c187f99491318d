//! Refusals and their order: where several causes are present at once, the first one in the order
//! of the function is the answer. Each mask is malformed in each of the two ways, and that of the
//! dropped bits by its g too; bounds are wrong by a NaN at either end, or by their order.

use second::arith::rounded;
use second::bounds::Bounds;
use second::choice::{generate, Job};
use second::dropped::Dropped;
use second::fits::{confirm, Conditions};
use second::format::{Refusal, NO_CASE};
use second::mask::Mask;
use second::record::{encode, read, write, Reply};
use second::row::carry_row;
use second::whole::{generate_whole, WholeJob};

/// All subsets of a list of causes.
fn subsets(causes: &[Refusal]) -> Vec<Vec<Refusal>> {
    causes.iter().fold(vec![vec![]], |sets, &cause| {
        let with = sets.iter().map(|set| [&set[..], &[cause]].concat());
        sets.iter().cloned().chain(with).collect()
    })
}

/// `good`, or `bad` where the cause is present.
fn pick<T>(causes: &[Refusal], cause: Refusal, good: T, bad: T) -> T {
    if causes.contains(&cause) {
        bad
    } else {
        good
    }
}

/// The first four masks of a job, all malformed in the same way: by a value bit outside care, or by
/// a bit just above the width.
fn malformed([width, carries_width]: [u32; 2]) -> [[Mask; 4]; 2] {
    let above = |width: u32| Mask {
        care: 1 << width,
        value: 0,
    };
    [
        [Mask { care: 2, value: 3 }; 4],
        [width, width, width, carries_width].map(above),
    ]
}

/// What stands in a job of format 3/4 where a mask is malformed or bounds are wrong, which word has
/// these, and whether it is another bound that is too wide, or a random or proposed word.
struct Bad {
    masks: [Mask; 4],
    dropped: Dropped,
    place: usize,
    bounds: Bounds,
    wide_bound: bool,
}

/// All masks by a value bit outside care; all by a bit just above the width; and that of the
/// dropped bits by g alone, where nothing is fixed. The low bound of a is a NaN, or the high one of
/// b; or c's are the next numbers above and below zero.
fn bad() -> Vec<Bad> {
    let [outside, above] = malformed([8, 5]);
    let dropped = |g, care, value| Dropped {
        g,
        mask: Mask { care, value },
    };
    [
        (outside, dropped(2, 2, 3), [0xF1, 0x70]),
        (above, dropped(3, 1 << 4, 0), [0xF0, 0x7F]),
        (outside, dropped(9, 0, 0), [0x01, 0x81]),
    ]
    .into_iter()
    .enumerate()
    .map(|(place, (masks, dropped, [low, high]))| Bad {
        masks,
        dropped,
        place,
        bounds: Bounds { low, high },
        wide_bound: place > 0,
    })
    .collect()
}

/// The bounds of a, b and c: the infinities, but wrong ones where 18 is a cause, and after them one
/// that is too wide where 6 is and a bound is to be.
fn bounds(causes: &[Refusal], bad: &Bad) -> [Bounds; 3] {
    let (low, high) = (0xF0, 0x70);
    let mut all = [Bounds { low, high }; 3];
    all[bad.place] = pick(causes, 18, all[0], bad.bounds);
    if bad.wide_bound {
        all[(bad.place + 1) % 3].low |= pick(causes, 6, 0, TOO_WIDE);
    }
    all
}

/// A bit that a word of format 3/4 does not have, and a word of four bytes has.
const TOO_WIDE: u64 = 1 << 31;

/// A random or proposed word, too wide where 6 is a cause and no bound is to be.
fn word(causes: &[Refusal], bad: &Bad, good: u64) -> u64 {
    match bad.wide_bound {
        true => good,
        false => pick(causes, 6, good, TOO_WIDE),
    }
}

/// A job of format 3/4 with exactly these of the causes that a job can have.
fn job(causes: &[Refusal], bad: &Bad) -> Job {
    let mut conditions = Conditions::free(
        pick(causes, 1, 3, 12),
        pick(causes, 2, 4, 1),
        pick(causes, 3, 1, 2),
        pick(causes, 4, 2, 5),
    );
    let fixed = |care, value| Mask { care, value };
    conditions.a = pick(causes, 5, fixed(0x7F, 0x30), bad.masks[0]);
    conditions.b = pick(causes, 14, Mask::FREE, bad.masks[1]);
    // 30 − b is never this NaN.
    let c = pick(causes, 7, Mask::FREE, fixed(0xFF, 0x7F));
    conditions.c = pick(causes, 15, c, bad.masks[2]);
    conditions.carries = pick(causes, 16, Mask::FREE, bad.masks[3]);
    let exact = Dropped {
        g: 3,
        mask: fixed(1, 0),
    };
    conditions.dropped = pick(causes, 17, exact, bad.dropped);
    conditions.bounds = bounds(causes, bad).map(Some);
    Job {
        conditions,
        words: [0x55, word(causes, bad, 0x77)],
    }
}

#[test]
fn rounded_result_and_row() {
    let bad = &bad()[0];
    for set in subsets(&[1, 2, 3, 4, 6]) {
        let c = job(&set, bad).conditions;
        let b = pick(&set, 6, 0x77, 0x100_0000_0000);
        let answer = rounded(c.w, c.f, c.operation, c.mode, 0x30, b);
        assert_eq!(answer.err(), set.first().copied());
    }
    for set in subsets(&[1, 2, 3, 6]) {
        let c = job(&set, bad).conditions;
        let a = pick(&set, 6, 0x30, 0x100_0000_0000);
        let answer = carry_row(c.w, c.f, c.operation, a, 0x77);
        assert_eq!(answer.err(), set.first().copied());
    }
}

#[test]
fn words_are_refused_from_their_width_on() {
    assert!(rounded(3, 4, 0, 0, 0xFF, 0xFF).is_ok());
    assert_eq!(rounded(3, 4, 0, 0, 0x100, 0), Err(6));
    assert_eq!(rounded(3, 4, 0, 0, 0, 0x100), Err(6));
    assert!(rounded(8, 23, 0, 0, 0xFFFF_FFFF, 0).is_ok());
    assert_eq!(rounded(8, 23, 0, 0, 1 << 32, 0), Err(6));
    assert_eq!(rounded(8, 23, 0, 0, 0, 1 << 63), Err(6));
    assert!(rounded(11, 51, 0, 0, u64::MAX >> 1, 0).is_ok());
    assert_eq!(rounded(11, 51, 0, 0, 1 << 63, 0), Err(6));
    assert_eq!(rounded(10, 52, 0, 0, 0, u64::MAX), Err(6));
    // A word of double precision has all the bits that can be given.
    assert!(rounded(11, 52, 0, 0, u64::MAX, 1 << 63).is_ok());
    // Too wide is never cut: these would be good numbers with their low bytes alone.
    assert_eq!(rounded(0x103, 4, 0, 0, 0, 0), Err(1));
    assert_eq!(rounded(3, 0x1_0000_0004, 0, 0, 0, 0), Err(2));
    assert_eq!(rounded(3, 4, 1 << 32, 0, 0, 0), Err(3));
    assert_eq!(rounded(3, 4, 0, 1 << 32, 0, 0), Err(4));
}

/// The generator and confirmation on a job with these causes.
fn ask(causes: &[Refusal], bad: &Bad) {
    let job = job(causes, bad);
    let first = causes.first().copied();
    assert_eq!(generate(&job).err(), first);
    for place in 0..3 {
        let mut words = [0x30, 0, 0x30];
        words[place] = word(causes, bad, words[place]);
        let [a, b, c] = words;
        let answer = confirm(&job.conditions, a, b, c);
        assert_eq!(answer.err(), first.filter(|&number| number != NO_CASE));
    }
}

#[test]
fn generator_and_confirmation() {
    for set in subsets(&[1, 2, 3, 4, 5, 14, 15, 16, 17, 6, 18, 7]) {
        for bad in bad() {
            ask(&set, &bad);
        }
    }
}

/// A job of length 2 with exactly these causes; `n` stands where 12 is one.
fn whole_job(causes: &[Refusal], n: u64, bad: &[Mask; 4]) -> WholeJob {
    let zero = Mask { care: 3, value: 0 };
    let z = pick(causes, 7, Mask::FREE, Mask { care: 2, value: 2 });
    WholeJob {
        n: pick(causes, 12, 2, n),
        x: pick(causes, 5, zero, bad[0]),
        y: pick(causes, 14, zero, bad[1]),
        z: pick(causes, 15, z, bad[2]),
        carries: pick(causes, 16, Mask::FREE, bad[3]),
        words: [0, 0, pick(causes, 6, 3, 1 << 33)],
    }
}

#[test]
fn whole_number_generator() {
    for set in subsets(&[12, 5, 14, 15, 16, 6, 7]) {
        for n in [0, 33, u64::MAX] {
            for bad in malformed([2, 3]) {
                let answer = generate_whole(&whole_job(&set, n, &bad));
                assert_eq!(answer.err(), set.first().copied());
            }
        }
    }
}

/// The widths of whole numbers: N for masks and words, N + 1 for carries.
#[test]
fn whole_number_widths() {
    for n in [1, 2, 31, 32] {
        let fixed = |bit: u64| Mask {
            care: 1 << bit,
            value: 0,
        };
        let mut job = WholeJob {
            n,
            x: fixed(n - 1),
            y: fixed(n - 1),
            z: fixed(n - 1),
            carries: fixed(n),
            words: [(1 << n) - 1; 3],
        };
        assert_eq!(job.check(), Ok(n as u32));
        job.words[1] = 1 << n;
        assert_eq!(job.check(), Err(6));
        for (place, bit, number) in [(0, n, 5), (1, n, 14), (2, n, 15), (3, n + 1, 16)] {
            let mut other = job;
            *other.masks_mut()[place] = fixed(bit);
            assert_eq!(other.check(), Err(number));
        }
    }
}

/// The causes of refusal in reading, in their order.
const READING: [Refusal; 14] = [9, 8, 1, 2, 3, 4, 5, 14, 15, 16, 17, 6, 18, 10];

/// A record that has every field, with these causes of refusal; `w` and `f` are out of their limits
/// and stand where 1 and 2 are causes. Its words are as long as the header's w and f say, good or
/// not. Where 10 is a cause, every field says its default but those that are bad and the bounds.
fn record(causes: &[Refusal], w: u8, f: u8, bad: &Bad) -> Vec<u8> {
    let second_map = pick(causes, 9, 7, 0x0F << bad.place);
    let [w, f] = [pick(causes, 1, 3, w), pick(causes, 2, 4, f)];
    let word_bytes = match u32::from(w) + u32::from(f) + 1 {
        ..=32 => 4,
        _ => 8,
    };
    let bytes_of = |word: u64| word.to_le_bytes()[..word_bytes].to_vec();
    let good = pick(causes, 10, 1, 0);
    let fixed = Mask {
        care: good,
        value: 0,
    };
    let mut bytes = vec![0xFF, second_map, w, f, pick(causes, 3, 1, 2)];
    for (&bad, cause) in bad.masks.iter().zip([5, 14, 15, 16]) {
        let mask = pick(causes, cause, fixed, bad);
        bytes.extend([mask.care, mask.value].map(bytes_of).concat());
    }
    bytes.push(pick(causes, 4, good as u8, 200));
    let words = [0, word(causes, bad, good)];
    bytes.extend(words.map(bytes_of).concat());
    let stated = Dropped { g: 5, mask: fixed };
    let Dropped { g, mask } = pick(causes, 17, stated, bad.dropped);
    bytes.extend([g as u8, mask.care as u8, 0, mask.value as u8, 0]);
    for bounds in bounds(causes, bad) {
        bytes.extend(bounds.words().map(bytes_of).concat());
    }
    if causes.contains(&8) {
        bytes.pop();
    }
    bytes
}

fn read_with(causes: &[Refusal], w: u8, f: u8, bad: &Bad) {
    let file = record(causes, w, f, bad);
    let (reply, rest) = read(&file);
    match causes.first() {
        Some(&number) => {
            assert_eq!(reply, Reply::Refused(number), "{file:02x?}");
            assert_eq!(rest, &file[..]);
        }
        None => {
            assert!(matches!(reply, Reply::Job(_)));
            assert!(rest.is_empty());
        }
    }
}

/// Among the bad w and f are such that with the other one, good or bad, lie just below or just
/// above the border between words of four and of eight bytes.
#[test]
fn reading() {
    let w = [0, 1, 12, 27, 28, 255].into_iter();
    let formats = w.flat_map(|w| [0, 1, 53, 255].map(|f| (w, f)));
    let formats: Vec<_> = formats.chain([(30, 1), (31, 1)]).collect();
    for set in subsets(&READING) {
        for bad in bad() {
            for &(w, f) in &formats {
                read_with(&set, w, f, &bad);
            }
        }
    }
}

fn write_with(causes: &[Refusal], bad: &Bad) {
    let length = encode(&job(&[], bad)).unwrap().len();
    let mut buffer = vec![0xA5; pick(causes, 11, length + 3, length - 1)];
    let before = buffer.clone();
    let answer = write(&job(causes, bad), &mut buffer);
    match causes.first() {
        Some(&number) => {
            assert_eq!(answer, Err(number));
            assert_eq!(buffer, before);
        }
        None => {
            assert_eq!(answer, Ok(length));
            assert_eq!(buffer[length..], before[length..]);
        }
    }
}

#[test]
fn writing() {
    for set in subsets(&[1, 2, 3, 4, 5, 14, 15, 16, 17, 6, 18, 11]) {
        for bad in bad() {
            write_with(&set, &bad);
        }
    }
}

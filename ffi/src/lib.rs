//! Vindacsor for Rust: the proved functions of `libvindacsor.a`, which `ffi/build-library` builds,
//! behind safe ones. Documents 01 and 02 name the formats, operations, modes, masks, job records and
//! refusals. A [`Refusal`] says its number in words. [`buffer`] has the functions as the library has
//! them.
//!
//! w is 2 to 11 exponent bits and f is 2 to 52 fraction bits. Operation 0 adds and 1 subtracts.
//! Mode 0 is nearest with ties to even, 1 toward zero, 2 up, 3 down, 4 nearest with ties away from
//! zero. In a job record every word, of a carry mask too, has 4 bytes where w + f + 1 is at most
//! 32, else 8. Map bit 6 announces, after the random words, g and the mask of the g dropped bits
//! and the sticky bit: one byte, then care and value of 2 bytes each, low byte first. Map bit 7
//! announces a second map byte directly after the first, whose bits 0 to 2 announce the bounds of
//! a, b and c: two words each, low then high, after all other fields. Both bounds are included, and
//! compared as numbers: -0 equals +0, the infinities are the ends, and a NaN lies within none. A
//! record has at most [`LONGEST_RECORD`] bytes.

pub mod buffer;
mod refusal;

pub use refusal::Refusal;

/// The bytes of a job record that states everything, with words of 8 bytes.
pub const LONGEST_RECORD: usize = 139;

/// Which bits are fixed (`care`), and to what (`value`).
#[derive(Clone, Copy, Debug, Default, PartialEq, Eq)]
pub struct Mask {
    pub care: u64,
    pub value: u64,
}

/// Operands, their rounded result, and their carry row where there is one.
#[derive(Clone, Copy, Debug, PartialEq, Eq)]
pub struct Case {
    pub a: u64,
    pub b: u64,
    pub c: u64,
    pub row: Option<u64>,
}

/// A job of the whole-number generator: the length in bits, 1 to 32, the masks of x, y, z and
/// the carries, and a random word for each of x, y and z.
#[derive(Clone, Copy, Debug, Default, PartialEq, Eq)]
pub struct WholeJob {
    pub length: u64,
    pub x: Mask,
    pub y: Mask,
    pub z: Mask,
    pub carries: Mask,
    pub words: [u64; 3],
}

/// x + y + (carry in) = z + 2^length × (carry out). Bit i of the carries goes into position i.
#[derive(Clone, Copy, Debug, PartialEq, Eq)]
pub struct WholeCase {
    pub x: u64,
    pub y: u64,
    pub z: u64,
    pub carries: u64,
}

/// The most numbers that an answer has.
const MOST: usize = 5;

/// The numbers that a function writes, or the refusal that it returns.
fn answer(call: impl FnOnce(&mut [u8]) -> u64) -> Result<[u64; MOST], Refusal> {
    let mut bytes = [0; 8 * MOST];
    match call(&mut bytes) {
        0 => Ok(std::array::from_fn(|i| number(&bytes[8 * i..8 * i + 8]))),
        refusal => Err(Refusal(refusal)),
    }
}

fn number(bytes: &[u8]) -> u64 {
    u64::from_le_bytes(bytes.try_into().expect("eight bytes"))
}

fn row_in(flag: u64, row: u64) -> Option<u64> {
    (flag == 1).then_some(row)
}

/// The rounded sum or difference of two words. Refuses with 1, 2, 3, 4, 6.
pub fn result(w: u64, f: u64, operation: u64, mode: u64, a: u64, b: u64) -> Result<u64, Refusal> {
    Ok(answer(|out| buffer::result(w, f, operation, mode, a, b, out))?[0])
}

/// The carry row of two words; none where one is infinite or a NaN. Where the exponents are equal
/// and the effective signs unlike it has the borrows of a less b. Refuses with 1, 2, 3, 6.
pub fn row(w: u64, f: u64, operation: u64, a: u64, b: u64) -> Result<Option<u64>, Refusal> {
    let numbers = answer(|out| buffer::row(w, f, operation, a, b, out))?;
    Ok(row_in(numbers[0], numbers[1]))
}

/// The mask that fixes what either of two fixes. Refuses with 5 where the value of either stands
/// outside its care, then with 13 where the two fix one bit unlike.
pub fn join(one: Mask, other: Mask) -> Result<Mask, Refusal> {
    let [care, value, ..] = answer(|out| buffer::join(one, other, out))?;
    Ok(Mask { care, value })
}

/// The length of the job record that stands first in a file; none where no byte is left.
/// Refuses with 9, 8, 1 to 5, 14, 15, 16, 17, 6, 18, 10.
pub fn read(file: &[u8]) -> Result<Option<usize>, Refusal> {
    let length = answer(|out| buffer::read(file, out))?[0];
    Ok((length != 0).then_some(length as usize))
}

/// Whether a case fits the job whose record stands first in a file. Refuses as [`read`] does,
/// with 8 for no byte at all, then with 6 for a word that is too wide.
pub fn confirm(file: &[u8], a: u64, b: u64, c: u64) -> Result<bool, Refusal> {
    Ok(answer(|out| buffer::confirm(file, a, b, c, out))?[0] == 1)
}

/// The case that the random words choose for the job whose record stands first in a file.
/// Refuses as [`read`] does, with 8 for no byte at all, then with 7 where no case fits.
pub fn generate(file: &[u8]) -> Result<Case, Refusal> {
    let [a, b, c, flag, row] = answer(|out| buffer::generate(file, out))?;
    Ok(Case {
        a,
        b,
        c,
        row: row_in(flag, row),
    })
}

/// The whole-number case that the random words choose. Refuses with 12, 5, 14, 15, 16, 6, 7.
pub fn whole(job: &WholeJob) -> Result<WholeCase, Refusal> {
    let [x, y, z, carries, _] = answer(|out| buffer::whole(job, out))?;
    Ok(WholeCase { x, y, z, carries })
}

#[cfg(test)]
mod tests {
    use super::*;

    /// The job of document 01's case 1.
    const CASE_1: [u8; 28] = [
        0x07, 3, 4, 0, 0xF7, 0, 0, 0, 0x45, 0, 0, 0, 0xEF, 0, 0, 0, 0x2B, 0, 0, 0, 0xE6, 0, 0, 0,
        0x44, 0, 0, 0,
    ];

    #[test]
    fn cases_of_the_document() {
        assert_eq!(result(3, 4, 0, 0, 0x45, 0x2B), Ok(0x4C));
        assert_eq!(row(3, 4, 0, 0x45, 0x2B), Ok(Some(0x04)));
        assert_eq!(row(3, 4, 1, 0x30, 0x31), Ok(Some(0x1F)));
        assert_eq!(row(3, 4, 1, 0x31, 0x30), Ok(Some(0x00)));
        assert_eq!(row(3, 4, 1, 0x70, 0x70), Ok(None));
        assert_eq!(read(&CASE_1), Ok(Some(28)));
        assert_eq!(read(&[]), Ok(None));
        assert_eq!(read(&CASE_1[..27]), Err(Refusal(8)));
        assert_eq!(confirm(&CASE_1, 0x4D, 0x3B, 0x55), Ok(true));
        assert_eq!(confirm(&CASE_1, 0x4D, 0x2B, 0x55), Ok(false));
        let found = Case {
            a: 0x45,
            b: 0x2B,
            c: 0x4C,
            row: Some(0x04),
        };
        assert_eq!(generate(&CASE_1), Ok(found));
        assert_eq!(generate(&[]), Err(Refusal(8)));
    }

    /// Double precision, add, mode 0, with a and b fixed to 2: words of eight bytes.
    #[test]
    fn a_job_of_64_bits() {
        let [two, four] = [0x4000_0000_0000_0000u64, 0x4010_0000_0000_0000];
        let fixed = [[0xFF; 8], two.to_le_bytes()].concat();
        let job = [&[0x03, 11, 52, 0], &fixed[..], &fixed].concat();
        assert_eq!(read(&job), Ok(Some(36)));
        assert_eq!(read(&job[..35]), Err(Refusal(8)));
        let found = Case {
            a: two,
            b: two,
            c: four,
            row: Some(1 << 52),
        };
        assert_eq!(generate(&job), Ok(found));
        assert_eq!(confirm(&job, two, two, four), Ok(true));
        assert_eq!(confirm(&job, two, two, four + 1), Ok(false));
        assert_eq!(result(11, 52, 0, 0, two, two), Ok(four));
        assert_eq!(row(11, 52, 0, two, two), Ok(Some(1 << 52)));
        // One more exponent or fraction bit is refused.
        assert_eq!(result(12, 52, 0, 0, two, two), Err(Refusal(1)));
        assert_eq!(result(11, 53, 0, 0, two, two), Err(Refusal(2)));
    }

    /// 30 + 02 is a tie, 100 and a sticky bit of 0 below its last bit; 45 + 2B has 11 and one of 0.
    #[test]
    fn dropped_bits() {
        for (g, word, a, b, c) in [(3, 8, 0x30, 0x02, 0x30), (2, 6, 0x45, 0x2B, 0x4C)] {
            let care = (2 << g) - 1;
            let record = [0x40, 3, 4, 0, g, care, 0, word, 0];
            assert_eq!(read(&record), Ok(Some(9)));
            assert_eq!(confirm(&record, a, b, c), Ok(true));
            assert!(generate(&record).is_ok());
            let other = [0x40, 3, 4, 0, g, care, 0, word ^ 1, 0];
            assert_eq!(confirm(&other, a, b, c), Ok(false));
        }
        // No g above 8, no bit above its width, no value outside care; then no default.
        for (g, care, value, number) in
            [(9, 1, 0, 17), (3, 16, 0, 17), (3, 0, 1, 17), (3, 0, 0, 10)]
        {
            let record = [0x40, 3, 4, 0, g, care, 0, value, 0];
            assert_eq!(read(&record), Err(Refusal(number)));
            assert_eq!(generate(&record), Err(Refusal(number)));
        }
    }

    /// The record of case 1 with bounds of a.
    fn bounded(low: u8, high: u8) -> Vec<u8> {
        let bounds = [low, 0, 0, 0, high, 0, 0, 0];
        [&[0x87, 1], &CASE_1[1..], &bounds].concat()
    }

    /// In case 1 a is 45 or 4D.
    #[test]
    fn bounds() {
        assert_eq!(read(&bounded(0x45, 0x4D)), Ok(Some(37)));
        let chosen = |low, high| generate(&bounded(low, high)).map(|case| case.a);
        assert_eq!(chosen(0x45, 0x4D), Ok(0x45));
        assert_eq!(chosen(0x46, 0x4D), Ok(0x4D));
        assert_eq!(chosen(0x46, 0x4C), Err(Refusal(7)));
        assert_eq!(chosen(0x80, 0x70), Ok(0x45));
        assert_eq!(chosen(0x00, 0x80), Err(Refusal(7)));
        for (low, high) in [(0x46, 0x45), (0x71, 0x71), (0x00, 0xFF), (0x70, 0xF0)] {
            assert_eq!(chosen(low, high), Err(Refusal(18)));
        }
        let confirmed = |low, high| confirm(&bounded(low, high), 0x4D, 0x3B, 0x55);
        assert_eq!(confirmed(0x4D, 0x4D), Ok(true));
        assert_eq!(confirmed(0x45, 0x4C), Ok(false));
        // 18 is the record's own, and comes before 6 for a proposed word.
        let wide = confirm(&bounded(0x46, 0x45), 0x100, 0, 0);
        assert_eq!(wide, Err(Refusal(18)));
        let mut record = bounded(0x46, 0x45);
        record[36] = 1;
        assert_eq!(read(&record), Err(Refusal(6)));
    }

    #[test]
    fn second_maps() {
        let maps = |second: &[u8]| read(&[&[0x80], second].concat());
        assert_eq!(maps(&[]), Err(Refusal(8)));
        assert_eq!(maps(&[8]), Err(Refusal(9)));
        assert_eq!(maps(&[7]), Err(Refusal(8)));
        assert_eq!(maps(&[0, 3, 4]), Err(Refusal(8)));
        assert_eq!(maps(&[0, 3, 4, 0]), Err(Refusal(10)));
        assert_eq!(maps(&[0, 1, 4, 0]), Err(Refusal(1)));
    }

    /// Each mask of a job has its own number, and joining has one for both masks.
    #[test]
    fn malformed_masks() {
        for (place, number) in [5, 14, 15, 16].into_iter().enumerate() {
            // The record of one mask, with nothing in care and the value 1.
            let record = [1 << place, 3, 4, 0, 0, 0, 0, 0, 1, 0, 0, 0];
            assert_eq!(read(&record), Err(Refusal(number)));
            assert_eq!(confirm(&record, 0, 0, 0), Err(Refusal(number)));
            assert_eq!(generate(&record), Err(Refusal(number)));
            let mut job = WholeJob {
                length: 2,
                ..WholeJob::default()
            };
            [&mut job.x, &mut job.y, &mut job.z, &mut job.carries][place].value = 1;
            assert_eq!(whole(&job), Err(Refusal(number)));
        }
        let outside = Mask { care: 0, value: 1 };
        assert_eq!(join(outside, Mask::default()), Err(Refusal(5)));
        assert_eq!(join(Mask::default(), outside), Err(Refusal(5)));
    }

    #[test]
    fn whole_numbers_and_joining() {
        let fixed = |value| Mask { care: 3, value };
        let job = WholeJob {
            length: 2,
            x: fixed(3),
            y: fixed(1),
            carries: Mask { care: 1, value: 0 },
            ..WholeJob::default()
        };
        let case = WholeCase {
            x: 3,
            y: 1,
            z: 0,
            carries: 6,
        };
        assert_eq!(whole(&job), Ok(case));
        assert_eq!(join(fixed(1), fixed(3)), Err(Refusal(13)));
        assert_eq!(
            join(fixed(1), Mask { care: 4, value: 4 }),
            Ok(Mask { care: 7, value: 5 })
        );
    }
}

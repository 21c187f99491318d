//! The size of a word in records and in the listing (document 02, W-202): by w and f, whether these
//! are good or not, and not by the values.

use second::choice::{generate, Job};
use second::fits::Conditions;
use second::format::{CUT_SHORT, F_OUT_OF_RANGE, W_OUT_OF_RANGE};
use second::listing::listing;
use second::mask::Mask;
use second::record::{encode, read, Reply};

/// The formats on both sides of the border, and the ends.
const SHORT: [(u64, u64); 6] = [(2, 2), (2, 29), (5, 26), (8, 23), (9, 22), (11, 20)];
const LONG: [(u64, u64); 6] = [(2, 30), (5, 27), (8, 24), (9, 23), (11, 21), (11, 52)];

/// A record that fixes the lowest carry to 0 and has 1 and 0 for random words, by the bytes of a
/// word.
fn record(w: u8, f: u8, word_bytes: usize) -> Vec<u8> {
    let word = |low: u8| [vec![low], vec![0; word_bytes - 1]].concat();
    let header = vec![0x28, w, f, 0];
    [header, word(1), word(0), word(1), word(0)].concat()
}

fn job(w: u64, f: u64) -> Job {
    let mut conditions = Conditions::free(w, f, 0, 0);
    conditions.carries = Mask { care: 1, value: 0 };
    Job {
        conditions,
        words: [1, 0],
    }
}

#[test]
fn border_between_four_and_eight_bytes() {
    assert!(SHORT[1..].iter().all(|(w, f)| w + f + 1 == 32));
    assert!(LONG[..5].iter().all(|(w, f)| w + f + 1 == 33));
    for (formats, word_bytes) in [(SHORT, 4), (LONG, 8)] {
        for (w, f) in formats {
            let file = record(w as u8, f as u8, word_bytes);
            assert_eq!(encode(&job(w, f)).as_ref(), Ok(&file));
            assert_eq!(read(&file), (Reply::Job(job(w, f)), &[][..]));
        }
    }
}

/// Old job files read as before: the formats that there were had w up to 8 and f up to 23.
#[test]
fn old_formats_keep_four_bytes() {
    for (w, f) in (2..=8).flat_map(|w| (2..=23).map(move |f| (w, f))) {
        let file = record(w as u8, f as u8, 4);
        assert_eq!(read(&file), (Reply::Job(job(w, f)), &[][..]));
    }
}

/// Whatever stands in the bytes of w and f, the length goes by them: one byte less is 8, and only
/// the full record is refused with 1 or 2.
#[test]
fn length_goes_by_the_raw_bytes() {
    for (w, f) in (0..=255).flat_map(|w| (0..=255).map(move |f| (w, f))) {
        let word_bytes = if u32::from(w) + u32::from(f) < 32 {
            4
        } else {
            8
        };
        let file = record(w, f, word_bytes);
        let wanted = match (w, f) {
            (0..=1 | 12.., _) => Reply::Refused(W_OUT_OF_RANGE),
            (_, 0..=1 | 53..) => Reply::Refused(F_OUT_OF_RANGE),
            _ => Reply::Job(job(u64::from(w), u64::from(f))),
        };
        assert_eq!(read(&file).0, wanted, "{w} {f}");
        let cut = &file[..file.len() - 1];
        assert_eq!(read(cut), (Reply::Refused(CUT_SHORT), cut));
        assert_eq!(read(&file[..3]).0, Reply::Refused(CUT_SHORT));
    }
}

/// The file of one job that fixes nothing lists as zeros of as many digits as its format asks for.
#[test]
fn digits_go_by_the_format() {
    for (formats, digits) in [(SHORT, 8), (LONG, 16)] {
        let zero = "0".repeat(digits);
        for (w, f) in formats {
            let text = listing(&[0, w as u8, f as u8, 0], generate);
            assert_eq!(
                text,
                format!("1 found {zero} {zero} {zero} {zero}\nend 1\n")
            );
        }
    }
}

/// Jobs of both sizes in one file: 2 + 2 = 4 in double precision, its infinity with no row, then
/// document 01's first job.
#[test]
fn both_sizes_in_one_file() {
    let fixed = |value| Mask {
        care: u64::MAX,
        value,
    };
    let mut file = Vec::new();
    for (a, b) in [
        (0x4000_0000_0000_0000, 0x4000_0000_0000_0000),
        (0x7FF0_0000_0000_0000, 1),
    ] {
        let mut conditions = Conditions::free(11, 52, 0, 0);
        conditions.a = fixed(a);
        conditions.b = fixed(b);
        let words = [0, 0];
        file.extend(encode(&Job { conditions, words }).unwrap());
    }
    file.extend([0x07, 3, 4, 0, 0xF7, 0, 0, 0, 0x45, 0, 0, 0]);
    file.extend([0xEF, 0, 0, 0, 0x2B, 0, 0, 0, 0xE6, 0, 0, 0, 0x44, 0, 0, 0]);
    let lines = [
        "1 found 4000000000000000 4000000000000000 4010000000000000 0010000000000000",
        "2 found 7ff0000000000000 0000000000000001 7ff0000000000000 -",
        "3 found 00000045 0000002b 0000004c 00000004",
        "end 3\n",
    ];
    assert_eq!(listing(&file, generate), lines.join("\n"));
}

//! Records with a second map byte (document 02, W-207).

use second::bounds::Bounds;
use second::choice::{generate, Job};
use second::fits::Conditions;
use second::format::{CUT_SHORT, SAYS_DEFAULT, UNKNOWN_MAP_BIT};
use second::listing::listing;
use second::mask::Mask;
use second::random::Random;
use second::record::{encode, read, Reply, LONGEST_RECORD};
use second::sample::{job, numbers};

/// Bytes from a text of hexadecimal digits.
fn bytes(text: &str) -> Vec<u8> {
    text.split_whitespace()
        .map(|byte| u8::from_str_radix(byte, 16).unwrap())
        .collect()
}

fn reply(text: &str) -> Reply {
    read(&bytes(text)).0
}

/// Every first map with bit 7 and every second map, with zeros enough after them. Zeros for w are
/// the first other fault.
#[test]
fn nine_before_all_else() {
    let zeros = [0; LONGEST_RECORD];
    for (first, second) in
        (0x80..=0xFF).flat_map(|first| (0..=0xFF).map(move |second| (first, second)))
    {
        let file = [&[first, second], &zeros[..]].concat();
        let (whole, cut) = match second {
            0..=7 => (1, CUT_SHORT),
            _ => (UNKNOWN_MAP_BIT, UNKNOWN_MAP_BIT),
        };
        assert_eq!(read(&file), (Reply::Refused(whole), &file[..]));
        for length in [2, 3, 4] {
            assert_eq!(
                read(&file[..length]),
                (Reply::Refused(cut), &file[..length])
            );
        }
        // The second map is not there to be refused.
        assert_eq!(read(&file[..1]).0, Reply::Refused(CUT_SHORT));
    }
}

/// Each second map that has a meaning, alone: its fields are zeros, and no default.
#[test]
fn bounds_by_the_second_map() {
    for second in 1..8 {
        let fields = "00 00 00 00 00 00 00 00 ".repeat(i32::count_ones(second) as usize);
        let mut conditions = Conditions::free(3, 4, 0, 0);
        let stated =
            |place: usize| (second >> place & 1 == 1).then_some(Bounds { low: 0, high: 0 });
        conditions.bounds = [0, 1, 2].map(stated);
        let words = [0, 0];
        let job = Job { conditions, words };
        let file = bytes(&format!("80 {second:02X} 03 04 00 {fields}"));
        assert_eq!(read(&file), (Reply::Job(job), &[][..]));
        assert_eq!(encode(&job), Ok(file.clone()));
        for length in 1..file.len() {
            assert_eq!(read(&file[..length]).0, Reply::Refused(CUT_SHORT));
        }
    }
    // Nor are the two infinities.
    assert!(matches!(
        reply("80 02 03 04 00 F0 00 00 00 70 00 00 00"),
        Reply::Job(_)
    ));
}

/// Five header bytes, then the fields of the first map, then low and high of b and of c.
#[test]
fn where_the_fields_stand() {
    let file = bytes(
        "F1 06 03 04 01  7F 00 00 00 30 00 00 00  03  55 00 00 00 00 00 00 00  02 04 00 04 00 \
         81 00 00 00 10 00 00 00  F0 00 00 00 80 00 00 00  AA",
    );
    let mut conditions = Conditions::free(3, 4, 1, 3);
    let mask = |care, value| Mask { care, value };
    conditions.a = mask(0x7F, 0x30);
    conditions.dropped.g = 2;
    conditions.dropped.mask = mask(4, 4);
    let bounds = |low, high| Some(Bounds { low, high });
    conditions.bounds = [None, bounds(0x81, 0x10), bounds(0xF0, 0x80)];
    let words = [0x55, 0];
    let job = Job { conditions, words };
    assert_eq!(read(&file), (Reply::Job(job), &[0xAA][..]));
    assert_eq!(encode(&job).unwrap(), file[..file.len() - 1]);
}

/// Words of eight bytes from 33 bits on.
#[test]
fn words_by_their_format() {
    for (w, f, word_bytes) in [(8, 23, 4), (8, 24, 8), (11, 52, 8)] {
        let mut conditions = Conditions::free(w, f, 0, 0);
        let (low, high) = (1 << (w + f), 3 << f);
        conditions.bounds[1] = Some(Bounds { low, high });
        let words = [0, 0];
        let file = encode(&Job { conditions, words }).unwrap();
        let [low, high] = [low, high].map(|word: u64| word.to_le_bytes()[..word_bytes].to_vec());
        assert_eq!(file[..5], [0x80, 2, w as u8, f as u8, 0]);
        assert_eq!(file[5..], [low, high].concat());
    }
}

/// The last of all tests, whatever the first map announces.
#[test]
fn an_empty_second_map() {
    for (text, number) in [
        ("80 00 03 04 00", SAYS_DEFAULT),
        ("80 00 01 04 00", 1),
        ("80 00 03 01 00", 2),
        ("80 00 03 04 02", 3),
        ("80 00 03 04", CUT_SHORT),
        ("90 00 03 04 00 05", 4),
        ("90 00 03 04 00 04", SAYS_DEFAULT),
        ("81 00 03 04 00 01 00 00 00 02 00 00 00", 5),
        ("81 00 03 04 00 01 00 00 00 01 00 00 00", SAYS_DEFAULT),
        ("A0 00 03 04 00 00 01 00 00 01 00 00 00", 6),
        ("A0 00 03 04 00 01 00 00 00 01 00 00 00", SAYS_DEFAULT),
        ("C0 00 03 04 00 09 00 00 00 00", 17),
    ] {
        assert_eq!(reply(text), Reply::Refused(number), "{text}");
    }
    let mut random = Random::new(0x2E40);
    for _ in 0..2000 {
        let numbers = numbers(&mut random);
        let mut job = job(&mut random, numbers, 32);
        job.conditions.bounds = [None; 3];
        let mut file = encode(&job).unwrap();
        file[0] |= 0x80;
        file.insert(1, 0);
        assert_eq!(read(&file), (Reply::Refused(SAYS_DEFAULT), &file[..]));
    }
}

/// In a record: 6 before 18, whichever word has it, and 18 before 10.
#[test]
fn bad_bounds_in_a_record() {
    for (fields, number) in [
        ("71 00 00 00 71 00 00 00", 18),
        ("F0 00 00 00 F1 00 00 00", 18),
        ("01 00 00 00 00 00 00 00", 18),
        ("70 00 00 00 F0 00 00 00", 18),
        ("00 01 00 00 70 00 00 00", 6),
        ("00 00 00 00 00 01 00 00", 6),
        ("71 00 00 00 00 00 00 01", 6),
    ] {
        for second in ["01", "02", "04"] {
            let of_one = format!("80 {second} 03 04 00 {fields}");
            assert_eq!(reply(&of_one), Reply::Refused(number), "{of_one}");
            // Mode 0 says its default.
            let with_default = format!("90 {second} 03 04 00 00 {fields}");
            assert_eq!(reply(&with_default), Reply::Refused(number));
            // The first random word is too wide.
            let wide = format!("A0 {second} 03 04 00 00 01 00 00 00 00 00 00 {fields}");
            assert_eq!(reply(&wide), Reply::Refused(6));
        }
        // Good bounds with 6 after bad ones with 18.
        let two = format!("80 03 03 04 00 {fields} 00 01 00 00 70 00 00 00");
        assert_eq!(reply(&two), Reply::Refused(6));
    }
    assert!(matches!(
        reply("80 01 03 04 00 00 00 00 00 80 00 00 00"),
        Reply::Job(_)
    ));
}

/// Document 01's first job with bounds: the first case has a = 45, the second a = 4D.
#[test]
fn listed_with_bounds() {
    let masks = "F7 00 00 00 45 00 00 00 EF 00 00 00 2B 00 00 00 E6 00 00 00 44 00 00 00";
    let first = "found 00000045 0000002b 0000004c 00000004";
    let second = "found 0000004d 0000003b 00000055 0000001d";
    let lines = [
        ("45 00 00 00 4D 00 00 00", first),
        ("46 00 00 00 4D 00 00 00", second),
        ("45 00 00 00 4C 00 00 00", first),
        ("46 00 00 00 4C 00 00 00", "none"),
        ("46 00 00 00 45 00 00 00", "refused 18"),
    ];
    let records: Vec<String> = lines
        .iter()
        .map(|(bounds, _)| format!("87 01 03 04 00 {masks} {bounds}"))
        .collect();
    let numbered = (1..)
        .zip(lines)
        .map(|(n, (_, line))| format!("{n} {line}\n"));
    let wanted: String = numbered.chain(["end 5\n".to_string()]).collect();
    assert_eq!(listing(&bytes(&records.join(" ")), generate), wanted);
}

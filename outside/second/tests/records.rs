//! Records, files and the listing.

use second::bounds::Bounds;
use second::choice::{generate, Job};
use second::dropped::Dropped;
use second::fits::Conditions;
use second::format::{ones, BUFFER_TOO_SHORT, CUT_SHORT, SAYS_DEFAULT, UNKNOWN_MAP_BIT};
use second::listing::{listing, LONGEST_FILE};
use second::mask::Mask;
use second::random::Random;
use second::record::{encode, read, read_file, write, write_file, Reply, LONGEST_RECORD};
use second::sample;

/// Bytes from a text of hexadecimal digits.
fn bytes(text: &str) -> Vec<u8> {
    text.split_whitespace()
        .map(|byte| u8::from_str_radix(byte, 16).unwrap())
        .collect()
}

const MASKS: &str = "F7 00 00 00 45 00 00 00 EF 00 00 00 2B 00 00 00 E6 00 00 00 44 00 00 00";

/// Document 01's file with the jobs of its cases 1 and 4.
fn two_jobs() -> Vec<u8> {
    let first = format!("07 03 04 00 {MASKS}");
    let second = format!("0F 03 04 00 {MASKS} 02 00 00 00 02 00 00 00");
    bytes(&format!("{first} {second}"))
}

fn random_job(random: &mut Random) -> Job {
    let numbers = sample::numbers(random);
    let care = 8 * random.below(5);
    match random.below(4) {
        0 => sample::dropped_job(random, numbers, care),
        1 => sample::bounded_job(random, numbers, care),
        _ => sample::job(random, numbers, care),
    }
}

#[test]
fn two_jobs_are_listed() {
    let expected = "1 found 00000045 0000002b 0000004c 00000004\n2 none\nend 2\n";
    assert_eq!(listing(&two_jobs(), generate), expected);
}

#[test]
fn no_row_is_listed_as_a_dash() {
    let file = bytes("01 03 04 00 FF 00 00 00 70 00 00 00");
    let expected = "1 found 00000070 00000000 00000070 -\nend 1\n";
    assert_eq!(listing(&file, generate), expected);
}

#[test]
fn empty_and_long_files() {
    assert_eq!(listing(&[], generate), "end 0\n");
    // Records of four bytes, which fix nothing.
    let mut file = [0, 2, 2, 0].repeat(LONGEST_FILE / 4);
    assert_eq!(file.len(), 65_536);
    let text = listing(&file, generate);
    assert_eq!(text.lines().count(), 16_385);
    assert!(text.ends_with("\n16384 found 00000000 00000000 00000000 00000000\nend 16384\n"));
    file.push(0);
    assert_eq!(listing(&file, generate), "long\n");
}

#[test]
fn a_refusal_ends_the_listing() {
    let mut file = two_jobs();
    file.extend(bytes("00 03 04 02"));
    file.extend(two_jobs());
    let found = "1 found 00000045 0000002b 0000004c 00000004\n2 none\n";
    assert_eq!(
        listing(&file, generate),
        format!("{found}3 refused 3\nend 3\n")
    );
    let cut = &two_jobs()[..40];
    let first = "1 found 00000045 0000002b 0000004c 00000004\n";
    assert_eq!(
        listing(cut, generate),
        format!("{first}2 refused 8\nend 2\n")
    );
    assert_eq!(listing(&[0x80], generate), "1 refused 8\nend 1\n");
    assert_eq!(listing(&[0x80, 8], generate), "1 refused 9\nend 1\n");
}

#[test]
fn every_cut_is_8_and_every_foreign_bit_is_9() {
    let mut random = Random::new(0x0CC7);
    for _ in 0..300 {
        let record = encode(&random_job(&mut random)).unwrap();
        for length in 1..record.len() {
            let cut = &record[..length];
            assert_eq!(read(cut), (Reply::Refused(CUT_SHORT), cut));
        }
        // The second map, there already or not, has a bit too many.
        let mut other = record.clone();
        if record[0] < 0x80 {
            other[0] |= 0x80;
            other.insert(1, 0);
        }
        other[1] |= 8 << random.below(5);
        let number = Reply::Refused(UNKNOWN_MAP_BIT);
        assert_eq!(read(&other), (number, &other[..]));
        assert_eq!(read(&other[..2]), (number, &other[..2]));
        assert_eq!(read(&other[..1]).0, Reply::Refused(CUT_SHORT));
    }
    assert_eq!(read(&[]), (Reply::End, &[][..]));
}

/// Which fields say their default, each alone in a record.
#[test]
fn defaults_are_refused() {
    let reply = |text: &str| read(&bytes(text)).0;
    let refused = Reply::Refused(SAYS_DEFAULT);
    for map in ["01", "02", "04", "08"] {
        assert_eq!(
            reply(&format!("{map} 03 04 00 00 00 00 00 00 00 00 00")),
            refused
        );
        // A fixed bit of value 0 is no default.
        let fixed = reply(&format!("{map} 03 04 00 01 00 00 00 00 00 00 00"));
        assert!(matches!(fixed, Reply::Job(_)));
    }
    assert_eq!(reply("10 03 04 00 00"), refused);
    assert_eq!(reply("20 03 04 00 00 00 00 00 00 00 00 00"), refused);
    for words in ["00 00 00 00 01 00 00 00", "01 00 00 00 00 00 00 00"] {
        assert!(matches!(
            reply(&format!("20 03 04 00 {words}")),
            Reply::Job(_)
        ));
    }
    // A value outside care is a malformed mask, and not a default.
    for (map, number) in [("01", 5), ("02", 14), ("04", 15), ("08", 16)] {
        let outside = reply(&format!("{map} 03 04 00 00 00 00 00 01 00 00 00"));
        assert_eq!(outside, Reply::Refused(number));
    }
}

/// Map bit 6: one byte g, then care and value, two bytes each. 17 comes before 10.
#[test]
fn dropped_bits_in_a_record() {
    let reply = |text: &str| read(&bytes(&format!("40 03 04 00 {text}"))).0;
    for (g, text) in (0..=255).map(|g| (g, format!("{g:02X}"))) {
        let number = if g > 8 { 17 } else { SAYS_DEFAULT };
        assert_eq!(
            reply(&format!("{text} 00 00 00 00")),
            Reply::Refused(number)
        );
        let stated = reply(&format!("{text} 01 00 01 00"));
        assert_eq!(matches!(stated, Reply::Job(_)), g <= 8);
        // A value with nothing in care, and a bit of care above all widths.
        let outside = reply(&format!("{text} 00 00 01 00"));
        let above = reply(&format!("{text} 01 02 00 00"));
        assert_eq!([outside, above], [Reply::Refused(17); 2]);
    }
    let mut conditions = Conditions::free(3, 4, 0, 0);
    conditions.dropped = Dropped {
        g: 8,
        mask: Mask {
            care: 0x1F3,
            value: 0x102,
        },
    };
    let words = [0, 0];
    let stated = Reply::Job(Job { conditions, words });
    assert_eq!(reply("08 F3 01 02 01"), stated);
    // One g less, and the top bit stands above the width.
    assert_eq!(reply("07 F3 01 02 01"), Reply::Refused(17));
}

/// The field stands after the random words, and is cut short like any other.
#[test]
fn dropped_bits_come_last() {
    let file = bytes("70 03 04 01 04 4D 00 00 00 2B 00 00 00 03 0F 00 08 00 FF");
    let mut conditions = Conditions::free(3, 4, 1, 4);
    conditions.dropped = Dropped {
        g: 3,
        mask: Mask { care: 15, value: 8 },
    };
    let words = [0x4D, 0x2B];
    let job = Job { conditions, words };
    assert_eq!(read(&file), (Reply::Job(job), &[0xFF][..]));
    assert_eq!(encode(&job).unwrap(), file[..18]);
    for length in 13..18 {
        assert_eq!(read(&file[..length]).0, Reply::Refused(CUT_SHORT));
    }
}

#[test]
fn reading_gives_back_what_was_written() {
    let mut random = Random::new(0x2071);
    for _ in 0..20_000 {
        let job = random_job(&mut random);
        let mut buffer = [0; LONGEST_RECORD + 8].map(|_: u8| random.word() as u8);
        let before = buffer;
        let length = write(&job, &mut buffer).unwrap();
        assert_eq!(buffer[length..], before[length..]);
        assert_eq!(read(&buffer), (Reply::Job(job), &buffer[length..]));
        // The shortest buffer that holds the record, and one byte less.
        assert_eq!(write(&job, &mut buffer[..length]), Ok(length));
        let mut short = before;
        let answer = write(&job, &mut short[..length - 1]);
        assert_eq!((answer, short), (Err(BUFFER_TOO_SHORT), before));
    }
}

/// Whatever is read is written with the same bytes. Random bytes after a map byte and a
/// header are mostly refused, so they are drawn from few values.
#[test]
fn writing_gives_back_what_was_read() {
    let mut random = Random::new(0x0B17);
    for (w, f) in [(8, 23), (11, 52)] {
        // Without and with dropped bits, and the same with bounds.
        let mut read_jobs = [0; 4];
        for _ in 0..800_000 {
            let mut file = vec![random.bits(8) as u8];
            if file[0] >= 0x80 {
                file.push(random.bits(3) as u8);
            }
            file.extend([w, f, random.bits(1) as u8]);
            let few = [0, 0, 0, 1, 3];
            file.extend((0..LONGEST_RECORD).map(|_| few[random.below(5) as usize]));
            let (reply, rest) = read(&file);
            if let Reply::Job(job) = reply {
                let length = file.len() - rest.len();
                assert_eq!(encode(&job).unwrap(), file[..length]);
                read_jobs[usize::from(file[0] >> 6)] += 1;
            }
        }
        let enough = [10_000, 500, 1_000, 50];
        assert!(
            read_jobs
                .iter()
                .zip(enough)
                .all(|(&count, least)| count > least),
            "{read_jobs:?} read"
        );
    }
}

#[test]
fn files_of_several_jobs() {
    let mut random = Random::new(0xF11E);
    for count in 0..60 {
        let jobs: Vec<Job> = (0..count).map(|_| random_job(&mut random)).collect();
        let mut file = write_file(&jobs).unwrap();
        assert_eq!(read_file(&file), (jobs.clone(), None, &[][..]));
        let length = file.len();
        file.extend([0x10, 3, 4]);
        let rest = &file[length..];
        assert_eq!(read_file(&file), (jobs, Some(CUT_SHORT), rest));
    }
}

/// A job that states everything, with the top and the lowest bit of each word, and bounds from the
/// next number below zero to zero, to the next one above it and the one after that.
fn full_job(w: u64, f: u64) -> Job {
    let ends = |width: u64| Mask {
        care: ones(width as u32),
        value: 1 | 1 << (width - 1),
    };
    let mut conditions = Conditions::free(w, f, 1, 3);
    conditions.a = ends(w + f + 1);
    conditions.b = conditions.a;
    conditions.c = conditions.a;
    conditions.carries = ends(f + 1);
    conditions.dropped = Dropped {
        g: 8,
        mask: ends(9),
    };
    let low = 1 | 1 << (w + f);
    conditions.bounds = [0, 1, 2].map(|high| Some(Bounds { low, high }));
    Job {
        conditions,
        words: [0, ones((w + f + 1) as u32)],
    }
}

#[test]
fn shortest_record() {
    for (w, f) in [(2, 2), (11, 52)] {
        let short = Job {
            conditions: Conditions::free(w, f, 0, 0),
            words: [0, 0],
        };
        assert_eq!(encode(&short), Ok(vec![0, w as u8, f as u8, 0]));
    }
}

#[test]
fn longest_records() {
    let record = encode(&full_job(8, 23)).unwrap();
    assert_eq!(record.len(), 75);
    assert_eq!(record[..5], [0xFF, 7, 8, 23, 1]);
    assert_eq!(record[5..13], [0xFF, 0xFF, 0xFF, 0xFF, 1, 0, 0, 0x80]);
    assert_eq!(record[29..38], [0xFF, 0xFF, 0xFF, 0, 1, 0, 0x80, 0, 3]);
    assert_eq!(record[38..46], [0, 0, 0, 0, 0xFF, 0xFF, 0xFF, 0xFF]);
    assert_eq!(record[46..51], [8, 0xFF, 1, 1, 1]);
    for high in [0, 1, 2] {
        let field = &record[51 + 8 * usize::from(high)..][..8];
        assert_eq!(field, [1, 0, 0, 0x80, high, 0, 0, 0]);
    }

    let record = encode(&full_job(11, 52)).unwrap();
    assert_eq!([record.len(), LONGEST_RECORD], [139; 2]);
    assert_eq!(record[..5], [0xFF, 7, 11, 52, 1]);
    assert_eq!(record[5..13], [0xFF; 8]);
    assert_eq!(record[13..21], [1, 0, 0, 0, 0, 0, 0, 0x80]);
    assert_eq!(record[53..60], [0xFF, 0xFF, 0xFF, 0xFF, 0xFF, 0xFF, 0x1F]);
    assert_eq!(record[60..70], [0, 1, 0, 0, 0, 0, 0, 0x10, 0, 3]);
    assert_eq!(record[70..78], [0; 8]);
    assert_eq!(record[78..86], [0xFF; 8]);
    assert_eq!(record[86..91], [8, 0xFF, 1, 1, 1]);
    for high in [0, 1, 2] {
        let field = &record[91 + 16 * usize::from(high)..][..16];
        assert_eq!(field[..8], [1, 0, 0, 0, 0, 0, 0, 0x80]);
        assert_eq!(field[8..], [high, 0, 0, 0, 0, 0, 0, 0]);
    }
}

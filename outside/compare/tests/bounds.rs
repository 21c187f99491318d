//! Bounds (document 02, W-207) through the exported functions and the listing program.

use compare::call::{Part, Tally};
use compare::damage::{damage_file, misbounded_record};
use compare::files::{confirmations, readings, record, returned, whole_reading, wide_generations};
use compare::program::listed;
use second::arith::{every_setting, Adder};
use second::bounds::Bounds;
use second::choice::{generate, Job};
use second::fits::Conditions;
use second::format::{Format, NO_CASE};
use second::listing::listing;
use second::mask::Mask;
use second::random::Random;
use second::record::{map_of, read, unchecked, Reply};
use second::sample::{all_but_few, bounded_job, numbers};
use second::table::Table;
use second::within::{place_of, word_at, wrong};

/// The job of a format that adds in a mode and states these bounds, and nothing else.
fn job((w, f): (u64, u64), mode: u64, bounds: [Option<Bounds>; 3]) -> Job {
    let mut conditions = Conditions::free(w, f, 0, mode);
    conditions.bounds = bounds;
    let words = [0, 0];
    Job { conditions, words }
}

fn between(low: u64, high: u64) -> Option<Bounds> {
    Some(Bounds { low, high })
}

/// The words of the case that the library chooses, or its refusal.
fn chosen(job: &Job) -> Result<[u64; 3], u64> {
    match vindacsor::generate(&record(job)) {
        Ok(case) => Ok([case.a, case.b, case.c]),
        Err(refusal) => Err(refusal.0),
    }
}

/// Every legal pair of words of format 2/2 as the bounds of a, of b and of c.
#[test]
fn every_bounds_of_one_word() {
    let mut random = Random::new(0x0B0D);
    for [operation, mode] in every_setting() {
        let adder = Adder::new(2, 2, operation, mode).expect("within the limits");
        let table = Table::new(adder).expect("a small format");
        for (low, high) in (0..32).flat_map(|low| (0..32).map(move |high| (low, high))) {
            for place in 0..3 {
                let mut conditions = Conditions::free(2, 2, operation, mode);
                conditions.bounds[place] = between(low, high);
                let words = [random.bits(5), random.bits(5)];
                let job = Job { conditions, words };
                let wanted = table.generate(&job);
                let found = vindacsor::generate(&unchecked(map_of(&job), &job));
                assert_eq!(
                    found.map(|case| (case.a, case.b, case.c, case.row)),
                    wanted
                        .map(|case| (case.a, case.b, case.c, case.row))
                        .map_err(|number| vindacsor::Refusal(u64::from(number))),
                    "{job:x?}"
                );
            }
        }
    }
}

/// The largest sum of the operands' bounds is a case with these alone, and one place above it there
/// is none, in every mode. So it is with the smallest.
#[test]
fn the_ends_of_the_sums() {
    let mut random = Random::new(0xE2D5);
    for (w, f) in [(2, 2), (3, 4), (5, 10), (8, 23), (11, 52)] {
        let format = Format::new(w, f).expect("within the limits");
        let last = format.infinity() - 1;
        for n in 0..25 {
            let mode = n % 5;
            let adder = Adder::new(w, f, 0, mode).expect("within the limits");
            let [x, y] = [0; 2].map(|_| 1 + random.below(last));
            let negative = n % 2 == 1;
            let [a, b] = [x, y].map(|index| format.signed(negative, index));
            // The operands lie between zero and these.
            let of = |end| {
                if negative {
                    between(end, 0)
                } else {
                    between(0, end)
                }
            };
            let c = adder.result(a, b);
            let up_to = |end: u64| {
                let infinity = format.signed(negative, format.infinity());
                let bounds = if negative {
                    between(infinity, end)
                } else {
                    between(end, infinity)
                };
                chosen(&job((w, f), mode, [of(a), of(b), bounds]))
            };
            let found = up_to(c).expect("a case");
            assert_eq!(found[2], c);
            let place = place_of(format, c).expect("no NaN");
            let next = place + if negative { -1 } else { 1 };
            if next.unsigned_abs() <= format.infinity() {
                let next = word_at(&mut random, format, next);
                assert_eq!(up_to(next), Err(u64::from(NO_CASE)), "{w}/{f} {a:x} {b:x}");
            }
        }
    }
}

/// The two infinities shut out NaNs alone, and bounds at a zero let both zeros through.
#[test]
fn nans_and_zeros() {
    for (w, f) in [(3, 4), (8, 23), (11, 52)] {
        let format = Format::new(w, f).expect("within the limits");
        let [infinity, minus] = [false, true].map(|sign| format.signed(sign, format.infinity()));
        let all = between(minus, infinity);
        let width = format.width();
        let fixed = |value| Mask {
            care: u64::MAX >> (64 - width),
            value,
        };
        for place in 0..3 {
            let mut of_nan = job((w, f), 0, [None; 3]);
            of_nan.conditions.c = fixed(format.nan());
            of_nan.words = [format.nan(), infinity];
            assert_eq!(chosen(&of_nan), Ok([format.nan(), infinity, format.nan()]));
            of_nan.conditions.bounds[place] = all;
            let wanted = match place {
                0 => Ok([infinity, infinity + 1, format.nan()]),
                1 => Ok([format.nan(), infinity, format.nan()]),
                _ => Err(7),
            };
            assert_eq!(chosen(&of_nan), wanted);
        }
        let sign = format.sign_bit();
        for (low, high) in [(0, sign), (sign, 0), (0, 0), (sign, sign)] {
            let mut zeros = job((w, f), 0, [between(low, high); 3]);
            for (words, c) in [([0, 0], 0), ([sign, sign], sign), ([0, sign], 0)] {
                zeros.words = words;
                assert_eq!(chosen(&zeros), Ok([words[0], words[1], c]));
            }
        }
    }
}

/// Every first map with bit 7 and every second map, zeros after them, and cuts. Zeros for w are the
/// first other fault.
#[test]
fn every_second_map() {
    for (first, second) in (0x80..=0xFF).flat_map(|one| (0..=0xFF).map(move |other| (one, other))) {
        let mut file = [0; 140];
        [file[0], file[1]] = [first, second];
        let (whole, cut) = if second < 8 { (1, 8) } else { (9, 9) };
        assert_eq!(returned(&file, [0; 3]), [whole; 3]);
        for length in [2, 3, 4] {
            assert_eq!(returned(&file[..length], [0; 3]), [cut; 3]);
        }
        assert_eq!(returned(&file[..1], [0; 3]), [8; 3]);
    }
}

/// Where bounds are wrong: what comes before 18, and what comes after it.
#[test]
fn other_faults_beside_18() {
    let mut random = Random::new(0x1817);
    let format = Format::new(3, 4).expect("within the limits");
    let bytes = |job: &Job| unchecked(map_of(job), job);
    for n in 0..2000 {
        let mut bad = job((3, 4), 0, [None; 3]);
        let place = n % 3;
        bad.conditions.bounds[place] = Some(wrong(&mut random, format));
        // No case fits, a proposed word is too wide, mode 0 says its default.
        bad.conditions.c = Mask {
            care: 0xFF,
            value: 0x7F,
        };
        assert_eq!(returned(&bytes(&bad), [0; 3]), [18; 3]);
        assert_eq!(returned(&bytes(&bad), [0x100; 3]), [18; 3]);
        let default = unchecked(map_of(&bad) | 0x10, &bad);
        assert_eq!(returned(&default, [0; 3]), [18; 3]);
        if n % 20 == 0 {
            let file = [bytes(&bad), vec![0, 3, 4, 0]].concat();
            assert_eq!(listed(&file), "1 refused 18\nend 1\n");
        }
        // Another bound or a random word is too wide, a mask is malformed.
        let mut wide = bad;
        match n % 2 {
            0 => wide.words[1] = 0x100,
            _ => wide.conditions.bounds[(place + 1) % 3] = between(0, 0x100),
        }
        assert_eq!(returned(&bytes(&wide), [0; 3]), [6; 3]);
        let mut malformed = wide;
        malformed.conditions.b.value = 1;
        assert_eq!(returned(&bytes(&malformed), [0; 3]), [14; 3]);
    }
}

/// An empty second map is refused after all else, even after 6 of a record, and before 6 of the
/// proposed words.
#[test]
fn an_empty_second_map() {
    for (file, number) in [
        (&[0x80, 0, 3, 4, 0][..], 10),
        (&[0x80, 0, 1, 4, 0], 1),
        (&[0x80, 0, 3, 4, 2], 3),
        (&[0x90, 0, 3, 4, 0, 5], 4),
        (&[0x90, 0, 3, 4, 0, 3], 10),
        (&[0xA0, 0, 3, 4, 0, 0, 1, 0, 0, 1, 0, 0, 0], 6),
        (&[0xA0, 0, 3, 4, 0, 1, 0, 0, 0, 1, 0, 0, 0], 10),
    ] {
        assert_eq!(returned(file, [0; 3]), [number; 3]);
        assert_eq!(returned(file, [u64::MAX; 3]), [number; 3]);
    }
}

/// Good and bad bounds beside the other fields of a job, and damaged bytes.
#[test]
fn fields_of_any_job() {
    let (mut random, mut tally) = (Random::new(0xB07D), Tally::default());
    for n in 0..8000 {
        let numbers = numbers(&mut random);
        let job = bounded_job(&mut random, numbers, 32);
        let mut file = match n % 2 {
            0 => misbounded_record(&mut random, &job),
            _ => record(&job),
        };
        if n % 4 == 3 {
            damage_file(&mut random, &mut file);
        }
        file.extend([0x80, 1, 3, 4, 0, 0, 0, 0, 0, 0, 0, 0, 0]);
        whole_reading(&mut random, &mut tally, &file).expect("alike");
    }
    let reached = [6, 8, 9, 10, 18].map(|number| tally.refused(number));
    assert!(reached.iter().all(|&count| count > 20), "{reached:?}");
}

/// A record with bounds that reading refuses.
fn refused_record(random: &mut Random) -> Vec<u8> {
    let draw = || {
        let numbers = numbers(random);
        let job = bounded_job(random, numbers, 64);
        misbounded_record(random, &job)
    };
    std::iter::repeat_with(draw)
        .find(|record| matches!(read(record).0, Reply::Refused(_)))
        .expect("an endless supply")
}

/// The listing of files with such jobs, good ones and a last one that is refused.
#[test]
fn listed_with_bounds() {
    let mut random = Random::new(0x1157);
    for _ in 0..60 {
        let mut file = Vec::new();
        for _ in 0..20 {
            let numbers = numbers(&mut random);
            let job = bounded_job(&mut random, numbers, all_but_few(numbers));
            file.extend(record(&job));
        }
        file.extend(refused_record(&mut random));
        assert_eq!(listed(&file), listing(&file, generate));
    }
}

/// The random calls come to 18 wherever jobs are taken.
#[test]
fn random_calls_reach_18() {
    let parts: [Part; 3] = [readings, confirmations, wide_generations];
    for part in parts {
        let tally = part(&mut Random::new(0x7A12), 4000).expect("alike");
        assert!(tally.refused(18) > 10);
    }
}

/// A job with bounds and the same bytes with none read unlike: presence is kept.
#[test]
fn presence_is_kept() {
    let stated = [0x80, 2, 3, 4, 0, 0xF0, 0, 0, 0, 0x70, 0, 0, 0];
    assert_eq!(vindacsor::read(&stated), Ok(Some(13)));
    assert_eq!(vindacsor::read(&[0, 3, 4, 0]), Ok(Some(4)));
    assert!(matches!(read(&stated).0, Reply::Job(job) if job.conditions.bounds[1].is_some()));
    // NaN + anything is the one NaN.
    assert_eq!(vindacsor::confirm(&stated, 0x71, 0, 0x78), Ok(true));
    assert_eq!(vindacsor::confirm(&stated, 0, 0x71, 0x78), Ok(false));
    assert_eq!(vindacsor::confirm(&[0, 3, 4, 0], 0, 0x71, 0x78), Ok(true));
}

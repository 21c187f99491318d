//! The writer of job records: the program `records_written` writes the records of pseudo-random
//! jobs, and every byte of every buffer is held against the second implementation. Read here is the
//! output that is stored beside the program, which `rt ci` holds the program to. The jobs are drawn
//! here as `jobs.rt` of that program draws them.

use second::bounds::Bounds;
use second::choice::Job;
use second::dropped::Dropped;
use second::fits::Conditions;
use second::format::ones;
use second::mask::Mask;
use second::record::write;

const OUTPUT: &str = concat!(
    env!("CARGO_MANIFEST_DIR"),
    "/../../crates/records_written/stdout"
);
const JOBS: usize = 600;
const MODULUS: u64 = (1 << 31) - 1;

/// The state that many steps of the generator on.
fn after(state: u64, steps: u32) -> u64 {
    (0..steps).fold(state, |state, _| state * 48271 % MODULUS)
}

/// A word of 64 bits, by four other multipliers.
fn word(state: u64) -> u64 {
    let quarters = [16807, 69621, 39373, 40_014].map(|by| state * by % MODULUS % (1 << 16));
    quarters
        .iter()
        .fold(0, |word, quarter| word << 16 | quarter)
}

fn mask(width: u32, state: u64) -> Mask {
    if state % 3 == 0 {
        return Mask::FREE;
    }
    let care = word(state) & ones(width);
    let value = word(after(state, 1));
    match state / 3 % 16 {
        0 => Mask { care, value },
        _ => Mask {
            care,
            value: value & care,
        },
    }
}

fn random(width: u32, state: u64) -> u64 {
    match state % 2 {
        0 => 0,
        _ => word(state) & ones(width),
    }
}

fn dropped(state: u64) -> Dropped {
    let g = state / 48 % 37 / 4;
    Dropped {
        g,
        mask: mask(g as u32 + 1, state),
    }
}

/// The ends of an interval, both positive, both negative, or the low one negative.
fn ends(width: u32, state: u64) -> Bounds {
    let sign = 1 << (width - 1);
    let [x, y] = [state, after(state, 1)].map(|state| word(state) & ones(width - 1));
    let (low, high) = match state / 48 % 3 {
        0 => (x.min(y), x.max(y)),
        1 => (sign | x.max(y), sign | x.min(y)),
        _ => (sign | x, y),
    };
    Bounds { low, high }
}

fn bounds(width: u32, state: u64) -> Option<Bounds> {
    if state % 3 != 0 {
        return None;
    }
    if state / 3 % 16 == 0 {
        let [low, high] = [state, after(state, 1)].map(word);
        return Some(Bounds { low, high });
    }
    let Bounds { low, high } = ends(width, state);
    match state / 144 % 16 {
        0 => Some(Bounds {
            low: high,
            high: low,
        }),
        _ => Some(Bounds { low, high }),
    }
}

fn job(state: u64) -> Job {
    let (w, f) = (2 + state % 10, 2 + state / 10 % 51);
    let [width, precision] = [w + f + 1, f + 1].map(|width| width as u32);
    let mut conditions = Conditions::free(w, f, state / 510 % 2, state / 1020 % 5);
    conditions.a = mask(width, after(state, 1));
    conditions.b = mask(width, after(state, 3));
    conditions.c = mask(width, after(state, 5));
    conditions.carries = mask(precision, after(state, 7));
    conditions.dropped = dropped(after(state, 11));
    conditions.bounds = [13, 15, 17].map(|steps| bounds(width, after(state, steps)));
    let words = [9, 10].map(|steps| random(width, after(state, steps)));
    Job { conditions, words }
}

/// The bytes of every buffer.
const BUFFER: usize = 141;

/// The room for a record: the whole buffer, or in one of four cases any part of it.
fn room(state: u64) -> usize {
    match state / 5100 % 4 {
        0 => state as usize / 20400 % (BUFFER + 1),
        _ => BUFFER,
    }
}

/// The line of a job: the reply, and every byte of the buffer afterwards.
fn line(state: u64) -> String {
    let mut buffer = [255; BUFFER];
    let reply = match write(&job(state), &mut buffer[..room(state)]) {
        Ok(count) => format!("written {count}"),
        Err(number) => format!("refused {number}"),
    };
    let bytes: String = buffer.iter().map(|byte| format!("{byte:02x}")).collect();
    format!("{reply} {bytes}")
}

fn lines() -> Vec<String> {
    let states = std::iter::successors(Some(after(1, 19)), |&state| Some(after(state, 19)));
    states.take(JOBS).map(line).collect()
}

#[test]
fn every_byte_is_alike() {
    let came = std::fs::read_to_string(OUTPUT).expect("the stored output");
    let wanted = lines();
    assert_eq!(came.lines().count(), wanted.len());
    for (n, (came, wanted)) in came.lines().zip(&wanted).enumerate() {
        assert_eq!(came, wanted, "job {n}");
    }
}

/// The jobs are worth comparing: most of the 256 first map bytes, every second one, every w and f,
/// both operations, and records that find no room, have malformed masks or are refused for bounds.
#[test]
fn the_jobs_are_many_kinds() {
    let bytes = |line: &String| line.split(' ').nth(2).map(str::to_string);
    let written: Vec<String> = lines()
        .iter()
        .filter(|line| line.starts_with("written"))
        .filter_map(bytes)
        .collect();
    let second = |bytes: &String| bytes.as_str() >= "80";
    let kinds = |byte: &dyn Fn(&String) -> Option<usize>| {
        let at = |bytes: &String| byte(bytes).map(|n| bytes[2 * n..2 * n + 2].to_string());
        let mut all: Vec<String> = written.iter().filter_map(at).collect();
        all.sort_unstable();
        all.dedup();
        all.len()
    };
    assert!((300..JOBS).contains(&written.len()), "{}", written.len());
    for number in [5, 6, 11, 14, 15, 16, 17, 18] {
        let refused = format!("refused {number} ");
        assert!(lines().iter().any(|line| line.starts_with(&refused)));
    }
    let maps = kinds(&|_| Some(0));
    assert!(maps > 140, "{maps} maps");
    assert_eq!(kinds(&|bytes| second(bytes).then_some(1)), 7);
    let after = [0, 1, 2].map(|n| kinds(&|bytes| Some(1 + n + usize::from(second(bytes)))));
    assert_eq!(after, [10, 51, 2]);
}

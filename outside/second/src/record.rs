//! Job records and job files (document 01, "Job files"; document 02, W-202, W-206 and
//! W-207).

use crate::bounds::Bounds;
use crate::choice::Job;
use crate::dropped::Dropped;
use crate::fits::Conditions;
use crate::format::{Refusal, BUFFER_TOO_SHORT, CUT_SHORT, SAYS_DEFAULT, UNKNOWN_MAP_BIT};
use crate::mask::Mask;

/// The map bits, from bit 0 on: the masks of a, b, c and carries, the mode, the random words, the
/// dropped bits, and whether there is a second map byte. The bits of this one are counted on from
/// 8: the bounds of a, b and c. So a record's map, of one byte or two, is one number, and this many
/// of its bits have a meaning.
const MAP_BITS: usize = 11;
/// The map bit of the mode, which has one byte. The fields of the bits before it are two words.
const MODE: usize = 4;
/// The map bit of the random words, two words as well.
const WORDS: usize = 5;
/// The map bit of the dropped bits: one byte for g, then care and value, two bytes each.
const DROPPED: usize = 6;
/// The map bit that announces the second map byte. It has no field.
const SECOND: usize = 7;
/// The map bit of a's bounds, low and high: two words; those of b and c follow.
const BOUNDS: usize = 8;
/// The bytes of a record that has every field, with words of eight bytes.
pub const LONGEST_RECORD: usize = 139;

/// The bytes of a word in records, for the carries too: 4 where w + f + 1 is at most 32, else 8.
/// A header's w and f may be out of their limits here: whether a record is cut short is told
/// before these are checked.
pub fn word_bytes(w: u64, f: u64) -> usize {
    match w + f + 1 {
        ..=32 => 4,
        _ => 8,
    }
}

/// What stands first in a file.
#[derive(Clone, Copy, Debug, PartialEq, Eq)]
pub enum Reply {
    End,
    Job(Job),
    Refused(Refusal),
}

/// What stands first, and the rest of the file: what follows the record, or on a refusal the
/// file from the refused record on. Refuses with 9, 8, 1 to 5, 14 to 17, 6, 18, 10.
pub fn read(file: &[u8]) -> (Reply, &[u8]) {
    if file.is_empty() {
        return (Reply::End, file);
    }
    match decode(file) {
        Ok((job, rest)) => (Reply::Job(job), rest),
        Err(number) => (Reply::Refused(number), file),
    }
}

fn decode(file: &[u8]) -> Result<(Job, &[u8]), Refusal> {
    let (map, after) = take_map(file)?;
    let Some((&[w, f, operation], after)) = after.split_first_chunk() else {
        return Err(CUT_SHORT);
    };
    let header = [w, f, operation].map(u64::from);
    let layout = Layout::of(map, header[0], header[1]);
    let Some((fields, rest)) = after.split_at_checked(layout.bytes()) else {
        return Err(CUT_SHORT);
    };
    let job = take_fields(layout, header, fields);
    job.check()?;
    // A field that is not there reads as its default, so the two maps differ exactly where
    // a field that is there says its default, or a second map byte says nothing.
    if map_of(&job) != map {
        return Err(SAYS_DEFAULT);
    }
    Ok((job, rest))
}

/// A record's map, and what follows it. A second byte has to be there to be refused with 9.
fn take_map(file: &[u8]) -> Result<(u16, &[u8]), Refusal> {
    let (&first, after) = file.split_first().ok_or(CUT_SHORT)?;
    if first >> SECOND == 0 {
        return Ok((u16::from(first), after));
    }
    let (&second, after) = after.split_first().ok_or(CUT_SHORT)?;
    let map = u16::from_le_bytes([first, second]);
    if map >> MAP_BITS != 0 {
        return Err(UNKNOWN_MAP_BIT);
    }
    Ok((map, after))
}

/// The job that the header's numbers and a record's fields state, unchecked.
fn take_fields(layout: Layout, [w, f, operation]: [u64; 3], fields: &[u8]) -> Job {
    let mut fields = Fields {
        layout,
        left: fields,
    };
    let [a, b, c, carries] = [0, 1, 2, 3].map(|bit| {
        let [care, value] = fields.take_words(bit);
        Mask { care, value }
    });
    let mode = fields.take(MODE).first().copied().map_or(0, u64::from);
    let words = fields.take_words(WORDS);
    let dropped = fields.take_dropped();
    let bounds = [0, 1, 2].map(|place| fields.take_bounds(BOUNDS + place));
    let conditions = Conditions {
        w,
        f,
        operation,
        mode,
        a,
        b,
        c,
        carries,
        dropped,
        bounds,
    };
    Job { conditions, words }
}

/// Which fields a record has, by its map, and how many bytes a word has in it.
#[derive(Clone, Copy)]
struct Layout {
    map: u16,
    word_bytes: usize,
}

impl Layout {
    fn of(map: u16, w: u64, f: u64) -> Layout {
        Layout {
            map,
            word_bytes: word_bytes(w, f),
        }
    }

    /// The bytes of the field of a map bit; none where the bit does not stand.
    fn field_bytes(self, bit: usize) -> usize {
        match (self.map >> bit & 1, bit) {
            (0, _) | (_, SECOND) => 0,
            (_, MODE) => 1,
            (_, DROPPED) => 5,
            _ => 2 * self.word_bytes,
        }
    }

    /// The bytes of all fields.
    fn bytes(self) -> usize {
        (0..MAP_BITS).map(|bit| self.field_bytes(bit)).sum()
    }
}

/// The fields that are not yet taken, in bit order.
struct Fields<'a> {
    layout: Layout,
    left: &'a [u8],
}

impl<'a> Fields<'a> {
    /// The bytes of the field of a map bit; none where the bit does not stand.
    fn take(&mut self, bit: usize) -> &'a [u8] {
        let (field, left) = self.left.split_at(self.layout.field_bytes(bit));
        self.left = left;
        field
    }

    /// The two words of a field; both are 0 where its bit does not stand, which is the
    /// default of a mask and of the random words.
    fn take_words(&mut self, bit: usize) -> [u64; 2] {
        let field = self.take(bit);
        let (first, second) = field.split_at(field.len() / 2);
        [first, second].map(low_byte_first)
    }

    /// What is asked of the dropped bits, nothing where the bit does not stand.
    fn take_dropped(&mut self) -> Dropped {
        let Some((&g, mask)) = self.take(DROPPED).split_first() else {
            return Dropped::FREE;
        };
        let [care, value] = [&mask[..2], &mask[2..]].map(low_byte_first);
        Dropped {
            g: u64::from(g),
            mask: Mask { care, value },
        }
    }

    /// The bounds of a word, none where the bit does not stand.
    fn take_bounds(&mut self, bit: usize) -> Option<Bounds> {
        let is_stated = self.layout.map >> bit & 1 == 1;
        let [low, high] = self.take_words(bit);
        is_stated.then_some(Bounds { low, high })
    }
}

fn low_byte_first(bytes: &[u8]) -> u64 {
    bytes
        .iter()
        .rev()
        .fold(0, |word, &byte| word * 256 + u64::from(byte))
}

/// The map that announces exactly the fields that differ from their default, and a second byte
/// exactly where bounds are stated. A g beside a mask that fixes nothing is no field.
pub fn map_of(job: &Job) -> u16 {
    let [a, b, c, carries] = job.conditions.masks().map(|mask| mask != Mask::FREE);
    let mode = job.conditions.mode != 0;
    let words = job.words != [0, 0];
    let dropped = job.conditions.dropped.mask != Mask::FREE;
    let [of_a, of_b, of_c] = job.conditions.bounds.map(|bounds| bounds.is_some());
    let second = of_a || of_b || of_c;
    let stated = [
        a, b, c, carries, mode, words, dropped, second, of_a, of_b, of_c,
    ];
    (0..stated.len())
        .map(|bit| u16::from(stated[bit]) << bit)
        .sum()
}

/// Writes the record at the front of the buffer and returns its byte count. Refuses with 1 to 5,
/// 14 to 17, 6, 18, 11; a refusal leaves the buffer as it was.
pub fn write(job: &Job, buffer: &mut [u8]) -> Result<usize, Refusal> {
    let record = encode(job)?;
    let Some(place) = buffer.get_mut(..record.len()) else {
        return Err(BUFFER_TOO_SHORT);
    };
    place.copy_from_slice(&record);
    Ok(record.len())
}

/// The bytes of a job's record. Refuses with 1 to 5, 14 to 17, 6, 18.
pub fn encode(job: &Job) -> Result<Vec<u8>, Refusal> {
    job.check()?;
    Ok(unchecked(map_of(job), job))
}

/// The bytes of a job, good or not, in a record with any map; one that announces no second byte has
/// none. What does not fit into the bytes of a number or a word is cut off; of a checked job
/// nothing is. Bounds that are announced and not stated are zeros.
pub fn unchecked(map: u16, job: &Job) -> Vec<u8> {
    let [first, second] = map.to_le_bytes();
    let (map, mut record) = match first >> SECOND {
        0 => (u16::from(first), vec![first]),
        _ => (map, vec![first, second]),
    };
    let c = &job.conditions;
    let [w, f, operation, mode] = [c.w, c.f, c.operation, c.mode].map(|number| number as u8);
    let layout = Layout::of(map, u64::from(w), u64::from(f));
    record.extend([w, f, operation]);
    for (bit, mask) in c.masks().into_iter().enumerate() {
        put_words(&mut record, layout, bit, [mask.care, mask.value]);
    }
    put(&mut record, layout, MODE, &[mode]);
    put_words(&mut record, layout, WORDS, job.words);
    put(&mut record, layout, DROPPED, &dropped_bytes(&c.dropped));
    for (place, bounds) in c.bounds.into_iter().enumerate() {
        let words = bounds.map_or([0, 0], Bounds::words);
        put_words(&mut record, layout, BOUNDS + place, words);
    }
    record
}

/// The field of the dropped bits: g, care and value, each cut to its bytes.
pub fn dropped_bytes(Dropped { g, mask }: &Dropped) -> [u8; 5] {
    let [[care, care_high], [value, value_high]] =
        [mask.care, mask.value].map(|word| (word as u16).to_le_bytes());
    [*g as u8, care, care_high, value, value_high]
}

/// Adds a field where its bit stands in the map.
fn put(record: &mut Vec<u8>, layout: Layout, bit: usize, field: &[u8]) {
    record.extend_from_slice(&field[..layout.field_bytes(bit)]);
}

/// Adds a field of two words, each cut to the bytes of a word.
fn put_words(record: &mut Vec<u8>, layout: Layout, bit: usize, words: [u64; 2]) {
    let bytes = words.map(u64::to_le_bytes);
    let [first, second] = [0, 1].map(|i: usize| &bytes[i][..layout.word_bytes]);
    put(record, layout, bit, &[first, second].concat());
}

/// The jobs of a file up to its end or its first refusal, the number of that refusal, and
/// the rest, which is empty at the end.
pub fn read_file(file: &[u8]) -> (Vec<Job>, Option<Refusal>, &[u8]) {
    let mut jobs = Vec::new();
    let mut rest = file;
    loop {
        let (reply, after) = read(rest);
        rest = after;
        match reply {
            Reply::Job(job) => jobs.push(job),
            Reply::End => return (jobs, None, rest),
            Reply::Refused(number) => return (jobs, Some(number), rest),
        }
    }
}

/// The file of several jobs. Refuses with what the first bad job is refused with.
pub fn write_file(jobs: &[Job]) -> Result<Vec<u8>, Refusal> {
    let records: Result<Vec<_>, _> = jobs.iter().map(encode).collect();
    Ok(records?.concat())
}

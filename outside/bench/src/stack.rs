//! How many bytes of stack a reply takes. The memory below the caller is painted, and after the
//! call the lowest byte that has changed tells how deep it went.

use std::arch::asm;
use std::hint::black_box;

use second::random::Random;

use crate::jobs::{jobs, whole_jobs};
use crate::kinds::known;

/// How much is painted. A reply that took all of it would not be measured.
const PAINTED: usize = 1024 * 1024;
/// The stack of the thread that measures: what is painted, and room for its own calls above it.
const THREAD: usize = PAINTED + 256 * 1024;
const PAINT: u8 = 0xA5;

/// The formats that are measured.
pub const FORMATS: [(u64, u64); 2] = [(8, 23), (11, 52)];

/// The most bytes that a reply of one kind took in each of the formats.
pub struct Deepest {
    pub name: &'static str,
    pub bytes: [usize; FORMATS.len()],
}

/// What was measured: the cases, kind by kind, and the whole numbers.
pub struct Stacks {
    pub cases: Vec<Deepest>,
    pub whole: usize,
}

/// The call in a frame of its own, so that nothing of it lies in the frame that paints.
#[inline(never)]
fn apart<R>(call: impl FnOnce() -> R) -> R {
    black_box(call())
}

/// How far below this function's own frame a call writes.
#[inline(never)]
fn depth<R>(call: impl FnOnce() -> R) -> usize {
    let top: usize;
    // SAFETY: the stack pointer is read.
    unsafe {
        asm!("mov {}, rsp", out(reg) top, options(nomem, nostack, preserves_flags));
    }
    let bottom = top - PAINTED;
    // SAFETY: the thread's stack reaches below `bottom`, and a function that calls others keeps
    // nothing below its stack pointer.
    unsafe {
        asm!("rep stosb", inout("rcx") PAINTED => _, inout("rdi") bottom => _, in("al") PAINT,
             options(nostack));
    }
    black_box(apart(call));
    // The bytes after the lowest one that is no longer painted.
    let above: usize;
    // SAFETY: the bytes that were painted are read, whatever stands there now.
    unsafe {
        asm!("repe scasb", inout("rcx") PAINTED => above, inout("rdi") bottom => _, in("al") PAINT,
             options(nostack, readonly));
    }
    assert!(above + 1 < PAINTED, "more stack than is painted");
    above + 1
}

fn measured(seed: u64, count: usize) -> Stacks {
    let deepest = |(name, kind)| {
        let mut random = Random::new(seed);
        let bytes = FORMATS.map(|format| {
            let (drawn, _) = jobs(&mut random, format, kind, count);
            let depths = drawn
                .iter()
                .map(|job| depth(|| vindacsor::generate(&job.record)));
            depths.max().expect("some jobs")
        });
        Deepest { name, bytes }
    };
    let cases = known().map(deepest).collect();
    let whole = whole_jobs(&mut Random::new(seed), 8, true, count)
        .iter()
        .map(|job| depth(|| vindacsor::whole(job)))
        .max();
    Stacks {
        cases,
        whole: whole.expect("some jobs"),
    }
}

/// The most bytes of stack that a reply takes, on a thread that has enough.
pub fn stacks(seed: u64, count: usize) -> Stacks {
    let thread = std::thread::Builder::new().stack_size(THREAD);
    let done = thread
        .spawn(move || measured(seed, count))
        .expect("a thread");
    done.join().expect("no panic")
}

#[cfg(test)]
mod tests {
    use super::*;

    /// A call that writes so many bytes, a page at a time.
    #[inline(never)]
    fn written(pages: usize) -> u8 {
        let page = black_box([1_u8; 4096]);
        if pages > 1 {
            written(pages - 1)
        } else {
            page[black_box(7)]
        }
    }

    #[test]
    fn a_deeper_call_takes_more() {
        let test = || [3, 6].map(|pages| depth(|| written(pages)));
        let thread = std::thread::Builder::new().stack_size(THREAD);
        let [few, more] = thread
            .spawn(test)
            .expect("a thread")
            .join()
            .expect("no panic");
        assert!((3 * 4096..16 * 4096).contains(&few), "{few}");
        assert!(more >= few + 3 * 4096, "{few} {more}");
    }
}

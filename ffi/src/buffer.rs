//! The library's functions as they are: each returns the number of the refusal, 0 for none, and
//! writes the numbers of its answer into a lent buffer, eight bytes each, low byte first. On
//! every refusal the buffer is as it was, and otherwise the bytes after the answer are.
//!
//! These wrap the declarations that no tool checks against the library's source. The functions
//! take any numbers and any bytes, so a call is safe where the pointers and lengths are those of
//! slices.

use crate::{Mask, WholeJob};

mod declared {
    extern "C" {
        pub fn vindacsor_result(
            w: u64,
            f: u64,
            operation: u64,
            mode: u64,
            a: u64,
            b: u64,
            out: *mut u8,
            out_length: usize,
        ) -> u64;
        pub fn vindacsor_row(
            w: u64,
            f: u64,
            operation: u64,
            a: u64,
            b: u64,
            out: *mut u8,
            out_length: usize,
        ) -> u64;
        pub fn vindacsor_join(
            care: u64,
            value: u64,
            care2: u64,
            value2: u64,
            out: *mut u8,
            out_length: usize,
        ) -> u64;
        pub fn vindacsor_read(
            file: *const u8,
            file_length: usize,
            out: *mut u8,
            out_length: usize,
        ) -> u64;
        pub fn vindacsor_confirm(
            file: *const u8,
            file_length: usize,
            a: u64,
            b: u64,
            c: u64,
            out: *mut u8,
            out_length: usize,
        ) -> u64;
        pub fn vindacsor_generate(
            file: *const u8,
            file_length: usize,
            out: *mut u8,
            out_length: usize,
        ) -> u64;
        pub fn vindacsor_whole(
            length: u64,
            x_care: u64,
            x_value: u64,
            y_care: u64,
            y_value: u64,
            z_care: u64,
            z_value: u64,
            carries_care: u64,
            carries_value: u64,
            r1: u64,
            r2: u64,
            r3: u64,
            out: *mut u8,
            out_length: usize,
        ) -> u64;
    }
}

/// The rounded result. Answer: c. Refusals: 1, 2, 3, 4, 6, 11.
pub fn result(w: u64, f: u64, operation: u64, mode: u64, a: u64, b: u64, out: &mut [u8]) -> u64 {
    let (start, length) = (out.as_mut_ptr(), out.len());
    unsafe { declared::vindacsor_result(w, f, operation, mode, a, b, start, length) }
}

/// The carry row. Answer: 1 and the row, or 0 and 0. Refusals: 1, 2, 3, 6, 11.
pub fn row(w: u64, f: u64, operation: u64, a: u64, b: u64, out: &mut [u8]) -> u64 {
    let (start, length) = (out.as_mut_ptr(), out.len());
    unsafe { declared::vindacsor_row(w, f, operation, a, b, start, length) }
}

/// Joining. Answer: care, value. Refusals: 5 for either mask, 13, 11.
pub fn join(one: Mask, other: Mask, out: &mut [u8]) -> u64 {
    let (start, length) = (out.as_mut_ptr(), out.len());
    unsafe { declared::vindacsor_join(one.care, one.value, other.care, other.value, start, length) }
}

/// What stands first in a job file. Answer: the record's length, 0 at the end. Refusals: 9, 8,
/// 1 to 5, 14, 15, 16, 17, 6, 18, 10, 11.
pub fn read(file: &[u8], out: &mut [u8]) -> u64 {
    let (start, length) = (out.as_mut_ptr(), out.len());
    unsafe { declared::vindacsor_read(file.as_ptr(), file.len(), start, length) }
}

/// Whether a case fits the job that stands first in a file. Answer: 1 or 0. Refusals: those of
/// reading, 8 also for no byte at all, then 6, 11.
pub fn confirm(file: &[u8], a: u64, b: u64, c: u64, out: &mut [u8]) -> u64 {
    let (start, length) = (out.as_mut_ptr(), out.len());
    unsafe { declared::vindacsor_confirm(file.as_ptr(), file.len(), a, b, c, start, length) }
}

/// The case for the job that stands first in a file. Answer: a, b, c, then 1 and the row, or 0
/// and 0. Refusals: those of reading, 8 also for no byte at all, then 7, 11.
pub fn generate(file: &[u8], out: &mut [u8]) -> u64 {
    let (start, length) = (out.as_mut_ptr(), out.len());
    unsafe { declared::vindacsor_generate(file.as_ptr(), file.len(), start, length) }
}

/// The whole-number case. Answer: x, y, z, carries. Refusals: 12, 5, 14, 15, 16, 6, 7, 11.
pub fn whole(job: &WholeJob, out: &mut [u8]) -> u64 {
    let (start, length) = (out.as_mut_ptr(), out.len());
    let [r1, r2, r3] = job.words;
    unsafe {
        declared::vindacsor_whole(
            job.length,
            job.x.care,
            job.x.value,
            job.y.care,
            job.y.value,
            job.z.care,
            job.z.value,
            job.carries.care,
            job.carries.value,
            r1,
            r2,
            r3,
            start,
            length,
        )
    }
}

//! Keeps the process on one CPU, so that caches and clock stay those of one core.

use std::mem::size_of_val;

const WORDS: usize = 16;

extern "C" {
    fn sched_getaffinity(process: i32, size: usize, mask: *mut u64) -> i32;
    fn sched_setaffinity(process: i32, size: usize, mask: *const u64) -> i32;
}

/// The last CPU that is allowed, and the process is on it from now; `None` where that fails.
pub fn pin() -> Option<usize> {
    let mut allowed = [0u64; WORDS];
    let size = size_of_val(&allowed);
    // SAFETY: the mask is good for its size, and 0 is this process.
    let known = unsafe { sched_getaffinity(0, size, allowed.as_mut_ptr()) } == 0;
    let is_allowed = |cpu: &usize| allowed[cpu / 64] >> (cpu % 64) & 1 == 1;
    let cpu = (0..WORDS * 64).rev().find(is_allowed).filter(|_| known)?;
    let mut one = [0u64; WORDS];
    one[cpu / 64] = 1 << (cpu % 64);
    // SAFETY: as above.
    let pinned = unsafe { sched_setaffinity(0, size, one.as_ptr()) } == 0;
    pinned.then_some(cpu)
}

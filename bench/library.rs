//! Runs of the static library of `bforest_bench`, which is proved: on maps and sets of `bforest`, and of the toolchain's standard library.

use crate::runs::Work;
use std::time::{Duration, Instant};

// Nothing is passed for the parameter `alloc` of this function: a `Global` takes no bytes.
unsafe extern "C" {
    fn bench_run(kind: u32, size: u32, looks: u32, walks: u32, turns: u32, is_std: bool) -> u64;
}

/// Makes a run on maps and sets of `bforest`, or of the toolchain. The time includes the drop, which frees one table. Inlined like the
/// runs of the other sides: a call in their midst moves values of their loops to memory.
#[inline(always)]
pub fn run(work: Work, is_toolchain: bool) -> (u64, Duration) {
    let start = Instant::now();
    let Work { kind, size, looks, walks, turns } = work;
    // SAFETY: numbers alone are passed, and the program's `malloc`, `realloc` and `free` are the C library's.
    let sum = unsafe { bench_run(kind as u32, size, looks, walks, turns, is_toolchain) };
    (sum, start.elapsed())
}

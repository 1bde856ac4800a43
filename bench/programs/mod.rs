//! Whole programs, as a good user of each side would write them. A program has an input, a trait of what it does with its maps and sets,
//! and a module for each side. The package has them as tests, without the module of the Rust original.

pub mod liveness;
pub mod marks;
pub mod matching;
mod random;
pub mod registers;

use std::time::{Duration, Instant};

/// The sum of the checksums of so many rounds, and their time.
pub fn timed_rounds(rounds: u32, round: impl Fn() -> u64) -> (u64, Duration) {
    let start = Instant::now();
    let sum = (0..rounds).fold(0, |sum: u64, _| sum.wrapping_add(round()));
    (sum, start.elapsed())
}

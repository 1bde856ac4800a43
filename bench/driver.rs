//! `driver SIDE KIND NUMBER.. [REPEATS]` makes a run, and prints its checksum and the most memory that the process held; or, with REPEATS,
//! makes it so often in a row, and prints its checksum and its average time. `bench/run` chooses runs, and makes tables of them.
//!
//! There are four drivers of this text, since what one kind of runs calls changes how the compiler inlines the calls of another: for whole
//! runs (the numbers are those of a `Work`), by `--cfg calls` for single calls (a `Job`), by `--cfg whole` for calls on whole maps and sets (a
//! `Pairing`), and by `--cfg programs` for programs (the size of the input and the rounds).

#![allow(dead_code, reason = "each of the drivers makes one kind of runs")]

#[cfg(library)]
mod library;
#[cfg(original)]
mod original;
mod others;
#[cfg(package)]
mod package;
mod programs;
mod runs;
mod sides;
mod standard;
mod uses;
mod whole;

use std::time::Duration;

// The most memory that this process has held, in bytes.
fn most_memory() -> Option<u64> {
    let status = std::fs::read_to_string("/proc/self/status").ok()?;
    let most = status.lines().find_map(|line| line.strip_prefix("VmHWM:"))?;
    Some(most.trim().trim_end_matches(" kB").parse::<u64>().ok()? * 1024)
}

// A run, which the flag tells to keep its maps.
type Run<'a> = Box<dyn Fn(bool) -> Option<(u64, Duration)> + 'a>;

// The run of these words on a side, and the numbers behind its own.
#[cfg(not(any(calls, whole, programs)))]
fn named<'a>(side: &'a str, kind: &str, numbers: &'a [u32]) -> Option<(Run<'a>, &'a [u32])> {
    let [size, looks, walks, turns, repeats @ ..] = numbers else { return None };
    let work = runs::Work { kind: runs::Kind::named(kind)?, size: *size, looks: *looks, walks: *walks, turns: *turns };
    Some((Box::new(move |is_kept| sides::run(side, work, is_kept)), repeats))
}

#[cfg(calls)]
fn named<'a>(side: &'a str, kind: &str, numbers: &'a [u32]) -> Option<(Run<'a>, &'a [u32])> {
    let [maps, entries, rounds, repeats @ ..] = numbers else { return None };
    let job = uses::Job { what: uses::Use::named(kind)?, maps: *maps, entries: *entries, rounds: *rounds };
    Some((Box::new(move |is_kept| sides::run_use(side, job, is_kept)), repeats))
}

#[cfg(whole)]
fn named<'a>(side: &'a str, kind: &str, numbers: &'a [u32]) -> Option<(Run<'a>, &'a [u32])> {
    let [pairs, entries, rounds, repeats @ ..] = numbers else { return None };
    let work = whole::Pairing { what: whole::Call::named(kind)?, pairs: *pairs, entries: *entries, rounds: *rounds };
    Some((Box::new(move |is_kept| sides::run_call(side, work, is_kept)), repeats))
}

#[cfg(programs)]
fn named<'a>(side: &'a str, program: &'a str, numbers: &'a [u32]) -> Option<(Run<'a>, &'a [u32])> {
    let [size, rounds, repeats @ ..] = numbers else { return None };
    Some((Box::new(move |_| sides::run_program(side, program, *size, *rounds)), repeats))
}

// Makes the run of these words, and prints what it tells.
fn tell(words: &[String]) -> Option<()> {
    let [side, kind, numbers @ ..] = words else { return None };
    let numbers: Vec<u32> = numbers.iter().map(|word| word.parse().ok()).collect::<Option<_>>()?;
    let (run, repeats) = named(side, kind, &numbers)?;
    let Some(repeats) = repeats.first() else {
        println!("sum {}\nmemory {}", run(true)?.0, most_memory()?);
        return Some(());
    };
    let (mut sum, mut whole) = (0, Duration::ZERO);
    for _ in 0..*repeats {
        let (found, time) = run(false)?;
        (sum, whole) = (found, whole + time);
    }
    println!("sum {sum}\nnanoseconds {}", whole.as_nanos() as f64 / f64::from(*repeats));
    Some(())
}

fn main() {
    let words: Vec<String> = std::env::args().skip(1).collect();
    if tell(&words).is_none() {
        eprintln!("usage: driver SIDE KIND NUMBER.. [REPEATS]");
        std::process::exit(2);
    }
}

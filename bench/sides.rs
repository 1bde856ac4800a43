//! The sides of the benchmark, by their names.

#[cfg(library)]
use crate::library;
#[cfg(original)]
use crate::original::{OriginalMaps, OriginalSets, OriginalSide};
use crate::others::{OneMap, Vecs};
#[cfg(package)]
use crate::package::{PackageMaps, PackageSets, PackageSide};
use crate::programs::{liveness, marks, matching, registers, timed_rounds};
use crate::runs::{run_on, run_small, Work};
use crate::standard::{StdMaps, StdSets, StdSide};
use crate::uses::{use_on, Job};
use crate::whole::{call_on, Pairing};
use std::hint::black_box;
use std::time::Duration;

/// Makes a run of a side, named as in a table, and returns its checksum and its time.
#[inline(never)]
pub fn run(side: &str, work: Work, is_kept: bool) -> Option<(u64, Duration)> {
    Some(match side {
        #[cfg(library)]
        "bforest" => library::run(black_box(work), false),
        #[cfg(package)]
        "package" => run_on::<PackageMaps, PackageSets>(black_box(work), is_kept),
        "BTreeMap" => run_on::<StdMaps, StdSets>(black_box(work), is_kept),
        #[cfg(original)]
        "original" => run_on::<OriginalMaps, OriginalSets>(black_box(work), is_kept),
        "Vec" => run_small::<Vecs<u32>, Vecs<()>>(black_box(work), is_kept),
        "one-map" => run_small::<OneMap<u32>, OneMap<()>>(black_box(work), is_kept),
        // Maps and sets of the toolchain's standard library, which are proved too.
        #[cfg(library)]
        "toolchain" => library::run(black_box(work), true),
        _ => return None,
    })
}

/// Makes a run of single calls on a side, named as in a table, and returns its checksum and its time. The static library has none.
#[inline(never)]
pub fn run_use(side: &str, job: Job, is_kept: bool) -> Option<(u64, Duration)> {
    Some(match side {
        #[cfg(package)]
        "package" => use_on::<PackageSide>(black_box(job), is_kept),
        "BTreeMap" => use_on::<StdSide>(black_box(job), is_kept),
        #[cfg(original)]
        "original" => use_on::<OriginalSide>(black_box(job), is_kept),
        _ => return None,
    })
}

/// Makes a run of calls on whole maps and sets of a side, as `run_use` does.
#[inline(never)]
pub fn run_call(side: &str, work: Pairing, is_kept: bool) -> Option<(u64, Duration)> {
    Some(match side {
        #[cfg(package)]
        "package" => call_on::<PackageMaps, PackageSets>(black_box(work), is_kept),
        "BTreeMap" => call_on::<StdMaps, StdSets>(black_box(work), is_kept),
        #[cfg(original)]
        "original" => call_on::<OriginalMaps, OriginalSets>(black_box(work), is_kept),
        _ => return None,
    })
}

// Makes so many rounds of a program over its input, on the side whose module is named.
macro_rules! rounds_of {
    ($program:ident, $side:expr, $size:expr, $rounds:expr, $maps:ident) => {{
        let input = $program::input($size);
        Some(match $side {
            #[cfg(package)]
            "package" => timed_rounds($rounds, || $program::run::<$program::package::$maps>(black_box(&input))),
            "BTreeMap" => timed_rounds($rounds, || $program::run::<$program::standard::$maps>(black_box(&input))),
            #[cfg(original)]
            "original" => timed_rounds($rounds, || $program::run::<$program::original::$maps>(black_box(&input))),
            _ => return None,
        })
    }};
}

/// Makes so many rounds of a program, on an input of this size, and returns their checksum and their time, without that of the input.
#[inline(never)]
pub fn run_program(side: &str, program: &str, size: u32, rounds: u32) -> Option<(u64, Duration)> {
    match program {
        "liveness" => rounds_of!(liveness, side, size, rounds, Live),
        "registers" => rounds_of!(registers, side, size, rounds, Registers),
        "matching" => rounds_of!(matching, side, size, rounds, Levels),
        "marks" => rounds_of!(marks, side, size, rounds, ByPosition),
        _ => None,
    }
}

/// Maps or sets of a side, and the forest that they lie in.
pub struct Held<F, M> {
    pub forest: F,
    pub maps: M,
}

/// Implements `Many` for maps with values `$value` in a forest `$new`: what each call does with the forest and with the map that it names, and which
/// numbers a walk adds to its checksum.
macro_rules! many {
    ($held:ty, $value:ty, $new:expr, $(where $v:ident: $bound:path,)?
     |$forest:pat_param, $map:ident, $key:ident, $given:pat_param|
     insert => $insert:expr, get => $get:expr, remove => $remove:expr, clear => $clear:expr, walk => $numbers:expr $(,)?) => {
        impl$(<$v: $bound>)? $crate::runs::Many<$value> for $held {
            fn new(count: u32) -> Self {
                $crate::sides::Held { forest: $new, maps: (0..count).map(|_| Default::default()).collect() }
            }

            fn insert(&mut self, map: u32, $key: u32, $given: $value) -> Option<$value> {
                let ($map, $forest) = (self.maps.get_mut(map as usize)?, &mut self.forest);
                $insert
            }

            fn get(&self, map: u32, $key: u32) -> Option<$value> {
                let ($map, $forest) = (self.maps.get(map as usize)?, &self.forest);
                $get
            }

            fn remove(&mut self, map: u32, $key: u32) -> Option<$value> {
                let ($map, $forest) = (self.maps.get_mut(map as usize)?, &mut self.forest);
                $remove
            }

            fn clear(&mut self, map: u32) {
                if let (Some($map), $forest) = (self.maps.get_mut(map as usize), &mut self.forest) {
                    $clear
                }
            }

            fn walk(&self, map: u32, sum: u64) -> u64 {
                let (Some($map), $forest) = (self.maps.get(map as usize), &self.forest) else { return sum };
                $numbers.fold(sum, $crate::runs::added)
            }
        }
    };
}
pub(crate) use many;

//! Runs of equal work on many maps, on many sets, and on live ranges, of any side.

use std::hint::black_box;
use std::time::{Duration, Instant};

/// The subject of a run, in the order of `Kind` of `bforest_workloads_bench`: a kind is handed over by its number.
#[derive(Clone, Copy, Debug, PartialEq)]
pub enum Kind {
    Mixture,         // many small maps
    Indexed,         // the maps of `Mixture`, by an index
    Random,          // one map, whose keys are inserted in no order
    Ascending,       // one map, whose keys are inserted in ascending order
    RandomCursor,    // the map of `Random`, read by cursors
    AscendingCursor, // the map of `Ascending`, read by cursors
    Edges,           // a map of predecessors for each block of a control flow graph
    EdgesCursor,     // the maps of `Edges`, read by cursors
    SetMixture,      // many small sets
    RandomSet,       // one set, whose keys are inserted in no order
    AscendingSet,    // one set, whose keys are inserted in ascending order
    Ranges,          // live ranges in one map
}

impl Kind {
    /// The kind of this name.
    pub fn named(name: &str) -> Option<Kind> {
        use Kind::*;
        let maps = [Mixture, Indexed, Random, Ascending, RandomCursor, AscendingCursor, Edges, EdgesCursor];
        let others = [SetMixture, RandomSet, AscendingSet, Ranges];
        maps.into_iter().chain(others).find(|kind| format!("{kind:?}") == name)
    }
}

/// A whole run, on `size` maps, sets, entries, blocks or ranges. First a phase fills them; then there are `looks` rounds of lookups, `walks` rounds
/// that read all, or spans of ranges, and `turns` rounds of changes: the maps or sets of a mixture are cleared, a large map is emptied, edges are
/// redirected, a large set is edited by cursors, and ranges are inserted between ranges. For a map that is read by cursors, `turns` counts the
/// rounds that read from its last entry back.
#[derive(Clone, Copy)]
pub struct Work {
    pub kind: Kind,
    pub size: u32,
    pub looks: u32,
    pub walks: u32,
    pub turns: u32,
}

/// A generator of numbers, equal to that of `bforest_workloads_bench`.
pub struct Random(pub u64);

impl Random {
    pub fn below(&mut self, bound: u32) -> u32 {
        let mut x = self.0;
        x ^= x << 13;
        x ^= x >> 7;
        x ^= x << 17;
        self.0 = x;
        ((x >> 32) as u32).checked_rem(bound).unwrap_or(0)
    }
}

/// The key at an index of a large map or set.
pub fn key_at(index: u32, is_mixed: bool) -> u32 {
    if !is_mixed {
        return index;
    }
    let mut x = index;
    x ^= x >> 16;
    x = x.wrapping_mul(0x85eb_ca6b);
    x ^= x >> 13;
    x = x.wrapping_mul(0xc2b2_ae35);
    x ^ (x >> 16)
}

pub fn added(sum: u64, x: u32) -> u64 {
    sum.wrapping_mul(31).wrapping_add(x as u64)
}

/// The value of a map's entry, or the unit of a set's.
pub trait Value: Copy {
    fn new(number: u32) -> Self;
    /// What a run adds to its checksum for an entry.
    fn number(self, key: u32) -> u32;
    /// What a run adds for the value that a call found, if it found one. For an insertion into a set it is whether the key is new.
    fn told(found: Option<Self>, is_insertion: bool) -> u32;
}

impl Value for u32 {
    fn new(number: u32) -> u32 {
        number
    }

    fn number(self, key: u32) -> u32 {
        key ^ self
    }

    fn told(found: Option<u32>, _is_insertion: bool) -> u32 {
        found.unwrap_or(7)
    }
}

impl Value for () {
    fn new(_number: u32) {}

    fn number(self, key: u32) -> u32 {
        key
    }

    fn told(found: Option<()>, is_insertion: bool) -> u32 {
        u32::from(found.is_some() != is_insertion)
    }
}

/// Many maps, named by their numbers. A set is a map to `()`.
pub trait Many<V> {
    fn new(count: u32) -> Self;
    fn insert(&mut self, map: u32, key: u32, value: V) -> Option<V>;
    fn get(&self, map: u32, key: u32) -> Option<V>;
    fn remove(&mut self, map: u32, key: u32) -> Option<V>;
    /// Empties a map, and gives its memory back.
    fn clear(&mut self, map: u32);
    /// Adds all entries of a map to a checksum.
    fn walk(&self, map: u32, sum: u64) -> u64;
}

/// Maps that are read by a cursor. Each of these calls adds all entries of a map to a checksum.
pub trait Maps: Many<u32> {
    /// From the first entry on.
    fn read_on(&self, map: u32, sum: u64) -> u64;
    /// From the last entry back.
    fn read_back(&self, map: u32, sum: u64) -> u64;
}

/// Sets that are edited by a cursor.
pub trait Sets: Many<()> {
    /// Inserts `EDITED` keys beside one another, removes as many from the first on, and counts both.
    fn edit(&mut self, set: u32, first: u32) -> u32;
}

pub const EDITED: u32 = 5;

/// Ranges by the point where each begins, in the first of the maps.
pub trait Ranges: Maps {
    /// Inserts ranges, in order, and counts the new ones.
    fn put(&mut self, entries: &[(u32, u32)]) -> u32;
    /// The end of the last range that begins at a point or before.
    fn end_at(&self, point: u32) -> Option<u32>;
    /// The first and the last range that begin within these points.
    fn ends(&self, from: u32, to: u32) -> [Option<(u32, u32)>; 2];
}

// Adds to `$sum` what so many rounds tell.
macro_rules! rounds {
    ($sum:ident, $count:expr, |$at:pat_param| $told:expr) => {
        for $at in 0..$count {
            $sum = $sum.wrapping_add($told);
        }
    };
}

// The checksum of what so many calls tell.
macro_rules! checksum {
    ($count:expr, |$at:pat_param| $told:expr) => {{
        let mut sum = 0u64;
        for $at in 0..$count {
            sum = added(sum, $told);
        }
        sum
    }};
}

fn mixture<V: Value, M: Many<V>>(maps: &mut M, work: Work) -> u64 {
    let (count, calls) = (work.size, work.size.saturating_mul(30));
    let mut random = Random(88172645463325252);
    let mut sum = checksum!(calls, |_| {
        let (map, key, choice) = (random.below(count), random.below(20), random.below(4));
        match choice {
            0 | 1 => V::told(maps.insert(map, key, V::new(choice)), true),
            2 => V::told(maps.get(map, key), false),
            _ => V::told(maps.remove(map, key), false),
        }
    });
    rounds!(sum, work.looks, |_| {
        let mut random = Random(12345);
        checksum!(calls, |_| V::told(maps.get(random.below(count), random.below(20)), false))
    });
    rounds!(sum, work.walks, |_| (0..count).fold(0, |sum, map| maps.walk(map, sum)));
    if work.turns > 0 {
        for map in 0..count {
            maps.clear(map);
        }
    }
    sum
}

// Fills a large map or set, and looks its keys up.
fn filled<V: Value, M: Many<V>>(maps: &mut M, work: Work, is_mixed: bool) -> u64 {
    let mut sum = 0u64;
    rounds!(sum, work.size, |index| u64::from(maps.insert(0, key_at(index, is_mixed), V::new(index)).is_some()));
    rounds!(sum, work.looks, |_| {
        let mut random = Random(99);
        checksum!(work.size, |count| {
            let index = if is_mixed { random.below(work.size) } else { count };
            V::told(maps.get(0, key_at(index, is_mixed)), false)
        })
    });
    sum
}

fn large<M: Maps>(maps: &mut M, work: Work, is_mixed: bool) -> u64 {
    let mut sum = filled(maps, work, is_mixed);
    rounds!(sum, work.walks, |_| maps.walk(0, 0));
    if work.turns > 0 {
        sum = sum.wrapping_add(checksum!(work.size, |index| maps.remove(0, key_at(index, is_mixed)).unwrap_or(7)));
    }
    sum
}

// A large map, read by a cursor from the first entry on and from the last one back. A checksum that starts at 1 counts a first entry of zeros too.
fn large_cursor<M: Maps>(maps: &mut M, work: Work, is_mixed: bool) -> u64 {
    let mut sum = filled(maps, work, is_mixed);
    rounds!(sum, work.walks, |_| maps.read_on(0, 1));
    rounds!(sum, work.turns, |_| maps.read_back(0, 1));
    sum
}

fn large_set<S: Sets>(sets: &mut S, work: Work, is_mixed: bool) -> u64 {
    let mut sum = filled(sets, work, is_mixed);
    rounds!(sum, work.walks, |_| sets.walk(0, 0));
    rounds!(sum, work.turns, |_| {
        let mut random = Random(3141);
        checksum!(work.size / 10, |_| sets.edit(0, key_at(random.below(work.size), is_mixed)))
    });
    sum
}

fn edges<M: Maps>(maps: &mut M, work: Work) -> u64 {
    let blocks = work.size;
    let start = || Random(2718281828);
    let edge = |block: u32, count: u32| block.wrapping_mul(4).wrapping_add(count);
    let behind = |block: u32, count: u32| block.wrapping_add(count) % blocks;
    let mut random = start();
    for block in 0..blocks {
        for count in 0..=random.below(4) {
            maps.insert(random.below(blocks), edge(block, count), block);
        }
    }
    let mut sum = 0u64;
    rounds!(sum, work.walks, |_| (0..blocks).fold(0, |sum, map| maps.walk(map, sum)));
    rounds!(sum, work.turns, |turn| {
        let (mut random, mut round) = (start(), 0);
        for block in 0..blocks {
            for count in 0..=random.below(4) {
                let first = random.below(blocks);
                let found = maps.remove(behind(first, turn), edge(block, count));
                maps.insert(behind(first, turn + 1), edge(block, count), block);
                round = added(round, found.unwrap_or(7));
            }
        }
        round
    });
    sum
}

// The maps of `edges`, read by cursors.
fn edges_cursor<M: Maps>(maps: &mut M, work: Work) -> u64 {
    let mut sum = edges(maps, Work { walks: 0, turns: 0, ..work });
    rounds!(sum, work.walks, |_| (0..work.size).fold(1, |sum, map| maps.read_on(map, sum)));
    sum
}

// The number of ranges that one cursor inserts, and the number of points from the beginning of one to that of the next.
const BATCH: u32 = 8;
const STEP: u32 = 4;

// Inserts `size` ranges, batch by batch, each `offset` points behind the beginning of a step.
fn put_all<R: Ranges>(ranges: &mut R, size: u32, offset: u32) -> u64 {
    let range = |index: u32| {
        let point = index.wrapping_mul(STEP).wrapping_add(offset);
        (point, point.wrapping_add(STEP - 1))
    };
    (0..size / BATCH).fold(0, |sum, batch| {
        let entries: [(u32, u32); BATCH as usize] = std::array::from_fn(|at| range(batch * BATCH + at as u32));
        added(sum, ranges.put(&entries))
    })
}

fn live_ranges<R: Ranges>(ranges: &mut R, work: Work) -> u64 {
    let mut sum = put_all(ranges, work.size, 0);
    rounds!(sum, work.looks, |_| {
        let mut random = Random(99);
        checksum!(work.size, |_| ranges.end_at(random.below(work.size.wrapping_mul(STEP))).unwrap_or(7))
    });
    rounds!(sum, work.walks, |_| {
        let (mut random, mut round) = (Random(4711), 0);
        for _ in 0..work.size {
            let from = random.below(work.size.wrapping_mul(STEP));
            let found = ranges.ends(from, from.saturating_add(BATCH * STEP));
            for entry in found.map(|entry| entry.unwrap_or((7, 7))) {
                round = added(round, entry.0 ^ entry.1);
            }
        }
        round
    });
    if work.turns > 0 {
        sum = sum.wrapping_add(put_all(ranges, work.size, STEP / 2));
    }
    sum
}

/// Makes a run on the value of `new`, which is dropped after the time is taken. Where `is_kept`, it is not dropped at all.
pub fn timed<M>(new: impl FnOnce() -> M, run: impl FnOnce(&mut M) -> u64, is_kept: bool) -> (u64, Duration) {
    let start = Instant::now();
    let mut made = new();
    let sum = run(&mut made);
    let time = start.elapsed();
    if is_kept {
        std::mem::forget(black_box(made));
    }
    (sum, time)
}

/// Makes a run on maps, sets and ranges of one side.
pub fn run_on<M: Ranges, S: Sets>(work: Work, is_kept: bool) -> (u64, Duration) {
    match work.kind {
        Kind::Random => timed(|| M::new(1), |maps| large(maps, work, true), is_kept),
        Kind::Ascending => timed(|| M::new(1), |maps| large(maps, work, false), is_kept),
        Kind::RandomCursor => timed(|| M::new(1), |maps| large_cursor(maps, work, true), is_kept),
        Kind::AscendingCursor => timed(|| M::new(1), |maps| large_cursor(maps, work, false), is_kept),
        Kind::RandomSet => timed(|| S::new(1), |sets| large_set(sets, work, true), is_kept),
        Kind::AscendingSet => timed(|| S::new(1), |sets| large_set(sets, work, false), is_kept),
        Kind::Ranges => timed(|| M::new(1), |ranges| live_ranges(ranges, work), is_kept),
        _ => run_small::<M, S>(work, is_kept),
    }
}

/// Makes a run on many small maps or sets of one side.
#[inline(always)]
pub fn run_small<M: Maps, S: Many<()>>(work: Work, is_kept: bool) -> (u64, Duration) {
    let size = work.size;
    match work.kind {
        Kind::Mixture | Kind::Indexed => timed(|| M::new(size), |maps| mixture(maps, work), is_kept),
        Kind::Edges => timed(|| M::new(size), |maps| edges(maps, work), is_kept),
        Kind::EdgesCursor => timed(|| M::new(size), |maps| edges_cursor(maps, work), is_kept),
        Kind::SetMixture => timed(|| S::new(size), |sets| mixture(sets, work), is_kept),
        kind => panic!("{kind:?} is no run on many small maps or sets"),
    }
}

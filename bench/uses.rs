//! Runs of single calls, as programs make them: on many maps of equal size, with one call on each map in turn. What a side does in these
//! traits is not inlined into the loop: in a program a call stands among others, in a function that makes it once.

use crate::runs::{added, key_at, timed, Many, Random};
use std::time::Duration;

/// What a run does with its maps.
#[derive(Clone, Copy, Debug, PartialEq)]
pub enum Use {
    Load,       // entries in ascending order, all known before
    Fill,       // entries in no order, and the maps then as they are
    Get,        // a look-up
    Walk,       // an iteration
    Remove,     // all entries, in the order in which they came
    Update,     // one is added to a value in its place
    Lend,       // the same, through a reference
    Entry,      // an entry, made where its key is absent
    First,      // the first entry of a range from a key on
    Three,      // the first three of such a range
    AtOrAfter,  // the first entry whose key is not less
    Back,       // a range of all, from its end
    Copied,     // a second map of the same entries, which is read once and dropped
    Reads,      // nine look-ups in ten calls, the tenth an insertion or a removal
    FillWide,   // as `Fill`, with keys of 16 bytes and values of 24
    GetWide,    // as `Get`, on these maps
    FillRanked, // as `Fill`, in an order that looks two tables up, where there is a round
    GetRanked,  // as `Get`, on these maps
    Forests,    // maps that are filled in ascending order and dropped, all at once
}

use Use::*;

impl Use {
    /// The use of this name.
    pub fn named(name: &str) -> Option<Use> {
        let single = [Load, Fill, Get, Walk, Remove, Update, Lend, Entry, First, Three, AtOrAfter, Back, Copied, Reads];
        let others = [FillWide, GetWide, FillRanked, GetRanked, Forests];
        single.into_iter().chain(others).find(|it| format!("{it:?}") == name)
    }
}

/// A whole run: `maps` maps, filled with `entries` entries each, and then so many rounds of the use. `Forests` fills nothing before: each
/// of its maps stands for `FUNCTION` maps that are made and dropped together.
#[derive(Clone, Copy)]
pub struct Job {
    pub what: Use,
    pub maps: u32,
    pub entries: u32,
    pub rounds: u32,
}

/// How many maps a function of a compiler needs, which are dropped at its end.
pub const FUNCTION: u32 = 20;

impl Job {
    // The key of an entry of a map. Indices from `entries` on are of keys that no map has.
    fn key(self, map: u32, index: u32) -> u32 {
        key_at(2 * self.entries * map + index, true)
    }
}

/// Maps with the calls that programs make.
pub trait Uses: Many<u32> {
    /// Inserts entries, whose keys ascend, into an empty map.
    fn load(&mut self, map: u32, entries: &[(u32, u32)]);
    /// Adds one to the value of a key.
    fn update(&mut self, map: u32, key: u32);
    /// The same, through a reference to the value, where there is a call that lends one.
    fn lend(&mut self, map: u32, key: u32) {
        self.update(map, key);
    }
    /// The value of a key, which is inserted with `value` where it is absent.
    fn entry(&mut self, map: u32, key: u32, value: u32) -> u32;
    /// The first entry of the range from a key on.
    fn first_of(&self, map: u32, key: u32) -> Option<(u32, u32)>;
    /// Adds the first three entries of the range from a key on to a checksum.
    fn three_of(&self, map: u32, key: u32, sum: u64) -> u64;
    /// The first entry whose key is not less.
    fn at_or_after(&self, map: u32, key: u32) -> Option<(u32, u32)>;
    /// Adds all entries to a checksum, the last first.
    fn walk_back(&self, map: u32, sum: u64) -> u64;
    /// Makes a second map of the same entries, and drops it. Returns its last entry.
    fn copied(&mut self, map: u32) -> Option<(u32, u32)>;
}

pub type WideKey = (u64, u64);
pub type WideValue = [u64; 3];

/// Maps with wide keys and values.
pub trait WideMaps {
    fn new(count: u32) -> Self;
    fn insert(&mut self, map: u32, key: WideKey, value: WideValue);
    fn get(&self, map: u32, key: WideKey) -> Option<WideValue>;
}

/// The order of instructions: first by the block of each, then by its place there.
pub struct Layout {
    pub block: Vec<u32>,
    pub place: Vec<u32>,
}

/// Maps whose keys are instructions, in the order of a layout.
pub trait RankedMaps {
    fn new(count: u32, layout: Layout) -> Self;
    fn insert(&mut self, map: u32, inst: u32, value: u32);
    fn get(&self, map: u32, inst: u32) -> Option<u32>;
}

/// The maps of one function.
pub trait FunctionMaps {
    /// Makes `FUNCTION` maps, fills each with these entries, reads the last entry of each into a checksum, and drops them.
    fn made_and_dropped(entries: &[(u32, u32)]) -> u64;
}

/// A side with all of these.
pub trait Side {
    type Maps: Uses;
    type Wide: WideMaps;
    type Ranked: RankedMaps;
    type Function: FunctionMaps;
}

// One call on each map in each round, with a random index of one of its entries.
fn each<M>(maps: &mut M, job: Job, mut call: impl FnMut(&mut M, u32, u32) -> u64) -> u64 {
    let mut random = Random(271828);
    let mut sum = 0u64;
    for _ in 0..job.rounds {
        for map in 0..job.maps {
            sum = sum.wrapping_mul(31).wrapping_add(call(maps, map, random.below(job.entries)));
        }
    }
    sum
}

fn told(entry: Option<(u32, u32)>) -> u64 {
    entry.map_or(7, |(key, value)| u64::from(key ^ value))
}

fn loaded<M: Uses>(maps: &mut M, job: Job) -> u64 {
    let entries: Vec<(u32, u32)> = (0..job.entries).map(|index| (2 * index, index)).collect();
    (0..job.maps).for_each(|map| maps.load(map, &entries));
    job.maps.checked_sub(1).map_or(0, |last| told(maps.at_or_after(last, job.entries)))
}

fn fill<M: Uses>(maps: &mut M, job: Job) {
    for map in 0..job.maps {
        for index in 0..job.entries {
            maps.insert(map, job.key(map, index), index);
        }
    }
}

// The rounds of a use on maps that are filled. Each use has a loop of its own, as in a program.
fn rounds<M: Uses>(maps: &mut M, job: Job) -> u64 {
    let key = |map, index| job.key(map, index);
    match job.what {
        Get => each(maps, job, |maps, map, index| u64::from(maps.get(map, key(map, index)).unwrap_or(7))),
        Walk => each(maps, job, |maps, map, _| maps.walk(map, 0)),
        Remove => each(maps, job, |maps, map, _| {
            (0..job.entries).fold(0, |sum, at| added(sum, maps.remove(map, key(map, at)).unwrap_or(7)))
        }),
        Update => each(maps, job, |maps, map, index| {
            maps.update(map, key(map, index));
            0
        }),
        Lend => each(maps, job, |maps, map, index| {
            maps.lend(map, key(map, index));
            0
        }),
        Entry => each(maps, job, |maps, map, index| u64::from(maps.entry(map, key(map, index + job.entries), index))),
        First => each(maps, job, |maps, map, index| told(maps.first_of(map, key(map, index)))),
        Three => each(maps, job, |maps, map, index| maps.three_of(map, key(map, index), 0)),
        AtOrAfter => each(maps, job, |maps, map, index| told(maps.at_or_after(map, key(map, index)))),
        Back => each(maps, job, |maps, map, _| maps.walk_back(map, 0)),
        Copied => each(maps, job, |maps, map, _| told(maps.copied(map))),
        _ => 0,
    }
}

fn used<M: Uses>(maps: &mut M, job: Job) -> u64 {
    fill(maps, job);
    let sum = rounds(maps, job);
    (0..job.maps).take(1).fold(sum, |sum, map| maps.walk(map, sum))
}

// Half of the keys that are asked for are in the map at first, and about as many later.
fn reads<M: Uses>(maps: &mut M, job: Job) -> u64 {
    fill(maps, job);
    let mut random = Random(161803);
    each(maps, job, |maps, map, index| {
        let choice = random.below(40);
        let key = job.key(map, index + choice % 2 * job.entries);
        let found = match choice {
            0 | 1 => maps.insert(map, key, choice),
            2 | 3 => maps.remove(map, key),
            _ => maps.get(map, key),
        };
        u64::from(found.unwrap_or(7))
    })
}

fn wide_key(job: Job, map: u32, index: u32) -> WideKey {
    let key = u64::from(job.key(map, index));
    (key % 4, key)
}

fn wide<M: WideMaps>(maps: &mut M, job: Job) -> u64 {
    for map in 0..job.maps {
        for index in 0..job.entries {
            maps.insert(map, wide_key(job, map, index), [u64::from(index); 3]);
        }
    }
    let found =
        |maps: &M, map, index| maps.get(map, wide_key(job, map, index)).map_or(7, |it| it[0].wrapping_add(it[2]));
    let last = job.maps.checked_sub(1).map_or(0, |map| found(maps, map, job.entries - 1));
    each(maps, job, |maps, map, index| found(maps, map, index)).wrapping_add(last)
}

// Each map has instructions of its own. Eight in a row, by their numbers, are of one block, but blocks and places are in no order.
fn layout(job: Job) -> Layout {
    let insts = job.maps * job.entries;
    let block = (0..insts).map(|inst| key_at(inst / 8, true)).collect();
    let place = (0..insts).map(|inst| key_at(inst, true)).collect();
    Layout { block, place }
}

fn ranked<M: RankedMaps>(maps: &mut M, job: Job) -> u64 {
    if job.what == GetRanked || job.rounds > 0 {
        for map in 0..job.maps {
            for index in 0..job.entries {
                maps.insert(map, map * job.entries + index, index);
            }
        }
    }
    let found = |maps: &M, map, index| maps.get(map, map * job.entries + index).map_or(7, u64::from);
    match job.what {
        FillRanked => job.maps.checked_sub(1).map_or(0, |map| found(maps, map, job.entries - 1)),
        _ => each(maps, job, |maps, map, index| found(maps, map, index)),
    }
}

fn functions<F: FunctionMaps>(job: Job) -> u64 {
    let entries: Vec<(u32, u32)> = (0..job.entries).map(|index| (2 * index, index)).collect();
    (0..job.maps).fold(0, |sum, _| added(sum, F::made_and_dropped(&entries) as u32))
}

/// Makes a run on maps of one side.
pub fn use_on<S: Side>(job: Job, is_kept: bool) -> (u64, Duration) {
    let new = || S::Maps::new(job.maps);
    match job.what {
        Load => timed(new, |maps| loaded(maps, job), is_kept),
        Reads => timed(new, |maps| reads(maps, job), is_kept),
        FillWide | GetWide => timed(|| S::Wide::new(job.maps), |maps| wide(maps, job), is_kept),
        FillRanked | GetRanked => timed(|| S::Ranked::new(job.maps, layout(job)), |maps| ranked(maps, job), is_kept),
        Forests => timed(|| (), |_| functions::<S::Function>(job), is_kept),
        _ => timed(new, |maps| used(maps, job), is_kept),
    }
}

//! Runs of calls on whole maps and sets: how many entries one has, what is asked or made of two of them, and what takes a part of one out. As in the runs of single calls,
//! what a side does in these traits is not inlined into the loop.

use crate::runs::{added, key_at, timed, Many, Value};
use std::time::Duration;

/// What a run does with its pairs.
#[derive(Clone, Copy, Debug, PartialEq)]
pub enum Call {
    Length,    // how many entries the first map has
    MapsNone,  // the first map takes up the entries of the second, of which none is new
    MapsOne,   // the same where one is new
    MapsHalf,  // the same where half of them are
    Upper,     // the first map loses the upper half of its entries
    Lower,     // it loses the lower half
    Middle,    // it loses the half of them in its middle
    Split,     // the upper half of them becomes a map of its own, which takes the place of the second map
    Compacted, // the first map has its entries in as few nodes as it can
    SetsNone,  // the first set takes up the keys of the second, of which none is new
    SetsOne,   // the same where one is new
    SetsHalf,  // the same where half of them are
    Subset,    // whether the second set has each key of the first: it has
    Disjoint,  // whether it has none of them: so it is
    Intersect, // the first set keeps the keys that the second has: half of its own
    Subtract,  // the first set loses these
    Either,    // the keys of both sets are read in order: half of the first set's are in the second
    Alone,     // those that the first set alone has are read
}

use Call::*;

impl Call {
    /// The call of this name.
    pub fn named(name: &str) -> Option<Call> {
        let of_maps = [Length, MapsNone, MapsOne, MapsHalf, Upper, Lower, Middle, Split, Compacted];
        let of_sets = [SetsNone, SetsOne, SetsHalf, Subset, Disjoint, Intersect, Subtract, Either, Alone];
        of_maps.into_iter().chain(of_sets).find(|it| format!("{it:?}") == name)
    }
}

/// A whole run: so many pairs of maps or of sets, filled with `entries` entries each, and then so many rounds of the call, on each pair.
#[derive(Clone, Copy)]
pub struct Pairing {
    pub what: Call,
    pub pairs: u32,
    pub entries: u32,
    pub rounds: u32,
}

// A quarter of the numbers that keys are drawn from, which are mixed: about a quarter of the entries are below it.
const QUARTER: u32 = 1 << 30;

impl Pairing {
    // The key of an entry of a pair. The first map has the indices below `entries`, the second as many from `new_keys` on.
    fn key(self, pair: u32, index: u32) -> u32 {
        key_at(2 * self.entries * pair + index, true)
    }

    // Whether the second map has entries: it has none where a part of the first is taken out.
    fn has_second(self) -> bool {
        !matches!(self.what, Upper | Lower | Middle | Split | Compacted)
    }

    // How many keys of the second map the first one does not have.
    fn new_keys(self) -> u32 {
        match self.what {
            MapsOne | SetsOne => 1,
            MapsHalf | SetsHalf | Intersect | Subtract | Either | Alone => self.entries / 2,
            Disjoint => self.entries,
            _ => 0,
        }
    }
}

/// Maps with the calls on whole ones. `other` is another map, behind the one that is changed.
pub trait MapPairs: Many<u32> {
    /// The number of entries.
    fn length(&self, map: u32) -> usize;
    /// Inserts the entries of the other map whose keys are absent, and tells whether there was one.
    fn unite(&mut self, map: u32, other: u32) -> bool;
    /// Removes the entries from a key on.
    fn drop_from(&mut self, map: u32, key: u32);
    /// Removes the entries whose keys are less than `key`.
    fn drop_to(&mut self, map: u32, key: u32);
    /// Removes the entries whose keys are between two keys, the first included.
    fn remove_between(&mut self, map: u32, start: u32, end: u32);
    /// Moves the entries from a key on to the other map, which loses its own.
    fn split_to(&mut self, map: u32, key: u32, other: u32);
    /// Puts the entries into as few nodes as can be.
    fn compact(&mut self, map: u32);
}

/// Sets with the calls on two of them. `other` is another set, behind the one that is asked or changed.
pub trait SetPairs: Many<()> {
    /// Inserts the keys of the other set that are absent, and tells whether there was one.
    fn unite(&mut self, set: u32, other: u32) -> bool;
    /// Whether the other set has each key of this one.
    fn is_subset(&self, set: u32, other: u32) -> bool;
    /// Whether the other set has no key of this one.
    fn is_disjoint(&self, set: u32, other: u32) -> bool;
    /// Removes the keys that the other set does not have, and tells whether there was one.
    fn intersect(&mut self, set: u32, other: u32) -> bool;
    /// Removes the keys that the other set has, and tells whether there was one.
    fn subtract(&mut self, set: u32, other: u32) -> bool;
    /// A checksum of the keys of both sets, in order.
    fn read_either(&self, set: u32, other: u32) -> u64;
    /// A checksum of the keys that this set has and the other one does not.
    fn read_alone(&self, set: u32, other: u32) -> u64;
}

/// Two maps that are changed, of which one is behind the other.
pub fn both<M>(maps: &mut [M], map: u32, other: u32) -> (&mut M, &mut M) {
    let (before, behind) = maps.split_at_mut(other as usize);
    (&mut before[map as usize], &mut behind[0])
}

/// A map or set that is changed, and one behind it that is read.
pub fn two<M>(maps: &mut [M], map: u32, other: u32) -> (&mut M, &M) {
    let (before, behind) = maps.split_at_mut(other as usize);
    (&mut before[map as usize], &behind[0])
}

// The first maps of all pairs, and then the second ones.
fn fill<V: Value, M: Many<V>>(maps: &mut M, work: Pairing) {
    for pair in 0..work.pairs {
        for index in 0..work.entries {
            maps.insert(pair, work.key(pair, index), V::new(index));
            if work.has_second() {
                maps.insert(work.pairs + pair, work.key(pair, index + work.new_keys()), V::new(work.entries + index));
            }
        }
    }
}

// A checksum of a few keys of the first pair, and of all entries of the second pair, if there is one. To read all that a call has left of the
// only pair would make its costs greater or less: a few look-ups cost the same before the call as behind it.
fn what_is_left<V: Value, M: Many<V>>(maps: &M, work: Pairing, mut sum: u64) -> u64 {
    for index in (0..2 * work.entries).step_by(1 + work.entries as usize / 8) {
        sum = added(sum, V::told(maps.get(0, work.key(0, index)), false));
    }
    (1..work.pairs).take(1).fold(sum, |sum, pair| maps.walk(work.pairs + pair, maps.walk(pair, sum)))
}

// Makes a run of a call, which is handed the numbers of both maps of a pair. Each call has a loop of its own, as in a program.
fn paired<V: Value, M: Many<V>>(
    work: Pairing,
    is_kept: bool,
    call: impl Fn(&mut M, u32, u32) -> u64,
) -> (u64, Duration) {
    let run = |maps: &mut M| {
        fill(maps, work);
        let mut sum = 0u64;
        for _ in 0..work.rounds {
            for pair in 0..work.pairs {
                sum = sum.wrapping_mul(31).wrapping_add(call(maps, pair, work.pairs + pair));
            }
        }
        what_is_left(maps, work, sum)
    };
    timed(|| M::new(2 * work.pairs), run, is_kept)
}

// Makes a run of a call that answers nothing.
fn parted<V: Value, M: Many<V>>(work: Pairing, is_kept: bool, call: impl Fn(&mut M, u32, u32)) -> (u64, Duration) {
    paired(work, is_kept, |maps: &mut M, map, other| {
        call(maps, map, other);
        0
    })
}

/// Makes a run on maps or sets of one side.
pub fn call_on<M: MapPairs, S: SetPairs>(work: Pairing, is_kept: bool) -> (u64, Duration) {
    match work.what {
        Length => paired(work, is_kept, |maps: &mut M, map, _| maps.length(map) as u64),
        MapsNone | MapsOne | MapsHalf => {
            paired(work, is_kept, |maps: &mut M, map, other| maps.unite(map, other).into())
        }
        Upper => parted(work, is_kept, |maps: &mut M, map, _| maps.drop_from(map, 2 * QUARTER)),
        Lower => parted(work, is_kept, |maps: &mut M, map, _| maps.drop_to(map, 2 * QUARTER)),
        Middle => parted(work, is_kept, |maps: &mut M, map, _| maps.remove_between(map, QUARTER, 3 * QUARTER)),
        Split => parted(work, is_kept, |maps: &mut M, map, other| maps.split_to(map, 2 * QUARTER, other)),
        Compacted => parted(work, is_kept, |maps: &mut M, map, _| maps.compact(map)),
        SetsNone | SetsOne | SetsHalf => {
            paired(work, is_kept, |sets: &mut S, set, other| sets.unite(set, other).into())
        }
        Subset => paired(work, is_kept, |sets: &mut S, set, other| sets.is_subset(set, other).into()),
        Disjoint => paired(work, is_kept, |sets: &mut S, set, other| sets.is_disjoint(set, other).into()),
        Intersect => paired(work, is_kept, |sets: &mut S, set, other| sets.intersect(set, other).into()),
        Subtract => paired(work, is_kept, |sets: &mut S, set, other| sets.subtract(set, other).into()),
        Either => paired(work, is_kept, |sets: &mut S, set, other| sets.read_either(set, other)),
        Alone => paired(work, is_kept, |sets: &mut S, set, other| sets.read_alone(set, other)),
    }
}

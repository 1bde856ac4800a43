//! Maps and sets of Rust's standard library: a `BTreeMap` or a `BTreeSet` for each.

use crate::runs::{added, Maps, Ranges, Sets, EDITED};
use crate::sides::{many, Held};
use crate::uses::{FunctionMaps, Layout, RankedMaps, Side, Uses, WideKey, WideMaps, WideValue, FUNCTION};
use crate::whole::{both, two, MapPairs, SetPairs};
use std::collections::{BTreeMap, BTreeSet};

pub type StdMaps = Held<(), Vec<BTreeMap<u32, u32>>>;
pub type StdSets = Held<(), Vec<BTreeSet<u32>>>;

many! { StdMaps, u32, (), |_, map, key, value|
    insert => map.insert(key, value),
    get => map.get(&key).copied(),
    remove => map.remove(&key),
    clear => map.clear(),
    walk => map.iter().map(|(key, value)| key ^ value),
}

many! { StdSets, (), (), |_, set, key, _|
    insert => (!set.insert(key)).then_some(()),
    get => set.contains(&key).then_some(()),
    remove => set.remove(&key).then_some(()),
    clear => set.clear(),
    walk => set.iter().map(|key| *key),
}

// The checksum `$sum` with a number of each entry of a map, if there is this map.
macro_rules! add_all {
    ($sum:ident, $found:expr, |$map:ident| $entries:expr, |$entry:pat_param| $number:expr) => {{
        let mut sum = $sum;
        if let Some($map) = $found {
            for $entry in $entries {
                sum = added(sum, $number);
            }
        }
        sum
    }};
}

impl Maps for StdMaps {
    fn read_on(&self, map: u32, sum: u64) -> u64 {
        add_all!(sum, self.maps.get(map as usize), |map| map.range(..), |(key, value)| key.wrapping_add(*value))
    }

    fn read_back(&self, map: u32, sum: u64) -> u64 {
        add_all!(sum, self.maps.get(map as usize), |map| map.range(..).rev(), |(key, value)| key.wrapping_add(*value))
    }
}

impl Sets for StdSets {
    fn edit(&mut self, set: u32, first: u32) -> u32 {
        let Some(set) = self.maps.get_mut(set as usize) else { return 0 };
        let new = (0..EDITED).filter(|step| set.insert(first.wrapping_add(*step))).count();
        let mut gone = 0;
        for _ in 0..EDITED {
            if let Some(key) = set.range(first..).next().copied() {
                gone += usize::from(set.remove(&key));
            }
        }
        (new + gone) as u32
    }
}

impl Ranges for StdMaps {
    fn put(&mut self, entries: &[(u32, u32)]) -> u32 {
        entries.iter().filter(|entry| self.maps[0].insert(entry.0, entry.1).is_none()).count() as u32
    }

    fn end_at(&self, point: u32) -> Option<u32> {
        self.maps[0].range(..=point).next_back().map(|entry| *entry.1)
    }

    fn ends(&self, from: u32, to: u32) -> [Option<(u32, u32)>; 2] {
        let mut range = self.maps[0].range(from..=to).map(|entry| (*entry.0, *entry.1));
        [range.next(), range.next_back()]
    }
}

impl Uses for StdMaps {
    #[inline(never)]
    fn load(&mut self, map: u32, entries: &[(u32, u32)]) {
        self.maps[map as usize] = entries.iter().copied().collect();
    }

    #[inline(never)]
    fn update(&mut self, map: u32, key: u32) {
        if let Some(value) = self.maps[map as usize].get_mut(&key) {
            *value += 1;
        }
    }

    #[inline(never)]
    fn entry(&mut self, map: u32, key: u32, value: u32) -> u32 {
        *self.maps[map as usize].entry(key).or_insert(value)
    }

    #[inline(never)]
    fn first_of(&self, map: u32, key: u32) -> Option<(u32, u32)> {
        self.maps[map as usize].range(key..).next().map(|(key, value)| (*key, *value))
    }

    #[inline(never)]
    fn three_of(&self, map: u32, key: u32, sum: u64) -> u64 {
        self.maps[map as usize].range(key..).take(3).fold(sum, |sum, (key, value)| added(sum, key ^ value))
    }

    #[inline(never)]
    fn at_or_after(&self, map: u32, key: u32) -> Option<(u32, u32)> {
        self.first_of(map, key)
    }

    #[inline(never)]
    fn walk_back(&self, map: u32, sum: u64) -> u64 {
        self.maps[map as usize].range(..).rev().fold(sum, |sum, (key, value)| added(sum, key ^ value))
    }

    #[inline(never)]
    fn copied(&mut self, map: u32) -> Option<(u32, u32)> {
        let copy = self.maps[map as usize].clone();
        copy.last_key_value().map(|(key, value)| (*key, *value))
    }
}

impl MapPairs for StdMaps {
    #[inline(never)]
    fn length(&self, map: u32) -> usize {
        self.maps[map as usize].len()
    }

    #[inline(never)]
    fn unite(&mut self, map: u32, other: u32) -> bool {
        let (map, other) = two(&mut self.maps, map, other);
        let before = map.len();
        for (key, value) in other {
            map.entry(*key).or_insert(*value);
        }
        before < map.len()
    }

    #[inline(never)]
    fn drop_from(&mut self, map: u32, key: u32) {
        drop(self.maps[map as usize].split_off(&key));
    }

    #[inline(never)]
    fn drop_to(&mut self, map: u32, key: u32) {
        let map = &mut self.maps[map as usize];
        *map = map.split_off(&key);
    }

    #[inline(never)]
    fn remove_between(&mut self, map: u32, start: u32, end: u32) {
        self.maps[map as usize].retain(|key, _| !(start..end).contains(key));
    }

    #[inline(never)]
    fn split_to(&mut self, map: u32, key: u32, other: u32) {
        let (map, other) = both(&mut self.maps, map, other);
        *other = map.split_off(&key);
    }

    #[inline(never)]
    fn compact(&mut self, map: u32) {
        let map = &mut self.maps[map as usize];
        *map = map.iter().map(|(key, value)| (*key, *value)).collect();
    }
}

// Removes the keys of which another set says otherwise: it is read beside, which takes fewer instructions than a search for each key.
fn keep(set: &mut BTreeSet<u32>, other: &BTreeSet<u32>, is_shared: bool) -> bool {
    let before = set.len();
    let mut others = other.iter();
    let mut at = others.next();
    set.retain(|key| {
        while at.is_some_and(|it| it < key) {
            at = others.next();
        }
        (at == Some(key)) == is_shared
    });
    set.len() < before
}

impl SetPairs for StdSets {
    #[inline(never)]
    fn unite(&mut self, set: u32, other: u32) -> bool {
        let (set, other) = two(&mut self.maps, set, other);
        let before = set.len();
        set.extend(other);
        before < set.len()
    }

    #[inline(never)]
    fn is_subset(&self, set: u32, other: u32) -> bool {
        self.maps[set as usize].is_subset(&self.maps[other as usize])
    }

    #[inline(never)]
    fn is_disjoint(&self, set: u32, other: u32) -> bool {
        self.maps[set as usize].is_disjoint(&self.maps[other as usize])
    }

    #[inline(never)]
    fn intersect(&mut self, set: u32, other: u32) -> bool {
        let (set, other) = two(&mut self.maps, set, other);
        keep(set, other, true)
    }

    #[inline(never)]
    fn subtract(&mut self, set: u32, other: u32) -> bool {
        let (set, other) = two(&mut self.maps, set, other);
        keep(set, other, false)
    }

    #[inline(never)]
    fn read_either(&self, set: u32, other: u32) -> u64 {
        self.maps[set as usize].union(&self.maps[other as usize]).copied().fold(0, added)
    }

    #[inline(never)]
    fn read_alone(&self, set: u32, other: u32) -> u64 {
        self.maps[set as usize].difference(&self.maps[other as usize]).copied().fold(0, added)
    }
}

pub struct StdSide;

impl Side for StdSide {
    type Maps = StdMaps;
    type Wide = Vec<BTreeMap<WideKey, WideValue>>;
    type Ranked = Ranked;
    type Function = StdSide;
}

impl WideMaps for Vec<BTreeMap<WideKey, WideValue>> {
    fn new(count: u32) -> Self {
        (0..count).map(|_| BTreeMap::new()).collect()
    }

    #[inline(never)]
    fn insert(&mut self, map: u32, key: WideKey, value: WideValue) {
        self[map as usize].insert(key, value);
    }

    #[inline(never)]
    fn get(&self, map: u32, key: WideKey) -> Option<WideValue> {
        self[map as usize].get(&key).copied()
    }
}

/// Maps whose keys carry the block and the place of an instruction: each call looks these up once.
pub struct Ranked {
    maps: Vec<BTreeMap<(u32, u32), u32>>,
    layout: Layout,
}

impl Layout {
    fn rank(&self, inst: u32) -> (u32, u32) {
        (self.block[inst as usize], self.place[inst as usize])
    }
}

impl RankedMaps for Ranked {
    fn new(count: u32, layout: Layout) -> Self {
        Ranked { maps: (0..count).map(|_| BTreeMap::new()).collect(), layout }
    }

    #[inline(never)]
    fn insert(&mut self, map: u32, inst: u32, value: u32) {
        self.maps[map as usize].insert(self.layout.rank(inst), value);
    }

    #[inline(never)]
    fn get(&self, map: u32, inst: u32) -> Option<u32> {
        self.maps[map as usize].get(&self.layout.rank(inst)).copied()
    }
}

impl FunctionMaps for StdSide {
    fn made_and_dropped(entries: &[(u32, u32)]) -> u64 {
        let mut maps: [BTreeMap<u32, u32>; FUNCTION as usize] = Default::default();
        for map in &mut maps {
            for (key, value) in entries {
                map.insert(*key, *value);
            }
        }
        maps.iter().fold(0, |sum, map| added(sum, map.last_key_value().map_or(7, |entry| *entry.1)))
    }
}

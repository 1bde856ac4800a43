//! Maps and sets of the package for cargo, which `tools/plain_rust` writes, as its user has them: a forest and handles.

use crate::runs::{added, Maps, Ranges, Sets, EDITED};
use crate::sides::{many, Held};
use crate::uses::{FunctionMaps, Layout, RankedMaps, Side, Uses, WideKey, WideMaps, WideValue, FUNCTION};
use crate::whole::{both, two, MapPairs, SetPairs};
use bforest::{Comparator, Map, MapForest, Set, SetForest};
use std::cmp::Ordering;

/// What a call returns that can fail with `OutOfMemory` alone: no limit is set here.
pub const ROOM: &str = "there is memory";

pub type PackageMaps = Held<MapForest<u32, u32>, Vec<Map<u32, u32>>>;
pub type PackageSets = Held<SetForest<u32>, Vec<Set<u32>>>;

many! { PackageMaps, u32, MapForest::new(), |forest, map, key, value|
    insert => map.insert(key, value, forest, &()).expect(ROOM),
    get => map.get(key, forest, &()),
    remove => map.remove(key, forest, &()),
    clear => map.clear(forest),
    walk => map.iter(forest).map(|(key, value)| key ^ value),
}

many! { PackageSets, (), SetForest::new(), |forest, set, key, _|
    insert => (!set.insert(key, forest, &()).expect(ROOM)).then_some(()),
    get => set.contains(key, forest, &()).then_some(()),
    remove => set.remove(key, forest, &()).then_some(()),
    clear => set.clear(forest),
    walk => set.iter(forest),
}

impl Maps for PackageMaps {
    fn read_on(&self, map: u32, sum: u64) -> u64 {
        let Some(map) = self.maps.get(map as usize) else { return sum };
        let mut cursor = map.cursor(&self.forest, &());
        let (Some(value), Some(key)) = (cursor.goto_first(), cursor.key()) else { return sum };
        let mut sum = added(sum, key.wrapping_add(value));
        while let Some((key, value)) = cursor.next() {
            sum = added(sum, key.wrapping_add(value));
        }
        sum
    }

    fn read_back(&self, map: u32, mut sum: u64) -> u64 {
        let Some(map) = self.maps.get(map as usize) else { return sum };
        let mut cursor = map.cursor(&self.forest, &());
        while let Some((key, value)) = cursor.prev() {
            sum = added(sum, key.wrapping_add(value));
        }
        sum
    }
}

impl Sets for PackageSets {
    fn edit(&mut self, set: u32, first: u32) -> u32 {
        let Some(set) = self.maps.get_mut(set as usize) else { return 0 };
        let mut cursor = set.cursor(&mut self.forest, &());
        let mut count = 0;
        for step in 0..EDITED {
            count += u32::from(cursor.insert(first.wrapping_add(step)).expect(ROOM));
            cursor.next();
        }
        cursor.goto(first);
        for _ in 0..EDITED {
            count += u32::from(cursor.remove().is_some());
        }
        count
    }
}

impl Ranges for PackageMaps {
    fn put(&mut self, entries: &[(u32, u32)]) -> u32 {
        let mut cursor = self.maps[0].cursor_mut(&mut self.forest, &());
        let mut count = 0;
        for entry in entries {
            count += u32::from(cursor.insert(entry.0, entry.1).expect(ROOM).is_none());
            cursor.next();
        }
        count
    }

    fn end_at(&self, point: u32) -> Option<u32> {
        self.maps[0].get_or_less(point, &self.forest, &()).map(|entry| entry.1)
    }

    fn ends(&self, from: u32, to: u32) -> [Option<(u32, u32)>; 2] {
        let mut range = self.maps[0].range(from..=to, &self.forest, &());
        [range.next(), range.next_back()]
    }
}

impl Uses for PackageMaps {
    #[inline(never)]
    fn load(&mut self, map: u32, entries: &[(u32, u32)]) {
        self.maps[map as usize] = Map::load(entries, &mut self.forest).expect(ROOM);
    }

    #[inline(never)]
    fn update(&mut self, map: u32, key: u32) {
        _ = self.maps[map as usize].update(key, |value| value + 1, &mut self.forest, &());
    }

    #[inline(never)]
    fn lend(&mut self, map: u32, key: u32) {
        if let Some(value) = self.forest.get_mut(&self.maps[map as usize], key, &()) {
            *value += 1;
        }
    }

    #[inline(never)]
    fn entry(&mut self, map: u32, key: u32, value: u32) -> u32 {
        self.maps[map as usize].get_or_insert(key, value, &mut self.forest, &()).expect(ROOM)
    }

    #[inline(never)]
    fn first_of(&self, map: u32, key: u32) -> Option<(u32, u32)> {
        self.maps[map as usize].range(key.., &self.forest, &()).next()
    }

    #[inline(never)]
    fn three_of(&self, map: u32, key: u32, sum: u64) -> u64 {
        let range = self.maps[map as usize].range(key.., &self.forest, &());
        range.take(3).fold(sum, |sum, (key, value)| added(sum, key ^ value))
    }

    #[inline(never)]
    fn at_or_after(&self, map: u32, key: u32) -> Option<(u32, u32)> {
        self.maps[map as usize].get_or_greater(key, &self.forest, &())
    }

    #[inline(never)]
    fn walk_back(&self, map: u32, sum: u64) -> u64 {
        let range = self.maps[map as usize].range(.., &self.forest, &());
        range.rev().fold(sum, |sum, (key, value)| added(sum, key ^ value))
    }

    #[inline(never)]
    fn copied(&mut self, map: u32) -> Option<(u32, u32)> {
        let mut copy = self.maps[map as usize].deep_clone(&mut self.forest).expect(ROOM);
        let last = copy.last(&self.forest);
        copy.clear(&mut self.forest);
        last
    }
}

impl MapPairs for PackageMaps {
    #[inline(never)]
    fn length(&self, map: u32) -> usize {
        self.maps[map as usize].len(&self.forest)
    }

    #[inline(never)]
    fn unite(&mut self, map: u32, other: u32) -> bool {
        let (map, other) = two(&mut self.maps, map, other);
        map.union_with(other, &mut self.forest, &()).expect(ROOM)
    }

    #[inline(never)]
    fn drop_from(&mut self, map: u32, key: u32) {
        self.maps[map as usize].remove_range(key.., &mut self.forest, &());
    }

    #[inline(never)]
    fn drop_to(&mut self, map: u32, key: u32) {
        self.maps[map as usize].remove_range(..key, &mut self.forest, &());
    }

    #[inline(never)]
    fn remove_between(&mut self, map: u32, start: u32, end: u32) {
        self.maps[map as usize].remove_range(start..end, &mut self.forest, &());
    }

    #[inline(never)]
    fn split_to(&mut self, map: u32, key: u32, other: u32) {
        let (map, other) = both(&mut self.maps, map, other);
        other.clear(&mut self.forest);
        *other = map.split_off(key, &mut self.forest, &()).expect(ROOM);
    }

    #[inline(never)]
    fn compact(&mut self, map: u32) {
        self.maps[map as usize].compact(&mut self.forest).expect(ROOM);
    }
}

impl SetPairs for PackageSets {
    #[inline(never)]
    fn unite(&mut self, set: u32, other: u32) -> bool {
        let (set, other) = two(&mut self.maps, set, other);
        set.union_with(other, &mut self.forest, &()).expect(ROOM)
    }

    #[inline(never)]
    fn is_subset(&self, set: u32, other: u32) -> bool {
        self.maps[set as usize].is_subset(&self.maps[other as usize], &self.forest, &())
    }

    #[inline(never)]
    fn is_disjoint(&self, set: u32, other: u32) -> bool {
        self.maps[set as usize].is_disjoint(&self.maps[other as usize], &self.forest, &())
    }

    #[inline(never)]
    fn intersect(&mut self, set: u32, other: u32) -> bool {
        let (set, other) = two(&mut self.maps, set, other);
        set.intersect_with(other, &mut self.forest, &())
    }

    #[inline(never)]
    fn subtract(&mut self, set: u32, other: u32) -> bool {
        let (set, other) = two(&mut self.maps, set, other);
        set.difference_with(other, &mut self.forest, &())
    }

    #[inline(never)]
    fn read_either(&self, set: u32, other: u32) -> u64 {
        self.maps[set as usize].union(&self.maps[other as usize], &self.forest, &()).fold(0, added)
    }

    #[inline(never)]
    fn read_alone(&self, set: u32, other: u32) -> u64 {
        self.maps[set as usize].difference(&self.maps[other as usize], &self.forest, &()).fold(0, added)
    }
}

pub struct PackageSide;

impl Side for PackageSide {
    type Maps = PackageMaps;
    type Wide = Held<MapForest<WideKey, WideValue>, Vec<Map<WideKey, WideValue>>>;
    type Ranked = Ranked;
    type Function = PackageSide;
}

impl WideMaps for Held<MapForest<WideKey, WideValue>, Vec<Map<WideKey, WideValue>>> {
    fn new(count: u32) -> Self {
        Held { forest: MapForest::new(), maps: (0..count).map(|_| Map::new()).collect() }
    }

    #[inline(never)]
    fn insert(&mut self, map: u32, key: WideKey, value: WideValue) {
        self.maps[map as usize].insert(key, value, &mut self.forest, &()).expect(ROOM);
    }

    #[inline(never)]
    fn get(&self, map: u32, key: WideKey) -> Option<WideValue> {
        self.maps[map as usize].get(key, &self.forest, &())
    }
}

impl Comparator<u32> for Layout {
    fn cmp(&self, a: u32, b: u32) -> Ordering {
        let (a, b) = (a as usize, b as usize);
        self.block[a].cmp(&self.block[b]).then_with(|| self.place[a].cmp(&self.place[b]))
    }
}

/// Maps whose keys are the numbers of instructions: the comparator knows their layout.
pub struct Ranked {
    forest: MapForest<u32, u32>,
    maps: Vec<Map<u32, u32>>,
    layout: Layout,
}

impl RankedMaps for Ranked {
    fn new(count: u32, layout: Layout) -> Self {
        Ranked { forest: MapForest::new(), maps: (0..count).map(|_| Map::new()).collect(), layout }
    }

    #[inline(never)]
    fn insert(&mut self, map: u32, inst: u32, value: u32) {
        self.maps[map as usize].insert(inst, value, &mut self.forest, &self.layout).expect(ROOM);
    }

    #[inline(never)]
    fn get(&self, map: u32, inst: u32) -> Option<u32> {
        self.maps[map as usize].get(inst, &self.forest, &self.layout)
    }
}

impl FunctionMaps for PackageSide {
    fn made_and_dropped(entries: &[(u32, u32)]) -> u64 {
        let mut forest = MapForest::new();
        let mut maps: [Map<u32, u32>; FUNCTION as usize] = Default::default();
        for map in &mut maps {
            for (key, value) in entries {
                map.insert(*key, *value, &mut forest, &()).expect(ROOM);
            }
        }
        maps.iter().fold(0, |sum, map| added(sum, map.last(&forest).map_or(7, |entry| entry.1)))
    }
}

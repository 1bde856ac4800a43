//! Maps and sets of the Rust original, `cranelift-bforest`: a forest and handles.

use crate::runs::{added, Maps, Ranges, Sets, EDITED};
use crate::sides::{many, Held};
use crate::uses::{FunctionMaps, Layout, RankedMaps, Side, Uses, WideKey, WideMaps, WideValue, FUNCTION};
use crate::whole::{two, MapPairs, SetPairs};
use cranelift_bforest::{Comparator, Map, MapForest, Set, SetForest};
use std::cmp::Ordering;

pub type OriginalMaps = Held<MapForest<u32, u32>, Vec<Map<u32, u32>>>;
pub type OriginalSets = Held<SetForest<u32>, Vec<Set<u32>>>;

many! { OriginalMaps, u32, MapForest::new(), |forest, map, key, value|
    insert => map.insert(key, value, forest, &()),
    get => map.get(key, forest, &()),
    remove => map.remove(key, forest, &()),
    clear => map.clear(forest),
    walk => map.iter(forest).map(|(key, value)| key ^ value),
}

many! { OriginalSets, (), SetForest::new(), |forest, set, key, _|
    insert => (!set.insert(key, forest, &())).then_some(()),
    get => set.contains(key, forest, &()).then_some(()),
    remove => set.remove(key, forest, &()).then_some(()),
    clear => set.clear(forest),
    walk => set.iter(forest),
}

impl Maps for OriginalMaps {
    fn read_on(&self, map: u32, sum: u64) -> u64 {
        let Some(map) = self.maps.get(map as usize) else { return sum };
        let mut cursor = map.cursor(&self.forest, &());
        let (Some(value), Some(key)) = (cursor.goto_first(), cursor.key()) else { return sum };
        let mut sum = added(sum, key.wrapping_add(value));
        while let Some((key, value)) = cursor.next() {
            sum = added(sum, key.wrapping_add(value));
        }
        sum
    }

    fn read_back(&self, map: u32, mut sum: u64) -> u64 {
        let Some(map) = self.maps.get(map as usize) else { return sum };
        let mut cursor = map.cursor(&self.forest, &());
        while let Some((key, value)) = cursor.prev() {
            sum = added(sum, key.wrapping_add(value));
        }
        sum
    }
}

impl Sets for OriginalSets {
    fn edit(&mut self, set: u32, first: u32) -> u32 {
        let Some(set) = self.maps.get_mut(set as usize) else { return 0 };
        let mut cursor = set.cursor(&mut self.forest, &());
        let mut count = 0;
        for step in 0..EDITED {
            count += u32::from(cursor.insert(first.wrapping_add(step)));
            cursor.next();
        }
        cursor.goto(first);
        for _ in 0..EDITED {
            count += u32::from(cursor.remove().is_some());
        }
        count
    }
}

impl Ranges for OriginalMaps {
    fn put(&mut self, entries: &[(u32, u32)]) -> u32 {
        let mut cursor = self.maps[0].cursor_mut(&mut self.forest, &());
        let mut count = 0;
        for entry in entries {
            count += u32::from(cursor.insert(entry.0, entry.1).is_none());
            cursor.next();
        }
        count
    }

    fn end_at(&self, point: u32) -> Option<u32> {
        self.maps[0].get_or_less(point, &self.forest, &()).map(|entry| entry.1)
    }

    fn ends(&self, from: u32, to: u32) -> [Option<(u32, u32)>; 2] {
        let mut range = self.maps[0].range(from..=to, &self.forest, &());
        [range.next(), range.next_back()]
    }
}

impl Uses for OriginalMaps {
    #[inline(never)]
    fn load(&mut self, map: u32, entries: &[(u32, u32)]) {
        for (key, value) in entries {
            self.maps[map as usize].insert(*key, *value, &mut self.forest, &());
        }
    }

    #[inline(never)]
    fn update(&mut self, map: u32, key: u32) {
        let mut cursor = self.maps[map as usize].cursor_mut(&mut self.forest, &());
        if cursor.goto(key).is_some() {
            if let Some(value) = cursor.value_mut() {
                *value += 1;
            }
        }
    }

    #[inline(never)]
    fn entry(&mut self, map: u32, key: u32, value: u32) -> u32 {
        let map = &mut self.maps[map as usize];
        if let Some(found) = map.get(key, &self.forest, &()) {
            return found;
        }
        map.insert(key, value, &mut self.forest, &());
        value
    }

    #[inline(never)]
    fn first_of(&self, map: u32, key: u32) -> Option<(u32, u32)> {
        self.maps[map as usize].range(key.., &self.forest, &()).next()
    }

    #[inline(never)]
    fn three_of(&self, map: u32, key: u32, sum: u64) -> u64 {
        let range = self.maps[map as usize].range(key.., &self.forest, &());
        range.take(3).fold(sum, |sum, (key, value)| added(sum, key ^ value))
    }

    #[inline(never)]
    fn at_or_after(&self, map: u32, key: u32) -> Option<(u32, u32)> {
        self.first_of(map, key)
    }

    #[inline(never)]
    fn walk_back(&self, map: u32, sum: u64) -> u64 {
        let range = self.maps[map as usize].range(.., &self.forest, &());
        range.rev().fold(sum, |sum, (key, value)| added(sum, key ^ value))
    }

    #[inline(never)]
    fn copied(&mut self, map: u32) -> Option<(u32, u32)> {
        let entries: Vec<(u32, u32)> = self.maps[map as usize].iter(&self.forest).collect();
        let mut copy = Map::new();
        for (key, value) in entries {
            copy.insert(key, value, &mut self.forest, &());
        }
        let last = copy.cursor(&self.forest, &()).prev();
        copy.clear(&mut self.forest);
        last
    }
}

impl MapPairs for OriginalMaps {
    #[inline(never)]
    fn length(&self, map: u32) -> usize {
        self.maps[map as usize].iter(&self.forest).count()
    }

    // No map can be changed while another one of its forest is read, so the new entries are gathered first.
    #[inline(never)]
    fn unite(&mut self, map: u32, other: u32) -> bool {
        let (map, other) = two(&mut self.maps, map, other);
        let mut is_there = among(map.iter(&self.forest).map(|entry| entry.0));
        let new: Vec<(u32, u32)> = other.iter(&self.forest).filter(move |entry| !is_there(entry.0)).collect();
        for (key, value) in &new {
            map.insert(*key, *value, &mut self.forest, &());
        }
        !new.is_empty()
    }

    #[inline(never)]
    fn drop_from(&mut self, map: u32, key: u32) {
        let mut cursor = self.maps[map as usize].cursor_mut(&mut self.forest, &());
        cursor.goto(key);
        while cursor.remove().is_some() {}
    }

    #[inline(never)]
    fn drop_to(&mut self, map: u32, key: u32) {
        let mut cursor = self.maps[map as usize].cursor_mut(&mut self.forest, &());
        cursor.goto_first();
        while cursor.key().is_some_and(|it| it < key) {
            cursor.remove();
        }
    }

    #[inline(never)]
    fn remove_between(&mut self, map: u32, start: u32, end: u32) {
        let mut cursor = self.maps[map as usize].cursor_mut(&mut self.forest, &());
        cursor.goto(start);
        while cursor.key().is_some_and(|key| key < end) {
            cursor.remove();
        }
    }

    // No map can be filled while another one of its forest is read, so the entries that go are gathered first.
    #[inline(never)]
    fn split_to(&mut self, map: u32, key: u32, other: u32) {
        let gone: Vec<(u32, u32)> = self.maps[map as usize].range(key.., &self.forest, &()).collect();
        self.drop_from(map, key);
        let other = &mut self.maps[other as usize];
        other.clear(&mut self.forest);
        for (key, value) in gone {
            other.insert(key, value, &mut self.forest, &());
        }
    }

    #[inline(never)]
    fn compact(&mut self, map: u32) {
        let map = &mut self.maps[map as usize];
        let entries: Vec<(u32, u32)> = map.iter(&self.forest).collect();
        map.clear(&mut self.forest);
        for (key, value) in entries {
            map.insert(key, value, &mut self.forest, &());
        }
    }
}

// Tells of ascending keys whether each is among these, which ascend too.
fn among(mut keys: impl Iterator<Item = u32>) -> impl FnMut(u32) -> bool {
    let mut at = keys.next();
    move |key| {
        while at.is_some_and(|it| it < key) {
            at = keys.next();
        }
        at == Some(key)
    }
}

impl OriginalSets {
    // Removes the keys of which another set says otherwise. Its keys are gathered first.
    fn keep(&mut self, set: u32, other: u32, is_shared: bool) -> bool {
        let (set, other) = two(&mut self.maps, set, other);
        let keys: Vec<u32> = other.iter(&self.forest).collect();
        let mut is_there = among(keys.into_iter());
        let mut is_changed = false;
        set.retain(&mut self.forest, |key| {
            let stays = is_there(key) == is_shared;
            is_changed |= !stays;
            stays
        });
        is_changed
    }
}

impl SetPairs for OriginalSets {
    #[inline(never)]
    fn unite(&mut self, set: u32, other: u32) -> bool {
        let (set, other) = two(&mut self.maps, set, other);
        let mut is_there = among(set.iter(&self.forest));
        let new: Vec<u32> = other.iter(&self.forest).filter(move |key| !is_there(*key)).collect();
        for key in &new {
            set.insert(*key, &mut self.forest, &());
        }
        !new.is_empty()
    }

    #[inline(never)]
    fn is_subset(&self, set: u32, other: u32) -> bool {
        let mut is_there = among(self.maps[other as usize].iter(&self.forest));
        self.maps[set as usize].iter(&self.forest).all(|key| is_there(key))
    }

    #[inline(never)]
    fn is_disjoint(&self, set: u32, other: u32) -> bool {
        let mut is_there = among(self.maps[other as usize].iter(&self.forest));
        !self.maps[set as usize].iter(&self.forest).any(|key| is_there(key))
    }

    #[inline(never)]
    fn intersect(&mut self, set: u32, other: u32) -> bool {
        self.keep(set, other, true)
    }

    #[inline(never)]
    fn subtract(&mut self, set: u32, other: u32) -> bool {
        self.keep(set, other, false)
    }

    #[inline(never)]
    fn read_either(&self, set: u32, other: u32) -> u64 {
        let mut keys = self.maps[set as usize].iter(&self.forest).peekable();
        let mut others = self.maps[other as usize].iter(&self.forest).peekable();
        let mut sum = 0;
        loop {
            let key = match (keys.peek(), others.peek()) {
                (Some(key), Some(other)) => *key.min(other),
                (Some(key), None) | (None, Some(key)) => *key,
                (None, None) => return sum,
            };
            keys.next_if_eq(&key);
            others.next_if_eq(&key);
            sum = added(sum, key);
        }
    }

    #[inline(never)]
    fn read_alone(&self, set: u32, other: u32) -> u64 {
        let mut is_there = among(self.maps[other as usize].iter(&self.forest));
        self.maps[set as usize].iter(&self.forest).filter(|key| !is_there(*key)).fold(0, added)
    }
}

pub struct OriginalSide;

impl Side for OriginalSide {
    type Maps = OriginalMaps;
    type Wide = Held<MapForest<WideKey, WideValue>, Vec<Map<WideKey, WideValue>>>;
    type Ranked = Ranked;
    type Function = OriginalSide;
}

impl WideMaps for Held<MapForest<WideKey, WideValue>, Vec<Map<WideKey, WideValue>>> {
    fn new(count: u32) -> Self {
        Held { forest: MapForest::new(), maps: (0..count).map(|_| Map::new()).collect() }
    }

    #[inline(never)]
    fn insert(&mut self, map: u32, key: WideKey, value: WideValue) {
        self.maps[map as usize].insert(key, value, &mut self.forest, &());
    }

    #[inline(never)]
    fn get(&self, map: u32, key: WideKey) -> Option<WideValue> {
        self.maps[map as usize].get(key, &self.forest, &())
    }
}

impl Comparator<u32> for Layout {
    fn cmp(&self, a: u32, b: u32) -> Ordering {
        let (a, b) = (a as usize, b as usize);
        self.block[a].cmp(&self.block[b]).then_with(|| self.place[a].cmp(&self.place[b]))
    }
}

/// Maps whose keys are the numbers of instructions: the comparator knows their layout.
pub struct Ranked {
    forest: MapForest<u32, u32>,
    maps: Vec<Map<u32, u32>>,
    layout: Layout,
}

impl RankedMaps for Ranked {
    fn new(count: u32, layout: Layout) -> Self {
        Ranked { forest: MapForest::new(), maps: (0..count).map(|_| Map::new()).collect(), layout }
    }

    #[inline(never)]
    fn insert(&mut self, map: u32, inst: u32, value: u32) {
        self.maps[map as usize].insert(inst, value, &mut self.forest, &self.layout);
    }

    #[inline(never)]
    fn get(&self, map: u32, inst: u32) -> Option<u32> {
        self.maps[map as usize].get(inst, &self.forest, &self.layout)
    }
}

impl FunctionMaps for OriginalSide {
    fn made_and_dropped(entries: &[(u32, u32)]) -> u64 {
        let mut forest = MapForest::new();
        let mut maps: [Map<u32, u32>; FUNCTION as usize] = Default::default();
        for map in &mut maps {
            for (key, value) in entries {
                map.insert(*key, *value, &mut forest, &());
            }
        }
        maps.iter().fold(0, |sum, map| added(sum, map.cursor(&forest, &()).prev().map_or(7, |entry| entry.1)))
    }
}

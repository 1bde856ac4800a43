//! Questions, unions, intersections and differences of two whole maps or sets of one forest: worked by hand, beside `BTreeMap` and `BTreeSet`, and one node short.

use bforest::{Comparator, Map, MapForest, Maps, OutOfMemory, Set, SetForest, Sets};
use std::cell::Cell;
use std::cmp::Ordering;
use std::collections::{BTreeMap, BTreeSet};

#[path = "random/mod.rs"]
mod random;
use random::Random;

/// Keys that differ in their last digit alone are equal.
struct Tens;

impl Comparator<u32> for Tens {
    fn cmp(&self, a: u32, b: u32) -> Ordering {
        (a / 10).cmp(&(b / 10))
    }
}

/// The order of the keys, which counts how often it is asked.
#[derive(Default)]
struct Counting(Cell<u32>);

impl Comparator<u32> for Counting {
    fn cmp(&self, a: u32, b: u32) -> Ordering {
        self.0.set(self.0.get() + 1);
        a.cmp(&b)
    }
}

fn set_of(keys: impl IntoIterator<Item = u32>, forest: &mut SetForest<u32>) -> Set<u32> {
    let mut set = Set::new();
    keys.into_iter().for_each(|key| _ = set.insert(key, forest, &()).unwrap());
    set
}

fn map_of(keys: impl IntoIterator<Item = u32>, value: u32, forest: &mut MapForest<u32, u32>) -> Map<u32, u32> {
    let mut map = Map::new();
    keys.into_iter().for_each(|key| _ = map.insert(key, value, forest, &()).unwrap());
    map
}

/// The fewest nodes of so many entries, whose leaves hold so many.
fn fewest(entries: usize, leaf: usize) -> usize {
    let mut level = entries.div_ceil(leaf);
    let mut nodes = level;
    while level > 1 {
        level = level.div_ceil(8);
        nodes += level;
    }
    nodes
}

// Worked by hand.

#[test]
fn questions_of_two_sets() {
    let mut forest = SetForest::new();
    let (none, odd, all) = (Set::new(), set_of([1, 3, 5], &mut forest), set_of(1..=5, &mut forest));
    let (even, last) = (set_of([2, 4, 6], &mut forest), set_of([6], &mut forest));
    let asked = |a: &Set<u32>, b: &Set<u32>| (a.is_subset(b, &forest, &()), a.is_disjoint(b, &forest, &()));
    assert_eq!(asked(&none, &none), (true, true));
    assert_eq!(asked(&none, &odd), (true, true));
    assert_eq!(asked(&odd, &none), (false, true));
    assert_eq!(asked(&odd, &odd.clone()), (true, false));
    assert_eq!(asked(&odd, &all), (true, false));
    assert_eq!(asked(&all, &odd), (false, false));
    assert_eq!(asked(&odd, &even), (false, true));
    // The last key alone is not there.
    assert_eq!(asked(&even, &all), (false, false));
    assert_eq!(asked(&last, &all), (false, true));
}

/// Each key of either is compared at most once, and the reading ends where the answer is known.
#[test]
fn questions_compare_each_key_once() {
    let mut forest = SetForest::new();
    let (few, many) = (set_of([100, 300], &mut forest), set_of(0..200, &mut forest));
    let order = Counting::default();
    assert!(!few.is_subset(&many, &forest, &order));
    assert!(order.0.take() <= 202);
    assert!(many.is_subset(&many.clone(), &forest, &order));
    assert_eq!(order.0.take(), 200);
    assert!(!many.is_subset(&few, &forest, &order));
    assert_eq!(order.0.take(), 1);
    assert!(!few.is_disjoint(&many, &forest, &order));
    assert_eq!(order.0.take(), 101);
}

/// What is left of two sets in each iterator over them, key by key.
#[test]
fn two_sets_are_read_side_by_side() {
    let mut forest = SetForest::new();
    let (odd, few, none) = (set_of([1, 3, 5], &mut forest), set_of([0, 3, 4, 9], &mut forest), Set::new());
    assert!(odd.union(&few, &forest, &()).eq([0, 1, 3, 4, 5, 9]));
    assert!(odd.intersection(&few, &forest, &()).eq([3]));
    assert!(odd.difference(&few, &forest, &()).eq([1, 5]) && few.difference(&odd, &forest, &()).eq([0, 4, 9]));
    assert!(odd.symmetric_difference(&few, &forest, &()).eq([0, 1, 4, 5, 9]));
    assert!(odd.union(&none, &forest, &()).eq([1, 3, 5]) && none.union(&odd, &forest, &()).eq([1, 3, 5]));
    assert!(odd.intersection(&none, &forest, &()).chain(none.intersection(&odd, &forest, &())).next().is_none());
    assert!(odd.difference(&none, &forest, &()).eq([1, 3, 5]) && none.difference(&odd, &forest, &()).next().is_none());
    assert!(odd.symmetric_difference(&none, &forest, &()).eq([1, 3, 5]));
    // Both may be one set.
    assert!(odd.union(&odd, &forest, &()).eq([1, 3, 5]) && odd.intersection(&odd, &forest, &()).eq([1, 3, 5]));
    assert!(odd.difference(&odd, &forest, &()).next().is_none() && odd.symmetric_difference(&odd, &forest, &()).next().is_none());
    // A copy goes on from where it was made, and the end stays.
    let mut keys = odd.union(&few, &forest, &());
    assert_eq!((keys.next(), keys.next()), (Some(0), Some(1)));
    assert!(keys.clone().eq([3, 4, 5, 9]) && keys.by_ref().eq([3, 4, 5, 9]));
    assert_eq!((keys.next(), keys.next()), (None, None));
}

/// Of two keys that compare equal it is the first set's that is read.
#[test]
fn equal_keys_of_two_sets_are_read_of_the_first() {
    let mut forest = SetForest::new();
    let (mut set, mut other) = (Set::new(), Set::new());
    for key in [11, 35, 52] {
        set.insert(key, &mut forest, &Tens).unwrap();
    }
    for key in [17, 23, 39, 41] {
        other.insert(key, &mut forest, &Tens).unwrap();
    }
    assert!(set.union(&other, &forest, &Tens).eq([11, 23, 35, 41, 52]));
    assert!(other.union(&set, &forest, &Tens).eq([17, 23, 39, 41, 52]));
    assert!(set.intersection(&other, &forest, &Tens).eq([11, 35]) && other.intersection(&set, &forest, &Tens).eq([17, 39]));
    assert!(set.difference(&other, &forest, &Tens).eq([52]) && other.difference(&set, &forest, &Tens).eq([23, 41]));
    assert!(set.symmetric_difference(&other, &forest, &Tens).eq([23, 41, 52]));
}

/// Sets of `n` and `m` keys are read with `n + m - 1` comparisons at most, and none before the first step. Reading ends with what tells no more.
#[test]
fn reading_two_sets_compares_each_key_once() {
    let mut forest = SetForest::new();
    let (few, many) = (set_of([100, 300], &mut forest), set_of(0..200, &mut forest));
    let order = Counting::default();
    let (either, both) = (few.union(&many, &forest, &order), few.intersection(&many, &forest, &order));
    let (own, one) = (few.difference(&many, &forest, &order), few.symmetric_difference(&many, &forest, &order));
    assert_eq!(order.0.take(), 0);
    let mut steps = either.clone();
    assert_eq!((steps.next(), order.0.take()), (Some(0), 1));
    // 100 is found behind 100 keys, and 300 is greater than the 99 behind it.
    assert_eq!((either.count(), order.0.take()), (201, 200));
    assert_eq!((both.count(), order.0.take()), (1, 200));
    assert_eq!((own.count(), order.0.take()), (1, 200));
    assert_eq!((one.count(), order.0.take()), (200, 200));
    // The lesser set ends at once.
    let start = set_of([0], &mut forest);
    assert_eq!((start.intersection(&many, &forest, &order).count(), order.0.take()), (1, 1));
    assert_eq!((start.difference(&many, &forest, &order).count(), order.0.take()), (0, 1));
    // Odd keys among even ones: all but the last are compared.
    let (odd, even) = (set_of((1..20).step_by(2), &mut forest), set_of((0..20).step_by(2), &mut forest));
    assert_eq!((odd.union(&even, &forest, &order).count(), order.0.take()), (20, 19));
    let none = Set::new();
    assert_eq!((odd.union(&none, &forest, &order).count(), none.union(&odd, &forest, &order).count()), (10, 10));
    assert_eq!((odd.difference(&none, &forest, &order).count(), odd.intersection(&none, &forest, &order).count()), (10, 0));
    assert_eq!(order.0.take(), 0);
}

#[test]
fn unions_of_two_maps() {
    let mut forest = MapForest::new();
    let mut map = map_of([1, 3, 5], 1, &mut forest);
    let other = map_of([0, 3, 4, 9], 2, &mut forest);
    assert_eq!(map.union_with(&other, &mut forest, &()), Ok(true));
    assert!(map.iter(&forest).eq([(0, 2), (1, 1), (3, 1), (4, 2), (5, 1), (9, 2)]));
    assert!(other.iter(&forest).eq([(0, 2), (3, 2), (4, 2), (9, 2)]));
    // The old leaf of the map is free.
    assert_eq!((forest.slots(), forest.free_slots()), (3, 1));
    let before = map.clone();
    assert_eq!(map.union_with(&other, &mut forest, &()), Ok(false));
    assert_eq!(map.union_with(&before, &mut forest, &()), Ok(false));
    assert_eq!(map.union_with(&Map::new(), &mut forest, &()), Ok(false));
    assert_eq!((forest.slots(), forest.free_slots(), forest.holds(&before)), (3, 1, true));
    // An empty map takes all entries.
    let mut none = Map::new();
    assert_eq!(none.union_with(&map, &mut forest, &()), Ok(true));
    assert!(none.iter(&forest).eq(map.iter(&forest)));
    assert_eq!((forest.slots(), forest.free_slots()), (3, 0));
}

/// A stored key that compares equal stays.
#[test]
fn unions_keep_their_own_keys() {
    let mut forest = SetForest::new();
    let (mut set, mut other) = (Set::new(), Set::new());
    for key in [11, 35] {
        set.insert(key, &mut forest, &Tens).unwrap();
    }
    for key in [17, 23, 39, 41] {
        other.insert(key, &mut forest, &Tens).unwrap();
    }
    assert_eq!(set.union_with(&other, &mut forest, &Tens), Ok(true));
    assert!(set.iter(&forest).eq([11, 23, 35, 41]));
    assert!(set.clone().is_subset(&other, &forest, &Tens));
}

/// 20 keys and 10 more lie in two full leaves under a root: three nodes beside the three that the set has.
#[test]
fn a_union_one_node_short_changes_nothing() {
    for (limit, answer) in [(6, Err(OutOfMemory::Full)), (7, Ok(true))] {
        let mut forest = SetForest::with_node_limit(limit);
        let mut set = set_of(0..20, &mut forest);
        let other = set_of(20..30, &mut forest);
        let before = (forest.slots(), forest.free_slots());
        assert_eq!(before, (4, 0));
        assert_eq!(set.union_with(&other, &mut forest, &()), answer);
        assert!(other.iter(&forest).eq(20..30));
        if answer.is_ok() {
            assert!(set.iter(&forest).eq(0..30));
            assert_eq!((forest.slots(), forest.free_slots()), (7, 3));
        } else {
            assert!(set.iter(&forest).eq(0..20));
            assert_eq!((forest.slots(), forest.free_slots()), before);
        }
    }
}

/// A full leaf of seven is cut in two by one new entry, as an insertion does it. The tree with the fewest nodes would have two leaves of 7 and 1.
#[test]
fn a_single_new_entry_is_inserted() {
    for (limit, answer) in [(3, Err(OutOfMemory::Full)), (4, Ok(true))] {
        let mut forest = MapForest::with_node_limit(limit);
        let mut map = map_of(0..7, 1, &mut forest);
        let other = map_of([3, 50], 2, &mut forest);
        assert_eq!((forest.slots(), forest.free_slots()), (2, 0));
        assert_eq!(map.union_with(&other, &mut forest, &()), answer);
        let added = answer.ok().map(|_| (50, 2));
        assert!(map.iter(&forest).eq((0..7).map(|key| (key, 1)).chain(added)));
        assert!(other.iter(&forest).eq([(3, 2), (50, 2)]));
        assert_eq!((forest.slots(), forest.free_slots()), if answer.is_ok() { (4, 0) } else { (2, 0) });
    }
}

#[test]
fn unions_by_index() {
    let mut maps: Maps<u32, char> = Maps::new(());
    for _ in 0..3 {
        maps.push().unwrap();
    }
    for (index, key, value) in [(0, 1, 'a'), (0, 2, 'b'), (1, 2, 'c'), (1, 3, 'd')] {
        maps.insert(index, key, value).unwrap();
    }
    assert!(maps.is_subset(1, 1) && !maps.is_disjoint(1, 1) && maps.is_subset(2, 0) && maps.is_disjoint(2, 2));
    assert!(!maps.is_subset(1, 0) && !maps.is_disjoint(0, 1));
    assert_eq!(maps.union_with(0, 1), Ok(true));
    assert!(maps.is_subset(1, 0) && !maps.is_subset(0, 1));
    assert_eq!(maps.union_with(0, 1), Ok(false));
    assert_eq!(maps.union_with(0, 0), Ok(false));
    assert_eq!(maps.union_with(0, 2), Ok(false));
    assert!(maps.iter(0).eq([(1, 'a'), (2, 'b'), (3, 'd')]));
    assert!(maps.iter(1).eq([(2, 'c'), (3, 'd')]));
    let mut sets: Sets<u32> = Sets::new(());
    sets.grow_to(3).unwrap();
    for (index, key) in [(0, 1), (0, 2), (1, 2), (1, 3)] {
        sets.insert(index, key).unwrap();
    }
    assert!(sets.is_subset(1, 1) && !sets.is_disjoint(1, 1) && sets.is_subset(2, 0) && sets.is_disjoint(2, 2));
    assert!(!sets.is_subset(1, 0) && !sets.is_disjoint(0, 1));
    assert_eq!((sets.union_with(0, 1), sets.union_with(0, 1), sets.union_with(2, 2)), (Ok(true), Ok(false), Ok(false)));
    assert!(sets.is_subset(1, 0) && sets.iter(0).eq([1, 2, 3]) && sets.iter(1).eq([2, 3]));
    // 0 has 1, 2 and 3, 1 has 2 and 3, and 2 has nothing.
    assert!(sets.union(0, 1).eq([1, 2, 3]) && sets.union(2, 1).eq([2, 3]) && sets.union(0, 0).eq([1, 2, 3]));
    assert!(sets.intersection(0, 1).eq([2, 3]) && sets.intersection(0, 2).next().is_none());
    assert!(sets.difference(0, 1).eq([1]) && sets.difference(1, 0).next().is_none() && sets.difference(0, 2).eq([1, 2, 3]));
    assert!(sets.symmetric_difference(1, 0).eq([1]) && sets.symmetric_difference(0, 0).next().is_none());
}

// Beside the standard library.

fn some_keys(random: &mut Random, most: u32, bound: u32) -> BTreeSet<u32> {
    let count = random.below(most + 1);
    (0..count).map(|_| random.below(bound)).collect()
}

/// The number of nodes of a set's tree.
fn nodes_of(set: &Set<u32>, forest: &SetForest<u32>) -> u32 {
    let mut forest = forest.clone();
    let free = forest.free_slots();
    set.clone().clear(&mut forest);
    forest.free_slots() - free
}

#[test]
fn sets_beside_btreeset() {
    let mut random = Random(7);
    for round in 0..600 {
        let (most, bound) = [(4, 6), (40, 60), (200, 300), (600, 5000)][round % 4];
        let (a, b) = (some_keys(&mut random, most, bound), some_keys(&mut random, most, bound));
        let made = |limit| {
            let mut forest = SetForest::with_node_limit(limit);
            let sets = [&a, &b].map(|keys| set_of(keys.iter().copied(), &mut forest));
            (forest, sets)
        };
        let (mut forest, [mut mine, other]) = made(u32::MAX);
        assert_eq!(mine.is_subset(&other, &forest, &()), a.is_subset(&b));
        assert_eq!(mine.is_disjoint(&other, &forest, &()), a.is_disjoint(&b));
        assert!(mine.union(&other, &forest, &()).eq(a.union(&b).copied()));
        assert!(mine.intersection(&other, &forest, &()).eq(a.intersection(&b).copied()));
        assert!(mine.difference(&other, &forest, &()).eq(a.difference(&b).copied()));
        assert!(mine.symmetric_difference(&other, &forest, &()).eq(a.symmetric_difference(&b).copied()));
        let union: BTreeSet<u32> = a.union(&b).copied().collect();
        let changes = union.len() > a.len();
        // A single new key is inserted. For more of them the tree is made anew, beside the old one.
        let is_packed = union.len() > a.len() + 1;
        let need = match union.difference(&a).next() {
            Some(_) if is_packed => fewest(union.len(), 15) as u32,
            Some(&key) => {
                let (mut forest, [mut mine, _]) = made(u32::MAX);
                let (slots, free) = (forest.slots(), forest.free_slots());
                mine.insert(key, &mut forest, &()).unwrap();
                forest.slots() - slots + free - forest.free_slots()
            }
            None => 0,
        };
        let (slots, free, old) = (forest.slots(), forest.free_slots(), nodes_of(&mine, &forest));
        assert_eq!(mine.union_with(&other, &mut forest, &()), Ok(changes));
        assert!(mine.iter(&forest).eq(union.iter().copied()) && other.iter(&forest).eq(b.iter().copied()));
        assert_eq!(forest.slots(), slots + need.saturating_sub(free));
        assert_eq!(forest.free_slots(), free.saturating_sub(need) + if is_packed { old } else { 0 });
        // A limit that allows just the nodes that are needed, and one that allows one node fewer.
        for short in [0, 1] {
            if need < free + short {
                continue;
            }
            let (mut forest, [mut mine, other]) = made(slots + need - free - short);
            let answer = if short == 0 { Ok(changes) } else { Err(OutOfMemory::Full) };
            assert_eq!(mine.union_with(&other, &mut forest, &()), answer);
            let left = if answer.is_ok() { &union } else { &a };
            assert!(mine.iter(&forest).eq(left.iter().copied()) && other.iter(&forest).eq(b.iter().copied()));
            if answer.is_err() {
                assert_eq!((forest.slots(), forest.free_slots()), (slots, free));
            }
        }
    }
}

#[test]
fn maps_beside_btreemap() {
    let mut random = Random(11);
    for round in 0..600 {
        let (most, bound) = [(4, 6), (40, 60), (200, 300), (600, 5000)][round % 4];
        let (a, b) = (some_keys(&mut random, most, bound), some_keys(&mut random, most, bound));
        let mut forest = MapForest::new();
        let (mut mine, other) = (map_of(a.iter().copied(), 1, &mut forest), map_of(b.iter().copied(), 2, &mut forest));
        let mut union: BTreeMap<u32, u32> = b.iter().map(|&key| (key, 2)).collect();
        union.extend(a.iter().map(|&key| (key, 1)));
        assert_eq!(mine.union_with(&other, &mut forest, &()), Ok(union.len() > a.len()));
        assert!(mine.iter(&forest).eq(union.iter().map(|(&key, &value)| (key, value))));
        assert!(other.iter(&forest).eq(b.iter().map(|&key| (key, 2))));
        assert_eq!(mine.union_with(&other, &mut forest, &()), Ok(false));
        // The map can be changed as any other.
        for key in 0..bound.min(50) {
            assert_eq!(mine.insert(key, 3, &mut forest, &()), Ok(union.insert(key, 3)));
            assert_eq!(mine.remove(key + 1, &mut forest, &()), union.remove(&(key + 1)));
        }
        assert!(mine.iter(&forest).eq(union.into_iter()));
        mine.clear(&mut forest);
        other.clone().clear(&mut forest);
        assert_eq!(forest.nodes_in_use(), 0);
    }
}

#[test]
fn intersections_and_differences_beside_btreeset() {
    let mut random = Random(5);
    for round in 0..600 {
        let (most, bound) = [(4, 6), (40, 60), (200, 300), (600, 5000)][round % 4];
        let (a, b) = (some_keys(&mut random, most, bound), some_keys(&mut random, most, bound));
        let mut forest = SetForest::new();
        let [mut mine, mut less, mut same, other] =
            [&a, &a, &a, &b].map(|keys| set_of(keys.iter().copied(), &mut forest));
        let (common, slots) = (a.intersection(&b).count(), forest.slots());
        for (set, present, left) in [(&mut mine, true, common), (&mut less, false, a.len() - common)] {
            let order = Counting::default();
            let changed = match present {
                true => set.intersect_with(&other, &mut forest, &order),
                false => set.difference_with(&other, &mut forest, &order),
            };
            assert_eq!(changed, left < a.len());
            // Builds with guards compare each key with the next, too.
            let times = if cfg!(any(debug_assertions, feature = "guards")) { 2 } else { 1 };
            assert!(order.0.get() as usize <= times * (a.len() + b.len()));
        }
        assert!(mine.iter(&forest).eq(a.intersection(&b).copied()) && less.iter(&forest).eq(a.difference(&b).copied()));
        assert!(other.iter(&forest).eq(b.iter().copied()) && same.iter(&forest).eq(a.iter().copied()));
        assert_eq!(forest.slots(), slots);
        // Both are one set.
        let one = same.clone();
        assert!(!same.intersect_with(&one, &mut forest, &()) && same.iter(&forest).eq(a.iter().copied()));
        assert_eq!(same.difference_with(&one, &mut forest, &()), !a.is_empty());
        assert!(same.is_empty() && other.iter(&forest).eq(b.iter().copied()));
        // One removal for each key that goes leaves a tree of the same nodes.
        let mut alone = set_of(a.iter().copied(), &mut forest);
        a.difference(&b).for_each(|&key| assert!(alone.remove(key, &mut forest, &())));
        assert_eq!(nodes_of(&alone, &forest), nodes_of(&mine, &forest));
        // None is left where the other one is empty.
        let mut empty = Set::new();
        assert!(!mine.difference_with(&empty, &mut forest, &()) && !empty.intersect_with(&mine, &mut forest, &()));
        assert_eq!(mine.intersect_with(&empty, &mut forest, &()), common > 0);
        assert!(mine.is_empty() && empty.is_empty());
    }
}

#[test]
fn maps_keep_their_values() {
    let mut random = Random(23);
    for round in 0..600 {
        let (most, bound) = [(4, 6), (40, 60), (200, 300), (600, 5000)][round % 4];
        let (a, b) = (some_keys(&mut random, most, bound), some_keys(&mut random, most, bound));
        let mut forest = MapForest::new();
        let [mut mine, mut less] = [1, 2].map(|value| map_of(a.iter().copied(), value, &mut forest));
        let other = map_of(b.iter().copied(), 3, &mut forest);
        let common = a.intersection(&b).count();
        assert_eq!(mine.is_subset(&other, &forest, &()), a.is_subset(&b));
        assert_eq!(mine.is_disjoint(&other, &forest, &()), a.is_disjoint(&b));
        assert_eq!(mine.intersect_with(&other, &mut forest, &()), common < a.len());
        assert_eq!(less.difference_with(&other, &mut forest, &()), common > 0);
        assert!(mine.is_subset(&other, &forest, &()) && less.is_disjoint(&other, &forest, &()) && mine.is_disjoint(&less, &forest, &()));
        assert!(mine.iter(&forest).eq(a.intersection(&b).map(|&key| (key, 1))));
        assert!(less.iter(&forest).eq(a.difference(&b).map(|&key| (key, 2))));
        assert!(other.iter(&forest).eq(b.iter().map(|&key| (key, 3))));
        // Both can be changed as any other, and their union is the map that was.
        assert_eq!(mine.union_with(&less, &mut forest, &()), Ok(common < a.len()));
        assert!(mine.iter(&forest).map(|(key, _)| key).eq(a.iter().copied()));
        [&mut mine, &mut less, &mut other.clone()].into_iter().for_each(|map| map.clear(&mut forest));
        assert_eq!(forest.nodes_in_use(), 0);
    }
}

#[test]
fn intersections_and_differences_by_index() {
    let mut sets: Sets<u32> = Sets::new(());
    let mut maps: Maps<u32, usize> = Maps::new(());
    sets.grow_to(3).unwrap();
    maps.grow_to(3).unwrap();
    for key in 0..40 {
        for index in 0..2 {
            if index == 0 || key % 3 == 0 {
                sets.insert(index, key).unwrap();
                maps.insert(index, key, index).unwrap();
            }
        }
    }
    assert!(!sets.intersect_with(0, 0) && sets.difference_with(0, 1) && !sets.difference_with(0, 1));
    assert!(sets.iter(0).eq((0..40).filter(|key| key % 3 != 0)) && sets.iter(1).eq((0..40).step_by(3)));
    assert!(sets.is_disjoint(0, 1) && sets.intersect_with(0, 1) && sets.iter(0).next().is_none());
    assert!(sets.difference_with(1, 1) && !sets.difference_with(1, 1) && !sets.intersect_with(1, 2));
    assert!(maps.intersect_with(0, 1) && maps.iter(0).eq((0..40).step_by(3).map(|key| (key, 0))));
    assert!(maps.difference_with(1, 0) && maps.is_disjoint(0, 1) && !maps.difference_with(0, 1) && maps.intersect_with(0, 2));
    assert_eq!((sets.slots() - sets.free_slots(), maps.slots() - maps.free_slots()), (0, 0));
}

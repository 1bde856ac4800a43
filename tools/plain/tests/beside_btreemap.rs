//! Random calls beside `BTreeMap`: ranges that are read from both ends in turn, cursors that write beside where they stand and then read on,
//! updates, keys that are shifted, entries taken from both ends, maps that are loaded, orders with no search of their own, and wide keys.

use bforest::{Comparator, Map, MapForest, OutOfMemory, Set, SetForest};
use std::cmp::{Ordering, Reverse};
use std::collections::{BTreeMap, BTreeSet};
use std::ops::Bound;

/// Numbers by xorshift.
struct Random(u64);

impl Random {
    fn below(&mut self, n: u32) -> u32 {
        self.0 ^= self.0 << 13;
        self.0 ^= self.0 >> 7;
        self.0 ^= self.0 << 17;
        (self.0 >> 33) as u32 % n
    }
}

/// A bound of a range, of any kind.
fn bound(random: &mut Random, keys: u32) -> Bound<u32> {
    match random.below(3) {
        0 => Bound::Included(random.below(keys)),
        1 => Bound::Excluded(random.below(keys)),
        _ => Bound::Unbounded,
    }
}

/// What a range of the model has. It is empty where the standard library panics.
fn within(model: &BTreeMap<u32, u32>, start: Bound<u32>, end: Bound<u32>) -> Vec<(u32, u32)> {
    let is_behind = |key: u32| match start {
        Bound::Included(from) => from <= key,
        Bound::Excluded(from) => from < key,
        Bound::Unbounded => true,
    };
    let is_before = |key: u32| match end {
        Bound::Included(to) => key <= to,
        Bound::Excluded(to) => key < to,
        Bound::Unbounded => true,
    };
    model.iter().map(|(key, value)| (*key, *value)).filter(|it| is_behind(it.0) && is_before(it.0)).collect()
}

/// Reads a range to its end, from either end at each step.
fn read_in_turn(
    random: &mut Random,
    map: &Map<u32, u32>,
    forest: &MapForest<u32, u32>,
    model: &BTreeMap<u32, u32>,
    keys: u32,
) {
    let (start, end) = (bound(random, keys), bound(random, keys));
    let mut range = map.range((start, end), forest, &());
    let mut left: std::collections::VecDeque<_> = within(model, start, end).into();
    loop {
        let is_front = random.below(2) == 0;
        let (found, known) =
            if is_front { (range.next(), left.pop_front()) } else { (range.next_back(), left.pop_back()) };
        assert_eq!(found, known, "{start:?} {end:?}");
        if known.is_none() {
            assert_eq!((range.next(), range.next_back()), (None, None));
            return;
        }
    }
}

/// Makes one call that writes, on both sides.
fn write(
    random: &mut Random,
    map: &mut Map<u32, u32>,
    forest: &mut MapForest<u32, u32>,
    model: &mut BTreeMap<u32, u32>,
    keys: u32,
) {
    let (key, value) = (random.below(keys), random.below(1000));
    match random.below(9) {
        0 => {
            let known = model.get_mut(&key).map(|it| {
                *it += value;
                *it
            });
            assert_eq!(map.update(key, |it| it + value, forest, &()), known);
        }
        1 => {
            let known = *model.entry(key).or_insert(value);
            assert_eq!(map.get_or_insert(key, value, forest, &()), Ok(known));
        }
        2 => assert_eq!(map.pop_first(forest), model.pop_first()),
        3 => assert_eq!(map.pop_last(forest), model.pop_last()),
        4 => assert_eq!(map.remove(key, forest, &()), model.remove(&key)),
        5 => assert_eq!(map.insert(key, value, forest, &()), Ok(model.insert(key, value))),
        6 => shift(random, map, forest, model, key),
        7 => {
            let known = *model.entry(key).and_modify(|it| *it += value).or_insert(value);
            assert_eq!(map.update_or_insert(key, value, |it| it + value, forest, &()), Ok(known));
        }
        _ => by_cursor(random, map, forest, model, keys),
    }
}

/// Moves all keys from one on, up or down, so far that none meets the last key in front of them.
fn shift(
    random: &mut Random,
    map: &mut Map<u32, u32>,
    forest: &mut MapForest<u32, u32>,
    model: &mut BTreeMap<u32, u32>,
    from: u32,
) {
    let before = model.range(..from).next_back().map_or(0, |last| last.0 + 1);
    let gap = model.range(from..).next().map_or(0, |first| first.0 - before);
    let (up, down) = if random.below(2) == 0 { (random.below(3), 0) } else { (0, random.below(gap + 1)) };
    let behind = model.split_off(&from);
    model.extend(behind.into_iter().map(|(key, value)| (key + up - down, value)));
    map.shift(from, |key| key + up - down, forest, &());
}

/// Insertions, removals and steps of one cursor, which then reads on to the end.
fn by_cursor(
    random: &mut Random,
    map: &mut Map<u32, u32>,
    forest: &mut MapForest<u32, u32>,
    model: &mut BTreeMap<u32, u32>,
    keys: u32,
) {
    let mut cursor = map.cursor_mut(forest, &());
    let mut at: Option<u32> = None;
    for _ in 0..random.below(12) {
        let key = random.below(keys);
        match random.below(6) {
            0 => {
                assert_eq!(cursor.insert(key, key), Ok(model.insert(key, key)));
                at = Some(key);
            }
            1 => {
                let near = at.map_or(keys, |it| it + 1);
                assert_eq!(cursor.insert(near, near), Ok(model.insert(near, near)));
                at = Some(near);
            }
            2 => {
                let next = at.and_then(|it| model.range(it + 1..).next()).map(|(key, value)| (*key, *value));
                assert_eq!(cursor.next(), next);
                at = next.map(|it| it.0);
            }
            3 => {
                let prev = match at {
                    Some(it) => model.range(..it).next_back(),
                    None => model.last_key_value(),
                };
                let prev = prev.map(|(key, value)| (*key, *value));
                assert_eq!(cursor.prev(), prev);
                at = prev.map(|it| it.0).or(at);
            }
            4 => {
                let known = at.and_then(|it| model.remove(&it));
                assert_eq!(cursor.remove(), known);
                at = at.and_then(|it| model.range(it..).next()).map(|it| *it.0);
            }
            _ => {
                assert_eq!(cursor.goto(key), model.get(&key).copied());
                at = model.range(key..).next().map(|it| *it.0);
            }
        }
        assert_eq!(cursor.key(), at);
    }
    while let Some(here) = at {
        at = model.range(here + 1..).next().map(|it| *it.0);
        assert_eq!(cursor.next().map(|it| it.0), at);
    }
}

#[test]
fn maps_answer_as_a_model_does() {
    let mut random = Random(9);
    for keys in [3, 12, 40, 200, 900] {
        let mut forest = MapForest::new();
        let mut maps: Vec<(Map<u32, u32>, BTreeMap<u32, u32>)> =
            (0..4).map(|_| (Map::new(), BTreeMap::new())).collect();
        for call in 0..40_000 {
            let (map, model) = &mut maps[random.below(4) as usize];
            write(&mut random, map, &mut forest, model, keys);
            if call % 8 == 0 {
                read_in_turn(&mut random, map, &forest, model, keys);
                assert!(map.iter_back(&forest).eq(model.iter().rev().map(|(key, value)| (*key, *value))));
                assert!(map.iter(&forest).eq(model.iter().map(|(key, value)| (*key, *value))));
                assert_eq!(map.first(&forest), model.first_key_value().map(|(key, value)| (*key, *value)));
                assert_eq!(map.last(&forest), model.last_key_value().map(|(key, value)| (*key, *value)));
                assert!(forest.holds(map) && map.increases(&forest, &()));
            }
        }
        maps.iter_mut().for_each(|it| it.0.clear(&mut forest));
        assert_eq!(forest.free_slots(), forest.slots());
    }
}

/// The fewest nodes of so many entries: a leaf for each seven, and on each further level a node for each eight, up to one.
fn fewest_nodes(entries: usize) -> u32 {
    let mut level = entries.div_ceil(7);
    let mut nodes = level;
    while level > 1 {
        level = level.div_ceil(8);
        nodes += level;
    }
    nodes as u32
}

/// Maps of 0 to 600 entries, each loaded beside others in one forest, under a limit of so many nodes and of one less, and then changed.
#[test]
fn maps_are_loaded_as_a_model_is() {
    let mut random = Random(12);
    for entries in 0..=600 {
        let (mut forest, mut other, mut at) = (MapForest::new(), Map::new(), 0);
        let mut model = BTreeMap::new();
        for _ in 0..entries {
            at += 1 + random.below(3);
            model.insert(at, random.below(1000));
        }
        let list: Vec<(u32, u32)> = model.iter().map(|(key, value)| (*key, *value)).collect();
        let fewest = fewest_nodes(entries);
        assert_eq!(fewest as usize, Map::<u32, u32>::fewest_nodes_for(entries));
        if fewest > 0 {
            let mut short = MapForest::with_node_limit(fewest);
            assert_eq!(other.insert(7, 7, &mut short, &()), Ok(None));
            assert!(Map::load(&list, &mut short).is_err_and(|it| it == OutOfMemory::Full));
            assert_eq!((short.slots(), short.free_slots(), other.get(7, &short, &())), (1, 0, Some(7)));
            other.clear(&mut short);
            assert!(Map::load(&list, &mut short).is_ok_and(|it| it.iter(&short).eq(list.iter().copied())));
            assert_eq!((short.slots(), short.free_slots()), (fewest, 0));
        }
        for key in 0..random.below(40) {
            assert_eq!(other.insert(key, key, &mut forest, &()), Ok(None));
        }
        let before = forest.slots() - forest.free_slots();
        let mut map = Map::load(&list, &mut forest).unwrap();
        assert_eq!((forest.slots(), forest.free_slots()), (before + fewest, 0));
        assert_eq!(map.len(&forest), entries);
        assert!(map.increases(&forest, &()) && forest.holds(&map) && map.is_empty() == list.is_empty());
        assert!(map.iter_back(&forest).eq(list.iter().rev().copied()));
        let kept: Vec<(u32, u32)> = other.iter(&forest).collect();
        for call in 0..60 {
            write(&mut random, &mut map, &mut forest, &mut model, at + 3);
            if call % 8 == 0 {
                read_in_turn(&mut random, &map, &forest, &model, at + 3);
                assert!(map.iter(&forest).eq(model.iter().map(|(key, value)| (*key, *value))));
                assert_eq!(map.len(&forest), model.len());
            }
        }
        assert!(other.iter(&forest).eq(kept));
        map.clear(&mut forest);
        other.clear(&mut forest);
        assert_eq!(forest.free_slots(), forest.slots());
    }
}

#[test]
fn sets_are_shifted_as_a_model_is() {
    let mut random = Random(10);
    let (mut forest, mut set, mut model) = (SetForest::new(), Set::new(), BTreeSet::new());
    for _ in 0..20_000 {
        let key = random.below(300);
        match random.below(4) {
            0 => {
                model = model.iter().map(|it| if *it < key { *it } else { *it + 1 }).collect();
                set.shift(key, |it| it + 1, &mut forest, &());
            }
            1 => assert_eq!(set.remove(key, &mut forest, &()), model.remove(&key)),
            _ => assert_eq!(set.insert(key, &mut forest, &()), Ok(model.insert(key))),
        }
        assert_eq!(set.contains(key, &forest, &()), model.contains(&key));
    }
    assert!(set.iter(&forest).eq(model.iter().copied()) && set.increases(&forest, &()));
}

/// An order from the greatest key down, with the searches that a comparator has if it names none; and keys of more than 8 bytes.
#[test]
fn other_orders_and_wide_keys() {
    struct Down;
    impl Comparator<(u64, u32)> for Down {
        fn cmp(&self, a: (u64, u32), b: (u64, u32)) -> Ordering {
            Reverse(a).cmp(&Reverse(b))
        }
    }
    let mut random = Random(11);
    let (mut forest, mut up, mut down, mut model) = (MapForest::new(), Map::new(), Map::new(), BTreeMap::new());
    for call in 0..30_000 {
        let key = (u64::from(random.below(30)), random.below(10));
        if random.below(3) > 0 {
            assert_eq!(up.insert(key, call, &mut forest, &()), Ok(model.insert(key, call)));
            down.insert(key, call, &mut forest, &Down).unwrap();
        } else {
            let known = model.remove(&key);
            assert_eq!((up.remove(key, &mut forest, &()), down.remove(key, &mut forest, &Down)), (known, known));
        }
        assert_eq!(up.get(key, &forest, &()), down.get(key, &forest, &Down));
    }
    assert!(up.iter(&forest).eq(model.iter().map(|(key, value)| (*key, *value))));
    assert!(down.iter_back(&forest).eq(up.iter(&forest)));
}

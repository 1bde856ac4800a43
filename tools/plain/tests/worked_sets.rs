//! Short runs of sets, of cursors and of forests whose answers are worked out by hand from the rules of the trees, as those of `worked`: a
//! leaf of a set has at most 15 keys, and halves into 8 and 8.

use bforest::{Map, MapForest, OutOfMemory, Set, SetForest};

/// A set of these keys, put in one after another.
fn set_of(keys: impl IntoIterator<Item = u32>, forest: &mut SetForest<u32>) -> Set<u32> {
    let mut set = Set::default();
    for key in keys {
        assert_eq!(set.insert(key, forest, &()), Ok(true));
    }
    set
}

/// Ten times the keys 1 to 16, which lie in leaves of 10 to 80 and of 90 to 160.
fn two_leaves(forest: &mut SetForest<u32>) -> Set<u32> {
    set_of((1..=16).map(|key| 10 * key), forest)
}

#[test]
fn keys_are_found_from_below_and_from_above() {
    let mut forest = SetForest::new();
    let set = two_leaves(&mut forest);
    let around = |key| (set.get_or_less(key, &forest, &()), set.get_or_greater(key, &forest, &()));
    assert_eq!(around(5), (None, Some(10)));
    assert_eq!(around(80), (Some(80), Some(80)));
    assert_eq!(around(85), (Some(80), Some(90)));
    assert_eq!(around(161), (Some(160), None));
    assert_eq!((set.first(&forest), set.last(&forest)), (Some(10), Some(160)));
    assert!(set.iter_back(&forest).eq((1..=16).rev().map(|key| 10 * key)));
    let mut range = set.range(80..=90, &forest, &());
    assert_eq!((range.next_back(), range.next(), range.next_back()), (Some(90), Some(80), None));
}

#[test]
fn a_set_is_emptied_from_both_ends() {
    let mut forest = SetForest::new();
    let mut set = set_of(1..=3, &mut forest);
    assert_eq!((set.pop_last(&mut forest), set.pop_first(&mut forest), set.pop_last(&mut forest)), (Some(3), Some(1), Some(2)));
    assert_eq!((set.pop_first(&mut forest), set.pop_last(&mut forest), set.is_empty()), (None, None, true));
    assert_eq!((forest.nodes_in_use(), forest.free_slots()), (0, 1));
}

/// A copy has nodes of its own; a second handle has the nodes of the first.
#[test]
fn a_copy_of_a_set_and_a_second_handle() {
    let mut forest = SetForest::new();
    let mut set = two_leaves(&mut forest);
    let (copy, second) = (set.deep_clone(&mut forest).unwrap(), set.clone());
    assert_eq!((forest.slots(), forest.nodes_in_use()), (6, 6));
    assert_eq!((set.is_same_handle(&second), set.is_same_handle(&copy)), (true, false));
    set.clear(&mut forest);
    assert_eq!((forest.nodes_in_use(), forest.holds(&copy), forest.holds(&second)), (3, true, false));
    assert_eq!((copy.levels(&forest), copy.len(&forest)), (2, 16));
    forest.clear();
    assert_eq!((forest.slots(), forest.holds(&copy)), (0, false));
}

/// Without 60 to 80 the first leaf has 5 keys, and those of both fit into one: 13.
#[test]
fn keys_that_stay_and_keys_that_move() {
    let mut forest = SetForest::new();
    let mut set = two_leaves(&mut forest);
    set.retain(&mut forest, |key| !(60..=80).contains(&key));
    assert_eq!((set.levels(&forest), forest.nodes_in_use(), set.len(&forest)), (1, 1, 13));
    set.shift(90, |key| key - 25, &mut forest, &());
    assert!(set.iter(&forest).eq([10, 20, 30, 40, 50, 65, 75, 85, 95, 105, 115, 125, 135]));
    assert!(set.contains(65, &forest, &()) && !set.contains(90, &forest, &()));
}

#[test]
fn two_sets_are_asked_and_put_together() {
    let mut forest = SetForest::new();
    let (mut odd, few) = (set_of([1, 3, 5], &mut forest), set_of([3, 4], &mut forest));
    assert_eq!((few.is_subset(&odd, &forest, &()), few.is_disjoint(&odd, &forest, &())), (false, false));
    assert!(odd.union(&few, &forest, &()).eq([1, 3, 4, 5]) && odd.intersection(&few, &forest, &()).eq([3]));
    assert!(odd.difference(&few, &forest, &()).eq([1, 5]) && odd.symmetric_difference(&few, &forest, &()).eq([1, 4, 5]));
    assert_eq!((odd.union_with(&few, &mut forest, &()), few.is_subset(&odd, &forest, &())), (Ok(true), true));
    assert!(odd.iter(&forest).eq([1, 3, 4, 5]));
    assert!(odd.difference_with(&few, &mut forest, &()) && odd.iter(&forest).eq([1, 5]));
    assert!(odd.intersect_with(&few, &mut forest, &()) && odd.is_empty());
}

#[test]
fn two_maps_are_put_together() {
    let mut forest = MapForest::new();
    let (mut map, mut other) = (Map::default(), Map::default());
    for key in [1, 3, 5] {
        assert_eq!(map.insert(key, 'a', &mut forest, &()), Ok(None));
        assert_eq!(other.insert(key + 2, 'b', &mut forest, &()), Ok(None));
    }
    assert_eq!(map.update(5, |_| 'c', &mut forest, &()), Some('c'));
    assert_eq!(map.update(6, |_| 'd', &mut forest, &()), None);
    assert_eq!((map.is_subset(&other, &forest, &()), map.is_disjoint(&other, &forest, &())), (false, false));
    assert_eq!(map.union_with(&other, &mut forest, &()), Ok(true));
    assert!(other.is_subset(&map, &forest, &()));
    assert!(map.iter_back(&forest).eq([(7, 'b'), (5, 'c'), (3, 'a'), (1, 'a')]));
    assert!(map.intersect_with(&other, &mut forest, &()) && map.iter(&forest).eq([(3, 'a'), (5, 'c'), (7, 'b')]));
    assert!(map.difference_with(&other, &mut forest, &()) && map.is_empty());
}

/// Without 30 to 70 the first leaf has 3 keys, and those of both fit into one: 11. From 90 on there are 8.
#[test]
fn keys_that_go_and_keys_that_are_split_off() {
    let mut forest = SetForest::new();
    let mut set = two_leaves(&mut forest);
    assert!(!set.remove_range(75..75, &mut forest, &()) && !set.remove_range(81..90, &mut forest, &()));
    assert!(set.remove_range(30..=70, &mut forest, &()) && !set.remove_range(30..80, &mut forest, &()));
    assert!(set.iter(&forest).eq([1, 2, 8, 9, 10, 11, 12, 13, 14, 15, 16].map(|key| 10 * key)));
    assert_eq!((set.levels(&forest), forest.slots(), forest.nodes_in_use()), (1, 3, 1));
    let tail = set.split_off(85, &mut forest, &()).unwrap();
    assert!(set.iter(&forest).eq([10, 20, 80]) && tail.iter(&forest).eq((9..=16).map(|key| 10 * key)));
    assert_eq!((tail.levels(&forest), forest.slots(), forest.nodes_in_use()), (1, 3, 2));
    assert!(set.split_off(81, &mut forest, &()).unwrap().is_empty());
}

/// 24 keys in order lie in leaves of 8, 8 and 8 below a root, and packed in leaves of 15 and 9 below one.
#[test]
fn a_compacted_set_has_the_fewest_nodes() {
    for (limit, answer) in [(6, Err(OutOfMemory::Full)), (7, Ok(()))] {
        let mut forest = SetForest::with_node_limit(limit);
        let mut set = set_of(1..=24, &mut forest);
        assert_eq!((forest.nodes_in_use(), set.levels(&forest)), (4, 2));
        assert_eq!(set.compact(&mut forest), answer);
        assert_eq!(forest.nodes_in_use(), if answer.is_ok() { 3 } else { 4 });
        assert!(set.iter(&forest).eq(1..=24) && set.contains(24, &forest, &()));
    }
}

/// The cursor goes over the seam of the two leaves. The key that is put in between goes into the first, which has room.
#[test]
fn a_cursor_of_a_set_puts_in_and_takes_out() {
    let mut forest = SetForest::new();
    let mut set = two_leaves(&mut forest);
    let mut cursor = set.cursor(&mut forest, &());
    assert_eq!((cursor.is_empty(), cursor.elem(), cursor.goto_first()), (false, None, Some(10)));
    assert_eq!((cursor.goto(85), cursor.elem()), (false, Some(90)));
    assert_eq!((cursor.prev(), cursor.next()), (Some(80), Some(90)));
    assert_eq!((cursor.insert(85), cursor.elem(), cursor.try_insert(85)), (Ok(true), Some(85), Ok(false)));
    assert_eq!((cursor.remove(), cursor.elem()), (Some(85), Some(90)));
    assert_eq!((cursor.goto(160), cursor.remove(), cursor.elem(), cursor.remove()), (true, Some(160), None, None));
    assert!(set.iter(&forest).eq((1..=15).map(|key| 10 * key)));
    let mut none = Set::<u32>::new();
    let mut cursor = none.cursor(&mut forest, &());
    assert_eq!((cursor.is_empty(), cursor.goto_first(), cursor.next(), cursor.prev()), (true, None, None, None));
}

/// A map of 1 to 8 lies in two leaves of 4.
#[test]
fn cursors_of_a_map_tell_where_they_stand() {
    let mut forest = MapForest::new();
    let mut map = Map::new();
    for key in 1..=8 {
        assert_eq!(map.insert(key, 10 * key, &mut forest, &()), Ok(None));
    }
    let mut reading = map.cursor(&forest, &());
    assert_eq!((reading.is_empty(), reading.entry(), reading.value()), (false, None, None));
    assert_eq!((reading.goto_first(), reading.entry(), reading.value()), (Some(10), Some((1, 10)), Some(10)));
    reading.goto_end();
    assert_eq!((reading.entry(), reading.prev()), (None, Some((8, 80))));
    let mut writing = map.cursor_mut(&mut forest, &());
    assert_eq!((writing.is_empty(), writing.goto_first(), writing.entry()), (false, Some(10), Some((1, 10))));
}

/// Eight keys of a map need three nodes, sixteen keys of a set do too, and no more are there.
#[test]
fn nodes_are_reserved_up_to_the_limit() {
    let (mut maps, mut sets) = (MapForest::with_node_limit(3), SetForest::with_node_limit(3));
    assert_eq!((maps.node_limit(), sets.node_limit()), (3, 3));
    assert_eq!((maps.reserve_nodes(4), sets.reserve_nodes(4)), (Err(OutOfMemory::Full), Err(OutOfMemory::Full)));
    assert_eq!((maps.slots(), sets.slots()), (0, 0));
    assert_eq!((maps.reserve_nodes(3), sets.reserve_nodes(3)), (Ok(()), Ok(())));
    assert_eq!((maps.free_slots(), sets.free_slots()), (3, 3));
    let mut map = Map::new();
    (1..=8).for_each(|key| assert_eq!(map.insert(key, (), &mut maps, &()), Ok(None)));
    assert_eq!((maps.nodes_in_use(), maps.free_slots()), (3, 0));
    two_leaves(&mut sets);
    assert_eq!((sets.nodes_in_use(), sets.free_slots()), (3, 0));
}

/// Each leaf but the last has at least 4 entries, of a set 8: 5 of them lie in two leaves and a root, and 9 in three leaves. Packed, 8 need two
/// leaves and a root.
#[test]
fn the_most_nodes_and_the_fewest() {
    let most = [0, 1, 4, 5, 8, 9].map(Map::<u32, u32>::nodes_for);
    let fewest = [0, 1, 7, 8, 56, 57].map(Map::<u32, u32>::fewest_nodes_for);
    assert_eq!((most, fewest), ([0, 1, 1, 3, 3, 4], [0, 1, 1, 3, 9, 12]));
    let most = [0, 8, 9, 16, 17].map(Set::<u32>::nodes_for);
    let fewest = [0, 15, 16, 120, 121].map(Set::<u32>::fewest_nodes_for);
    assert_eq!((most, fewest), ([0, 1, 3, 3, 4], [0, 1, 3, 9, 12]));
}

//! Which calls take memory or give it back: those by which the table grows, once for each, and no other.

mod random;

use bforest::{Map, MapForest, Maps, Set, SetForest, Sets};
use random::Random;
use std::alloc::{GlobalAlloc, Layout, System};
use std::cell::Cell;

thread_local! {
    /// How often the allocator was called by this thread.
    static CALLS: Cell<u32> = const { Cell::new(0) };
    /// How many bytes it was last asked for.
    static BYTES: Cell<usize> = const { Cell::new(0) };
}

struct Counting;

fn count() {
    // Where the thread ends, nothing is counted any more.
    let _ = CALLS.try_with(|it| it.set(it.get() + 1));
}

fn asked_for(bytes: usize) {
    count();
    let _ = BYTES.try_with(|it| it.set(bytes));
}

unsafe impl GlobalAlloc for Counting {
    unsafe fn alloc(&self, layout: Layout) -> *mut u8 {
        asked_for(layout.size());
        unsafe { System.alloc(layout) }
    }

    unsafe fn dealloc(&self, at: *mut u8, layout: Layout) {
        count();
        unsafe { System.dealloc(at, layout) }
    }

    unsafe fn realloc(&self, at: *mut u8, layout: Layout, size: usize) -> *mut u8 {
        asked_for(size);
        unsafe { System.realloc(at, layout, size) }
    }
}

#[global_allocator]
static ALLOCATOR: Counting = Counting;

/// How often a call of the library called the allocator.
fn calls_of<T>(made: impl FnOnce() -> T) -> u32 {
    let before = CALLS.get();
    made();
    CALLS.get() - before
}

const HANDLES: usize = 40;
const STEPS: u32 = 200_000;

/// Makes one call that reads a map, by its number, and reads all that it returns.
fn read_map(call: u32, key: u32, map: &Map<u32, u32>, forest: &MapForest<u32, u32>) {
    match call {
        0 => drop(map.get(key, forest, &())),
        1 => drop((map.get_or_less(key, forest, &()), map.get_or_greater(key, forest, &()))),
        2 => assert!(map.iter(forest).count() == map.iter_back(forest).count()),
        3 => assert!(map.range(key.., forest, &()).rev().count() < 1 << 16),
        4 => {
            let mut cursor = map.cursor(forest, &());
            cursor.goto(key);
            while cursor.prev().is_some() {}
            while cursor.next().is_some() {}
            cursor.goto_end();
            cursor.goto_first();
            assert!(cursor.is_empty() == cursor.entry().is_none() && cursor.key().is_some() == cursor.value().is_some());
        }
        5 => assert!(map.increases(forest, &()) && forest.holds(map) && map.first(forest) <= map.last(forest)),
        _ => assert!(map.levels(forest) <= 17 && map.is_empty() == (map.levels(forest) == 0) && map.len(forest) < 1 << 16),
    }
}

/// Makes one call that changes a map, by its number.
fn change_map(call: u32, key: u32, map: &mut Map<u32, u32>, forest: &mut MapForest<u32, u32>) {
    match call {
        0 => drop(map.insert(key, key, forest, &())),
        1 if key % 2 == 0 => drop(map.get_or_insert(key, key, forest, &())),
        1 if key % 3 == 0 => {
            _ = map.update(key / 3, |it| it + 1, forest, &());
            if let Some(value) = forest.get_mut(map, key / 3, &()) {
                *value += 1;
            }
            _ = map.update_or_insert(key, key, |it| it + 1, forest, &());
        }
        1 => drop(map.try_insert(key, key, forest, &())),
        2 if key % 8 == 0 => drop((map.pop_first(forest), map.pop_last(forest))),
        2 => drop(map.remove(key, forest, &())),
        3 => {
            let mut cursor = map.cursor_mut(forest, &());
            let _ = if key % 2 == 0 { cursor.insert(key, key) } else { cursor.try_insert(key, key) };
            cursor.prev();
            if let Some(value) = cursor.value_mut() {
                *value += 1;
            }
        }
        4 => {
            let mut cursor = map.cursor_mut(forest, &());
            if key % 8 == 0 {
                cursor.goto_first();
                cursor.next();
            }
            assert!(cursor.is_empty() || cursor.entry() == cursor.key().zip(cursor.value()));
            cursor.goto(key);
            cursor.remove();
        }
        5 if key % 16 == 0 => map.clear(forest),
        5 if key % 16 == 1 => drop(map.deep_clone(forest).map(|mut copy| copy.clear(forest))),
        5 if key % 16 == 2 => drop(Map::load(&[(key, 0)], forest).map(|mut it| it.clear(forest))),
        5 if key % 16 == 3 => drop(map.remove_range(key..key + 9, forest, &())),
        5 if key % 4 == 0 => map.shift(key, |it| it + 3, forest, &()),
        5 => map.retain(forest, |it, _| it % 7 != key % 7),
        _ => drop(forest.reserve_nodes(forest.free_slots() + key % 8 / 7)),
    }
}

/// Makes one call on a set, by its number.
fn call_set(call: u32, key: u32, set: &mut Set<u32>, forest: &mut SetForest<u32>) {
    match call {
        0 if key % 2 == 0 => drop(set.insert(key, forest, &())),
        0 => drop(set.try_insert(key, forest, &())),
        1 if key % 8 == 0 => drop((set.pop_first(forest), set.pop_last(forest))),
        1 => drop(set.remove(key, forest, &())),
        2 => {
            let mut cursor = set.cursor(forest, &());
            let _ = if key % 2 == 0 { cursor.insert(key) } else { cursor.try_insert(key) };
            cursor.next();
            cursor.remove();
            cursor.prev();
            cursor.goto(key / 2);
            cursor.goto_first();
            assert!(cursor.is_empty() == cursor.elem().is_none());
        }
        3 if key % 16 == 0 => set.clear(forest),
        3 if key % 16 == 1 => drop(set.deep_clone(forest).map(|mut copy| copy.clear(forest))),
        3 if key % 16 == 2 => drop(Set::load(&[key], forest).map(|mut it| it.clear(forest))),
        3 if key % 16 == 3 => drop(set.remove_range(key..key + 9, forest, &())),
        3 if key % 4 == 0 => set.shift(key, |it| it + 3, forest, &()),
        3 => set.retain(forest, |it| it % 7 != key % 7),
        4 => {
            let there = set.contains(key, forest, &());
            assert!(there == (set.get_or_less(key, forest, &()) == Some(key)));
            assert!(there == (set.get_or_greater(key, forest, &()) == Some(key)));
            assert!(set.first(forest) <= set.last(forest));
        }
        5 if key % 8 == 0 => drop(forest.reserve_nodes(forest.free_slots() + key % 16 / 8)),
        5 => {
            let count = set.range(.., forest, &()).rev().count();
            assert!(set.iter(forest).count() == count && set.iter_back(forest).count() == count);
        }
        _ => assert!(set.increases(forest, &()) && forest.holds(set) && set.levels(forest) <= 17 && set.len(forest) < 1 << 16),
    }
}

#[test]
fn of_maps_only_a_growth_calls_the_allocator() {
    let mut random = Random(0x9e37_79b9_7f4a_7c15);
    for limit in [u32::MAX, 60] {
        let mut forest = MapForest::with_node_limit(limit);
        let mut maps = [const { Map::new() }; HANDLES];
        for _ in 0..STEPS {
            let map = &mut maps[random.below(HANDLES as u32) as usize];
            let (call, key) = (random.below(14), random.below(400));
            let slots = forest.slots();
            let calls = calls_of(|| match call {
                0..7 => read_map(call, key, map, &forest),
                _ => change_map(call - 7, key, map, &mut forest),
            });
            assert!(calls <= u32::from(forest.slots() > slots), "call {call} made {calls} requests");
        }
        let calls = calls_of(|| forest.clear());
        assert_eq!(calls, 0, "clear keeps the table's memory");
    }
}

#[test]
fn of_sets_only_a_growth_calls_the_allocator() {
    let mut random = Random(0x2545_f491_4f6c_dd1d);
    let mut forest = SetForest::new();
    let mut sets = [const { Set::new() }; HANDLES];
    for _ in 0..STEPS {
        let set = &mut sets[random.below(HANDLES as u32) as usize];
        let (call, key) = (random.below(7), random.below(800));
        let slots = forest.slots();
        let calls = calls_of(|| call_set(call, key, set, &mut forest));
        assert!(calls <= u32::from(forest.slots() > slots), "call {call} made {calls} requests");
    }
    assert_eq!(calls_of(|| forest.clear()), 0, "clear keeps the table's memory");
}

#[test]
fn a_new_forest_and_handles_take_nothing() {
    let calls = calls_of(|| {
        let forest: MapForest<u32, u32> = MapForest::new();
        let map = Map::new();
        assert!(map.iter(&forest).next().is_none() && map.clone().is_empty() && map.is_same_handle(&map.clone()) && Map::<u32, u32>::default().is_empty());
        assert_eq!((forest.node_limit(), forest.nodes_in_use()), (u32::MAX, 0));
        let forest: SetForest<u32> = SetForest::with_node_limit(3);
        let set = Set::new();
        assert!(set.iter(&forest).next().is_none() && set.clone().is_empty() && set.is_same_handle(&set.clone()) && Set::<u32>::default().is_empty());
        assert_eq!((forest.node_limit(), forest.nodes_in_use()), (3, 0));
        assert!(Map::<u32, u32>::nodes_for(9) > Map::<u32, u32>::fewest_nodes_for(9));
        assert!(Set::<u32>::nodes_for(99) > Set::<u32>::fewest_nodes_for(99));
    });
    assert_eq!(calls, 0);
}

/// A union takes memory for its list, which it gives back, and for its nodes. All else that is done with two maps or sets takes none.
#[test]
fn of_two_maps_or_sets_only_a_union_calls_the_allocator() {
    let (mut forest, mut set_forest) = (MapForest::new(), SetForest::new());
    let [mut odd, mut all] = [2, 1].map(|step| {
        let (mut map, mut set) = (Map::new(), Set::new());
        for key in (1..ENTRIES).step_by(step) {
            map.insert(key, key, &mut forest, &()).unwrap();
            set.insert(key, &mut set_forest, &()).unwrap();
        }
        (map, set)
    });
    let (map, set) = &mut all;
    assert_eq!(calls_of(|| map.is_subset(&odd.0, &forest, &())), 0);
    assert_eq!(calls_of(|| map.is_disjoint(&odd.0, &forest, &())), 0);
    assert_eq!(calls_of(|| set.is_subset(&odd.1, &set_forest, &())), 0);
    assert_eq!(calls_of(|| set.is_disjoint(&odd.1, &set_forest, &())), 0);
    assert_eq!(calls_of(|| set.union(&odd.1, &set_forest, &()).count()), 0);
    assert_eq!(calls_of(|| set.intersection(&odd.1, &set_forest, &()).count()), 0);
    assert_eq!(calls_of(|| set.difference(&odd.1, &set_forest, &()).count()), 0);
    assert_eq!(calls_of(|| set.symmetric_difference(&odd.1, &set_forest, &()).count()), 0);
    // Where nothing is new there is no list.
    assert_eq!(calls_of(|| map.union_with(&odd.0, &mut forest, &()).unwrap()), 0);
    assert_eq!(calls_of(|| set.union_with(&odd.1, &mut set_forest, &()).unwrap()), 0);
    // A single new key is inserted, and nodes lie free.
    assert!(map.remove(1, &mut forest, &()).is_some() && set.remove(1, &mut set_forest, &()));
    assert_eq!(calls_of(|| map.union_with(&odd.0, &mut forest, &()).unwrap()), 0);
    assert_eq!(calls_of(|| set.union_with(&odd.1, &mut set_forest, &()).unwrap()), 0);
    assert_eq!(calls_of(|| map.intersect_with(&odd.0, &mut forest, &())), 0);
    assert_eq!(calls_of(|| set.intersect_with(&odd.1, &mut set_forest, &())), 0);
    let (map, set) = &mut odd;
    assert_eq!(calls_of(|| map.difference_with(&all.0, &mut forest, &())), 0);
    assert_eq!(calls_of(|| set.difference_with(&all.1, &mut set_forest, &())), 0);
    assert!(map.is_empty() && set.is_empty());
    // The list takes memory for 64 keys, and for twice as many where it is full. It is given back, and the nodes lie free.
    let calls = 2 + (0..).find(|doublings| 64 << doublings >= ENTRIES / 2).unwrap();
    assert_eq!(calls_of(|| map.union_with(&all.0, &mut forest, &()).unwrap()), calls);
    assert_eq!(calls_of(|| set.union_with(&all.1, &mut set_forest, &()).unwrap()), calls);
}

/// A split and a compaction take memory for their nodes alone. A removal takes none.
#[test]
fn parts_call_no_allocator_where_nodes_lie_free() {
    let (mut forest, mut set_forest) = (MapForest::new(), SetForest::new());
    let (mut map, mut set) = (Map::new(), Set::new());
    for key in 0..ENTRIES {
        map.insert(key, key, &mut forest, &()).unwrap();
        set.insert(key, &mut set_forest, &()).unwrap();
    }
    let (half, none) = (ENTRIES / 2, ENTRIES);
    assert_eq!(calls_of(|| map.split_off(none, &mut forest, &()).unwrap()), 0);
    assert_eq!(calls_of(|| set.split_off(none, &mut set_forest, &()).unwrap()), 0);
    // The table holds memory for a few nodes more.
    assert_eq!(calls_of(|| map.split_off(half, &mut forest, &()).unwrap().clear(&mut forest)), 0);
    assert_eq!(calls_of(|| set.split_off(half, &mut set_forest, &()).unwrap().clear(&mut set_forest)), 0);
    assert_eq!(calls_of(|| map.remove_range(..10, &mut forest, &())), 0);
    assert_eq!(calls_of(|| set.remove_range(..10, &mut set_forest, &())), 0);
    // The nodes lie free.
    assert_eq!(calls_of(|| map.compact(&mut forest).unwrap()), 0);
    assert_eq!(calls_of(|| set.compact(&mut set_forest).unwrap()), 0);
    assert_eq!(calls_of(|| map.remove_range(.., &mut forest, &())), 0);
    assert_eq!(calls_of(|| set.remove_range(.., &mut set_forest, &())), 0);
    assert_eq!(calls_of(|| map.compact(&mut forest).unwrap()), 0);
    assert_eq!(calls_of(|| set.compact(&mut set_forest).unwrap()), 0);
}

/// The iterator that owns its forest asks for none, and gives back the table's memory where it ends.
#[test]
fn a_forest_that_is_consumed_gives_its_memory_back() {
    let (mut forest, mut map) = (MapForest::new(), Map::new());
    (0..ENTRIES).for_each(|key| _ = map.insert(key, key, &mut forest, &()).unwrap());
    assert_eq!(calls_of(|| assert_eq!(map.into_iter(forest).count(), ENTRIES as usize)), 1);
}

/// What is reserved by an index is held then: insertions up to there ask for none.
#[test]
fn room_that_is_reserved_by_an_index_takes_memory_once() {
    let (mut maps, mut sets): (Maps<u32, u32>, Sets<u32>) = (Maps::new(()), Sets::new(()));
    assert_eq!(calls_of(|| (maps.reserve_nodes(9).unwrap(), sets.reserve_nodes(9).unwrap())), 2);
    assert_eq!((maps.free_slots(), sets.free_slots(), maps.node_limit(), sets.node_limit()), (9, 9, u32::MAX, u32::MAX));
    // One growth of the table, and one of the handles' vector.
    assert_eq!(calls_of(|| maps.reserve_for(HANDLES, 100).unwrap()), 2);
    assert_eq!(calls_of(|| sets.reserve_for(HANDLES, 100).unwrap()), 2);
    let calls = calls_of(|| {
        maps.grow_to(HANDLES).unwrap();
        sets.grow_to(HANDLES).unwrap();
        for at in 0..HANDLES * 100 {
            maps.insert(at % HANDLES, at as u32, 0).unwrap();
            sets.insert(at % HANDLES, at as u32).unwrap();
        }
    });
    assert_eq!(calls, 0);
}

/// How many entries a forest has that is filled, cleared and filled again.
const ENTRIES: u32 = 10_000;

/// A forest's `clear` keeps the table's memory, so that as many nodes as before ask for none.
#[test]
fn a_cleared_forest_of_maps_asks_for_no_memory_up_to_its_former_size() {
    let mut forest = MapForest::new();
    let fill = |forest: &mut MapForest<u32, u32>| {
        let mut map = Map::new();
        (0..ENTRIES).for_each(|key| _ = map.insert(key, key, forest, &()).unwrap());
        map
    };
    fill(&mut forest);
    let slots = forest.slots();
    forest.clear();
    assert_eq!(calls_of(|| fill(&mut forest)), 0);
    assert_eq!(forest.slots(), slots);
    // Room for the same nodes is held too where it is reserved.
    forest.clear();
    assert_eq!(calls_of(|| forest.reserve_nodes(slots).unwrap()), 0);
}

#[test]
fn a_cleared_forest_of_sets_asks_for_no_memory_up_to_its_former_size() {
    let mut forest = SetForest::new();
    let fill = |forest: &mut SetForest<u32>| {
        let mut set = Set::new();
        (0..ENTRIES).for_each(|key| _ = set.insert(key, forest, &()).unwrap());
        set
    };
    fill(&mut forest);
    let slots = forest.slots();
    forest.clear();
    assert_eq!(calls_of(|| fill(&mut forest)), 0);
    assert_eq!(forest.slots(), slots);
}

/// `clear_all` keeps the table's memory and that of the handles.
#[test]
fn cleared_maps_and_sets_ask_for_no_memory_up_to_their_former_size() {
    let mut maps: Maps<u32, u32> = Maps::new(());
    maps.grow_to(HANDLES).unwrap();
    let fill = |maps: &mut Maps<u32, u32>| (0..ENTRIES).for_each(|key| _ = maps.insert(key as usize % HANDLES, key, key).unwrap());
    fill(&mut maps);
    maps.clear_all();
    assert_eq!(calls_of(|| fill(&mut maps)), 0);
    let mut sets: Sets<u32> = Sets::new(());
    sets.grow_to(HANDLES).unwrap();
    let fill = |sets: &mut Sets<u32>| (0..ENTRIES).for_each(|key| _ = sets.insert(key as usize % HANDLES, key).unwrap());
    fill(&mut sets);
    sets.clear_all();
    assert_eq!(calls_of(|| fill(&mut sets)), 0);
}

/// A copy takes memory at most once, for all its nodes, and none where they lie free.
#[test]
fn a_copy_takes_memory_once() {
    let (mut forest, mut map) = (MapForest::new(), Map::new());
    (0..ENTRIES).for_each(|key| _ = map.insert(key, key, &mut forest, &()).unwrap());
    let nodes = forest.slots();
    assert_eq!(calls_of(|| map.deep_clone(&mut forest).unwrap().clear(&mut forest)), 1);
    assert_eq!(calls_of(|| map.deep_clone(&mut forest).unwrap()), 0);
    assert_eq!((forest.slots(), forest.free_slots()), (2 * nodes, 0));
}

/// A map that is loaded takes memory at most once, for all its nodes, and none where they lie free.
#[test]
fn a_loaded_map_takes_memory_once() {
    let list: Vec<(u32, u32)> = (0..ENTRIES).map(|key| (key, key)).collect();
    let mut forest = MapForest::new();
    assert_eq!(calls_of(|| Map::load(&list, &mut forest).unwrap().clear(&mut forest)), 1);
    assert_eq!(calls_of(|| Map::load(&list, &mut forest).unwrap()), 0);
    assert_eq!(forest.free_slots(), 0);
}

// The memory of the handles of `Maps` and `Sets`: 4 bytes each.

const HANDLE: usize = 4;
/// How many handles a vector may make room for, beside doubling, where it grows by one.
const FEW: usize = 8;

#[test]
fn new_maps_and_sets_take_nothing() {
    let calls = calls_of(|| {
        let (maps, sets): (Maps<u32, u32>, Sets<u32>) = (Maps::new(()), Sets::new(()));
        assert!(maps.is_empty() && sets.is_empty());
        let (maps, sets): (Maps<u32, u32>, Sets<u32>) = (Maps::with_node_limit((), 9), Sets::with_node_limit((), 9));
        assert!(maps.is_empty() && sets.is_empty());
        let (maps, sets): (Maps<u32, u32>, Sets<u32>) = (Maps::typed(()), Sets::typed(()));
        assert!(maps.is_empty() && sets.is_empty());
        let (maps, sets): (Maps<u32, u32>, Sets<u32>) = (Maps::typed_with_node_limit((), 9), Sets::typed_with_node_limit((), 9));
        assert!(maps.is_empty() && sets.is_empty());
    });
    assert_eq!(calls, 0);
}

/// `grow_to` takes memory once, and none for handles that are there. An empty map has no node.
#[test]
fn growing_to_many_maps_or_sets_takes_memory_once() {
    let mut maps: Maps<u32, u32> = Maps::new(());
    let mut sets: Sets<u32> = Sets::new(());
    for len in [1000, 100_000] {
        assert_eq!((calls_of(|| maps.grow_to(len).unwrap()), maps.len()), (1, len));
        assert!(BYTES.get() >= HANDLE * len && BYTES.get() <= 2 * HANDLE * len);
        assert_eq!((calls_of(|| sets.grow_to(len).unwrap()), sets.len()), (1, len));
        assert_eq!(calls_of(|| (maps.grow_to(len).unwrap(), sets.grow_to(len / 2).unwrap())), 0);
    }
    assert_eq!((maps.slots(), sets.slots()), (0, 0));
}

/// `push` takes memory at most once, and then for at most twice as many handles as there are, or for a few.
#[test]
fn pushing_one_map_or_set_takes_room_for_few() {
    let mut maps: Maps<u32, u32> = Maps::new(());
    let mut sets: Sets<u32> = Sets::new(());
    for len in 0..5000 {
        let most = HANDLE * (2 * len + FEW);
        for calls in [calls_of(|| maps.push().unwrap()), calls_of(|| sets.push().unwrap())] {
            assert!(calls <= 1 && BYTES.get() <= most, "{} bytes at {len}", BYTES.get());
        }
    }
    assert_eq!((maps.len(), sets.len()), (5000, 5000));
}

/// Maps and sets that are removed take nothing, and the memory for their handles is kept.
#[test]
fn removing_the_last_maps_or_sets_takes_nothing() {
    let mut maps: Maps<u32, u32> = Maps::new(());
    let mut sets: Sets<u32> = Sets::new(());
    for _ in 0..2 {
        maps.grow_to(100).unwrap();
        sets.grow_to(100).unwrap();
        (0..5000).for_each(|key| assert!(maps.insert(key as usize % 100, key, key).is_ok() && sets.insert(key as usize % 100, key).is_ok()));
        let calls = calls_of(|| {
            assert!(maps.pop() && sets.pop());
            maps.truncate(0);
            sets.truncate(0);
            maps.grow_to(100).unwrap();
            sets.grow_to(100).unwrap();
            assert_eq!((maps.nodes_in_use(), sets.nodes_in_use()), (0, 0));
        });
        assert_eq!(calls, 0);
    }
}

//! Ranges that are removed, splits and compactions beside `BTreeMap` and `BTreeSet`: what is left and what goes, with exactly the nodes that are
//! stated; one node short; and with each request for memory refused in turn.

mod random;

use bforest::{Map, MapForest, OutOfMemory, Set, SetForest};
use random::Random;
use std::alloc::{GlobalAlloc, Layout, System};
use std::cell::Cell;
use std::collections::{BTreeMap, BTreeSet};
use std::ops::Bound::{self, Excluded, Included, Unbounded};
use std::ops::RangeBounds;
use std::ptr;

thread_local! {
    /// How many requests for memory this thread is granted yet, if they are counted.
    static GRANTED: Cell<Option<u32>> = const { Cell::new(None) };
}

struct Counted;

/// Whether a request is granted, which is counted.
fn grants() -> bool {
    GRANTED.try_with(|it| match it.get() {
        Some(0) => false,
        granted => {
            it.set(granted.map(|left| left - 1));
            true
        }
    }) != Ok(false)
}

unsafe impl GlobalAlloc for Counted {
    unsafe fn alloc(&self, layout: Layout) -> *mut u8 {
        if grants() { unsafe { System.alloc(layout) } } else { ptr::null_mut() }
    }

    unsafe fn dealloc(&self, at: *mut u8, layout: Layout) {
        unsafe { System.dealloc(at, layout) }
    }

    unsafe fn realloc(&self, at: *mut u8, layout: Layout, size: usize) -> *mut u8 {
        if grants() { unsafe { System.realloc(at, layout, size) } } else { ptr::null_mut() }
    }
}

#[global_allocator]
static ALLOCATOR: Counted = Counted;

/// What a call answers that is granted so many requests for memory.
fn granted<T>(requests: u32, call: impl FnOnce() -> T) -> T {
    GRANTED.set(Some(requests));
    let answer = call();
    GRANTED.set(None);
    answer
}

// What a test of maps and of sets needs. Each key of a map has ten times itself as its value.

trait Handle: Clone + Default {
    type Forest: Clone;

    fn forest(limit: u32) -> Self::Forest;
    /// The slots, and how many of them lie free.
    fn slots(forest: &Self::Forest) -> (u32, u32);
    fn fewest_nodes_for(entries: usize) -> usize;
    fn nodes_for(entries: usize) -> usize;
    fn keys(&self, forest: &Self::Forest) -> Vec<u32>;
    fn levels(&self, forest: &Self::Forest) -> usize;
    fn put(&mut self, key: u32, forest: &mut Self::Forest);
    fn take(&mut self, key: u32, forest: &mut Self::Forest);
    fn clear(&mut self, forest: &mut Self::Forest);
    fn remove_range(&mut self, bounds: Bounds, forest: &mut Self::Forest) -> bool;
    fn split_off(&mut self, key: u32, forest: &mut Self::Forest) -> Result<Self, OutOfMemory>;
    fn compact(&mut self, forest: &mut Self::Forest) -> Result<(), OutOfMemory>;
}

type Bounds = (Bound<u32>, Bound<u32>);

impl Handle for Map<u32, u32> {
    type Forest = MapForest<u32, u32>;

    fn forest(limit: u32) -> Self::Forest {
        MapForest::with_node_limit(limit)
    }

    fn slots(forest: &Self::Forest) -> (u32, u32) {
        (forest.slots(), forest.free_slots())
    }

    fn fewest_nodes_for(entries: usize) -> usize {
        Map::<u32, u32>::fewest_nodes_for(entries)
    }

    fn nodes_for(entries: usize) -> usize {
        Map::<u32, u32>::nodes_for(entries)
    }

    fn keys(&self, forest: &Self::Forest) -> Vec<u32> {
        assert!(forest.holds(self) && self.increases(forest, &()));
        assert!(self.iter(forest).all(|(key, value)| value == 10 * key));
        self.iter(forest).map(|it| it.0).collect()
    }

    fn levels(&self, forest: &Self::Forest) -> usize {
        self.levels(forest)
    }

    fn put(&mut self, key: u32, forest: &mut Self::Forest) {
        self.insert(key, 10 * key, forest, &()).unwrap();
    }

    fn take(&mut self, key: u32, forest: &mut Self::Forest) {
        self.remove(key, forest, &());
    }

    fn clear(&mut self, forest: &mut Self::Forest) {
        self.clear(forest);
    }

    fn remove_range(&mut self, bounds: Bounds, forest: &mut Self::Forest) -> bool {
        self.remove_range(bounds, forest, &())
    }

    fn split_off(&mut self, key: u32, forest: &mut Self::Forest) -> Result<Self, OutOfMemory> {
        self.split_off(key, forest, &())
    }

    fn compact(&mut self, forest: &mut Self::Forest) -> Result<(), OutOfMemory> {
        self.compact(forest)
    }
}

impl Handle for Set<u32> {
    type Forest = SetForest<u32>;

    fn forest(limit: u32) -> Self::Forest {
        SetForest::with_node_limit(limit)
    }

    fn slots(forest: &Self::Forest) -> (u32, u32) {
        (forest.slots(), forest.free_slots())
    }

    fn fewest_nodes_for(entries: usize) -> usize {
        Set::<u32>::fewest_nodes_for(entries)
    }

    fn nodes_for(entries: usize) -> usize {
        Set::<u32>::nodes_for(entries)
    }

    fn keys(&self, forest: &Self::Forest) -> Vec<u32> {
        assert!(forest.holds(self) && self.increases(forest, &()));
        self.iter(forest).collect()
    }

    fn levels(&self, forest: &Self::Forest) -> usize {
        self.levels(forest)
    }

    fn put(&mut self, key: u32, forest: &mut Self::Forest) {
        self.insert(key, forest, &()).unwrap();
    }

    fn take(&mut self, key: u32, forest: &mut Self::Forest) {
        self.remove(key, forest, &());
    }

    fn clear(&mut self, forest: &mut Self::Forest) {
        self.clear(forest);
    }

    fn remove_range(&mut self, bounds: Bounds, forest: &mut Self::Forest) -> bool {
        self.remove_range(bounds, forest, &())
    }

    fn split_off(&mut self, key: u32, forest: &mut Self::Forest) -> Result<Self, OutOfMemory> {
        self.split_off(key, forest, &())
    }

    fn compact(&mut self, forest: &mut Self::Forest) -> Result<(), OutOfMemory> {
        self.compact(forest)
    }
}

fn made<H: Handle>(keys: impl IntoIterator<Item = u32>, forest: &mut H::Forest) -> H {
    let mut handle = H::default();
    keys.into_iter().for_each(|key| handle.put(key, forest));
    handle
}

/// The number of nodes of a tree.
fn nodes_of<H: Handle>(handle: &H, forest: &H::Forest) -> u32 {
    let mut forest = forest.clone();
    let free = H::slots(&forest).1;
    handle.clone().clear(&mut forest);
    H::slots(&forest).1 - free
}

// Beside the standard library.

/// The keys of a map or set, and a key at which it is cut, in rounds of four sizes.
fn drawn(round: usize, random: &mut Random) -> (BTreeSet<u32>, u32) {
    let (most, bound) = [(4, 6), (40, 60), (200, 300), (600, 5000)][round % 4];
    let count = random.below(most + 1);
    ((0..count).map(|_| random.below(bound)).collect(), random.below(bound + 2))
}

/// The nine kinds of bounds at two keys, which are crossed half the time.
fn of_each_kind(start: u32, end: u32) -> impl Iterator<Item = Bounds> {
    let (starts, ends) = ([Unbounded, Included(start), Excluded(start)], [Unbounded, Included(end), Excluded(end)]);
    starts.into_iter().flat_map(move |start| ends.into_iter().map(move |end| (start, end)))
}

/// A range between two bounds that goes leaves what as many single removals leave, from the first key on. Without an end it leaves no more
/// nodes than these, and with an end alone what a split there gives away. No range takes a node.
fn each_range<H: Handle>() {
    let mut random = Random(7);
    for round in 0..300 {
        let (keys, start) = drawn(round, &mut random);
        let end = drawn(round, &mut random).1;
        let mut forest = H::forest(u32::MAX);
        let (handle, beside): (H, H) = (made(keys.iter().copied(), &mut forest), made([1, 2, 3], &mut forest));
        for bounds in of_each_kind(start, end) {
            let forest_before = forest.clone();
            let (mut ranged, mut forest, mut singly, mut other) = (handle.clone(), forest.clone(), handle.clone(), forest.clone());
            let (within, left): (Vec<u32>, Vec<u32>) = keys.iter().partition(|key| bounds.contains(key));
            assert_eq!(ranged.remove_range(bounds, &mut forest), !within.is_empty());
            within.iter().for_each(|key| singly.take(*key, &mut other));
            assert_eq!((ranged.keys(&forest), singly.keys(&other)), (left.clone(), left), "{bounds:?}");
            assert_eq!(H::slots(&forest).0, H::slots(&other).0);
            let (nodes, levels) = (nodes_of(&ranged, &forest), ranged.levels(&forest));
            let (mut front, mut split) = (handle.clone(), forest_before);
            match bounds {
                (_, Unbounded) => assert!(nodes <= nodes_of(&singly, &other) && levels <= singly.levels(&other), "{bounds:?}"),
                (Unbounded, Included(end) | Excluded(end)) => {
                    let first = if bounds.1 == Included(end) { end + 1 } else { end };
                    let tail = front.split_off(first, &mut split).unwrap();
                    assert_eq!((nodes, levels), (nodes_of(&tail, &split), tail.levels(&split)), "{bounds:?}");
                }
                _ => assert_eq!((nodes, levels), (nodes_of(&singly, &other), singly.levels(&other)), "{bounds:?}"),
            }
            assert_eq!(beside.keys(&forest), [1, 2, 3]);
        }
    }
}

#[test]
fn ranges_of_maps_that_go() {
    each_range::<Map<u32, u32>>();
}

#[test]
fn ranges_of_sets_that_go() {
    each_range::<Set<u32>>();
}

/// The nodes that hold the first children of a level and the nodes above them, where each inner node but the last has 4 children, and the
/// last 5 to 8, as insertions in order leave them.
fn nodes_above(kept: usize, all: usize) -> usize {
    if kept <= 1 {
        return kept;
    }
    let parents = ((all - 1) / 4).max(1);
    kept + nodes_above(kept.div_ceil(4).min(parents), parents)
}

/// A range without an end leaves the nodes in front of it as they are: of a packed tree a packed tree, and of one whose nodes
/// have half of their entries such a one. Maps and sets of a few thousand entries, which were put in up, down or in no order.
fn each_upper_part<H: Handle>() {
    let mut random = Random(8);
    // Half of what a leaf holds, rounded up: insertions in order leave so many entries in each leaf but the last.
    let half = (1..).find(|&count| H::fewest_nodes_for(count + 1) > 1).unwrap().div_ceil(2);
    for round in 0..60 {
        let count = 1_000 + random.below(4_000);
        let mut keys: Vec<u32> = (0..count).map(|at| 2 * at).collect();
        match round % 4 {
            0 | 1 => {}
            2 => keys.reverse(),
            _ => keys.sort_by_cached_key(|_| random.below(u32::MAX)),
        }
        let mut forest = H::forest(u32::MAX);
        let mut handle: H = made(keys, &mut forest);
        if round % 4 == 0 {
            handle.compact(&mut forest).unwrap();
        }
        let slots = H::slots(&forest).0;
        for _ in 0..4 {
            let start = random.below(2 * count + 1);
            let (mut ranged, mut forest, mut singly, mut other) = (handle.clone(), forest.clone(), handle.clone(), forest.clone());
            let first = start.div_ceil(2);
            assert_eq!(ranged.remove_range((Included(start), Unbounded), &mut forest), first < count);
            assert!(ranged.keys(&forest).into_iter().eq((0..first).map(|at| 2 * at)), "{start}.. of {count} keys");
            let nodes = nodes_of(&ranged, &forest) as usize;
            match round % 4 {
                0 => assert_eq!(nodes, H::fewest_nodes_for(first as usize), "{start}.. of {count} keys"),
                1 => {
                    let leaves = count as usize / half;
                    let kept = (first as usize).div_ceil(half).min(leaves);
                    assert_eq!(nodes, nodes_above(kept, leaves), "{start}.. of {count} keys");
                }
                _ => {
                    (first..count).for_each(|at| singly.take(2 * at, &mut other));
                    assert!(nodes <= nodes_of(&singly, &other) as usize, "{start}.. of {count} keys");
                }
            }
            assert_eq!(H::slots(&forest), (slots, slots - nodes as u32), "{start}.. of {count} keys");
            // What is left can be changed as any other tree.
            for at in 0..40 {
                ranged.put(start + at, &mut forest);
                ranged.take(2 * (first.saturating_sub(at)), &mut forest);
            }
            ranged.clear(&mut forest);
            assert_eq!(H::slots(&forest).0, H::slots(&forest).1);
        }
    }
}

#[test]
fn upper_parts_of_large_maps_that_go() {
    each_upper_part::<Map<u32, u32>>();
}

#[test]
fn upper_parts_of_large_sets_that_go() {
    each_upper_part::<Set<u32>>();
}

/// A forest with just the nodes that are needed beside those that are there, and one with one node fewer. In the second one the call is
/// refused, and has changed nothing.
fn with_limits<H: Handle>(keys: &BTreeSet<u32>, need: u32, call: impl Fn(&mut H, &mut H::Forest) -> Result<(), OutOfMemory>) {
    let mut forest = H::forest(u32::MAX);
    made::<H>(keys.iter().copied(), &mut forest);
    let (slots, free) = H::slots(&forest);
    for short in [0, 1] {
        if need < free + short {
            continue;
        }
        let mut forest = H::forest(slots + need - free - short);
        let mut handle: H = made(keys.iter().copied(), &mut forest);
        if short == 0 {
            assert_eq!(call(&mut handle, &mut forest), Ok(()));
        } else {
            // before memory is asked for
            assert_eq!(granted(0, || call(&mut handle, &mut forest)), Err(OutOfMemory::Full));
            assert!(handle.keys(&forest).iter().eq(keys));
            assert_eq!(H::slots(&forest), (slots, free));
        }
    }
}

/// A split leaves the keys below, and moves the others to a tree of their own. It takes a node a level at most, and before it frees any.
fn each_split<H: Handle>() {
    let mut random = Random(11);
    for round in 0..1000 {
        let (keys, at) = drawn(round, &mut random);
        let mut forest = H::forest(u32::MAX);
        let mut handle: H = made(keys.iter().copied(), &mut forest);
        let (slots, free) = H::slots(&forest);
        let (mut removed, mut other) = (handle.clone(), forest.clone());
        removed.remove_range((Included(at), Unbounded), &mut other);
        let need = nodes_of_split(&handle, at, &forest);
        assert!(need as usize <= handle.levels(&forest));
        let mut tail = handle.split_off(at, &mut forest).unwrap();
        let mut front = keys.clone();
        let behind = front.split_off(&at);
        assert_eq!(need == 0, front.is_empty() || behind.is_empty());
        assert!(handle.keys(&forest).iter().eq(&front) && tail.keys(&forest).iter().eq(&behind));
        assert_eq!(nodes_of(&handle, &forest), nodes_of(&removed, &other));
        assert!(nodes_of(&tail, &forest) as usize <= H::nodes_for(behind.len()));
        assert!(nodes_of(&handle, &forest) + nodes_of(&tail, &forest) <= slots - free + need);
        assert_eq!(H::slots(&forest).0, slots + need.saturating_sub(free));
        with_limits(&keys, need, |handle: &mut H, forest| handle.split_off(at, forest).map(drop));
        // Both can be changed as any other.
        for key in 0..30 {
            handle.put(key, &mut forest);
            tail.take(key + at, &mut forest);
            handle.take(key + 1, &mut forest);
        }
        assert_eq!(handle.keys(&forest)[0], 0);
        [handle, tail].iter_mut().for_each(|it| it.clear(&mut forest));
        assert_eq!(H::slots(&forest).0, H::slots(&forest).1);
    }
}

/// How many nodes a split takes: as many as slots are added in a forest where none is free.
fn nodes_of_split<H: Handle>(handle: &H, at: u32, forest: &H::Forest) -> u32 {
    let (mut handle, mut forest) = (handle.clone(), forest.clone());
    while H::slots(&forest).1 > 0 {
        H::default().put(0, &mut forest);
    }
    let slots = H::slots(&forest).0;
    handle.split_off(at, &mut forest).unwrap();
    H::slots(&forest).0 - slots
}

#[test]
fn splits_of_maps() {
    each_split::<Map<u32, u32>>();
}

#[test]
fn splits_of_sets() {
    each_split::<Set<u32>>();
}

/// A compaction leaves the keys in the fewest nodes, which it takes before it frees the old ones.
fn each_compaction<H: Handle>() {
    let mut random = Random(13);
    for round in 0..1000 {
        let (keys, _) = drawn(round, &mut random);
        let mut forest = H::forest(u32::MAX);
        let (mut handle, beside): (H, H) = (made(keys.iter().copied(), &mut forest), made([1, 2, 3], &mut forest));
        let ((slots, free), old) = (H::slots(&forest), nodes_of(&handle, &forest));
        assert_eq!(handle.compact(&mut forest), Ok(()));
        let need = H::fewest_nodes_for(keys.len()) as u32;
        assert_eq!(nodes_of(&handle, &forest), need);
        assert_eq!(H::slots(&forest), (slots + need.saturating_sub(free), free.saturating_sub(need) + old));
        assert!(handle.keys(&forest).iter().eq(&keys) && beside.keys(&forest) == [1, 2, 3]);
        with_limits(&keys, need, |handle: &mut H, forest| handle.compact(forest));
    }
}

#[test]
fn compactions_of_maps() {
    each_compaction::<Map<u32, u32>>();
}

#[test]
fn compactions_of_sets() {
    each_compaction::<Set<u32>>();
}

/// Values go with their keys.
#[test]
fn maps_beside_btreemap() {
    let mut random = Random(17);
    let (mut map, mut forest, mut model) = (Map::new(), MapForest::new(), BTreeMap::new());
    for step in 0..2000 {
        for _ in 0..random.below(20) {
            let key = random.below(1000);
            assert_eq!(map.insert(key, step, &mut forest, &()), Ok(model.insert(key, step)));
        }
        let (from, length) = (random.below(1000), random.below(30));
        let within: Vec<u32> = model.range(from..from + length).map(|it| *it.0).collect();
        assert_eq!(map.remove_range(from..from + length, &mut forest, &()), !within.is_empty());
        within.iter().for_each(|key| _ = model.remove(key));
        if step % 50 == 0 {
            let mut tail = map.split_off(from, &mut forest, &()).unwrap();
            let behind = model.split_off(&from);
            assert!(tail.iter(&forest).eq(behind.iter().map(|(key, value)| (*key, *value))));
            tail.compact(&mut forest).unwrap();
            assert!(tail.range(.., &forest, &()).eq(behind));
            tail.clear(&mut forest);
        }
        assert!(map.iter(&forest).eq(model.iter().map(|(key, value)| (*key, *value))));
    }
}

// Memory that is refused.

/// A call that takes memory so many times: with fewer requests granted it is refused, and nothing has changed. With all granted it answers. A
/// copy of a forest has a table without room.
fn each_refusal<H: Handle>(needed: u32, call: fn(&mut H, &mut H::Forest) -> Result<(), OutOfMemory>) {
    let mut forest = H::forest(u32::MAX);
    let handle: H = made(0..500, &mut forest);
    for requests in 0..=needed {
        let (mut handle, mut forest, before) = (handle.clone(), forest.clone(), H::slots(&forest));
        let answer = granted(requests, || call(&mut handle, &mut forest));
        assert_eq!(answer, if requests < needed { Err(OutOfMemory::Memory) } else { Ok(()) }, "{requests} requests");
        if answer.is_err() {
            assert_eq!(H::slots(&forest), before);
            assert!(handle.keys(&forest).into_iter().eq(0..500));
        }
    }
}

#[test]
fn tables_that_are_refused() {
    each_refusal::<Map<u32, u32>>(1, |map, forest| map.split_off(100, forest, &()).map(drop));
    each_refusal::<Map<u32, u32>>(1, |map, forest| map.compact(forest));
    each_refusal::<Set<u32>>(1, |set, forest| set.split_off(100, forest, &()).map(drop));
    each_refusal::<Set<u32>>(1, |set, forest| set.compact(forest));
}

/// What takes no node asks for no memory: a removal, and a split and a compaction of nothing.
#[test]
fn calls_that_are_refused_nothing() {
    let (mut maps, mut sets) = (MapForest::new(), SetForest::new());
    let (mut map, mut set): (Map<u32, u32>, Set<u32>) = (made(0..500, &mut maps), made(0..500, &mut sets));
    granted(0, || {
        assert!(map.split_off(500, &mut maps, &()).unwrap().is_empty() && set.split_off(500, &mut sets, &()).unwrap().is_empty());
        (map, set) = (map.split_off(0, &mut maps, &()).unwrap(), set.split_off(0, &mut sets, &()).unwrap());
        assert!(map.remove_range(100..400, &mut maps, &()) && set.remove_range(100..400, &mut sets, &()));
        assert_eq!((Map::<u32, u32>::new().compact(&mut maps), Set::<u32>::new().compact(&mut sets)), (Ok(()), Ok(())));
    });
    assert_eq!((map.len(&maps), set.len(&sets)), (200, 200));
}

/// Some keys below a bound.
fn some_keys(random: &mut Random, most: u32, bound: u32) -> BTreeSet<u32> {
    (0..random.below(most)).map(|_| random.below(bound)).collect()
}

/// A union asks for memory for a list of its entries. Where none, or not all, is granted, and the nodes lie free, it is the same.
#[test]
fn unions_that_are_granted_no_list() {
    let mut random = Random(41);
    for step in 0..3000 {
        let (most, requests) = ([3, 12, 60, 300, 1500][step % 5], [0, 0, 1, 2][step % 4]);
        let (own, others) = (some_keys(&mut random, most, 2 * most), some_keys(&mut random, most, 2 * most));
        let union: BTreeMap<u32, u32> = others.iter().map(|key| (*key, 0)).chain(own.iter().map(|key| (*key, 10 * key))).collect();

        let mut forest = MapForest::new();
        let (mut map, mut other): (Map<u32, u32>, Map<u32, u32>) = (made(own.iter().copied(), &mut forest), Map::new());
        others.iter().for_each(|key| _ = other.insert(*key, 0, &mut forest, &()));
        forest.reserve_nodes(Map::<u32, u32>::fewest_nodes_for(union.len()) as u32 + 2).unwrap();
        assert_eq!(granted(requests, || map.union_with(&other, &mut forest, &())), Ok(!others.is_subset(&own)));
        assert!(map.iter(&forest).eq(union.iter().map(|(key, value)| (*key, *value))) && forest.holds(&map));
        assert!(other.iter(&forest).eq(others.iter().map(|key| (*key, 0))) && forest.holds(&other));
        if others.difference(&own).count() > 1 {
            other.clear(&mut forest);
            assert_eq!((forest.slots() - forest.free_slots()) as usize, Map::<u32, u32>::fewest_nodes_for(union.len()));
        }

        let mut forest = SetForest::new();
        let (mut set, mut other): (Set<u32>, Set<u32>) = (made(own.iter().copied(), &mut forest), made(others.iter().copied(), &mut forest));
        forest.reserve_nodes(Set::<u32>::fewest_nodes_for(union.len()) as u32 + 2).unwrap();
        assert_eq!(granted(requests, || set.union_with(&other, &mut forest, &())), Ok(!others.is_subset(&own)));
        assert!(set.iter(&forest).eq(union.keys().copied()) && forest.holds(&set));
        assert!(other.iter(&forest).eq(others.iter().copied()) && forest.holds(&other));
        if others.difference(&own).count() > 1 {
            other.clear(&mut forest);
            assert_eq!((forest.slots() - forest.free_slots()) as usize, Set::<u32>::fewest_nodes_for(union.len()));
        }
    }
}

/// Where no node lies free and the table can't grow, a union is refused, and nothing has changed.
#[test]
fn unions_that_are_granted_no_nodes() {
    let mut forest = MapForest::new();
    let (mut map, other): (Map<u32, u32>, Map<u32, u32>) = (made((0..500).step_by(2), &mut forest), made((0..500).step_by(3), &mut forest));
    let (mut forest, before) = (forest.clone(), (forest.slots(), forest.free_slots()));
    assert_eq!(granted(0, || map.union_with(&other, &mut forest, &())), Err(OutOfMemory::Memory));
    assert_eq!((forest.slots(), forest.free_slots()), before);
    assert!(map.keys(&forest).into_iter().eq((0..500).step_by(2)) && other.keys(&forest).into_iter().eq((0..500).step_by(3)));
    // The table is granted, and no list.
    forest.reserve_nodes(200).unwrap();
    assert_eq!(granted(0, || map.union_with(&other, &mut forest, &())), Ok(true));
    assert!(map.keys(&forest).into_iter().eq((0..500).filter(|key| key % 2 == 0 || key % 3 == 0)));
}

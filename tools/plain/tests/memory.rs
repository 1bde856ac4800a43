//! How many bytes a table holds, as README and the tutorial say: after a reservation, after insertions, and after a removal.

mod random;

use bforest::{Map, MapForest, Maps, SetForest, Sets};
use random::Random;
use std::alloc::{GlobalAlloc, Layout, System};
use std::cell::Cell;

thread_local! {
    /// How many bytes this thread holds.
    static HELD: Cell<usize> = const { Cell::new(0) };
}

struct Counting;

/// Counts bytes that are taken, and then bytes that are given back.
fn count(taken: usize, given: usize) {
    let _ = HELD.try_with(|it| it.set(it.get().wrapping_add(taken).wrapping_sub(given)));
}

unsafe impl GlobalAlloc for Counting {
    unsafe fn alloc(&self, layout: Layout) -> *mut u8 {
        count(layout.size(), 0);
        unsafe { System.alloc(layout) }
    }

    unsafe fn dealloc(&self, at: *mut u8, layout: Layout) {
        count(0, layout.size());
        unsafe { System.dealloc(at, layout) }
    }

    unsafe fn realloc(&self, at: *mut u8, layout: Layout, size: usize) -> *mut u8 {
        count(size, layout.size());
        unsafe { System.realloc(at, layout, size) }
    }
}

#[global_allocator]
static ALLOCATOR: Counting = Counting;

/// What the mark of a root takes in each node of a build with guards.
const MARK: usize = if cfg!(any(debug_assertions, feature = "guards")) { 4 } else { 0 };

/// What a node of a map takes, with keys and values of 4 bytes, what one of a set takes, and a handle.
const MAP_NODE: usize = 64 + MARK;
const SET_NODE: usize = 64 + MARK;
const HANDLE: usize = 4;

/// How many nodes a table has memory for at least, where it has any.
const FEWEST: usize = 4;

/// What is made, and how many bytes it holds.
fn made<T>(make: impl FnOnce() -> T) -> (T, usize) {
    let before = HELD.get();
    let made = make();
    (made, HELD.get().wrapping_sub(before))
}

#[test]
fn a_reservation_takes_the_nodes_and_no_more() {
    for (maps, entries) in [(1, 10), (1, 100), (1, 10_000), (1, 1_000_000), (100_000, 9)] {
        let nodes = maps * Map::<u32, u32>::nodes_for(entries);
        let (_maps, held) = made(|| {
            let mut made: Maps<u32, u32> = Maps::new(());
            made.reserve_for(maps, entries).unwrap();
            made
        });
        assert_eq!(held, nodes * MAP_NODE + maps * HANDLE, "{maps} maps of {entries} entries");
    }
    let (_forest, held) = made(|| {
        let mut forest: SetForest<u32> = SetForest::new();
        forest.reserve_nodes(1000).unwrap();
        forest
    });
    assert_eq!(held, 1000 * SET_NODE);
    let (_sets, held) = made(|| {
        let mut sets: Sets<u32, ()> = Sets::new(());
        sets.reserve_for(3, 100).unwrap();
        sets
    });
    assert_eq!(held, 3 * (18 * SET_NODE + HANDLE));
}

#[test]
fn a_table_that_grew_holds_at_most_twice_what_it_uses() {
    for entries in [1, 7, 10, 100, 10_000, 200_000] {
        let mut map = Map::new();
        let (mut forest, held) = made(|| {
            let mut forest: MapForest<u32, u32> = MapForest::new();
            for key in 0..entries {
                map.insert(key, key, &mut forest, &()).unwrap();
            }
            forest
        });
        let nodes = forest.nodes_in_use() as usize;
        assert!(nodes <= Map::<u32, u32>::nodes_for(entries as usize));
        assert!(nodes * MAP_NODE <= held && held <= MAP_NODE * FEWEST.max(2 * nodes), "{entries} entries: {held} bytes");
        // Nodes that are freed stay in the table, whose memory stays.
        let before = HELD.get();
        map.clear(&mut forest);
        forest.clear();
        assert_eq!(HELD.get(), before);
    }
}

#[test]
fn a_map_filled_at_random_has_seven_tenths_of_the_most_nodes() {
    let mut random = Random(0x9e37_79b9_7f4a_7c15);
    let (mut forest, mut map, mut entries) = (MapForest::new(), Map::new(), 0);
    while entries < 100_000 {
        let key = random.below(u32::MAX);
        entries += usize::from(map.insert(key, key, &mut forest, &()).unwrap().is_none());
    }
    let part = f64::from(forest.nodes_in_use()) / Map::<u32, u32>::nodes_for(entries) as f64;
    assert!((0.65..0.75).contains(&part), "{part}");
}

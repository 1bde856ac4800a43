//! Room that is promised ahead: the most nodes of so many entries, and a million calls with each request for memory refused.

mod random;

use bforest::{Map, MapForest, Maps, OutOfMemory, Set, SetForest, Sets};
use random::Random;
use std::alloc::{GlobalAlloc, Layout, System};
use std::cell::Cell;
use std::ptr;

thread_local! {
    /// Whether the allocator refuses this thread what it asks for.
    static REFUSES: Cell<bool> = const { Cell::new(false) };
    /// How often it did.
    static REFUSED: Cell<u32> = const { Cell::new(0) };
}

struct Refusing;

/// Whether a request is refused, which is counted.
fn refuses() -> bool {
    let refuses = REFUSES.try_with(Cell::get).unwrap_or(false);
    if refuses {
        let _ = REFUSED.try_with(|it| it.set(it.get() + 1));
    }
    refuses
}

unsafe impl GlobalAlloc for Refusing {
    unsafe fn alloc(&self, layout: Layout) -> *mut u8 {
        if refuses() { ptr::null_mut() } else { unsafe { System.alloc(layout) } }
    }

    unsafe fn dealloc(&self, at: *mut u8, layout: Layout) {
        unsafe { System.dealloc(at, layout) }
    }

    unsafe fn realloc(&self, at: *mut u8, layout: Layout, size: usize) -> *mut u8 {
        if refuses() { ptr::null_mut() } else { unsafe { System.realloc(at, layout, size) } }
    }
}

#[global_allocator]
static ALLOCATOR: Refusing = Refusing;

/// Makes calls while each request for memory is refused, and returns how many were.
fn while_refused(calls: impl FnOnce()) -> u32 {
    let before = REFUSED.get();
    REFUSES.set(true);
    calls();
    REFUSES.set(false);
    REFUSED.get() - before
}

const CALLS: u32 = 1_000_000;

/// Insertions and removals in maps of at most so many entries each, with no request for memory granted.
fn maps_of(count: usize, entries: u32, maps: &mut Maps<u32, u32>) {
    let mut random = Random(0x9e37_79b9_7f4a_7c15);
    let refused = while_refused(|| {
        while maps.len() < count {
            maps.push().expect("the handles have room");
        }
        for call in 0..CALLS {
            let (at, key) = (random.below(count as u32) as usize, random.below(entries));
            // Whole stretches of one kind, so that trees grow to their end and shrink to nothing.
            if (call / 10_000) % 2 == 0 || random.below(3) == 0 {
                maps.insert(at, key, call).expect("the nodes have room");
            } else {
                maps.remove(at, key);
            }
        }
    });
    assert_eq!(refused, 0, "a call asked for memory");
}

#[test]
fn no_call_on_maps_asks_for_memory_after_reserve_for() {
    for (count, entries) in [(1, 1), (3, 7), (40, 8), (25, 61), (2, 3000)] {
        let mut maps: Maps<u32, u32> = Maps::new(());
        maps.reserve_for(count, entries as usize).unwrap();
        maps_of(count, entries, &mut maps);
        assert!(maps.slots() as usize >= count * Map::<u32, u32>::nodes_for(entries as usize));
    }
}

#[test]
fn no_call_on_sets_asks_for_memory_after_reserve_for() {
    for (count, keys) in [(1_usize, 1_u32), (40, 16), (2, 5000)] {
        let mut sets: Sets<u32> = Sets::new(());
        sets.reserve_for(count, keys as usize).unwrap();
        let mut random = Random(0x2545_f491_4f6c_dd1d);
        let refused = while_refused(|| {
            sets.grow_to(count).expect("the handles have room");
            for call in 0..CALLS {
                let (at, key) = (random.below(count as u32) as usize, random.below(keys));
                if (call / 10_000) % 2 == 0 || random.below(3) == 0 {
                    sets.insert(at, key).expect("the nodes have room");
                } else {
                    sets.remove(at, key);
                }
            }
        });
        assert_eq!(refused, 0, "a call asked for memory");
    }
}

#[test]
fn handles_with_the_nodes_of_all_maps_reserved_are_refused_nothing() {
    let (count, entries) = (20, 100);
    let mut forest: MapForest<u32, u32> = MapForest::new();
    let mut maps: Vec<Map<u32, u32>> = (0..count).map(|_| Map::new()).collect();
    forest.reserve_nodes((count * Map::<u32, u32>::nodes_for(entries)) as u32).unwrap();
    let mut random = Random(0x1234_5678_9abc_def1);
    let refused = while_refused(|| {
        for call in 0..CALLS {
            let (map, key) = (&mut maps[random.below(count as u32) as usize], random.below(entries as u32));
            if random.below(5) < 3 {
                map.insert(key, call, &mut forest, &()).expect("the nodes have room");
            } else {
                map.remove(key, &mut forest, &());
            }
        }
    });
    assert_eq!(refused, 0, "a call asked for memory");
}

#[test]
fn a_limit_of_the_most_nodes_is_never_full() {
    let (count, entries) = (6, 50_usize);
    let limit = (count * Map::<u32, u32>::nodes_for(entries)) as u32;
    let mut maps: Maps<u32, u32> = Maps::with_node_limit((), limit);
    maps.grow_to(count).unwrap();
    let mut random = Random(0x0f0f_1234_5678_9abc);
    for call in 0..CALLS {
        let (at, key) = (random.below(count as u32) as usize, random.below(entries as u32));
        if random.below(5) < 3 {
            maps.insert(at, key, call).unwrap();
        } else {
            maps.remove(at, key);
        }
    }
    assert_eq!(maps.reserve_for(count + 1, entries), Err(OutOfMemory::Full));
    assert_eq!(maps.reserve_for(usize::MAX, usize::MAX), Err(OutOfMemory::Full));
}

/// A map that was filled in order far enough has nodes that are half full, level by level, but for the last ones. Once it is taken apart
/// from its end, it has the most nodes that its entries can have.
#[test]
fn the_most_nodes_are_met() {
    for entries in (0..300).chain((300..2000).step_by(37)) {
        let more = 3 * entries + 64;
        let mut forest: MapForest<u32, u32> = MapForest::new();
        let mut map = Map::new();
        for key in 0..entries + more {
            map.insert(key, 0, &mut forest, &()).unwrap();
        }
        for _ in 0..more {
            map.pop_last(&mut forest);
        }
        let nodes = forest.slots() - forest.free_slots();
        assert_eq!(nodes as usize, Map::<u32, u32>::nodes_for(entries as usize), "{entries} entries");

        let mut forest: SetForest<u32> = SetForest::new();
        let mut set = Set::new();
        for key in 0..entries + 2 * more {
            set.insert(key, &mut forest, &()).unwrap();
        }
        for _ in 0..2 * more {
            set.pop_last(&mut forest);
        }
        let nodes = forest.slots() - forest.free_slots();
        assert_eq!(nodes as usize, Set::<u32>::nodes_for(entries as usize), "{entries} keys");
    }
}

#[test]
fn no_map_of_a_million_random_calls_has_more_than_the_most_nodes() {
    let mut random = Random(0x51ed_270b_3c4f_ae21);
    let (mut forest, mut map) = (MapForest::<u32, u32>::new(), Map::new());
    let (mut entries, mut most) = (0, [0; 25]);
    for call in 0..CALLS {
        let key = random.below(24);
        let grows = random.below(100) < if (call / 500) % 2 == 0 { 70 } else { 30 };
        if grows {
            entries += usize::from(map.insert(key, call, &mut forest, &()).unwrap().is_none());
        } else {
            entries -= usize::from(map.remove(key, &mut forest, &()).is_some());
        }
        let nodes = (forest.slots() - forest.free_slots()) as usize;
        assert!(nodes <= Map::<u32, u32>::nodes_for(entries));
        most[entries] = nodes.max(most[entries]);
    }
    // With few entries random calls come upon the worst tree.
    assert!((0..12).all(|it| most[it] == Map::<u32, u32>::nodes_for(it)), "{:?}", &most[..12]);
}

#[test]
fn the_most_nodes_never_decrease() {
    let map = |entries| Map::<u32, u32>::nodes_for(entries);
    let set = |keys| Set::<u32>::nodes_for(keys);
    assert!((0..100_000).all(|it| map(it) <= map(it + 1) && set(it) <= set(it + 1)));
    assert!((0..64).all(|bit| map(1 << bit) <= map((1 << bit) + 1)));
    assert!(map(usize::MAX) <= usize::MAX / 2 && set(usize::MAX) <= usize::MAX / 4);
    // Of leaves of 4 entries, and of inner nodes of 4 children.
    assert_eq!([1, 4, 5, 16, 17, 65].map(map), [1, 1, 3, 5, 8, 25]);
    assert_eq!([1, 8, 9, 32, 33].map(set), [1, 1, 3, 5, 8]);
}

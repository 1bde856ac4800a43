//! What a panic of the caller's own code leaves, where it is caught.

use bforest::{Comparator, Map, MapForest, Maps, Set, SetForest};
use std::cell::Cell;
use std::cmp::Ordering;
use std::ops::Bound::{Excluded, Included};
use std::panic::{AssertUnwindSafe, catch_unwind, set_hook};

/// The order of the keys, which panics once it was asked as often as it says.
struct Failing(Cell<u32>);

impl Comparator<u32> for Failing {
    fn cmp(&self, a: u32, b: u32) -> Ordering {
        let left = self.0.get().checked_sub(1).expect("no comparison is left");
        self.0.set(left);
        a.cmp(&b)
    }
}

/// A map of the even keys below 200.
fn filled() -> (Map<u32, u32>, MapForest<u32, u32>) {
    let (mut map, mut forest) = (Map::new(), MapForest::new());
    for key in (0..200).step_by(2) {
        map.insert(key, key, &mut forest, &()).unwrap();
    }
    (map, forest)
}

#[test]
fn a_comparator_that_panics_changes_nothing() {
    set_hook(Box::new(|_| {}));
    let mut caught = 0;
    for (asked, key) in (0..12).flat_map(|asked| (0..200).map(move |key| (asked, key))) {
        let (mut map, mut forest) = filled();
        let counts = (forest.slots(), forest.free_slots());
        let order = Failing(Cell::new(asked));
        let made = catch_unwind(AssertUnwindSafe(|| match key % 4 {
            0 => drop(map.insert(key + 1, 0, &mut forest, &order)),
            1 => drop(map.remove(key - 1, &mut forest, &order)),
            2 => drop(map.cursor_mut(&mut forest, &order).insert(key + 1, 0)),
            _ => drop(map.range(key.., &forest, &order)),
        }));
        if made.is_err() {
            caught += 1;
            assert!(forest.holds(&map) && map.increases(&forest, &()));
            assert!(map.iter(&forest).eq((0..200).step_by(2).map(|it| (it, it))));
            assert_eq!((forest.slots(), forest.free_slots()), counts);
        }
    }
    assert!(caught > 1000, "{caught} panics");
}

/// A removal of a range takes out whole leaves, and then one entry after the other, and compares the last key of each leaf and the key of each
/// entry before: where the comparator panicked some entries within the bounds are gone, and all others are there. The handle is live.
#[test]
fn a_comparator_that_panics_in_a_removal_of_a_range() {
    set_hook(Box::new(|_| {}));
    let mut met = [false; 40];
    for asked in 0..100 {
        let (mut map, mut forest) = filled();
        let order = Failing(Cell::new(asked));
        let made = catch_unwind(AssertUnwindSafe(|| map.remove_range((Included(40), Excluded(100)), &mut forest, &order)));
        let left: Vec<_> = map.iter(&forest).collect();
        let outside = |key: &u32| !(40..100).contains(key);
        assert!(left.iter().map(|it| it.0).filter(outside).eq((0..200).step_by(2).filter(outside)));
        assert!(left.iter().all(|it| it.0 % 2 == 0 && it.1 == it.0));
        assert!(forest.holds(&map) && map.increases(&forest, &()));
        let gone = 100 - left.len();
        assert!(made.is_err() || gone == 30);
        met[gone] = true;
        map.insert(41, 41, &mut forest, &()).unwrap();
        map.clear(&mut forest);
        assert_eq!(forest.nodes_in_use(), 0);
    }
    assert!(met[0] && met[1..30].iter().filter(|it| **it).count() > 5 && met[30] && met[31..].iter().all(|it| !it));
}

/// A split compares before it changes its map.
#[test]
fn a_comparator_that_panics_in_a_split() {
    set_hook(Box::new(|_| {}));
    let (mut maps, mut sets) = (MapForest::new(), SetForest::new());
    let (map, set) = (Map::load(&[(1, 1), (3, 3), (5, 5)], &mut maps).unwrap(), Set::load(&[1, 3, 5], &mut sets).unwrap());
    let mut caught = 0;
    for asked in 0..30 {
        let (mut map, mut maps, mut set, mut sets) = (map.clone(), maps.clone(), set.clone(), sets.clone());
        let (order, other) = (Failing(Cell::new(asked)), Failing(Cell::new(asked)));
        let made = catch_unwind(AssertUnwindSafe(|| map.split_off(3, &mut maps, &order))).is_err();
        assert_eq!(made, catch_unwind(AssertUnwindSafe(|| set.split_off(3, &mut sets, &other))).is_err());
        if made {
            caught += 1;
            assert!(map.iter(&maps).eq([1, 3, 5].map(|it| (it, it))) && set.iter(&sets).eq([1, 3, 5]));
            assert!(maps.holds(&map) && sets.holds(&set));
            assert_eq!((maps.nodes_in_use(), sets.nodes_in_use()), (1, 1));
        } else {
            assert!(map.iter(&maps).eq([(1, 1)]) && set.iter(&sets).eq([1]));
        }
    }
    assert!(caught > 1, "{caught} panics");
}

#[test]
fn a_change_that_panics_leaves_the_map_as_it_was() {
    set_hook(Box::new(|_| {}));
    let (mut map, mut forest) = filled();
    for key in 0..200 {
        let made = catch_unwind(AssertUnwindSafe(|| map.update(key, |_| panic!("no value"), &mut forest, &())));
        assert_eq!(made.is_err(), key % 2 == 0);
        assert!(map.iter(&forest).eq((0..200).step_by(2).map(|it| (it, it))));
    }
    for key in (0..200).step_by(2) {
        let made = catch_unwind(AssertUnwindSafe(|| map.update_or_insert(key, 1, |_| panic!("no value"), &mut forest, &())));
        assert!(made.is_err() && map.iter(&forest).eq((0..200).step_by(2).map(|it| (it, it))));
    }
    assert_eq!(map.update_or_insert(200, 200, |_| panic!("no value"), &mut forest, &()), Ok(200));
    assert!(map.iter(&forest).eq((0..=200).step_by(2).map(|it| (it, it))));
}

#[test]
fn a_shift_that_panics_leaves_the_keys_from_there_on() {
    set_hook(Box::new(|_| {}));
    for from in 0..200 {
        let (mut map, mut forest) = filled();
        let shift = |key| if key == from { panic!("no key") } else { key - 1 };
        let made = catch_unwind(AssertUnwindSafe(|| map.shift(100, shift, &mut forest, &())));
        let is_caught = from >= 100 && from % 2 == 0;
        assert_eq!(made.is_err(), is_caught);
        let end = if is_caught { from } else { 200 };
        let moved = |key| if (100..end).contains(&key) { key - 1 } else { key };
        assert!(map.iter(&forest).eq((0..200).step_by(2).map(|it| (moved(it), it))));
        assert!(forest.holds(&map) && map.increases(&forest, &()));
    }
}

/// Which of the entries that a predicate is asked of stay: one in five.
fn stays(key: u32) -> bool {
    key % 10 == 0
}

/// What a predicate leaves that panics at its call of this number: the entries before are kept or removed, and all others stay.
fn left_by(asked: usize) -> impl Iterator<Item = (u32, u32)> {
    (0..200).step_by(2).enumerate().filter(move |(at, key)| *at >= asked || stays(*key)).map(|(_, key)| (key, key))
}

#[test]
fn a_predicate_that_panics_leaves_what_it_answered_before() {
    set_hook(Box::new(|_| {}));
    for asked in 0..100 {
        let (mut map, mut forest) = filled();
        let mut maps: Maps<u32, u32> = Maps::new(());
        maps.grow_to(2).unwrap();
        maps.load(1, &map.iter(&forest).collect::<Vec<_>>()).unwrap();
        let mut count = 0;
        let mut ask = |key: u32, _: &mut u32| {
            assert!(count < asked, "no call is left");
            count += 1;
            stays(key)
        };
        assert!(catch_unwind(AssertUnwindSafe(|| map.retain(&mut forest, &mut ask))).is_err());
        assert!(forest.holds(&map) && map.iter(&forest).eq(left_by(asked)));
        map.insert(41, 41, &mut forest, &()).unwrap();
        map.clear(&mut forest);
        assert_eq!(forest.nodes_in_use(), 0);

        let mut count = 0;
        let ask = |key: u32, _: &mut u32| {
            assert!(count < asked, "no call is left");
            count += 1;
            stays(key)
        };
        assert!(catch_unwind(AssertUnwindSafe(|| maps.retain(1, ask))).is_err());
        assert!(maps.iter(1).eq(left_by(asked)));
        maps.clear(1);
        assert_eq!(maps.nodes_in_use(), 0);
    }
}

/// A difference removes one entry after the other, as `retain` does, and compares twice for each but the first: with the key before in the
/// other map, and with the equal one. What was removed before a panic is gone, all others stay, and the handle is live.
#[test]
fn a_comparator_that_panics_in_a_difference() {
    set_hook(Box::new(|_| {}));
    let mut met = [false; 100];
    // Builds with guards compare each key with the next before.
    let before = if cfg!(any(debug_assertions, feature = "guards")) { 2 * 99 } else { 0 };
    for asked in 0..before + 199 {
        let (mut map, mut forest) = filled();
        let other = map.deep_clone(&mut forest).unwrap();
        let order = Failing(Cell::new(asked));
        assert!(catch_unwind(AssertUnwindSafe(|| map.difference_with(&other, &mut forest, &order))).is_err());
        assert!(other.iter(&forest).eq((0..200).step_by(2).map(|it| (it, it))));
        assert!(forest.holds(&map));
        let gone = 100 - map.iter(&forest).count();
        assert!(map.iter(&forest).eq((0..200).step_by(2).skip(gone).map(|it| (it, it))));
        met[gone] = true;
        map.insert(41, 41, &mut forest, &()).unwrap();
        map.clear(&mut forest);
    }
    assert!(met.iter().all(|it| *it));
}

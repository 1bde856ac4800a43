//! What a mistake of the caller meets: a handle that is not live, and an order that does not fit. Debug builds panic at once on a handle
//! that names no root, and on keys out of order beside a place that was searched; they name the mistake, what was asked, and the caller's
//! place. All builds go on: a call returns, or panics in plain words.

mod met;

use bforest::{Comparator, Map, MapForest, Set, SetForest};
use met::{NOT_LIVE, refused, survived};
use std::cell::Cell;
use std::cmp::{Ordering, Reverse};
use std::iter;

// The calls.

/// A call on a handle in a forest.
type Call<H, F> = fn(&mut H, &mut F);

type Numbers = Map<u32, u32>;
type NumbersForest = MapForest<u32, u32>;
type MapCall = Call<Numbers, NumbersForest>;
type SetCall = Call<Set<u32>, SetForest<u32>>;

const OF_MAPS: [(&str, MapCall); 37] = [
    ("get", |map, forest| _ = map.get(1, forest, &())),
    ("update", |map, forest| _ = map.update(1, |value| value + 1, forest, &())),
    ("get_or_less", |map, forest| _ = map.get_or_less(1, forest, &())),
    ("get_or_greater", |map, forest| _ = map.get_or_greater(1, forest, &())),
    ("first", |map, forest| _ = map.first(forest)),
    ("last", |map, forest| _ = map.last(forest)),
    ("insert", |map, forest| _ = map.insert(1, 2, forest, &())),
    ("try_insert", |map, forest| _ = map.try_insert(1, 2, forest, &())),
    ("get_or_insert", |map, forest| _ = map.get_or_insert(1, 2, forest, &())),
    ("update_or_insert", |map, forest| _ = map.update_or_insert(1, 2, |value| value + 1, forest, &())),
    ("remove", |map, forest| _ = map.remove(1, forest, &())),
    ("pop_first", |map, forest| _ = map.pop_first(forest)),
    ("pop_last", |map, forest| _ = map.pop_last(forest)),
    ("clear", |map, forest| map.clear(forest)),
    ("deep_clone", |map, forest| _ = map.deep_clone(forest)),
    ("is_subset", |map, forest| _ = map.is_subset(&map.clone(), forest, &())),
    ("is_disjoint", |map, forest| _ = map.is_disjoint(&map.clone(), forest, &())),
    ("union_with", |map, forest| _ = map.union_with(&map.clone(), forest, &())),
    ("intersect_with", |map, forest| _ = map.intersect_with(&map.clone(), forest, &())),
    ("difference_with", |map, forest| _ = map.difference_with(&map.clone(), forest, &())),
    ("remove_range", |map, forest| _ = map.remove_range(..=1, forest, &())),
    ("split_off", |map, forest| _ = map.split_off(1, forest, &())),
    ("compact", |map, forest| _ = map.compact(forest)),
    ("retain", |map, forest| map.retain(forest, |key, _| key > 1)),
    ("shift", |map, forest| map.shift(1, |key| key + 1, forest, &())),
    ("len", |map, forest| _ = map.len(forest)),
    ("levels", |map, forest| _ = map.levels(forest)),
    ("iter", |map, forest| _ = map.iter(forest).count()),
    ("iter_back", |map, forest| _ = map.iter_back(forest).count()),
    ("into_iter", |map, forest| _ = map.clone().into_iter(forest.clone()).count()),
    ("range", |map, forest| _ = map.range(..=1, forest, &()).rev().count()),
    ("cursor", |map, forest| _ = map.cursor(forest, &()).goto_first()),
    ("cursor_mut", |map, forest| _ = map.cursor_mut(forest, &()).goto(1)),
    ("increases", |map, forest| _ = map.increases(forest, &())),
    ("contains_key", |map, forest| _ = map.contains_key(1, forest, &())),
    ("debug", |map, forest| _ = format!("{:?}", map.debug(forest))),
    ("get_mut", |map, forest: &mut NumbersForest| _ = forest.get_mut(map, 1, &())),
];

const OF_SETS: [(&str, SetCall); 34] = [
    ("contains", |set, forest| _ = set.contains(1, forest, &())),
    ("get_or_less", |set, forest| _ = set.get_or_less(1, forest, &())),
    ("get_or_greater", |set, forest| _ = set.get_or_greater(1, forest, &())),
    ("first", |set, forest| _ = set.first(forest)),
    ("last", |set, forest| _ = set.last(forest)),
    ("insert", |set, forest| _ = set.insert(1, forest, &())),
    ("try_insert", |set, forest| _ = set.try_insert(1, forest, &())),
    ("remove", |set, forest| _ = set.remove(1, forest, &())),
    ("pop_first", |set, forest| _ = set.pop_first(forest)),
    ("pop_last", |set, forest| _ = set.pop_last(forest)),
    ("clear", |set, forest| set.clear(forest)),
    ("deep_clone", |set, forest| _ = set.deep_clone(forest)),
    ("is_subset", |set, forest| _ = set.is_subset(&set.clone(), forest, &())),
    ("is_disjoint", |set, forest| _ = set.is_disjoint(&set.clone(), forest, &())),
    ("union_with", |set, forest| _ = set.union_with(&set.clone(), forest, &())),
    ("intersect_with", |set, forest| _ = set.intersect_with(&set.clone(), forest, &())),
    ("difference_with", |set, forest| _ = set.difference_with(&set.clone(), forest, &())),
    ("remove_range", |set, forest| _ = set.remove_range(..=1, forest, &())),
    ("split_off", |set, forest| _ = set.split_off(1, forest, &())),
    ("compact", |set, forest| _ = set.compact(forest)),
    ("retain", |set, forest| set.retain(forest, |key| key > 1)),
    ("shift", |set, forest| set.shift(1, |key| key + 1, forest, &())),
    ("len", |set, forest| _ = set.len(forest)),
    ("levels", |set, forest| _ = set.levels(forest)),
    ("iter", |set, forest| _ = set.iter(forest).count()),
    ("iter_back", |set, forest| _ = set.iter_back(forest).count()),
    ("union", |set, forest| _ = set.union(&set.clone(), forest, &()).count()),
    ("intersection", |set, forest| _ = set.intersection(&set.clone(), forest, &()).count()),
    ("difference", |set, forest| _ = set.difference(&set.clone(), forest, &()).count()),
    ("symmetric_difference", |set, forest| _ = set.symmetric_difference(&set.clone(), forest, &()).count()),
    ("range", |set, forest| _ = set.range(..=1, forest, &()).rev().count()),
    ("cursor", |set, forest| _ = set.cursor(forest, &()).goto(1)),
    ("increases", |set, forest| _ = set.increases(forest, &())),
    ("debug", |set, forest| _ = format!("{:?}", set.debug(forest))),
];

/// The calls in the tables above that stand in `rust.rs`.
const OF_THE_PACKAGE: [&str; 2] = ["contains_key", "debug"];

/// The call in the tables above that is made on a forest.
const OF_THE_FOREST: &str = "get_mut";

/// The calls of a source on a handle that are handed a forest.
fn handed_forest(source: &str) -> Vec<&str> {
    let heads = source.split("\n    pub fn ").skip(1).map(|it| it.split(" {\n").next().unwrap_or(it));
    heads.filter(|it| it.contains("self") && it.contains("forest: ")).map(|it| it.split(['<', '(']).next().unwrap_or(it)).collect()
}

/// The tables above have each call.
#[test]
fn no_call_is_missing() {
    let maps = handed_forest(include_str!("../src/map.rs"));
    let on_handles = OF_MAPS.iter().map(|(name, _)| name).filter(|it| !OF_THE_PACKAGE.contains(it) && **it != OF_THE_FOREST);
    assert!(maps.iter().eq(on_handles), "{maps:?}");
    let sets = handed_forest(include_str!("../src/set.rs"));
    assert!(sets.iter().eq(OF_SETS.iter().map(|(name, _)| name).filter(|it| !OF_THE_PACKAGE.contains(it))), "{sets:?}");
}

// Handles that are not live.

const ENDED: &str = "its tree has ended, since the slot ";
const PAST: &str = " (the forest was cleared, or the handle belongs to another one)";
const WITHIN: &str = " is a node within a tree (the handle is a copy from before its map got a new root or lost one, ";

/// A map whose keys are 1 to `last`.
fn map_up_to(last: u32, forest: &mut NumbersForest) -> Numbers {
    let mut map = Map::new();
    for key in 1..=last {
        map.insert(key, 10 * key, forest, &()).unwrap();
    }
    map
}

fn set_up_to(last: u32, forest: &mut SetForest<u32>) -> Set<u32> {
    let mut set = Set::new();
    for key in 1..=last {
        set.insert(key, forest, &()).unwrap();
    }
    set
}

/// A map of one node, whose keys are 1 to 5.
fn filled_map(forest: &mut NumbersForest) -> Numbers {
    map_up_to(5, forest)
}

/// A set of one node, whose keys are 1 to 5.
fn filled_set(forest: &mut SetForest<u32>) -> Set<u32> {
    set_up_to(5, forest)
}

/// Makes each call of the table on the handle, each in a forest as it was, in which other calls then answer as they should.
fn each_refused<H: Clone, F: Clone>(
    calls: &[(&str, Call<H, F>)],
    (handle, forest): (&H, &F),
    mistake: &str,
    is_in_use: fn(&mut F) -> bool,
) {
    for (name, call) in calls {
        let (mut handle, mut forest) = (handle.clone(), forest.clone());
        refused(name, NOT_LIVE, mistake, || call(&mut handle, &mut forest));
        assert!(is_in_use(&mut forest), "after {name} in a forest where {mistake}");
    }
}

/// Whether a forest is as new once it is cleared.
fn is_map_forest_in_use(forest: &mut NumbersForest) -> bool {
    forest.clear();
    let map = filled_map(forest);
    map.iter(forest).eq((1..=5).map(|key| (key, 10 * key))) && forest.holds(&map) && forest.slots() == 1
}

fn is_set_forest_in_use(forest: &mut SetForest<u32>) -> bool {
    forest.clear();
    let set = filled_set(forest);
    set.iter(forest).eq(1..=5) && forest.holds(&set) && forest.slots() == 1
}

/// Each call on the map that is not live in the forest.
fn each_of_a_map(map: &Numbers, forest: &NumbersForest, mistake: &str) {
    assert!(!forest.holds(map));
    each_refused(&OF_MAPS, (map, forest), mistake, is_map_forest_in_use);
}

fn each_of_a_set(set: &Set<u32>, forest: &SetForest<u32>, mistake: &str) {
    assert!(!forest.holds(set));
    each_refused(&OF_SETS, (set, forest), mistake, is_set_forest_in_use);
}

/// The ways in which a map's tree ends through a copy of its handle.
#[test]
fn maps_that_ended_through_a_copy() {
    let ends: [MapCall; 5] = [
        |copy, forest| copy.clear(forest),
        |copy, forest| _ = copy.remove_range(.., forest, &()),
        |copy, forest| copy.retain(forest, |_, _| false),
        |copy, forest| (1..=5).for_each(|key| _ = copy.remove(key, forest, &())),
        |copy, forest| {
            let mut cursor = copy.cursor_mut(forest, &());
            cursor.goto_first();
            while cursor.remove().is_some() {}
        },
    ];
    for end in ends {
        let mut forest = MapForest::new();
        let map = filled_map(&mut forest);
        filled_map(&mut forest);
        end(&mut map.clone(), &mut forest);
        each_of_a_map(&map, &forest, ENDED);
    }
}

#[test]
fn sets_that_ended_through_a_copy() {
    let ends: [SetCall; 5] = [
        |copy, forest| copy.clear(forest),
        |copy, forest| _ = copy.remove_range(.., forest, &()),
        |copy, forest| copy.retain(forest, |_| false),
        |copy, forest| (1..=5).for_each(|key| _ = copy.remove(key, forest, &())),
        |copy, forest| {
            let mut cursor = copy.cursor(forest, &());
            cursor.goto_first();
            while cursor.remove().is_some() {}
        },
    ];
    for end in ends {
        let mut forest = SetForest::new();
        let set = filled_set(&mut forest);
        filled_set(&mut forest);
        end(&mut set.clone(), &mut forest);
        each_of_a_set(&set, &forest, ENDED);
    }
}

#[test]
fn handles_in_a_cleared_forest() {
    let mut maps = MapForest::new();
    let map = filled_map(&mut maps);
    maps.clear();
    each_of_a_map(&map, &maps, PAST);
    let mut sets = SetForest::new();
    let set = filled_set(&mut sets);
    sets.clear();
    each_of_a_set(&set, &sets, PAST);
}

#[test]
fn handles_of_a_greater_forest() {
    let (mut maps, mut few_maps) = (MapForest::new(), MapForest::new());
    filled_map(&mut maps);
    filled_map(&mut few_maps);
    each_of_a_map(&filled_map(&mut maps), &few_maps, PAST);
    let (mut sets, mut few_sets) = (SetForest::new(), SetForest::new());
    filled_set(&mut sets);
    filled_set(&mut few_sets);
    each_of_a_set(&filled_set(&mut sets), &few_sets, PAST);
}

/// What asks for no live handle is answered for one that is not.
#[test]
fn calls_that_ask_nothing() {
    let mut forest = MapForest::new();
    let mut map = filled_map(&mut forest);
    let copy = map.clone();
    map.clear(&mut forest);
    assert!(forest.holds(&map) && !forest.holds(&copy) && !forest.holds(&copy.clone()));
    assert_eq!((copy.is_empty(), format!("{copy:?} {map:?}")), (false, "Map(Some(0)) Map(None)".into()));
    let mut forest = SetForest::new();
    let mut set = filled_set(&mut forest);
    let copy = set.clone();
    set.clear(&mut forest);
    assert!(forest.holds(&set) && !forest.holds(&copy) && !forest.holds(&copy.clone()));
    assert_eq!((copy.is_empty(), format!("{copy:?} {set:?}")), (false, "Set(Some(0)) Set(None)".into()));
}

/// A copy whose slot was freed and used again names another map's tree, in which its calls are made.
#[test]
fn copies_of_a_slot_that_is_used_again() {
    let mut forest = MapForest::new();
    let mut map = filled_map(&mut forest);
    let copy = map.clone();
    map.clear(&mut forest);
    let mut other = Map::new();
    other.insert(7, 70, &mut forest, &()).unwrap();
    assert!(forest.holds(&copy) && copy.iter(&forest).eq([(7, 70)]));
    let mut forest = SetForest::new();
    let mut set = filled_set(&mut forest);
    let copy = set.clone();
    set.clear(&mut forest);
    let mut other = Set::new();
    other.insert(7, &mut forest, &()).unwrap();
    assert!(forest.holds(&copy) && copy.iter(&forest).eq([7]));
}

/// The most entries of one node of a map, and of a set. One entry more makes a new root above two of them.
const FULL_MAP: u32 = 7;
const FULL_SET: u32 = 15;

/// The copy's slot is the first leaf below the new root.
#[test]
fn copies_from_before_a_new_root() {
    let mut maps = MapForest::new();
    let mut map = map_up_to(FULL_MAP, &mut maps);
    let copy = map.clone();
    map.insert(FULL_MAP + 1, 0, &mut maps, &()).unwrap();
    each_of_a_map(&copy, &maps, WITHIN);
    let mut sets = SetForest::new();
    let mut set = set_up_to(FULL_SET, &mut sets);
    let copy = set.clone();
    set.insert(FULL_SET + 1, &mut sets, &()).unwrap();
    each_of_a_set(&copy, &sets, WITHIN);
}

/// The copy's slot was the root above two leaves, of which one has all entries now.
#[test]
fn copies_from_before_a_root_was_lost() {
    let mut maps = MapForest::new();
    let mut map = map_up_to(FULL_MAP + 1, &mut maps);
    let copy = map.clone();
    map.remove(1, &mut maps, &());
    assert_eq!(map.levels(&maps), 1);
    each_of_a_map(&copy, &maps, ENDED);
    let mut sets = SetForest::new();
    let mut set = set_up_to(FULL_SET + 1, &mut sets);
    let copy = set.clone();
    set.remove(1, &mut sets, &());
    assert_eq!(set.levels(&sets), 1);
    each_of_a_set(&copy, &sets, ENDED);
}

/// A union makes a new tree, beside the one that the copy names, and frees that.
#[test]
fn copies_from_before_a_union() {
    let mut maps = MapForest::new();
    let (mut map, other) = (filled_map(&mut maps), map_up_to(FULL_MAP, &mut maps));
    let copy = map.clone();
    assert_eq!(map.union_with(&other, &mut maps, &()), Ok(true));
    each_of_a_map(&copy, &maps, ENDED);
    let mut sets = SetForest::new();
    let (mut set, other) = (filled_set(&mut sets), set_up_to(FULL_SET, &mut sets));
    let copy = set.clone();
    assert_eq!(set.union_with(&other, &mut sets, &()), Ok(true));
    each_of_a_set(&copy, &sets, ENDED);
}

/// A compaction makes a new tree, as a union does.
#[test]
fn copies_from_before_a_compaction() {
    let mut maps = MapForest::new();
    let mut map = filled_map(&mut maps);
    let copy = map.clone();
    assert_eq!(map.compact(&mut maps), Ok(()));
    each_of_a_map(&copy, &maps, ENDED);
    let mut sets = SetForest::new();
    let mut set = filled_set(&mut sets);
    let copy = set.clone();
    assert_eq!(set.compact(&mut sets), Ok(()));
    each_of_a_set(&copy, &sets, ENDED);
}

/// A split leaves 4 entries in the leaf of the front, and the root above it ends. A copy from before names neither part, and is told.
#[test]
fn copies_from_before_a_split() {
    let mut maps = MapForest::new();
    let mut map = map_up_to(FULL_MAP + 1, &mut maps);
    let copy = map.clone();
    let tail = map.split_off(5, &mut maps, &()).unwrap();
    assert!(map.iter(&maps).map(|it| it.0).eq(1..=4) && tail.iter(&maps).map(|it| it.0).eq(5..=8));
    each_of_a_map(&copy, &maps, ENDED);
    let mut sets = SetForest::new();
    let mut set = set_up_to(FULL_SET + 1, &mut sets);
    let copy = set.clone();
    let tail = set.split_off(9, &mut sets, &()).unwrap();
    assert!(set.iter(&sets).eq(1..=8) && tail.iter(&sets).eq(9..=16));
    each_of_a_set(&copy, &sets, ENDED);
}

/// The copy's slot was freed, and is the second leaf of another tree now: the slot that is freed last is taken first.
#[test]
fn copies_of_a_slot_that_is_within_another_tree() {
    let mut maps = MapForest::new();
    let (mut other, mut map) = (map_up_to(FULL_MAP, &mut maps), filled_map(&mut maps));
    maps.reserve_nodes(2).unwrap();
    let copy = map.clone();
    map.clear(&mut maps);
    other.insert(FULL_MAP + 1, 0, &mut maps, &()).unwrap();
    each_of_a_map(&copy, &maps, WITHIN);
    let mut sets = SetForest::new();
    let (mut other, mut set) = (set_up_to(FULL_SET, &mut sets), filled_set(&mut sets));
    sets.reserve_nodes(2).unwrap();
    let copy = set.clone();
    set.clear(&mut sets);
    other.insert(FULL_SET + 1, &mut sets, &()).unwrap();
    each_of_a_set(&copy, &sets, WITHIN);
}

/// A handle of a forest in whose place this one has a node within a tree.
#[test]
fn handles_of_another_forest_that_name_a_node_within() {
    let (mut maps, mut others) = (MapForest::new(), MapForest::new());
    map_up_to(FULL_MAP + 1, &mut maps);
    each_of_a_map(&filled_map(&mut others), &maps, WITHIN);
    let (mut sets, mut others) = (SetForest::new(), SetForest::new());
    set_up_to(FULL_SET + 1, &mut sets);
    each_of_a_set(&filled_set(&mut others), &sets, WITHIN);
}

/// A map that was cleared is cleared once more, through a copy.
#[test]
fn a_second_clear_through_a_copy() {
    for last in 1..=100 {
        let mut maps = MapForest::new();
        let mut map = map_up_to(last, &mut maps);
        let mut copy = map.clone();
        map.clear(&mut maps);
        refused("a second clear", NOT_LIVE, ENDED, || copy.clear(&mut maps));
        let mut sets = SetForest::new();
        let mut set = set_up_to(last, &mut sets);
        let mut copy = set.clone();
        set.clear(&mut sets);
        refused("a second clear", NOT_LIVE, ENDED, || copy.clear(&mut sets));
    }
}

/// A call on a handle and another one in a forest.
type CallOfTwo<H, F> = (&'static str, fn(&mut H, &H, &mut F));

const OF_TWO_MAPS: [CallOfTwo<Numbers, NumbersForest>; 5] = [
    ("is_subset", |map, other, forest| _ = map.is_subset(other, forest, &())),
    ("is_disjoint", |map, other, forest| _ = map.is_disjoint(other, forest, &())),
    ("union_with", |map, other, forest| _ = map.union_with(other, forest, &())),
    ("intersect_with", |map, other, forest| _ = map.intersect_with(other, forest, &())),
    ("difference_with", |map, other, forest| _ = map.difference_with(other, forest, &())),
];

const OF_TWO_SETS: [CallOfTwo<Set<u32>, SetForest<u32>>; 9] = [
    ("is_subset", |set, other, forest| _ = set.is_subset(other, forest, &())),
    ("is_disjoint", |set, other, forest| _ = set.is_disjoint(other, forest, &())),
    ("union_with", |set, other, forest| _ = set.union_with(other, forest, &())),
    ("intersect_with", |set, other, forest| _ = set.intersect_with(other, forest, &())),
    ("difference_with", |set, other, forest| _ = set.difference_with(other, forest, &())),
    ("union", |set, other, forest| _ = set.union(other, forest, &()).count()),
    ("intersection", |set, other, forest| _ = set.intersection(other, forest, &()).count()),
    ("difference", |set, other, forest| _ = set.difference(other, forest, &()).count()),
    ("symmetric_difference", |set, other, forest| _ = set.symmetric_difference(other, forest, &()).count()),
];

/// The handle that is lent is tested as the one on which the call is made.
#[test]
fn calls_whose_other_handle_is_not_live() {
    let mut maps = MapForest::new();
    let (map, mut other) = (filled_map(&mut maps), map_up_to(FULL_MAP, &mut maps));
    let copy = other.clone();
    other.insert(FULL_MAP + 1, 0, &mut maps, &()).unwrap();
    for (name, call) in OF_TWO_MAPS {
        let (mut map, mut maps) = (map.clone(), maps.clone());
        refused(name, NOT_LIVE, WITHIN, || call(&mut map, &copy, &mut maps));
        assert!(is_map_forest_in_use(&mut maps), "after {name}");
    }
    let mut sets = SetForest::new();
    let (set, mut other) = (filled_set(&mut sets), set_up_to(FULL_SET, &mut sets));
    let copy = other.clone();
    other.insert(FULL_SET + 1, &mut sets, &()).unwrap();
    for (name, call) in OF_TWO_SETS {
        let (mut set, mut sets) = (set.clone(), sets.clone());
        refused(name, NOT_LIVE, WITHIN, || call(&mut set, &copy, &mut sets));
        assert!(is_set_forest_in_use(&mut sets), "after {name}");
    }
}

/// A call that changes a map or set by the keys of another one reads the keys of both. Guards test all of them before anything is changed.
#[test]
fn calls_on_two_of_which_one_is_in_another_order() {
    let mistake = "two keys next to each other do not increase under it";
    let is_told = cfg!(any(debug_assertions, feature = "guards"));
    let mut maps = MapForest::new();
    let (map, mut turned) = (map_up_to(20, &mut maps), Map::new());
    let mut sets = SetForest::new();
    let (set, mut turned_set) = (set_up_to(20, &mut sets), Set::new());
    for key in 1..=20 {
        turned.insert(key, 0, &mut maps, &Reverse(())).unwrap();
        turned_set.insert(key, &mut sets, &Reverse(())).unwrap();
    }
    let changes = |name: &str| name.ends_with("_with");
    for (name, call) in OF_TWO_MAPS.into_iter().filter(|it| changes(it.0)) {
        for (first, second) in [(&map, &turned), (&turned, &map)] {
            let (mut changed, mut forest) = (first.clone(), maps.clone());
            refused(name, OUT_OF_ORDER, mistake, || call(&mut changed, second, &mut forest));
            assert!(!is_told || changed.iter(&forest).eq(first.iter(&maps)), "after {name}");
        }
    }
    for (name, call) in OF_TWO_SETS.into_iter().filter(|it| changes(it.0)) {
        for (first, second) in [(&set, &turned_set), (&turned_set, &set)] {
            let (mut changed, mut forest) = (first.clone(), sets.clone());
            refused(name, OUT_OF_ORDER, mistake, || call(&mut changed, second, &mut forest));
            assert!(!is_told || changed.iter(&forest).eq(first.iter(&sets)), "after {name}");
        }
    }
}

// What builds without guards do not notice.

/// A copy that names a leaf of a tree which has grown a level can end that leaf. What finds the hole later says what was done before.
#[test]
#[cfg(not(any(debug_assertions, feature = "guards")))]
fn trees_that_a_copy_made_a_hole_in() {
    let mut forest = MapForest::new();
    let mut map = filled_map(&mut forest);
    let mut copy = map.clone();
    for key in 6..=9 {
        map.insert(key, 10 * key, &mut forest, &()).unwrap();
    }
    assert!(forest.holds(&map) && !forest.holds(&copy));
    copy.clear(&mut forest);
    let said = met::met(|| map.get(1, &forest, &())).expect_err("there is no leaf");
    assert!(said.text.starts_with("this call or an earlier one was made on a handle that was not live"), "{}", said.text);
    for (name, call) in OF_MAPS {
        let (mut map, mut forest) = (map.clone(), forest.clone());
        survived(name, || call(&mut map, &mut forest));
        assert!(is_map_forest_in_use(&mut forest), "after {name} in a tree with a hole");
    }
}

/// The eighth entry halves the only leaf into 4 entries and 4, below a new root. The copy names the first half. An insertion through the
/// copy puts a key there that belongs into the other half, where it is looked for.
#[test]
#[cfg(not(any(debug_assertions, feature = "guards")))]
fn a_copy_after_the_eighth_insertion_has_half_the_map() {
    let mut forest = MapForest::new();
    let mut map = map_up_to(FULL_MAP, &mut forest);
    let mut copy = map.clone();
    map.insert(8, 80, &mut forest, &()).unwrap();
    assert!(forest.holds(&map) && !forest.holds(&copy));
    assert!(copy.iter(&forest).eq((1..=4).map(|key| (key, 10 * key))));
    assert_eq!((copy.get(7, &forest, &()), map.get(7, &forest, &())), (None, Some(70)));
    assert_eq!(copy.insert(9, 90, &mut forest, &()), Ok(None));
    assert!(map.iter(&forest).map(|it| it.0).eq([1, 2, 3, 4, 9, 5, 6, 7, 8]));
    assert!(!map.increases(&forest, &()) && map.get(9, &forest, &()).is_none());
    assert!(is_map_forest_in_use(&mut forest));
}

/// The sixteenth key of a set halves its only leaf into 8 keys and 8.
#[test]
#[cfg(not(any(debug_assertions, feature = "guards")))]
fn a_copy_after_the_sixteenth_insertion_has_half_the_set() {
    let mut forest = SetForest::new();
    let mut set = set_up_to(FULL_SET, &mut forest);
    let mut copy = set.clone();
    set.insert(16, &mut forest, &()).unwrap();
    assert!(forest.holds(&set) && !forest.holds(&copy));
    assert!(copy.iter(&forest).eq(1..=8));
    assert!(!copy.contains(15, &forest, &()) && set.contains(15, &forest, &()));
    assert_eq!(copy.insert(17, &mut forest, &()), Ok(true));
    assert!(!set.increases(&forest, &()) && !set.contains(17, &forest, &()));
    assert!(is_set_forest_in_use(&mut forest));
}

// Mistakes that no build notices.

/// A handle that is dropped frees no node.
#[test]
fn a_handle_that_is_dropped_keeps_its_nodes() {
    let mut forest = MapForest::new();
    _ = map_up_to(FULL_MAP + 1, &mut forest);
    assert_eq!((forest.nodes_in_use(), forest.free_slots()), (3, 0));
    forest.clear();
    assert_eq!((forest.nodes_in_use(), forest.slots()), (0, 0));
}

/// A new cursor stands at the end, so nothing comes behind it.
#[test]
fn stepping_on_from_a_new_cursor_gives_nothing() {
    let (mut maps, mut sets) = (MapForest::new(), SetForest::new());
    let (mut map, mut set) = (filled_map(&mut maps), filled_set(&mut sets));
    let mut reading = map.cursor(&maps, &());
    assert_eq!(iter::from_fn(|| reading.next()).count(), 0);
    let mut writing = map.cursor_mut(&mut maps, &());
    assert_eq!(iter::from_fn(|| writing.next()).count(), 0);
    let mut of_set = set.cursor(&mut sets, &());
    assert_eq!(iter::from_fn(|| of_set.next()).count(), 0);
}

/// `next` moves before it returns, so behind `goto_first` it leaves out the first entry.
#[test]
fn stepping_on_from_the_first_entry_leaves_it_out() {
    let (mut maps, mut sets) = (MapForest::new(), SetForest::new());
    let (mut map, mut set) = (filled_map(&mut maps), filled_set(&mut sets));
    let mut reading = map.cursor(&maps, &());
    reading.goto_first();
    assert!(iter::from_fn(|| reading.next()).map(|it| it.0).eq(2..=5));
    let mut writing = map.cursor_mut(&mut maps, &());
    writing.goto_first();
    assert!(iter::from_fn(|| writing.next()).map(|it| it.0).eq(2..=5));
    let mut of_set = set.cursor(&mut sets, &());
    of_set.goto_first();
    assert!(iter::from_fn(|| of_set.next()).eq(2..=5));
}

/// What the table of mistakes says to write: all entries, by looking before each step.
#[test]
fn looking_before_each_step_gives_all_entries() {
    let mut forest = MapForest::new();
    let map = filled_map(&mut forest);
    let mut cursor = map.cursor(&forest, &());
    let mut seen = Vec::new();
    cursor.goto_first();
    while let Some(it) = cursor.entry() {
        seen.push(it);
        cursor.next();
    }
    assert!(seen.into_iter().eq((1..=5).map(|key| (key, 10 * key))));
}

// Orders that do not fit.

/// How the message of a build with guards begins where it finds keys out of order.
const OUT_OF_ORDER: &str = "the comparator is not that of the map, which the call requires and `increases` tests: ";

/// Numbers without an order, by a shift register.
struct Random(Cell<u64>);

impl Random {
    fn below(&self, most: u32) -> u32 {
        let mut bits = self.0.get();
        bits ^= bits << 13;
        bits ^= bits >> 7;
        bits ^= bits << 17;
        self.0.set(bits);
        ((bits >> 32) % u64::from(most)) as u32
    }
}

/// No order: each answer is drawn.
impl Comparator<u32> for Random {
    fn cmp(&self, _: u32, _: u32) -> Ordering {
        [Ordering::Less, Ordering::Equal, Ordering::Greater][self.below(3) as usize]
    }
}

/// The order of the keys, with a search that answers any place, also one past the keys.
struct Misplaced(Random);

impl Comparator<u32> for Misplaced {
    fn cmp(&self, a: u32, b: u32) -> Ordering {
        a.cmp(&b)
    }

    fn search(&self, _: u32, _: &[u32]) -> Result<usize, usize> {
        let place = if self.0.below(16) == 0 { usize::MAX } else { self.0.below(20) as usize };
        if self.0.below(2) == 0 { Ok(place) } else { Err(place) }
    }
}

type Order<'a> = &'a dyn Comparator<u32>;

/// Whether each key is less than the next, told by pairs.
fn increase(keys: impl Iterator<Item = u32>, order: Order) -> bool {
    let keys: Vec<u32> = keys.collect();
    keys.windows(2).all(|it| order.cmp(it[0], it[1]) == Ordering::Less)
}

/// A map of 1 to 100 under the keys' own order.
fn hundred(forest: &mut NumbersForest) -> Numbers {
    let mut map = Map::new();
    for key in 1..=100 {
        map.insert(key, key, forest, &()).unwrap();
    }
    map
}

/// A set of 1 to 100 under the keys' own order.
fn hundred_of_a_set(forest: &mut SetForest<u32>) -> Set<u32> {
    let mut set = Set::new();
    for key in 1..=100 {
        set.insert(key, forest, &()).unwrap();
    }
    set
}

/// A drawn call on a map under an order.
fn call_map(map: &mut Numbers, forest: &mut NumbersForest, random: &Random, order: Order) {
    let (key, other) = (random.below(150), random.below(150));
    match random.below(13) {
        0..=2 => _ = map.insert(key, other, forest, &order),
        3..=4 => _ = map.remove(key, forest, &order),
        5 => _ = (map.get(key, forest, &order), map.get_or_less(other, forest, &order), map.get_or_greater(key, forest, &order)),
        6 => _ = map.range(key..other, forest, &order).count(),
        7 => _ = map.range(..=key, forest, &order).rev().count(),
        8 => {
            let mut cursor = map.cursor(forest, &order);
            _ = (cursor.goto(key), cursor.prev(), cursor.entry(), cursor.next());
        }
        9 => _ = map.remove_range(key..=key + other % 3, forest, &order),
        10 => _ = map.split_off(key, forest, &order).map(|tail| if key < 75 { *map = tail }),
        11 => _ = map.compact(forest),
        _ => {
            let mut cursor = map.cursor_mut(forest, &order);
            _ = (cursor.goto(key), cursor.insert(other, key), cursor.prev(), cursor.remove(), cursor.next());
        }
    }
}

/// A drawn call on a set under an order.
fn call_set(set: &mut Set<u32>, forest: &mut SetForest<u32>, random: &Random, order: Order) {
    let (key, other) = (random.below(150), random.below(150));
    match random.below(13) {
        0..=2 => _ = set.insert(key, forest, &order),
        3..=4 => _ = set.remove(key, forest, &order),
        5 => _ = (set.contains(key, forest, &order), set.get_or_less(other, forest, &order), set.get_or_greater(key, forest, &order)),
        6 => _ = set.range(key..other, forest, &order).count(),
        7 => _ = set.range(..=key, forest, &order).rev().count(),
        8 => {
            let mut cursor = set.cursor(forest, &order);
            _ = (cursor.goto(key), cursor.prev(), cursor.elem(), cursor.next());
        }
        9 => _ = set.remove_range(key..=key + other % 3, forest, &order),
        10 => _ = set.split_off(key, forest, &order).map(|tail| if key < 75 { *set = tail }),
        11 => _ = set.compact(forest),
        _ => {
            let mut cursor = set.cursor(forest, &order);
            _ = (cursor.goto(key), cursor.insert(other), cursor.prev(), cursor.remove(), cursor.next());
        }
    }
}

/// How many calls are drawn in a run.
const CALLS: usize = 4000;

/// A map that was filled under one order is read under another.
#[test]
fn a_map_read_under_another_order() {
    let mut forest = MapForest::new();
    let map = hundred(&mut forest);
    let reversed = Reverse(());
    for key in 0..=101 {
        survived("get", || map.get(key, &forest, &reversed));
        survived("get_or_less", || map.get_or_less(key, &forest, &reversed));
        survived("get_or_greater", || map.get_or_greater(key, &forest, &reversed));
        survived("range", || map.range(key.., &forest, &reversed).count());
        survived("cursor", || map.cursor(&forest, &reversed).goto(key));
    }
    assert!(map.increases(&forest, &()) && !map.increases(&forest, &reversed));
    assert!(map.iter(&forest).eq((1..=100).map(|key| (key, key))));
}

#[test]
fn a_set_read_under_another_order() {
    let mut forest = SetForest::new();
    let set = hundred_of_a_set(&mut forest);
    let reversed = Reverse(());
    for key in 0..=101 {
        survived("contains", || set.contains(key, &forest, &reversed));
        survived("get_or_less", || set.get_or_less(key, &forest, &reversed));
        survived("get_or_greater", || set.get_or_greater(key, &forest, &reversed));
        survived("range", || set.range(key.., &forest, &reversed).count());
    }
    survived("cursor", || set.clone().cursor(&mut forest.clone(), &reversed).goto(7));
    assert!(set.increases(&forest, &()) && !set.increases(&forest, &reversed));
    assert!(set.iter(&forest).eq(1..=100));
}

/// Insertions and removals under orders that change from call to call. `increases` tells which order the keys are in, if any.
#[test]
fn a_map_under_changing_orders() {
    let (random, drawn, reversed) = (Random(Cell::new(5)), Random(Cell::new(11)), Reverse(()));
    let orders: [Order; 3] = [&(), &reversed, &drawn];
    let mut forest = MapForest::new();
    let mut map = hundred(&mut forest);
    for _ in 0..CALLS {
        let order = orders[random.below(3) as usize];
        survived("a call of a map", || call_map(&mut map, &mut forest, &random, order));
        for order in &orders[..2] {
            let told = survived("increases", || map.increases(&forest, order));
            let keys = survived("iter", || increase(map.iter(&forest).map(|it| it.0), *order));
            assert_eq!(told, keys);
        }
    }
    assert!(is_map_forest_in_use(&mut forest));
}

#[test]
fn a_set_under_changing_orders() {
    let (random, drawn, reversed) = (Random(Cell::new(5)), Random(Cell::new(11)), Reverse(()));
    let orders: [Order; 3] = [&(), &reversed, &drawn];
    let mut forest = SetForest::new();
    let mut set = hundred_of_a_set(&mut forest);
    for _ in 0..CALLS {
        let order = orders[random.below(3) as usize];
        survived("a call of a set", || call_set(&mut set, &mut forest, &random, order));
        for order in &orders[..2] {
            let told = survived("increases", || set.increases(&forest, order));
            let keys = survived("iter", || increase(set.iter(&forest), *order));
            assert_eq!(told, keys);
        }
    }
    assert!(is_set_forest_in_use(&mut forest));
}

/// A call that compares keys on its way to an insertion, or to what it takes out.
type Ordered<H, F, C> = (&'static str, fn(&mut H, u32, &mut F, &C));

/// The calls on a map that are told where the keys beside a key's place are out of order.
fn ordered_calls_of_maps<C: Comparator<u32>>() -> [Ordered<Numbers, NumbersForest, C>; 9] {
    [
        ("insert", |map, key, forest, order| _ = map.insert(key, 0, forest, order)),
        ("try_insert", |map, key, forest, order| _ = map.try_insert(key, 0, forest, order)),
        ("get_or_insert", |map, key, forest, order| _ = map.get_or_insert(key, 0, forest, order)),
        ("update_or_insert", |map, key, forest, order| _ = map.update_or_insert(key, 0, |it| it, forest, order)),
        ("remove", |map, key, forest, order| _ = map.remove(key, forest, order)),
        ("insert of a cursor", |map, key, forest, order| _ = map.cursor_mut(forest, order).insert(key, 0)),
        ("remove_range from a key on", |map, key, forest, order| _ = map.remove_range(key.., forest, order)),
        ("remove_range up to a key", |map, key, forest, order| _ = map.remove_range(..key, forest, order)),
        ("split_off", |map, key, forest, order| _ = map.split_off(key, forest, order)),
    ]
}

fn ordered_calls_of_sets<C: Comparator<u32>>() -> [Ordered<Set<u32>, SetForest<u32>, C>; 7] {
    [
        ("insert", |set, key, forest, order| _ = set.insert(key, forest, order)),
        ("try_insert", |set, key, forest, order| _ = set.try_insert(key, forest, order)),
        ("remove", |set, key, forest, order| _ = set.remove(key, forest, order)),
        ("insert of a cursor", |set, key, forest, order| _ = set.cursor(forest, order).insert(key)),
        ("remove_range from a key on", |set, key, forest, order| _ = set.remove_range(key.., forest, order)),
        ("remove_range up to a key", |set, key, forest, order| _ = set.remove_range(..key, forest, order)),
        ("split_off", |set, key, forest, order| _ = set.split_off(key, forest, order)),
    ]
}

/// Makes each of these calls with the key, on a map and a set of 1 to 100. With guards nothing has changed then.
fn each_out_of_order<C: Comparator<u32>>(key: u32, order: &C, mistake: &str) {
    let (mut maps, mut sets) = (MapForest::new(), SetForest::new());
    let (map, set) = (hundred(&mut maps), hundred_of_a_set(&mut sets));
    for (name, call) in ordered_calls_of_maps() {
        let (mut copy, mut forest) = (map.clone(), maps.clone());
        refused(name, OUT_OF_ORDER, mistake, || call(&mut copy, key, &mut forest, order));
        assert!(!cfg!(any(debug_assertions, feature = "guards")) || map.iter(&forest).eq(map.iter(&maps)), "{name}");
    }
    for (name, call) in ordered_calls_of_sets() {
        let (mut copy, mut forest) = (set.clone(), sets.clone());
        refused(name, OUT_OF_ORDER, mistake, || call(&mut copy, key, &mut forest, order));
        assert!(!cfg!(any(debug_assertions, feature = "guards")) || set.iter(&forest).eq(set.iter(&sets)), "{name}");
    }
}

/// Under the reversed order a search ends at the end of a leaf, and there two keys decrease.
#[test]
fn calls_under_the_reversed_order() {
    for key in 0..=101 {
        each_out_of_order(key, &Reverse(()), "two keys next to each other do not increase under it");
    }
}

/// The key that stands for one that is not a number.
const NAN: u32 = 1000;

/// The order of the keys, but for that one, of which it says the same beside each key.
struct WithNan(Ordering);

impl Comparator<u32> for WithNan {
    fn cmp(&self, a: u32, b: u32) -> Ordering {
        if a == NAN || b == NAN { self.0 } else { a.cmp(&b) }
    }
}

#[test]
fn calls_with_a_key_that_is_not_a_number() {
    for told in [Ordering::Less, Ordering::Greater, Ordering::Equal] {
        each_out_of_order(NAN, &WithNan(told), "it is no order, as with a NaN");
    }
}

/// The order of the keys until a key is compared with itself, which no search asks, and then the reversed one.
struct Turning(Cell<bool>);

impl Comparator<u32> for Turning {
    fn cmp(&self, a: u32, b: u32) -> Ordering {
        self.0.set(self.0.get() || a == b);
        if self.0.get() { b.cmp(&a) } else { a.cmp(&b) }
    }
}

/// A call that finds its place between two keys, and is then answered otherwise for one of them.
#[test]
fn an_order_that_answers_otherwise_the_second_time() {
    let mut forest = MapForest::new();
    let mut map = Map::new();
    for key in [2, 4, 6, 8, 10] {
        map.insert(key, key, &mut forest, &()).unwrap();
    }
    for (name, call) in ordered_calls_of_maps() {
        for key in [1, 3, 5, 7, 9, 11] {
            let (mut copy, mut forest) = (map.clone(), forest.clone());
            let turning = Turning(Cell::new(false));
            let mistake = "it answers otherwise for the same two keys than in the search before";
            refused(name, OUT_OF_ORDER, mistake, || call(&mut copy, key, &mut forest, &turning));
        }
    }
}

/// A comparator whose search answers places that no node has: each call is made on entries that are in order.
#[test]
fn searches_that_answer_any_place() {
    let (random, misplaced) = (Random(Cell::new(7)), Misplaced(Random(Cell::new(13))));
    let (mut maps, mut sets) = (MapForest::new(), SetForest::new());
    let (map, set) = (hundred(&mut maps), hundred_of_a_set(&mut sets));
    for _ in 0..CALLS {
        let (mut map, mut maps) = (map.clone(), maps.clone());
        survived("a call of a map", || call_map(&mut map, &mut maps, &random, &misplaced));
        assert!(is_map_forest_in_use(&mut maps));
        let (mut set, mut sets) = (set.clone(), sets.clone());
        survived("a call of a set", || call_set(&mut set, &mut sets, &random, &misplaced));
        assert!(is_set_forest_in_use(&mut sets));
    }
}

//! How often calls compare, told by a comparator that counts. With guards those that insert or remove by a key compare a few times more,
//! those that are handed bounds, or a key to split at, search for each once more, and those that change a map or set by the keys of another
//! one compare each key of both with the next.

use bforest::{Comparator, Map, MapForest, Maps, Set, SetForest, Sets};
use std::cell::Cell;
use std::cmp::{Ordering, Reverse};
use std::ops::Bound::{self, Excluded, Included, Unbounded};
use std::ops::RangeBounds;

/// The order of the keys, which counts how often it is asked.
#[derive(Default)]
struct Counting(Cell<u32>);

impl Counting {
    /// How often it was asked since this was asked last.
    fn taken(&self) -> u32 {
        self.0.take()
    }
}

impl Comparator<u32> for Counting {
    fn cmp(&self, a: u32, b: u32) -> Ordering {
        self.0.set(self.0.get() + 1);
        a.cmp(&b)
    }
}

/// How often a build with guards compares a key with itself and with the keys beside its place, where it inserts or removes.
const BESIDE: u32 = if cfg!(any(debug_assertions, feature = "guards")) { 3 } else { 0 };

/// How often a build with guards compares for a bound's key, where one search compares so often: it searches once more, and then as above.
fn beside_bound(search: u32) -> u32 {
    if cfg!(any(debug_assertions, feature = "guards")) { search + BESIDE } else { 0 }
}

/// How often a build with guards compares each key with the next, in maps or sets that have so many entries in all.
fn beside_all(entries: u32) -> u32 {
    if cfg!(any(debug_assertions, feature = "guards")) { entries } else { 0 }
}

/// Two leaves, of 10 to 40 and of 50 to 80.
fn two_leaves(forest: &mut MapForest<u32, u32>) -> Map<u32, u32> {
    let mut map = Map::new();
    for key in (10..=80).step_by(10) {
        map.insert(key, key, forest, &()).unwrap();
    }
    map
}

/// A key that belongs where the cursor stands, or is there, is found by two comparisons.
#[test]
fn insertions_near_a_cursor() {
    let counting = Counting::default();
    let mut forest = MapForest::new();
    let mut map = two_leaves(&mut forest);
    let mut cursor = map.cursor_mut(&mut forest, &counting);
    cursor.goto(45);
    counting.taken();
    assert_eq!(cursor.insert(45, 0), Ok(None));
    assert!(counting.taken() <= 2 + BESIDE);
    assert_eq!(cursor.key(), Some(45));
    assert_eq!(cursor.try_insert(45, 1), Ok(Some(0)));
    assert!(counting.taken() <= 2 + BESIDE);
    assert_eq!(cursor.key(), Some(45));
    cursor.next();
    cursor.prev();
    cursor.goto_first();
    assert_eq!(counting.taken(), 0);
    assert_eq!(cursor.insert(5, 5), Ok(None));
    assert!(counting.taken() <= 2 + BESIDE);
    assert_eq!(cursor.key(), Some(5));
    cursor.goto(85);
    counting.taken();
    assert_eq!(cursor.insert(90, 9), Ok(None));
    assert!(counting.taken() <= 2 + BESIDE);
    assert_eq!(cursor.key(), Some(90));
    cursor.goto_first();
    assert_eq!(cursor.insert(85, 8), Ok(None));
    assert_eq!(cursor.key(), Some(85));
}

/// A key that belongs further on in the leaf where the cursor stands is compared with the entry here and the leaf's last, and then searched
/// for in the leaf alone, whatever the height of the tree.
#[test]
fn insertions_further_on_in_the_leaf() {
    /// Two, and a search among at most 7 keys.
    const IN_LEAF: u32 = 2 + 4 + BESIDE;
    let counting = Counting::default();
    let mut forest = MapForest::new();
    let mut map = Map::new();
    for key in (10..=10_000).step_by(10) {
        map.insert(key, key, &mut forest, &()).unwrap();
    }
    let mut cursor = map.cursor_mut(&mut forest, &counting);
    cursor.goto_first();
    assert_eq!(counting.taken(), 0);
    assert_eq!(cursor.insert(35, 0), Ok(None));
    assert!(counting.taken() <= IN_LEAF);
    assert_eq!(cursor.key(), Some(35));
    cursor.goto_first();
    assert_eq!(cursor.insert(35, 1), Ok(Some(0)));
    assert!(counting.taken() <= IN_LEAF);
    cursor.goto_first();
    assert_eq!(cursor.insert(9_995, 0), Ok(None));
    assert!(counting.taken() > IN_LEAF);
    assert_eq!(cursor.key(), Some(9_995));
}

/// A key that belongs between the leaf where the cursor stands and the next one, or behind the last leaf, is compared with the entry here, the
/// leaf's last and the next leaf's first, where there are such others. The leaves begin with 10 and 50.
#[test]
fn insertions_behind_the_leaf() {
    let counting = Counting::default();
    let mut forest = MapForest::new();
    let map = two_leaves(&mut forest);
    for (place, key, most) in [(40, 45, 2), (20, 45, 3), (80, 90, 1), (60, 90, 2), (40, 55, 2 + 1 + 3), (10, 55, 3 + 1 + 3)] {
        let (mut map, mut forest) = (map.clone(), forest.clone());
        let mut cursor = map.cursor_mut(&mut forest, &counting);
        cursor.goto(place);
        counting.taken();
        assert_eq!(cursor.insert(key, key), Ok(None));
        assert!(counting.taken() <= most + BESIDE, "{key} from {place}");
        assert_eq!(cursor.key(), Some(key));
        let others = [10, 20, 30, 40, 50, 60, 70, 80].into_iter();
        assert!(map.iter(&forest).map(|entry| entry.0).filter(|&it| it != key).eq(others));
        assert!(map.increases(&forest, &()));
    }
}

/// The same of a set, whose leaf of 16 keys became one of 10 to 80 and one of 90 to 160.
#[test]
fn insertions_near_a_cursor_of_a_set() {
    let counting = Counting::default();
    let mut forest = SetForest::new();
    let mut set = Set::new();
    for key in (10..=160).step_by(10) {
        set.insert(key, &mut forest, &()).unwrap();
    }
    let mut cursor = set.cursor(&mut forest, &counting);
    for (place, key, is_new) in [(85, 85, true), (85, 85, false), (0, 5, true), (165, 165, true)] {
        cursor.goto(place);
        counting.taken();
        assert_eq!(if is_new { cursor.insert(key) } else { cursor.try_insert(key) }, Ok(is_new));
        assert!(counting.taken() <= 2 + BESIDE, "{key}");
        assert_eq!(cursor.elem(), Some(key));
    }
}

/// Steps of a range compare nothing, from both ends in turn.
#[test]
fn steps_of_a_range() {
    let counting = Counting::default();
    let mut forest = MapForest::new();
    let mut map = Map::new();
    let mut set_forest = SetForest::new();
    let mut set = Set::new();
    for key in 1..=36 {
        map.insert(key, key, &mut forest, &()).unwrap();
        set.insert(key, &mut set_forest, &()).unwrap();
    }
    let mut range = map.range(.., &forest, &counting);
    let mut keys = set.range(.., &set_forest, &counting);
    counting.taken();
    for step in 1..=18 {
        assert_eq!((range.next(), keys.next()), (Some((step, step)), Some(step)));
        let last = 37 - step;
        assert_eq!((range.next_back(), keys.next_back()), (Some((last, last)), Some(last)));
    }
    for _ in 0..2 {
        assert_eq!((range.next(), range.next_back()), (None, None));
        assert_eq!((keys.next(), keys.next_back()), (None, None));
    }
    assert_eq!(counting.taken(), 0);
}

/// Going from entry to entry, telling one and taking one out compare nothing.
#[test]
fn steps_of_cursors() {
    let counting = Counting::default();
    let mut forest = MapForest::new();
    let mut map = Map::new();
    for key in 1..=36 {
        map.insert(key, key, &mut forest, &()).unwrap();
    }
    let mut reading = map.cursor(&forest, &counting);
    reading.goto_first();
    while reading.next().is_some() {}
    while reading.prev().is_some() {}
    reading.goto_end();
    assert_eq!(reading.prev(), Some((36, 36)));
    assert_eq!((reading.key(), reading.value(), reading.is_empty()), (Some(36), Some(36), false));
    assert_eq!(reading.entry(), Some((36, 36)));
    let mut writing = map.cursor_mut(&mut forest, &counting);
    writing.goto_first();
    assert_eq!((writing.entry(), writing.value(), writing.is_empty()), (Some((1, 1)), Some(1), false));
    while writing.next().is_some() {
        *writing.value_mut().unwrap() += 1;
        writing.remove();
    }
    assert_eq!(counting.taken(), 0);
    assert!(map.iter(&forest).map(|entry| entry.0).eq((1..=36).step_by(2)));
}

#[test]
fn steps_of_a_cursor_of_a_set() {
    let counting = Counting::default();
    let mut forest = SetForest::new();
    let mut set = even_set(36, &mut forest);
    let mut cursor = set.cursor(&mut forest, &counting);
    assert_eq!((cursor.goto_first(), cursor.is_empty()), (Some(2), false));
    while cursor.next().is_some() {
        cursor.remove();
    }
    assert_eq!((cursor.elem(), cursor.prev()), (None, Some(70)));
    while cursor.prev().is_some() {}
    assert_eq!((cursor.elem(), counting.taken()), (Some(2), 0));
}

// Calls that search once.

/// How often a search compares at most, on its way through nodes of so many keys. Each comparison leaves half of a node's keys, rounded
/// up, and the key that is left is compared too: with 7 keys that is 7, 4, 2 and 1, so four comparisons, and with 15 keys five.
fn of_search(way: &[u32]) -> u32 {
    way.iter().map(|&keys| if keys == 0 { 0 } else { keys.next_power_of_two().ilog2() + 1 }).sum()
}

/// A call on a handle in a forest, which searches for a key once.
type Search<H, F> = fn(&mut H, u32, &mut F, &Counting);

type MapSearch = Search<Map<u32, u32>, MapForest<u32, u32>>;
type SetSearch = Search<Set<u32>, SetForest<u32>>;

const OF_MAPS: [(&str, MapSearch); 14] = [
    ("get", |map, key, forest, comp| _ = map.get(key, forest, comp)),
    ("update", |map, key, forest, comp| _ = map.update(key, |value| value, forest, comp)),
    ("get_mut", |map, key, forest: &mut MapForest<u32, u32>, comp| _ = forest.get_mut(map, key, comp)),
    ("get_or_less", |map, key, forest, comp| _ = map.get_or_less(key, forest, comp)),
    ("get_or_greater", |map, key, forest, comp| _ = map.get_or_greater(key, forest, comp)),
    ("get_or_insert", |map, key, forest, comp| _ = map.get_or_insert(key, 0, forest, comp).unwrap()),
    ("update_or_insert", |map, key, forest, comp| _ = map.update_or_insert(key, 0, |value| value, forest, comp).unwrap()),
    ("insert", |map, key, forest, comp| _ = map.insert(key, 0, forest, comp).unwrap()),
    ("try_insert", |map, key, forest, comp| _ = map.try_insert(key, 0, forest, comp).unwrap()),
    ("remove", |map, key, forest, comp| _ = map.remove(key, forest, comp)),
    ("shift", |map, key, forest, comp| map.shift(key, |it| it + 1, forest, comp)),
    ("goto of a reading cursor", |map, key, forest, comp| _ = map.cursor(forest, comp).goto(key)),
    ("goto of a writing cursor", |map, key, forest, comp| _ = map.cursor_mut(forest, comp).goto(key)),
    ("goto and remove", |map, key, forest, comp| {
        let mut cursor = map.cursor_mut(forest, comp);
        cursor.goto(key);
        cursor.remove();
    }),
];

const OF_SETS: [(&str, SetSearch); 9] = [
    ("contains", |set, key, forest, comp| _ = set.contains(key, forest, comp)),
    ("get_or_less", |set, key, forest, comp| _ = set.get_or_less(key, forest, comp)),
    ("get_or_greater", |set, key, forest, comp| _ = set.get_or_greater(key, forest, comp)),
    ("insert", |set, key, forest, comp| _ = set.insert(key, forest, comp).unwrap()),
    ("try_insert", |set, key, forest, comp| _ = set.try_insert(key, forest, comp).unwrap()),
    ("remove", |set, key, forest, comp| _ = set.remove(key, forest, comp)),
    ("shift", |set, key, forest, comp| set.shift(key, |it| it + 1, forest, comp)),
    ("goto", |set, key, forest, comp| _ = set.cursor(forest, comp).goto(key)),
    ("goto and remove", |set, key, forest, comp| {
        let mut cursor = set.cursor(forest, comp);
        cursor.goto(key);
        cursor.remove();
    }),
];

/// The calls that insert or remove by a key.
const CHANGING: [&str; 5] = ["get_or_insert", "update_or_insert", "insert", "try_insert", "remove"];

/// How often a call compares at most, where one search compares so often.
fn most_of(name: &str, search: u32) -> u32 {
    search + if CHANGING.contains(&name) { BESIDE } else { 0 }
}

/// Makes each call of the table with the key, each in a forest as it was, and none compares more often than one search.
fn each_search<H: Clone, F: Clone>(calls: &[(&str, Search<H, F>)], handle: &H, key: u32, forest: &F, search: u32) {
    for (name, call) in calls {
        let counting = Counting::default();
        call(&mut handle.clone(), key, &mut forest.clone(), &counting);
        let (taken, most) = (counting.taken(), most_of(name, search));
        assert!(taken <= most, "{name} of {key} compares {taken} times, more than {most}");
    }
}

/// A map of so many even keys from 2 on, put in from the least up.
fn even_map(count: u32, forest: &mut MapForest<u32, u32>) -> Map<u32, u32> {
    let mut map = Map::new();
    for key in 1..=count {
        map.insert(2 * key, key, forest, &()).unwrap();
    }
    map
}

fn even_set(count: u32, forest: &mut SetForest<u32>) -> Set<u32> {
    let mut set = Set::new();
    for key in 1..=count {
        set.insert(2 * key, forest, &()).unwrap();
    }
    set
}

/// A leaf is searched once by each call, whether the key is there or not. In an empty map or set there is nothing to compare with.
#[test]
fn searches_of_one_leaf() {
    for count in [0, 1, 2, 3, 4, 7] {
        let mut forest = MapForest::new();
        let map = even_map(count, &mut forest);
        for key in 0..=2 * count + 1 {
            each_search(&OF_MAPS, &map, key, &forest, of_search(&[count]));
        }
    }
    for count in [0, 1, 2, 3, 4, 8, 15] {
        let mut forest = SetForest::new();
        let set = even_set(count, &mut forest);
        for key in 0..=2 * count + 1 {
            each_search(&OF_SETS, &set, key, &forest, of_search(&[count]));
        }
    }
}

/// How often a search compares at most in a map of 35 even keys. They lie below 7 separators, in seven leaves of 4 keys and a last one of
/// 7, which begins with 58.
fn of_search_in_35(key: u32) -> u32 {
    of_search(if key < 58 { &[7, 4] } else { &[7, 7] })
}

/// How often a search compares at most in a set of 71 even keys. They lie below 7 separators, in seven leaves of 8 keys and a last one of
/// 15, which begins with 114.
fn of_search_in_71(key: u32) -> u32 {
    of_search(if key < 114 { &[7, 8] } else { &[7, 15] })
}

/// Each node on the way is searched once, also where the insertion then halves a leaf and the root.
#[test]
fn searches_below_a_full_root() {
    assert_eq!((of_search_in_35(57), of_search_in_35(58)), (7, 8));
    let mut forest = MapForest::new();
    let map = even_map(35, &mut forest);
    for key in 0..=71 {
        each_search(&OF_MAPS, &map, key, &forest, of_search_in_35(key));
    }
    assert_eq!((of_search_in_71(113), of_search_in_71(114)), (8, 9));
    let mut forest = SetForest::new();
    let set = even_set(71, &mut forest);
    for key in 0..=143 {
        each_search(&OF_SETS, &set, key, &forest, of_search_in_71(key));
    }
}

/// One more key halves the last leaf and the root: one separator, then 3 or 4 of them, and leaves of 4 keys in a map or 8 in a set.
#[test]
fn searches_of_three_levels() {
    let mut forest = MapForest::new();
    let map = even_map(36, &mut forest);
    assert_eq!(map.levels(&forest), 3);
    for key in 0..=73 {
        each_search(&OF_MAPS, &map, key, &forest, 1 + 3 + 3);
    }
    let mut forest = SetForest::new();
    let set = even_set(72, &mut forest);
    assert_eq!(set.levels(&forest), 3);
    for key in 0..=145 {
        each_search(&OF_SETS, &set, key, &forest, 1 + 3 + 4);
    }
}

/// A key that does not belong where the cursor stands takes one search more than one that does.
#[test]
fn insertions_far_from_a_cursor() {
    let mut forest = MapForest::new();
    let mut map = even_map(35, &mut forest);
    let mut set_forest = SetForest::new();
    let mut set = even_set(71, &mut set_forest);
    let counting = Counting::default();
    for (place, key) in [(2, 70), (70, 2), (34, 2), (34, 70), (100, 2)] {
        let mut cursor = map.cursor_mut(&mut forest, &counting);
        cursor.goto(place);
        counting.taken();
        assert_eq!(cursor.insert(key, key / 2), Ok(Some(key / 2)));
        assert!(counting.taken() <= 3 + BESIDE + of_search_in_35(key), "{key} from {place}");
        let mut cursor = set.cursor(&mut set_forest, &counting);
        cursor.goto(place);
        counting.taken();
        assert_eq!(cursor.insert(key), Ok(false));
        assert!(counting.taken() <= 3 + BESIDE + of_search_in_71(key), "{key} from {place}");
    }
}

// Two whole maps or sets.

/// A call on two handles in a forest, by its name, with how often it compares at most for each entry of either.
type OfTwo<H, F> = (&'static str, u32, fn(&mut H, &H, &mut F, &Counting));

const OF_TWO_MAPS: [OfTwo<Map<u32, u32>, MapForest<u32, u32>>; 5] = [
    ("is_subset", 1, |map, other, forest, comp| _ = map.is_subset(other, forest, comp)),
    ("is_disjoint", 1, |map, other, forest, comp| _ = map.is_disjoint(other, forest, comp)),
    ("union_with", 2, |map, other, forest, comp| _ = map.union_with(other, forest, comp).unwrap()),
    ("intersect_with", 1, |map, other, forest, comp| _ = map.intersect_with(other, forest, comp)),
    ("difference_with", 1, |map, other, forest, comp| _ = map.difference_with(other, forest, comp)),
];

const OF_TWO_SETS: [OfTwo<Set<u32>, SetForest<u32>>; 9] = [
    ("is_subset", 1, |set, other, forest, comp| _ = set.is_subset(other, forest, comp)),
    ("is_disjoint", 1, |set, other, forest, comp| _ = set.is_disjoint(other, forest, comp)),
    ("union_with", 2, |set, other, forest, comp| _ = set.union_with(other, forest, comp).unwrap()),
    ("intersect_with", 1, |set, other, forest, comp| _ = set.intersect_with(other, forest, comp)),
    ("difference_with", 1, |set, other, forest, comp| _ = set.difference_with(other, forest, comp)),
    ("union", 1, |set, other, forest, comp| _ = set.union(other, forest, comp).count()),
    ("intersection", 1, |set, other, forest, comp| _ = set.intersection(other, forest, comp).count()),
    ("difference", 1, |set, other, forest, comp| _ = set.difference(other, forest, comp).count()),
    ("symmetric_difference", 1, |set, other, forest, comp| _ = set.symmetric_difference(other, forest, comp).count()),
];

/// Makes each call of the table on two handles of so many entries in all, each in a forest as it was. An empty one has nothing to compare.
fn each_of_two<H: Clone, F: Clone>(calls: &[OfTwo<H, F>], (one, two): (&H, &H), (least, all): (u32, u32), forest: &F) {
    for (name, most, call) in calls {
        let counting = Counting::default();
        call(&mut one.clone(), two, &mut forest.clone(), &counting);
        let (taken, most) = (counting.taken(), if least == 0 { 0 } else { most * all } + if name.ends_with("_with") { beside_all(all) } else { 0 });
        assert!(taken <= most, "{name} of {all} entries compares {taken} times, more than {most}");
    }
}

#[test]
fn each_entry_of_two_maps_or_sets() {
    let (mut forest, mut set_forest) = (MapForest::new(), SetForest::new());
    for (mine, theirs) in [(0, 9), (9, 0), (1, 1), (9, 9), (7, 36), (36, 7), (100, 71)] {
        let counts = (mine.min(theirs), mine + theirs);
        let [map, other] = [mine, theirs].map(|count| even_map(count, &mut forest));
        each_of_two(&OF_TWO_MAPS, (&map, &other), counts, &forest);
        let [set, other] = [mine, theirs].map(|count| even_set(count, &mut set_forest));
        each_of_two(&OF_TWO_SETS, (&set, &other), counts, &set_forest);
        // All keys of the other one are new.
        let (mut later_map, mut later_set) = (Map::new(), Set::new());
        for key in 1..=theirs {
            later_map.insert(2 * key + 1, key, &mut forest, &()).unwrap();
            later_set.insert(2 * key + 1, &mut set_forest, &()).unwrap();
        }
        each_of_two(&OF_TWO_MAPS, (&map, &later_map), counts, &forest);
        each_of_two(&OF_TWO_SETS, (&set, &later_set), counts, &set_forest);
    }
}

/// A shift asks once for each key from the first on, in order.
#[test]
fn keys_that_are_shifted() {
    let (mut forest, mut set_forest) = (MapForest::new(), SetForest::new());
    for count in [0, 1, 7, 8, 36, 100] {
        for from in [0, 1, count, 2 * count, 2 * count + 1] {
            let (mut map, mut set) = (even_map(count, &mut forest), even_set(count, &mut set_forest));
            let asked: Vec<u32> = (1..=count).map(|it| 2 * it).filter(|it| *it >= from).collect();
            let (seen, seen_of_set) = (Cell::new(Vec::new()), Cell::new(Vec::new()));
            map.shift(from, |key| noted(&seen, key), &mut forest, &());
            set.shift(from, |key| noted(&seen_of_set, key), &mut set_forest, &());
            assert_eq!((seen.take(), seen_of_set.take()), (asked.clone(), asked));
        }
    }
}

/// Notes a key, and answers the next one.
fn noted(seen: &Cell<Vec<u32>>, key: u32) -> u32 {
    let mut keys = seen.take();
    keys.push(key);
    seen.set(keys);
    key + 1
}

// Maps and sets that are named by an index.

type Indexed<'a> = Maps<u32, u32, &'a Counting>;
type IndexedSets<'a> = Sets<u32, &'a Counting>;

/// A call by the index 1, which searches for a key once.
type IndexedCall<T> = fn(&mut T, u32);

fn of_indexed_maps<'a>() -> [(&'static str, IndexedCall<Indexed<'a>>); 14] {
    [
        ("get", |maps, key| _ = maps.get(1, key)),
        ("contains_key", |maps, key| _ = maps.contains_key(1, key)),
        ("get_or_less", |maps, key| _ = maps.get_or_less(1, key)),
        ("get_or_greater", |maps, key| _ = maps.get_or_greater(1, key)),
        ("get_or_insert", |maps, key| _ = maps.get_or_insert(1, key, 0).unwrap()),
        ("update", |maps, key| _ = maps.update(1, key, |value| value)),
        ("get_mut", |maps, key| _ = maps.get_mut(1, key)),
        ("update_or_insert", |maps, key| _ = maps.update_or_insert(1, key, 0, |value| value).unwrap()),
        ("insert", |maps, key| _ = maps.insert(1, key, 0).unwrap()),
        ("try_insert", |maps, key| _ = maps.try_insert(1, key, 0).unwrap()),
        ("remove", |maps, key| _ = maps.remove(1, key)),
        ("goto of a reading cursor", |maps, key| _ = maps.cursor(1).goto(key)),
        ("goto of a writing cursor", |maps, key| _ = maps.cursor_mut(1).goto(key)),
        ("goto and remove", |maps, key| {
            let mut cursor = maps.cursor_mut(1);
            cursor.goto(key);
            cursor.remove();
        }),
    ]
}

fn of_indexed_sets<'a>() -> [(&'static str, IndexedCall<IndexedSets<'a>>); 8] {
    [
        ("contains", |sets, key| _ = sets.contains(1, key)),
        ("get_or_less", |sets, key| _ = sets.get_or_less(1, key)),
        ("get_or_greater", |sets, key| _ = sets.get_or_greater(1, key)),
        ("insert", |sets, key| _ = sets.insert(1, key).unwrap()),
        ("try_insert", |sets, key| _ = sets.try_insert(1, key).unwrap()),
        ("remove", |sets, key| _ = sets.remove(1, key)),
        ("goto", |sets, key| _ = sets.cursor(1).goto(key)),
        ("goto and remove", |sets, key| {
            let mut cursor = sets.cursor(1);
            cursor.goto(key);
            cursor.remove();
        }),
    ]
}

/// Three maps, of which the one in the middle has so many even keys from 2 on.
fn even_maps(count: u32, order: &Counting) -> Indexed<'_> {
    let mut maps = Maps::new(order);
    maps.grow_to(3).unwrap();
    for key in 1..=count {
        maps.insert(1, 2 * key, key).unwrap();
    }
    maps
}

fn even_sets(count: u32, order: &Counting) -> IndexedSets<'_> {
    let mut sets = Sets::new(order);
    sets.grow_to(3).unwrap();
    for key in 1..=count {
        sets.insert(1, 2 * key).unwrap();
    }
    sets
}

/// Makes each call of the table with the keys up to `last`, each on the maps or sets as they were, and none compares more often than one
/// search.
fn each_indexed<T: Clone>(calls: &[(&str, IndexedCall<T>)], all: &T, last: u32, order: &Counting, search: impl Fn(u32) -> u32) {
    for (name, call) in calls {
        for key in 0..=last {
            let mut all = all.clone();
            order.taken();
            call(&mut all, key);
            let (taken, most) = (order.taken(), most_of(name, search(key)));
            assert!(taken <= most, "{name} of {key} compares {taken} times, more than {most}");
        }
    }
}

/// A call by an index compares as often as that of its name on a handle: the index costs no comparison.
#[test]
fn searches_by_an_index() {
    let order = Counting::default();
    let (of_maps, of_sets) = (of_indexed_maps(), of_indexed_sets());
    for count in [0, 1, 7] {
        each_indexed(&of_maps, &even_maps(count, &order), 2 * count + 1, &order, |_| of_search(&[count]));
    }
    each_indexed(&of_maps, &even_maps(35, &order), 71, &order, of_search_in_35);
    each_indexed(&of_maps, &even_maps(36, &order), 73, &order, |_| 1 + 3 + 3);
    for count in [0, 1, 15] {
        each_indexed(&of_sets, &even_sets(count, &order), 2 * count + 1, &order, |_| of_search(&[count]));
    }
    each_indexed(&of_sets, &even_sets(71, &order), 143, &order, of_search_in_71);
    each_indexed(&of_sets, &even_sets(72, &order), 145, &order, |_| 1 + 3 + 4);
}

/// What goes by the place of an entry or by an index alone compares nothing.
#[test]
fn calls_by_an_index_that_compare_nothing() {
    let order = Counting::default();
    let (mut maps, mut sets) = (even_maps(36, &order), even_sets(72, &order));
    order.taken();
    assert_eq!((maps.first(1), maps.last(1)), (Some((2, 1)), Some((72, 36))));
    assert_eq!((sets.first(1), sets.last(1)), (Some(2), Some(144)));
    assert_eq!((maps.levels(1), sets.levels(1), maps.iter(1).count(), sets.iter(1).count()), (3, 3, 36, 72));
    assert_eq!((maps.iter_back(1).count(), sets.iter_back(1).count()), (36, 72));
    assert_eq!((maps.pop_first(1), maps.pop_last(1)), (Some((2, 1)), Some((72, 36))));
    assert_eq!((sets.pop_first(1), sets.pop_last(1)), (Some(2), Some(144)));
    maps.retain(1, |key, _| key % 4 == 0);
    sets.retain(1, |key| key % 4 == 0);
    maps.swap(0, 1);
    sets.swap(0, 1);
    assert_eq!((maps.cursor(0).goto_first(), sets.cursor(0).goto_first()), (Some(2), Some(4)));
    maps.push().unwrap();
    sets.push().unwrap();
    maps.reserve_for(4, 100).unwrap();
    sets.reserve_for(4, 100).unwrap();
    assert_eq!((maps.copy(0, 3), sets.copy(0, 3)), (Ok(()), Ok(())));
    assert_eq!((maps.len_of(3), sets.len_of(3), maps.len(), sets.len()), (maps.len_of(0), sets.len_of(0), 4, 4));
    assert_eq!((maps.reserve_nodes(5), sets.reserve_nodes(5)), (Ok(()), Ok(())));
    assert_eq!((maps.compact(3), sets.compact(3)), (Ok(()), Ok(())));
    assert!(maps.remove_range(3, ..) && sets.remove_range(3, ..));
    assert!(maps.free_slots() < maps.slots() && sets.free_slots() < sets.slots());
    assert_eq!((maps.node_limit(), sets.node_limit()), (u32::MAX, u32::MAX));
    maps.clear(0);
    sets.clear(0);
    assert!(maps.nodes_in_use() < maps.slots() && sets.nodes_in_use() < sets.slots());
    assert!(maps.pop() && sets.pop());
    maps.truncate(1);
    sets.truncate(1);
    maps.clear_all();
    sets.clear_all();
    let (maps, sets): (Indexed, IndexedSets) = (Maps::with_node_limit(&order, 9), Sets::with_node_limit(&order, 9));
    assert!(maps.is_empty() && sets.is_empty());
    let (maps, sets): (Indexed, IndexedSets) = (Maps::typed(&order), Sets::typed(&order));
    assert!(maps.is_empty() && sets.is_empty());
    let (maps, sets): (Indexed, IndexedSets) = (Maps::typed_with_node_limit(&order, 9), Sets::typed_with_node_limit(&order, 9));
    assert!(maps.is_empty() && sets.is_empty());
    assert_eq!(order.taken(), 0);
}

/// A call by two indices compares as often as that of its name on two handles, and a load each key with the next.
#[test]
fn calls_on_whole_maps_and_sets_by_an_index() {
    let order = Counting::default();
    for count in [1, 9, 100] {
        let (mut maps, mut sets) = (even_maps(count, &order), even_sets(count, &order));
        let entries: Vec<(u32, u32)> = (1..=count).map(|key| (3 * key, key)).collect();
        let keys: Vec<u32> = entries.iter().map(|it| it.0).collect();
        let within = |most| assert!(order.taken() <= most, "{count} entries, and {most} comparisons at most");
        order.taken();
        maps.load(0, &entries).unwrap();
        within(count - 1);
        sets.load(0, &keys).unwrap();
        within(count - 1);
        _ = (maps.is_subset(1, 0), sets.is_subset(1, 0));
        within(4 * count);
        _ = (maps.is_disjoint(1, 0), sets.is_disjoint(1, 0));
        within(4 * count);
        _ = sets.union(1, 0).count();
        within(2 * count);
        _ = (sets.intersection(1, 0).count(), sets.difference(1, 0).count());
        within(4 * count);
        _ = sets.symmetric_difference(1, 0).count();
        within(2 * count);
        assert_eq!((maps.copy(1, 2), sets.copy(1, 2)), (Ok(()), Ok(())));
        within(0);
        assert_eq!((maps.union_with(2, 0), sets.union_with(2, 0)), (Ok(true), Ok(true)));
        within(8 * count + beside_all(4 * count));
        assert!(!maps.intersect_with(2, 2) && !sets.intersect_with(2, 2));
        within(beside_all(8 * count));
        assert!(maps.intersect_with(2, 0) && sets.intersect_with(2, 0));
        within(6 * count + beside_all(6 * count));
        // A search here, one there, and one to remove it; where it is not here, one search.
        let searches = |times: u32| times * (count.ilog2() + 4) * 2;
        assert_eq!((maps.move_entry(0, 1, 2), sets.move_key(0, 1, 2)), (Ok(false), Ok(false)));
        within(searches(2));
        assert_eq!((maps.move_entry(0, 3, 2), sets.move_key(0, 3, 2)), (Ok(true), Ok(true)));
        within(searches(6));
        assert_eq!((maps.move_entry(2, 3, 0), sets.move_key(2, 3, 0)), (Ok(true), Ok(true)));
        within(searches(6));
        // 6 is in both.
        assert_eq!((maps.difference_with(2, 1), sets.difference_with(2, 1)), (count > 1, count > 1));
        within(4 * count + beside_all(4 * count));
    }
}

// Ranges, and the test of an order.

type Bounds = (Bound<u32>, Bound<u32>);

/// The ranges that have this key as one bound, and no other bound.
fn with_one_bound(key: u32) -> [Bounds; 4] {
    let bounds = [Included(key), Excluded(key)];
    [(bounds[0], Unbounded), (bounds[1], Unbounded), (Unbounded, bounds[0]), (Unbounded, bounds[1])]
}

/// The ranges from one key to another, each of which is included or excluded.
fn with_two_bounds(start: u32, end: u32) -> [Bounds; 4] {
    let (starts, ends) = ([Included(start), Excluded(start)], [Included(end), Excluded(end)]);
    [(starts[0], ends[0]), (starts[0], ends[1]), (starts[1], ends[0]), (starts[1], ends[1])]
}

/// Makes ranges whose bounds are keys up to `last`; `taken` makes one, and returns how often it compared: in one search for each bound,
/// and in one comparison more.
fn each_range(last: u32, search: impl Fn(u32) -> u32, taken: impl Fn(Bounds) -> u32) {
    assert!(taken((Unbounded, Unbounded)) <= 1);
    for start in 0..=last {
        for bounds in with_one_bound(start) {
            assert!(taken(bounds) <= search(start) + 1, "{bounds:?}");
        }
        for end in 0..=last {
            for bounds in with_two_bounds(start, end) {
                assert!(taken(bounds) <= search(start) + search(end) + 1, "{bounds:?}");
            }
        }
    }
}

#[test]
fn ranges_of_one_leaf() {
    let counting = Counting::default();
    let mut forest = MapForest::new();
    let mut set_forest = SetForest::new();
    for count in [0, 1, 7] {
        let map = even_map(count, &mut forest);
        let set = even_set(count, &mut set_forest);
        let search = |_| of_search(&[count]);
        each_range(2 * count + 1, search, |bounds| {
            _ = map.range(bounds, &forest, &counting);
            counting.taken()
        });
        each_range(2 * count + 1, search, |bounds| {
            _ = set.range(bounds, &set_forest, &counting);
            counting.taken()
        });
    }
}

#[test]
fn ranges_below_a_full_root() {
    let counting = Counting::default();
    let mut forest = MapForest::new();
    let map = even_map(35, &mut forest);
    each_range(71, of_search_in_35, |bounds| {
        _ = map.range(bounds, &forest, &counting);
        counting.taken()
    });
    let mut forest = SetForest::new();
    let set = even_set(71, &mut forest);
    each_range(143, of_search_in_71, |bounds| {
        _ = set.range(bounds, &forest, &counting);
        counting.taken()
    });
}

/// How many even keys from 2 on, up to `last`, are within bounds.
fn evens_within(bounds: Bounds, last: u32) -> u32 {
    (2..=last).step_by(2).filter(|key| bounds.contains(key)).count() as u32
}

/// Removes ranges whose bounds are keys up to `last`; `taken` removes one, and returns how often it compared: in one search, if there is a
/// bound, and between two bounds once for each entry that goes, at most, and twice more. Debug builds compare beside each bound too.
fn each_removal(last: u32, search: impl Fn(u32) -> u32, taken: impl Fn(Bounds) -> u32) {
    assert_eq!(taken((Unbounded, Unbounded)), 0);
    let of = |bound: Bound<u32>, cost: &dyn Fn(u32) -> u32| match bound {
        Included(key) | Excluded(key) => cost(key),
        Unbounded => 0,
    };
    let within = |bounds: Bounds| {
        let beside = |key| beside_bound(search(key));
        let found = match bounds {
            (start, Unbounded) => of(start, &search),
            (Unbounded, end) => of(end, &search),
            (start, _) => of(start, &search) + evens_within(bounds, last) + 2,
        };
        found + of(bounds.0, &beside) + of(bounds.1, &beside)
    };
    for start in 0..=last {
        for bounds in with_one_bound(start) {
            assert!(taken(bounds) <= within(bounds), "{bounds:?}");
        }
        for end in 0..=last {
            for bounds in with_two_bounds(start, end) {
                assert!(taken(bounds) <= within(bounds), "{bounds:?}");
            }
        }
    }
}

#[test]
fn removals_of_ranges() {
    let counting = Counting::default();
    let mut forest = MapForest::new();
    for count in [0, 1, 7, 35] {
        let map = even_map(count, &mut forest);
        let search = |key| if count == 35 { of_search_in_35(key) } else { of_search(&[count]) };
        each_removal(2 * count + 1, search, |bounds| {
            map.clone().remove_range(bounds, &mut forest.clone(), &counting);
            counting.taken()
        });
    }
    let mut forest = SetForest::new();
    for count in [0, 1, 15] {
        let set = even_set(count, &mut forest);
        each_removal(2 * count + 1, |_| of_search(&[count]), |bounds| {
            set.clone().remove_range(bounds, &mut forest.clone(), &counting);
            counting.taken()
        });
    }
}

#[test]
fn removals_of_ranges_by_an_index() {
    let order = Counting::default();
    let (maps, sets) = (even_maps(7, &order), even_sets(15, &order));
    each_removal(15, |_| of_search(&[7]), |bounds| {
        let mut maps = maps.clone();
        order.taken();
        maps.remove_range(1, bounds);
        order.taken()
    });
    each_removal(31, |_| of_search(&[15]), |bounds| {
        let mut sets = sets.clone();
        order.taken();
        sets.remove_range(1, bounds);
        order.taken()
    });
}

/// A split searches once. Debug builds search once more.
fn of_split(search: u32) -> u32 {
    search + beside_bound(search)
}

#[test]
fn splits() {
    let counting = Counting::default();
    let (mut maps, mut sets) = (MapForest::new(), SetForest::new());
    let (map, set) = (even_map(35, &mut maps), even_set(71, &mut sets));
    for key in 0..=143 {
        _ = map.clone().split_off(key, &mut maps.clone(), &counting).unwrap();
        assert!(counting.taken() <= of_split(of_search_in_35(key)), "{key}");
        _ = set.clone().split_off(key, &mut sets.clone(), &counting).unwrap();
        assert!(counting.taken() <= of_split(of_search_in_71(key)), "{key}");
    }
    _ = Map::new().split_off(0, &mut maps, &counting).unwrap();
    _ = Set::new().split_off(0, &mut sets, &counting).unwrap();
    assert_eq!(counting.taken(), 0);
}

#[test]
fn splits_by_an_index() {
    let order = Counting::default();
    for key in 0..=143 {
        let (mut maps, mut sets) = (even_maps(35, &order), even_sets(71, &order));
        order.taken();
        maps.split_off(1, key, 0).unwrap();
        assert!(order.taken() <= of_split(of_search_in_35(key)), "{key}");
        sets.split_off(1, key, 0).unwrap();
        assert!(order.taken() <= of_split(of_search_in_71(key)), "{key}");
    }
}

/// A range by an index makes as many searches as one of a handle.
#[test]
fn ranges_by_an_index() {
    let order = Counting::default();
    let (maps, sets) = (even_maps(35, &order), even_sets(71, &order));
    each_range(71, of_search_in_35, |bounds| {
        order.taken();
        _ = maps.range(1, bounds);
        order.taken()
    });
    each_range(143, of_search_in_71, |bounds| {
        order.taken();
        _ = sets.range(1, bounds);
        order.taken()
    });
}

/// A test of an order compares each two neighbours once.
#[test]
fn tests_of_an_order() {
    let counting = Counting::default();
    let mut forest = MapForest::new();
    let mut set_forest = SetForest::new();
    for count in [0, 1, 2, 7, 36, 100] {
        assert!(even_map(count, &mut forest).increases(&forest, &counting));
        assert_eq!(counting.taken(), count.saturating_sub(1));
        assert!(even_set(count, &mut set_forest).increases(&set_forest, &counting));
        assert_eq!(counting.taken(), count.saturating_sub(1));
    }
}

/// An order that does not fit is told by no more comparisons than one that fits.
#[test]
fn tests_of_an_order_that_does_not_fit() {
    let counting = Counting::default();
    let mut forest = MapForest::new();
    let mut map = Map::new();
    let mut set_forest = SetForest::new();
    let mut set = Set::new();
    for key in 1..=36 {
        map.insert(key, key, &mut forest, &Reverse(())).unwrap();
        set.insert(key, &mut set_forest, &Reverse(())).unwrap();
    }
    assert!(!map.increases(&forest, &counting));
    assert!((1..=35).contains(&counting.taken()));
    assert!(!set.increases(&set_forest, &counting));
    assert!((1..=35).contains(&counting.taken()));
}

//! Short runs whose answers are worked out by hand from the rules of the trees: a leaf of a map has at most 7 entries, one of a set at
//! most 15, and an inner node at most 8 children. Each run is made twice, with the package's own search in a node and with a scan from
//! the front.

use bforest::{Comparator, Map, MapForest, OutOfMemory, Set, SetForest};
use std::cmp::{Ordering, Reverse};
use std::ops::Bound::{Excluded, Included, Unbounded};

// The orders.

/// An order whose search looks at the keys of a node one by one, from the front.
struct FromFront<C>(C);

impl<C: Comparator<u32>> Comparator<u32> for FromFront<C> {
    fn cmp(&self, a: u32, b: u32) -> Ordering {
        self.0.cmp(a, b)
    }

    fn search(&self, k: u32, s: &[u32]) -> Result<usize, usize> {
        for (at, &key) in s.iter().enumerate() {
            match self.cmp(key, k) {
                Ordering::Less => {}
                Ordering::Equal => return Ok(at),
                Ordering::Greater => return Err(at),
            }
        }
        Err(s.len())
    }
}

/// Keys that differ in their last digit alone are equal.
struct Tens;

impl Comparator<u32> for Tens {
    fn cmp(&self, a: u32, b: u32) -> Ordering {
        (a / 10).cmp(&(b / 10))
    }
}

// Maps and sets.

type Numbers = Map<u32, u32>;
type Forest = MapForest<u32, u32>;

/// `insert` or `try_insert` of a map.
type MapInsert<C> = fn(&mut Numbers, u32, u32, &mut Forest, &C) -> Result<Option<u32>, OutOfMemory>;

/// How many levels a map has, and how many slots its forest has in all and free.
#[derive(Debug, PartialEq, Eq)]
struct Sizes {
    levels: usize,
    slots: u32,
    free: u32,
}

fn sizes(map: &Numbers, forest: &Forest) -> Sizes {
    Sizes { levels: map.levels(forest), slots: forest.slots(), free: forest.free_slots() }
}

/// Entries with these keys, each with ten times its key as its value.
fn tenfold(keys: impl IntoIterator<Item = u32>) -> Vec<(u32, u32)> {
    keys.into_iter().map(|key| (key, 10 * key)).collect()
}

/// A map of the keys with ten times each as its value, put in one after another.
fn filled_by<C: Comparator<u32>>(
    insert: MapInsert<C>,
    keys: impl IntoIterator<Item = u32>,
    forest: &mut Forest,
    comp: &C,
) -> Numbers {
    let mut map = Map::new();
    for (key, value) in tenfold(keys) {
        assert_eq!(insert(&mut map, key, value, forest, comp), Ok(None), "{key}");
    }
    map
}

fn filled<C: Comparator<u32>>(keys: impl IntoIterator<Item = u32>, forest: &mut Forest, comp: &C) -> Numbers {
    filled_by(Map::insert, keys, forest, comp)
}

/// The map of 10, 20 and 30 to 1, 2 and 3.
fn three<C: Comparator<u32>>(forest: &mut Forest, comp: &C) -> Numbers {
    let mut map = Map::new();
    for (key, value) in [(10, 1), (20, 2), (30, 3)] {
        assert_eq!(map.insert(key, value, forest, comp), Ok(None));
    }
    map
}

fn entries(map: &Numbers, forest: &Forest) -> Vec<(u32, u32)> {
    map.iter(forest).collect()
}

// The tests: each run with both searches.

macro_rules! with_both_searches {
    ($($run:ident),* $(,)?) => {
        mod own_search {
            $(#[test]
            fn $run() {
                super::$run(&());
            })*
        }

        mod scan_from_the_front {
            $(#[test]
            fn $run() {
                super::$run(&super::FromFront(()));
            })*
        }
    };
}

with_both_searches!(
    an_empty_map_answers_none,
    a_second_insertion_replaces_the_value,
    get_or_less_finds_the_key_or_the_one_before,
    get_or_greater_finds_the_key_or_the_one_behind,
    a_key_behind_its_leaf_has_the_next_leaf_s_first_entry,
    get_or_insert_keeps_what_is_there,
    update_or_insert_changes_what_is_there,
    a_value_is_written_where_it_lies,
    a_map_is_emptied_from_both_ends,
    a_cursor_goes_to_the_next_greater_key_and_back,
    a_new_cursor_stands_at_the_end,
    removing_at_a_cursor_goes_on_to_the_next_entry,
    the_last_entry_before_an_excluded_end,
    ranges_of_few_entries_or_none,
    a_range_taken_from_both_ends_in_turn,
    the_eighth_key_halves_a_leaf,
    leaves_that_fit_into_one_are_merged,
    an_insertion_past_the_limit_changes_nothing,
    a_refused_cursor_stands_at_the_next_greater_key,
    a_key_that_needs_no_node_is_never_refused,
    a_handle_is_live_again_where_its_slot_is_a_root_again,
    a_clone_names_the_same_tree_until_the_root_changes,
    clearing_a_map_leaves_the_other,
    a_copy_has_nodes_of_the_same_sizes,
    a_copy_one_node_short_changes_nothing,
    a_copy_and_its_original_change_apart,
    a_loaded_map_has_the_fewest_nodes,
    a_loaded_set_has_the_fewest_nodes,
    a_map_loaded_one_node_short_changes_nothing,
    a_range_that_goes_merges_the_leaves_beside_it,
    ranges_with_bounds_of_each_kind,
    a_range_of_equal_keys_goes_whole,
    a_map_is_split_at_a_key_and_between_keys,
    a_split_at_an_end_moves_all_or_nothing,
    a_split_hands_leaves_over,
    a_split_in_a_leaf_fills_the_first_leaf,
    a_split_one_node_short_changes_nothing,
    a_compacted_map_has_the_fewest_nodes,
    a_compaction_one_node_short_changes_nothing,
    retain_changes_values_and_merges_leaves,
    the_sixteenth_key_halves_a_leaf_of_a_set,
    the_greatest_and_the_least_key,
    the_thirty_sixth_key_adds_a_level,
    a_refused_level_changes_nothing,
    removing_the_first_key_of_the_last_leaf,
    a_leaf_too_empty_takes_from_the_next_one,
    retaining_nothing_frees_every_node,
    shifted_keys_are_found_in_the_nodes_that_they_had,
    a_set_of_one_key,
    a_forest_of_no_nodes_takes_no_key,
    a_value_written_by_a_cursor_and_the_steps_behind,
    a_value_written_at_a_leaf_s_end_and_the_steps_behind,
    the_first_entry_inserted_by_a_cursor,
    a_removal_at_the_boundary_of_two_parents,
    removing_the_first_keys_merges_leaves_one_by_one,
    removing_the_last_keys_empties_leaves_one_by_one,
);

/// Keys that compare equal share an entry, which keeps the first one's key.
#[test]
fn keys_of_the_same_ten_share_an_entry() {
    equal_keys_share_an_entry(&Tens);
    equal_keys_share_an_entry(&FromFront(Tens));
}

/// Under the reversed order the greatest key is first, and the list increases under that order alone.
#[test]
fn the_reversed_order_begins_with_the_greatest_key() {
    reversed_map(&(), &Reverse(()));
    reversed_map(&FromFront(()), &FromFront(Reverse(())));
}

// Maps of one leaf.

fn an_empty_map_answers_none<C: Comparator<u32>>(comp: &C) {
    let (map, forest) = (Numbers::new(), Forest::new());
    assert!(map.is_empty());
    assert_eq!(map.get(5, &forest, comp), None);
    assert_eq!(map.get_or_less(5, &forest, comp), None);
    let mut cursor = map.cursor(&forest, comp);
    assert_eq!(cursor.next(), None);
    assert_eq!(cursor.prev(), None);
}

fn a_second_insertion_replaces_the_value<C: Comparator<u32>>(comp: &C) {
    for insert in [Map::insert, Map::try_insert] {
        let (mut map, mut forest) = (Numbers::new(), Forest::new());
        assert_eq!(insert(&mut map, 5, 50, &mut forest, comp), Ok(None));
        assert_eq!(insert(&mut map, 5, 51, &mut forest, comp), Ok(Some(50)));
        assert_eq!(map.get(5, &forest, comp), Some(51));
    }
}

fn get_or_less_finds_the_key_or_the_one_before<C: Comparator<u32>>(comp: &C) {
    let mut forest = Forest::new();
    let map = three(&mut forest, comp);
    assert_eq!(map.get_or_less(25, &forest, comp), Some((20, 2)));
    assert_eq!(map.get_or_less(20, &forest, comp), Some((20, 2)));
    assert_eq!(map.get_or_less(5, &forest, comp), None);
    assert_eq!(map.get_or_less(99, &forest, comp), Some((30, 3)));
}

fn get_or_greater_finds_the_key_or_the_one_behind<C: Comparator<u32>>(comp: &C) {
    let mut forest = Forest::new();
    let map = three(&mut forest, comp);
    assert_eq!(map.get_or_greater(15, &forest, comp), Some((20, 2)));
    assert_eq!(map.get_or_greater(20, &forest, comp), Some((20, 2)));
    assert_eq!(map.get_or_greater(0, &forest, comp), Some((10, 1)));
    assert_eq!(map.get_or_greater(31, &forest, comp), None);
}

/// Eight keys make two leaves of four: 10 to 40, and 50 to 80.
fn a_key_behind_its_leaf_has_the_next_leaf_s_first_entry<C: Comparator<u32>>(comp: &C) {
    let (mut map, mut forest) = (Numbers::new(), Forest::new());
    for key in 1..=8 {
        assert_eq!(map.insert(10 * key, key, &mut forest, comp), Ok(None));
    }
    assert_eq!(map.levels(&forest), 2);
    assert_eq!(map.get_or_greater(45, &forest, comp), Some((50, 5)));
    assert_eq!((map.first(&forest), map.last(&forest)), (Some((10, 1)), Some((80, 8))));
}

fn get_or_insert_keeps_what_is_there<C: Comparator<u32>>(comp: &C) {
    let (mut map, mut forest) = (Numbers::new(), Forest::with_node_limit(1));
    assert_eq!(map.get_or_insert(5, 50, &mut forest, comp), Ok(50));
    assert_eq!(map.get_or_insert(5, 51, &mut forest, comp), Ok(50));
    let mut other = Numbers::new();
    assert_eq!(other.get_or_insert(5, 50, &mut forest, comp), Err(OutOfMemory::Full));
    assert!(other.is_empty() && map.get(5, &forest, comp) == Some(50));
}

fn update_or_insert_changes_what_is_there<C: Comparator<u32>>(comp: &C) {
    let (mut map, mut forest) = (Numbers::new(), Forest::with_node_limit(1));
    assert_eq!(map.update_or_insert(5, 50, |value| value + 1, &mut forest, comp), Ok(50));
    assert_eq!(map.update_or_insert(5, 70, |value| value + 1, &mut forest, comp), Ok(51));
    let mut other = Numbers::new();
    assert_eq!(other.update_or_insert(5, 50, |value| value + 1, &mut forest, comp), Err(OutOfMemory::Full));
    assert!(other.is_empty() && map.get(5, &forest, comp) == Some(51));
}

/// 8 keys lie in two leaves of 4. The key 4 ends the first, and 5 begins the second.
fn a_value_is_written_where_it_lies<C: Comparator<u32>>(comp: &C) {
    let mut forest = Forest::new();
    let (map, other) = (filled(1..=8, &mut forest, comp), filled(1..=8, &mut forest, comp));
    let before = sizes(&map, &forest);
    for key in [4, 5] {
        let value = forest.get_mut(&map, key, comp).unwrap();
        assert_eq!(*value, 10 * key);
        *value += 1;
    }
    assert!([0, 9].iter().all(|&key| forest.get_mut(&map, key, comp).is_none()) && forest.get_mut(&Map::new(), 4, comp).is_none());
    assert_eq!(entries(&map, &forest), [(1, 10), (2, 20), (3, 30), (4, 41), (5, 51), (6, 60), (7, 70), (8, 80)]);
    assert_eq!((entries(&other, &forest), sizes(&map, &forest)), (tenfold(1..=8), before));
}

fn a_map_is_emptied_from_both_ends<C: Comparator<u32>>(comp: &C) {
    let mut forest = Forest::new();
    let mut map = three(&mut forest, comp);
    assert_eq!(map.pop_last(&mut forest), Some((30, 3)));
    assert_eq!(map.pop_first(&mut forest), Some((10, 1)));
    assert_eq!(map.pop_first(&mut forest), Some((20, 2)));
    assert_eq!((map.pop_first(&mut forest), map.pop_last(&mut forest)), (None, None));
    assert!(map.is_empty() && map.first(&forest).is_none() && map.last(&forest).is_none());
    assert_eq!(forest.free_slots(), forest.slots());
}

fn equal_keys_share_an_entry<C: Comparator<u32>>(tens: &C) {
    let (mut map, mut forest) = (Numbers::new(), Forest::new());
    assert_eq!(map.insert(12, 1, &mut forest, tens), Ok(None));
    assert_eq!(map.insert(15, 2, &mut forest, tens), Ok(Some(1)));
    let mut cursor = map.cursor(&forest, tens);
    assert_eq!(cursor.goto(19), Some(2));
    assert_eq!(cursor.key(), Some(12));
    assert_eq!(map.get_or_less(17, &forest, tens), Some((12, 2)));
}

fn reversed_map<C: Comparator<u32>, R: Comparator<u32>>(own: &C, reversed: &R) {
    let (mut map, mut forest) = (Numbers::new(), Forest::new());
    assert_eq!(map.insert(5, 50, &mut forest, reversed), Ok(None));
    assert_eq!(map.insert(3, 30, &mut forest, reversed), Ok(None));
    assert_eq!(entries(&map, &forest), [(5, 50), (3, 30)]);
    assert!(!map.increases(&forest, own));
    assert!(map.increases(&forest, reversed));
}

fn the_greatest_and_the_least_key<C: Comparator<u32>>(comp: &C) {
    let (mut map, mut forest) = (Numbers::new(), Forest::new());
    assert_eq!(map.insert(4_294_967_295, 1, &mut forest, comp), Ok(None));
    assert_eq!(map.insert(0, 2, &mut forest, comp), Ok(None));
    assert_eq!(entries(&map, &forest), [(0, 2), (4_294_967_295, 1)]);
    let mut cursor = map.cursor(&forest, comp);
    assert_eq!(cursor.goto(4_294_967_295), Some(1));
    assert_eq!(cursor.next(), None);
}

// Cursors and ranges.

fn a_cursor_goes_to_the_next_greater_key_and_back<C: Comparator<u32>>(comp: &C) {
    let mut forest = Forest::new();
    let map = three(&mut forest, comp);
    let mut cursor = map.cursor(&forest, comp);
    assert_eq!(cursor.goto(25), None);
    assert_eq!(cursor.key(), Some(30));
    assert_eq!(cursor.prev(), Some((20, 2)));
    assert_eq!(cursor.prev(), Some((10, 1)));
    assert_eq!(cursor.prev(), None);
    assert_eq!(cursor.key(), Some(10));
    assert_eq!(cursor.next(), Some((20, 2)));
}

fn a_new_cursor_stands_at_the_end<C: Comparator<u32>>(comp: &C) {
    let mut forest = Forest::new();
    let map = three(&mut forest, comp);
    let mut cursor = map.cursor(&forest, comp);
    assert_eq!(cursor.next(), None);
    assert_eq!(cursor.prev(), Some((30, 3)));
    assert_eq!(cursor.next(), None);
    assert_eq!(cursor.key(), None);
}

fn removing_at_a_cursor_goes_on_to_the_next_entry<C: Comparator<u32>>(comp: &C) {
    let mut forest = Forest::new();
    let mut map = three(&mut forest, comp);
    let mut cursor = map.cursor_mut(&mut forest, comp);
    assert_eq!(cursor.goto(20), Some(2));
    assert_eq!(cursor.remove(), Some(2));
    assert_eq!(cursor.key(), Some(30));
    assert_eq!(cursor.remove(), Some(3));
    assert_eq!(cursor.key(), None);
    assert_eq!(cursor.remove(), None);
    assert_eq!(entries(&map, &forest), [(10, 1)]);
}

fn the_last_entry_before_an_excluded_end<C: Comparator<u32>>(comp: &C) {
    let mut forest = Forest::new();
    let map = three(&mut forest, comp);
    let mut below = map.range((Unbounded, Excluded(25)), &forest, comp);
    assert_eq!(below.next_back(), Some((20, 2)));
    let mut all = map.range((Unbounded, Excluded(99)), &forest, comp);
    assert_eq!(all.next_back(), Some((30, 3)));
    assert_eq!(all.next_back(), Some((20, 2)));
}

fn ranges_of_few_entries_or_none<C: Comparator<u32>>(comp: &C) {
    let mut forest = Forest::new();
    let map = three(&mut forest, comp);
    let mut reversed = map.range((Included(30), Excluded(10)), &forest, comp);
    assert_eq!(reversed.next(), None);
    assert_eq!(reversed.next_back(), None);
    let mut single = map.range((Included(20), Included(20)), &forest, comp);
    assert_eq!(single.next_back(), Some((20, 2)));
    assert_eq!(single.next(), None);
    let mut between = map.range((Excluded(10), Excluded(30)), &forest, comp);
    assert_eq!(between.next(), Some((20, 2)));
    assert_eq!(between.next(), None);
}

fn a_range_taken_from_both_ends_in_turn<C: Comparator<u32>>(comp: &C) {
    let mut forest = Forest::new();
    let map = filled([1, 2, 3], &mut forest, comp);
    let mut range = map.range(.., &forest, comp);
    assert_eq!(range.next(), Some((1, 10)));
    assert_eq!(range.next_back(), Some((3, 30)));
    assert_eq!(range.next(), Some((2, 20)));
    assert_eq!(range.next_back(), None);
    assert_eq!(range.next(), None);
}

fn a_value_written_by_a_cursor_and_the_steps_behind<C: Comparator<u32>>(comp: &C) {
    let mut forest = Forest::new();
    let mut map = three(&mut forest, comp);
    let mut cursor = map.cursor_mut(&mut forest, comp);
    assert_eq!(cursor.goto(20), Some(2));
    *cursor.value_mut().unwrap() = 9;
    assert_eq!(cursor.value(), Some(9));
    assert_eq!(cursor.next(), Some((30, 3)));
    assert_eq!(cursor.next(), None);
    assert_eq!(cursor.value_mut(), None);
    assert_eq!(entries(&map, &forest), [(10, 1), (20, 9), (30, 3)]);
}

// Keys that are put in from the least up leave leaves of 4, so 17 to 20 share one, and 21 begins the next.
fn a_value_written_at_a_leaf_s_end_and_the_steps_behind<C: Comparator<u32>>(comp: &C) {
    let mut forest = Forest::new();
    let mut map = filled(1..=36, &mut forest, comp);
    let mut cursor = map.cursor_mut(&mut forest, comp);
    assert_eq!(cursor.goto(20), Some(200));
    *cursor.value_mut().unwrap() = 9;
    assert_eq!(cursor.value(), Some(9));
    assert_eq!(cursor.next(), Some((21, 210)));
    assert_eq!(cursor.next(), Some((22, 220)));
    assert_eq!(cursor.value_mut(), Some(&mut 220));
    assert_eq!(entries(&map, &forest), [tenfold(1..=19), vec![(20, 9)], tenfold(21..=36)].concat());
}

fn the_first_entry_inserted_by_a_cursor<C: Comparator<u32>>(comp: &C) {
    let (mut map, mut forest) = (Numbers::new(), Forest::new());
    let mut cursor = map.cursor_mut(&mut forest, comp);
    assert_eq!(cursor.insert(7, 70), Ok(None));
    assert_eq!(cursor.key(), Some(7));
    assert_eq!(cursor.next(), None);
    assert_eq!(cursor.key(), None);
    assert_eq!(cursor.prev(), Some((7, 70)));
    assert_eq!(entries(&map, &forest), [(7, 70)]);
}

// Leaves that are halved, merged and evened out.

fn the_eighth_key_halves_a_leaf<C: Comparator<u32>>(comp: &C) {
    for insert in [Map::insert, Map::try_insert] {
        let mut forest = Forest::new();
        let map = filled_by(insert, 1..=8, &mut forest, comp);
        assert_eq!(sizes(&map, &forest), Sizes { levels: 2, slots: 3, free: 0 });
        assert_eq!(entries(&map, &forest), tenfold(1..=8));
    }
}

fn leaves_that_fit_into_one_are_merged<C: Comparator<u32>>(comp: &C) {
    let mut forest = Forest::new();
    let mut map = filled(1..=8, &mut forest, comp);
    assert_eq!(map.remove(1, &mut forest, comp), Some(10));
    assert_eq!(entries(&map, &forest), tenfold(2..=8));
    assert_eq!(sizes(&map, &forest), Sizes { levels: 1, slots: 3, free: 2 });
    assert_eq!(map.insert(1, 10, &mut forest, comp), Ok(None));
    assert_eq!(entries(&map, &forest), tenfold(1..=8));
    assert_eq!(sizes(&map, &forest), Sizes { levels: 2, slots: 3, free: 0 });
}

fn removing_the_first_key_of_the_last_leaf<C: Comparator<u32>>(comp: &C) {
    let mut forest = Forest::new();
    let mut map = filled(1..=8, &mut forest, comp);
    let mut cursor = map.cursor_mut(&mut forest, comp);
    assert_eq!(cursor.goto(5), Some(50));
    assert_eq!(cursor.remove(), Some(50));
    assert_eq!(cursor.key(), Some(6));
    assert_eq!(entries(&map, &forest), tenfold([1, 2, 3, 4, 6, 7, 8]));
    assert_eq!(sizes(&map, &forest), Sizes { levels: 2, slots: 3, free: 0 });
}

fn a_leaf_too_empty_takes_from_the_next_one<C: Comparator<u32>>(comp: &C) {
    let mut forest = Forest::new();
    let mut map = filled(1..=11, &mut forest, comp);
    assert_eq!(map.remove(1, &mut forest, comp), Some(10));
    assert_eq!(entries(&map, &forest), tenfold(2..=11));
    assert_eq!(sizes(&map, &forest), Sizes { levels: 2, slots: 3, free: 0 });
}

fn the_thirty_sixth_key_adds_a_level<C: Comparator<u32>>(comp: &C) {
    let mut forest = Forest::new();
    let mut map = filled(1..=35, &mut forest, comp);
    assert_eq!(sizes(&map, &forest), Sizes { levels: 2, slots: 9, free: 0 });
    assert_eq!(map.insert(36, 0, &mut forest, comp), Ok(None));
    assert_eq!(sizes(&map, &forest), Sizes { levels: 3, slots: 12, free: 0 });
    assert_eq!(entries(&map, &forest), [tenfold(1..=35), vec![(36, 0)]].concat());
}

// Nine leaves of 4 lie below two inner nodes, of 4 children and of 5. Without 16 the fourth leaf has 3 entries, and joins the fifth, whose
// parent is the other one. The first parent is left with 3 children, and joins the other: 8 children. The root has a single child then, and
// ends. So 3 nodes of 12 are free.
fn a_removal_at_the_boundary_of_two_parents<C: Comparator<u32>>(comp: &C) {
    let mut forest = Forest::new();
    let mut map = filled(1..=36, &mut forest, comp);
    assert_eq!(sizes(&map, &forest), Sizes { levels: 3, slots: 12, free: 0 });
    let mut cursor = map.cursor_mut(&mut forest, comp);
    assert_eq!(cursor.goto(16), Some(160));
    assert_eq!(cursor.remove(), Some(160));
    assert_eq!(cursor.key(), Some(17));
    assert_eq!(cursor.prev(), Some((15, 150)));
    assert_eq!(sizes(&map, &forest), Sizes { levels: 2, slots: 12, free: 3 });
    assert_eq!(forest.nodes_in_use(), 9);
    assert_eq!(entries(&map, &forest), tenfold((1..=15).chain(17..=36)));
}

/// Removes the keys in turn. After each the tree has as many levels and nodes as are named beside it, and no slot is added.
fn shrinks<C: Comparator<u32>>(last: u32, steps: &[(u32, usize, u32)], comp: &C) {
    let mut forest = Forest::new();
    let mut map = filled(1..=last, &mut forest, comp);
    let slots = forest.slots();
    for &(key, levels, nodes) in steps {
        assert_eq!(map.remove(key, &mut forest, comp), Some(10 * key));
        assert_eq!(sizes(&map, &forest), Sizes { levels, slots, free: slots - nodes }, "after {key}");
        assert_eq!(forest.nodes_in_use(), nodes, "after {key}");
    }
    assert!(map.is_empty());
}

// Three leaves of 4 below a root. Without 1 the first leaf has 3 entries, and joins the second: 7. It keeps 4 of them without 2, 3 and 4.
// Without 5 it has 3, and joins the last: 7 in one leaf, and the root ends. A leaf alone has no neighbour, and stays until its last entry
// goes.
fn removing_the_first_keys_merges_leaves_one_by_one<C: Comparator<u32>>(comp: &C) {
    let merged = [(1, 2, 3), (2, 2, 3), (3, 2, 3), (4, 2, 3), (5, 1, 1)];
    let alone = (6..=11).map(|key| (key, 1, 1));
    shrinks(12, &[merged.to_vec(), alone.collect(), vec![(12, 0, 0)]].concat(), comp);
}

// Two leaves of 4 below a root. The last leaf has no right neighbour, and stays until its last entry goes, with which the root ends.
fn removing_the_last_keys_empties_leaves_one_by_one<C: Comparator<u32>>(comp: &C) {
    let last_leaf = [(8, 2, 3), (7, 2, 3), (6, 2, 3), (5, 1, 1)];
    shrinks(8, &[last_leaf.to_vec(), vec![(4, 1, 1), (3, 1, 1), (2, 1, 1), (1, 0, 0)]].concat(), comp);
}

fn retain_changes_values_and_merges_leaves<C: Comparator<u32>>(comp: &C) {
    let (mut map, mut forest) = (Numbers::new(), Forest::new());
    for key in 1..=36 {
        assert_eq!(map.insert(key, key, &mut forest, comp), Ok(None));
    }
    map.retain(&mut forest, |key, value| {
        *value += 1;
        key % 9 == 0
    });
    assert_eq!(entries(&map, &forest), [(9, 10), (18, 19), (27, 28), (36, 37)]);
    assert_eq!(sizes(&map, &forest), Sizes { levels: 1, slots: 12, free: 11 });
}

fn retaining_nothing_frees_every_node<C: Comparator<u32>>(comp: &C) {
    let mut forest = Forest::new();
    let mut map = filled(1..=8, &mut forest, comp);
    map.retain(&mut forest, |_, _| false);
    assert!(map.is_empty());
    assert_eq!(sizes(&map, &forest), Sizes { levels: 0, slots: 3, free: 3 });
}

fn shifted_keys_are_found_in_the_nodes_that_they_had<C: Comparator<u32>>(comp: &C) {
    let mut forest = Forest::new();
    let mut map = filled(1..=8, &mut forest, comp);
    map.shift(3, |key| key + 10, &mut forest, comp);
    let moved = [(1, 10), (2, 20), (13, 30), (14, 40), (15, 50), (16, 60), (17, 70), (18, 80)];
    assert_eq!(entries(&map, &forest), moved);
    // 15 is the first key of the second leaf, and 9 would have been behind it.
    assert_eq!((map.get(15, &forest, comp), map.get(14, &forest, comp)), (Some(50), Some(40)));
    assert_eq!(map.insert(9, 90, &mut forest, comp), Ok(None));
    assert_eq!(map.remove(15, &mut forest, comp), Some(50));
    assert_eq!(sizes(&map, &forest), Sizes { levels: 2, slots: 3, free: 0 });
    map.shift(9, |key| key - 6, &mut forest, comp);
    assert_eq!(entries(&map, &forest), [(1, 10), (2, 20), (3, 90), (7, 30), (8, 40), (10, 60), (11, 70), (12, 80)]);
    map.shift(13, |_| 0, &mut forest, comp);
    assert_eq!(map.last(&forest), Some((12, 80)));
    let mut none = Numbers::new();
    none.shift(0, |key| key + 1, &mut forest, comp);
    assert!(none.is_empty());
}

// Limits.

fn an_insertion_past_the_limit_changes_nothing<C: Comparator<u32>>(comp: &C) {
    let mut forest = Forest::with_node_limit(2);
    let mut map = filled(1..=7, &mut forest, comp);
    assert_eq!(map.insert(8, 80, &mut forest, comp), Err(OutOfMemory::Full));
    assert_eq!(entries(&map, &forest), tenfold(1..=7));
    assert_eq!(sizes(&map, &forest), Sizes { levels: 1, slots: 1, free: 0 });
    assert_eq!(map.insert(7, 71, &mut forest, comp), Ok(Some(70)));
    assert_eq!(map.remove(1, &mut forest, comp), Some(10));
    assert_eq!(map.insert(8, 80, &mut forest, comp), Ok(None));
    assert_eq!(entries(&map, &forest), [tenfold(2..=6), vec![(7, 71), (8, 80)]].concat());
}

fn a_refused_cursor_stands_at_the_next_greater_key<C: Comparator<u32>>(comp: &C) {
    let mut forest = Forest::with_node_limit(1);
    let mut map = filled((10..=70).step_by(10), &mut forest, comp);
    let mut cursor = map.cursor_mut(&mut forest, comp);
    assert_eq!(cursor.try_insert(35, 0), Err(OutOfMemory::Full));
    assert_eq!(cursor.key(), Some(40));
    assert_eq!(entries(&map, &forest), tenfold((10..=70).step_by(10)));
}

fn a_key_that_needs_no_node_is_never_refused<C: Comparator<u32>>(comp: &C) {
    let mut forest = Forest::with_node_limit(4);
    let mut map = filled(1..=15, &mut forest, comp);
    assert_eq!(map.insert(16, 160, &mut forest, comp), Err(OutOfMemory::Full));
    assert_eq!(map.insert(0, 0, &mut forest, comp), Ok(None));
    assert_eq!(entries(&map, &forest), tenfold(0..=15));
}

fn a_refused_level_changes_nothing<C: Comparator<u32>>(comp: &C) {
    let mut forest = Forest::with_node_limit(11);
    let mut map = filled(1..=35, &mut forest, comp);
    assert_eq!(map.insert(36, 0, &mut forest, comp), Err(OutOfMemory::Full));
    assert_eq!(sizes(&map, &forest), Sizes { levels: 2, slots: 9, free: 0 });
    assert_eq!(entries(&map, &forest), tenfold(1..=35));
}

fn a_forest_of_no_nodes_takes_no_key<C: Comparator<u32>>(comp: &C) {
    let (mut map, mut forest) = (Numbers::new(), Forest::with_node_limit(0));
    assert_eq!(map.insert(1, 1, &mut forest, comp), Err(OutOfMemory::Full));
    assert!(map.is_empty());
}

// Handles.

fn a_handle_is_live_again_where_its_slot_is_a_root_again<C: Comparator<u32>>(comp: &C) {
    let mut forest = Forest::new();
    let a = filled([1], &mut forest, comp);
    forest.clear();
    assert!(!forest.holds(&a));
    assert_eq!(forest.slots(), 0);
    let mut b = Map::new();
    assert_eq!(b.insert(5, 50, &mut forest, comp), Ok(None));
    assert!(forest.holds(&a));
    assert_eq!(a.get(5, &forest, comp), Some(50));
}

fn a_clone_names_the_same_tree_until_the_root_changes<C: Comparator<u32>>(comp: &C) {
    let mut forest = Forest::new();
    let mut a = filled([1], &mut forest, comp);
    let b = a.clone();
    assert_eq!(a.insert(2, 20, &mut forest, comp), Ok(None));
    assert_eq!(b.get(2, &forest, comp), Some(20));
    assert!(a.is_same_handle(&b));
    for key in 3..=8 {
        assert_eq!(a.insert(key, 10 * key, &mut forest, comp), Ok(None));
    }
    assert!(!forest.holds(&b) && !a.is_same_handle(&b));
}

fn clearing_a_map_leaves_the_other<C: Comparator<u32>>(comp: &C) {
    let mut forest = Forest::new();
    let mut first = filled(1..=100, &mut forest, comp);
    let second = filled([7], &mut forest, comp);
    first.clear(&mut forest);
    assert!(first.is_empty());
    assert_eq!(entries(&first, &forest), []);
    assert_eq!(entries(&second, &forest), [(7, 70)]);
    assert_eq!(forest.free_slots(), forest.slots() - 1);
}

// Copies.

/// 15 keys in order lie in leaves of 4, 4 and 7 entries, and so do those of the copy.
fn a_copy_has_nodes_of_the_same_sizes<C: Comparator<u32>>(comp: &C) {
    let mut forest = Forest::new();
    let map = filled(1..=15, &mut forest, comp);
    assert_eq!(sizes(&map, &forest), Sizes { levels: 2, slots: 4, free: 0 });
    let mut copy = map.deep_clone(&mut forest).unwrap();
    assert_eq!(sizes(&copy, &forest), Sizes { levels: 2, slots: 8, free: 0 });
    assert_eq!((entries(&map, &forest), entries(&copy, &forest)), (tenfold(1..=15), tenfold(1..=15)));
    // The last leaf is full, and the first is not.
    assert_eq!(copy.insert(0, 0, &mut forest, comp), Ok(None));
    assert_eq!(forest.slots(), 8);
    assert_eq!(copy.insert(16, 160, &mut forest, comp), Ok(None));
    assert_eq!(forest.slots(), 9);
    copy.clear(&mut forest);
    assert_eq!((forest.free_slots(), entries(&map, &forest)), (5, tenfold(1..=15)));
    assert!(Numbers::new().deep_clone(&mut forest).unwrap().is_empty());
    assert_eq!(forest.free_slots(), 5);
}

fn a_copy_one_node_short_changes_nothing<C: Comparator<u32>>(comp: &C) {
    for (limit, taken) in [(7, None), (8, Some(8))] {
        let mut forest = Forest::with_node_limit(limit);
        let map = filled(1..=15, &mut forest, comp);
        assert_eq!(map.deep_clone(&mut forest).map(|_| 8), taken.ok_or(OutOfMemory::Full));
        assert_eq!(sizes(&map, &forest), Sizes { levels: 2, slots: taken.unwrap_or(4), free: 0 });
        assert_eq!(entries(&map, &forest), tenfold(1..=15));
    }
}

fn a_copy_and_its_original_change_apart<C: Comparator<u32>>(comp: &C) {
    let mut forest = Forest::new();
    let mut map = filled(1..=100, &mut forest, comp);
    let mut copy = map.deep_clone(&mut forest).unwrap();
    for key in 1..=50 {
        assert_eq!(map.remove(2 * key, &mut forest, comp), Some(20 * key));
        assert_eq!(copy.insert(2 * key - 1, 0, &mut forest, comp), Ok(Some(20 * key - 10)));
    }
    assert_eq!(entries(&map, &forest), tenfold((1..=99).step_by(2)));
    assert!(entries(&copy, &forest).into_iter().eq((1..=100).map(|key| (key, if key % 2 == 0 { 10 * key } else { 0 }))));
}

// Maps that are loaded.

/// 15 entries lie in leaves of 7, 7 and 1; 57 in nine leaves, under parents of eight and of one.
fn a_loaded_map_has_the_fewest_nodes<C: Comparator<u32>>(comp: &C) {
    let mut forest = Forest::new();
    assert!(Numbers::load(&[], &mut forest).unwrap().is_empty());
    let mut map = Numbers::load(&tenfold(1..=15), &mut forest).unwrap();
    assert_eq!(sizes(&map, &forest), Sizes { levels: 2, slots: 4, free: 0 });
    assert_eq!(entries(&map, &forest), tenfold(1..=15));
    // The last leaf has room, and the first has none.
    assert_eq!(map.insert(16, 160, &mut forest, comp), Ok(None));
    assert_eq!(forest.slots(), 4);
    assert_eq!(map.insert(0, 0, &mut forest, comp), Ok(None));
    assert_eq!(forest.slots(), 5);
    assert_eq!(entries(&map, &forest), tenfold(0..=16));
    for (most, levels, nodes) in [(1, 1, 1), (7, 1, 1), (8, 2, 3), (56, 2, 9), (57, 3, 12), (448, 3, 73), (449, 4, 77)] {
        let mut forest = Forest::new();
        let map = Numbers::load(&tenfold(1..=most), &mut forest).unwrap();
        assert_eq!(sizes(&map, &forest), Sizes { levels, slots: nodes, free: 0 });
        assert_eq!(map.get(most, &forest, comp), Some(10 * most));
        assert_eq!(map.len(&forest), most as usize);
    }
}

fn a_map_loaded_one_node_short_changes_nothing<C: Comparator<u32>>(comp: &C) {
    for (limit, taken) in [(4, None), (5, Some(5))] {
        let mut forest = Forest::with_node_limit(limit);
        let map = filled([3], &mut forest, comp);
        assert_eq!(Numbers::load(&tenfold(1..=15), &mut forest).map(|_| 5), taken.ok_or(OutOfMemory::Full));
        assert_eq!(sizes(&map, &forest), Sizes { levels: 1, slots: taken.unwrap_or(1), free: 0 });
        assert_eq!(entries(&map, &forest), tenfold([3]));
    }
}

// Ranges that are removed, splits and compactions.

// Nine leaves of 4 lie below two inner nodes, of 4 children and of 5. Without 9 the third leaf has 3 entries, and joins the fourth: 10 to 16.
// The first parent is left with 3 children, and joins the other: 8 children. The root has a single child then, and ends. Without 10 to 12 the
// third leaf has 4. Without 13 it has 3, and joins the next: 14 to 20, of which 17 to 20 are left in the end.
fn a_range_that_goes_merges_the_leaves_beside_it<C: Comparator<u32>>(comp: &C) {
    let mut forest = Forest::new();
    let mut map = filled(1..=36, &mut forest, comp);
    assert_eq!(sizes(&map, &forest), Sizes { levels: 3, slots: 12, free: 0 });
    assert!(map.remove_range(9..=12, &mut forest, comp));
    assert_eq!(sizes(&map, &forest), Sizes { levels: 2, slots: 12, free: 3 });
    assert!(map.remove_range(13..17, &mut forest, comp));
    assert_eq!(sizes(&map, &forest), Sizes { levels: 2, slots: 12, free: 4 });
    assert_eq!(entries(&map, &forest), tenfold((1..=8).chain(17..=36)));
    assert!(!map.remove_range(9..17, &mut forest, comp));
    assert!(map.remove_range(.., &mut forest, comp));
    assert!(map.is_empty() && !map.remove_range(.., &mut forest, comp));
    assert_eq!(sizes(&map, &forest), Sizes { levels: 0, slots: 12, free: 12 });
}

fn ranges_with_bounds_of_each_kind<C: Comparator<u32>>(comp: &C) {
    let keys = [Unbounded, Included(3), Excluded(3), Included(4), Excluded(4)];
    let starts = [(keys[0], 0), (keys[1], 3), (keys[2], 4), (keys[3], 4), (keys[4], 5)];
    let ends = [Unbounded, Included(6), Excluded(6), Included(2), Excluded(2)].into_iter().zip([9, 7, 6, 3, 2]);
    for ((start, from), (end, to)) in starts.into_iter().flat_map(|start| ends.clone().map(move |end| (start, end))) {
        let mut forest = Forest::new();
        let mut map = filled(0..9, &mut forest, comp);
        assert_eq!(map.remove_range((start, end), &mut forest, comp), from < to);
        assert_eq!(entries(&map, &forest), tenfold((0..9).filter(|key| !(from..to).contains(key))), "{start:?} {end:?}");
    }
}

// A bound stands for all keys that compare equal to its own.
fn a_range_of_equal_keys_goes_whole<C: Comparator<u32>>(_: &C) {
    for (start, end, left) in [
        (Included(25), Included(31), vec![13, 47]),
        (Excluded(25), Excluded(47), vec![13, 21, 47]),
        (Excluded(13), Unbounded, vec![13]),
        (Unbounded, Included(39), vec![47]),
    ] {
        let mut forest = Forest::new();
        let mut map = filled([13, 21, 38, 47], &mut forest, &Tens);
        assert!(map.remove_range((start, end), &mut forest, &Tens));
        assert_eq!(entries(&map, &forest), tenfold(left));
    }
}

fn a_map_is_split_at_a_key_and_between_keys<C: Comparator<u32>>(comp: &C) {
    let mut forest = Forest::new();
    for at in [50, 45, 41] {
        let mut map = filled((1..=8).map(|it| 10 * it), &mut forest, comp);
        let tail = map.split_off(at, &mut forest, comp).unwrap();
        assert_eq!(entries(&map, &forest), tenfold([10, 20, 30, 40]));
        assert_eq!(entries(&tail, &forest), tenfold([50, 60, 70, 80]));
    }
    let mut map = filled([13, 21, 38, 47], &mut forest, &Tens);
    let tail = map.split_off(39, &mut forest, &Tens).unwrap();
    assert_eq!((entries(&map, &forest), entries(&tail, &forest)), (tenfold([13, 21]), tenfold([38, 47])));
}

fn a_split_at_an_end_moves_all_or_nothing<C: Comparator<u32>>(comp: &C) {
    let mut forest = Forest::new();
    let mut map = filled(1..=8, &mut forest, comp);
    assert!(map.split_off(9, &mut forest, comp).unwrap().is_empty());
    assert_eq!(sizes(&map, &forest), Sizes { levels: 2, slots: 3, free: 0 });
    let mut tail = map.split_off(1, &mut forest, comp).unwrap();
    assert!(map.is_empty() && map.split_off(0, &mut forest, comp).unwrap().is_empty());
    assert_eq!(entries(&tail, &forest), tenfold(1..=8));
    assert_eq!(sizes(&tail, &forest), Sizes { levels: 2, slots: 3, free: 0 });
    tail.clear(&mut forest);
    assert_eq!(forest.nodes_in_use(), 0);
}

// 15 keys in order lie in leaves of 4, 4 and 7 below a root. The first leaf stays, and its root is discarded. The two others go below a new
// root, and neither is at most half full.
fn a_split_hands_leaves_over<C: Comparator<u32>>(comp: &C) {
    let mut forest = Forest::new();
    let mut map = filled(1..=15, &mut forest, comp);
    assert_eq!(sizes(&map, &forest), Sizes { levels: 2, slots: 4, free: 0 });
    let tail = map.split_off(5, &mut forest, comp).unwrap();
    assert_eq!(sizes(&map, &forest), Sizes { levels: 1, slots: 5, free: 1 });
    assert_eq!(sizes(&tail, &forest), Sizes { levels: 2, slots: 5, free: 1 });
    assert_eq!((entries(&map, &forest), entries(&tail, &forest)), (tenfold(1..=4), tenfold(5..=15)));
    // Both go on apart.
    assert_eq!(map.insert(5, 0, &mut forest, comp), Ok(None));
    assert_eq!((map.len(&forest), tail.get(5, &forest, comp), tail.len(&forest)), (5, Some(50), 11));
}

// The second of the leaves of 4, 4 and 7 is parted, and so is the root: two new nodes. Its last three keys and the next leaf's 7 share: 5 and 5.
fn a_split_in_a_leaf_fills_the_first_leaf<C: Comparator<u32>>(comp: &C) {
    let mut forest = Forest::new();
    let mut map = filled(1..=15, &mut forest, comp);
    let mut tail = map.split_off(6, &mut forest, comp).unwrap();
    assert_eq!(sizes(&map, &forest), Sizes { levels: 2, slots: 6, free: 0 });
    assert_eq!((entries(&map, &forest), entries(&tail, &forest)), (tenfold(1..=5), tenfold(6..=15)));
    // Of 5 and 5 a key goes, and a second one, where 3 and 5 share. After a third one 3 and 4 become one leaf, whose root is discarded.
    for (key, slots_free) in [(6, 0), (7, 0), (8, 2)] {
        assert_eq!(tail.remove(key, &mut forest, comp), Some(10 * key));
        assert_eq!(sizes(&tail, &forest).free, slots_free);
    }
}

fn a_split_one_node_short_changes_nothing<C: Comparator<u32>>(comp: &C) {
    for (limit, moved) in [(4, None), (5, Some(11))] {
        let mut forest = Forest::with_node_limit(limit);
        let mut map = filled(1..=15, &mut forest, comp);
        let tail = map.split_off(5, &mut forest, comp);
        assert_eq!(tail.map(|it| it.len(&forest)), moved.ok_or(OutOfMemory::Full));
        if moved.is_none() {
            assert_eq!(entries(&map, &forest), tenfold(1..=15));
            assert_eq!(sizes(&map, &forest), Sizes { levels: 2, slots: 4, free: 0 });
        }
    }
}

// 36 keys in order take nine leaves of 4, two inner nodes and a root. Packed they lie in six leaves below a root, made beside the old nodes,
// which lie free then. To pack them again takes seven of these, and frees seven.
fn a_compacted_map_has_the_fewest_nodes<C: Comparator<u32>>(comp: &C) {
    let mut forest = Forest::new();
    let mut map = filled(1..=36, &mut forest, comp);
    assert_eq!(map.compact(&mut forest), Ok(()));
    assert_eq!(sizes(&map, &forest), Sizes { levels: 2, slots: 19, free: 12 });
    assert_eq!(entries(&map, &forest), tenfold(1..=36));
    assert_eq!(map.get(36, &forest, comp), Some(360));
    assert_eq!(map.compact(&mut forest), Ok(()));
    assert_eq!(sizes(&map, &forest), Sizes { levels: 2, slots: 19, free: 12 });
    let mut none = Numbers::new();
    assert_eq!((none.compact(&mut forest), none.is_empty()), (Ok(()), true));
}

fn a_compaction_one_node_short_changes_nothing<C: Comparator<u32>>(comp: &C) {
    for (limit, answer) in [(18, Err(OutOfMemory::Full)), (19, Ok(()))] {
        let mut forest = Forest::with_node_limit(limit);
        let mut map = filled(1..=36, &mut forest, comp);
        let copy = map.clone();
        assert_eq!(map.compact(&mut forest), answer);
        assert_eq!(entries(&map, &forest), tenfold(1..=36));
        assert_eq!((forest.nodes_in_use(), forest.holds(&copy)), if answer.is_ok() { (7, false) } else { (12, true) });
    }
}

// Sets.

/// 31 keys lie in leaves of 15, 15 and 1; 121 in nine leaves, under parents of eight and of one.
fn a_loaded_set_has_the_fewest_nodes<C: Comparator<u32>>(comp: &C) {
    for (most, levels, nodes) in [(0, 0, 0), (1, 1, 1), (15, 1, 1), (16, 2, 3), (31, 2, 4), (120, 2, 9), (121, 3, 12)] {
        let keys: Vec<u32> = (1..=most).collect();
        for (limit, room) in [(nodes, true), (nodes.max(1) - 1, nodes == 0)] {
            let mut forest = SetForest::with_node_limit(limit);
            let set = Set::load(&keys, &mut forest);
            assert_eq!(set.as_ref().err(), if room { None } else { Some(&OutOfMemory::Full) });
            let Ok(mut set) = set else {
                assert_eq!(forest.slots(), 0);
                continue;
            };
            assert_eq!((set.levels(&forest), forest.slots(), forest.free_slots()), (levels, nodes, 0));
            assert!(set.iter(&forest).eq(1..=most) && set.increases(&forest, comp) && set.len(&forest) == keys.len());
            assert_eq!(set.remove(most, &mut forest, comp), most > 0);
        }
    }
}

fn the_sixteenth_key_halves_a_leaf_of_a_set<C: Comparator<u32>>(comp: &C) {
    for insert in [Set::insert, Set::try_insert] {
        let (mut set, mut forest) = (Set::new(), SetForest::new());
        for key in 1..=16 {
            assert_eq!(insert(&mut set, key, &mut forest, comp), Ok(true));
        }
        assert_eq!((set.levels(&forest), forest.slots(), forest.free_slots()), (2, 3, 0));
        assert_eq!(insert(&mut set, 16, &mut forest, comp), Ok(false));
        assert!(set.iter(&forest).eq(1..=16));
    }
}

fn a_set_of_one_key<C: Comparator<u32>>(comp: &C) {
    for insert in [Set::insert, Set::try_insert] {
        let (mut set, mut forest) = (Set::new(), SetForest::new());
        assert_eq!(insert(&mut set, 3, &mut forest, comp), Ok(true));
        assert_eq!(insert(&mut set, 3, &mut forest, comp), Ok(false));
        assert!(set.contains(3, &forest, comp));
        assert!(set.remove(3, &mut forest, comp));
        assert!(!set.remove(3, &mut forest, comp));
        assert!(set.is_empty());
    }
}

// Iterators, which compare nothing.

/// What an iterator says that does not know how many entries are left.
const UNKNOWN: (usize, Option<usize>) = (0, None);

#[test]
fn no_iterator_of_a_map_knows_how_many_are_left() {
    for last in [0, 1, 36] {
        let mut forest = Forest::new();
        let map = filled(1..=last, &mut forest, &());
        let mut iter = map.iter(&forest);
        let mut range = map.range(.., &forest, &());
        assert_eq!((iter.size_hint(), range.size_hint()), (UNKNOWN, UNKNOWN), "{last}");
        assert!(iter.by_ref().eq(range.by_ref()));
        assert_eq!((iter.size_hint(), range.size_hint()), (UNKNOWN, UNKNOWN), "{last}");
        let mut owner = map.into_iter(forest);
        assert_eq!(owner.size_hint(), UNKNOWN, "{last}");
        assert_eq!(owner.by_ref().count(), last as usize);
        assert_eq!(owner.size_hint(), UNKNOWN, "{last}");
    }
}

#[test]
fn no_iterator_of_a_set_knows_how_many_are_left() {
    for last in [0, 1, 36] {
        let (mut set, mut forest) = (Set::new(), SetForest::new());
        for key in 1..=last {
            assert_eq!(set.insert(key, &mut forest, &()), Ok(true));
        }
        let mut iter = set.iter(&forest);
        let mut range = set.range(.., &forest, &());
        assert_eq!((iter.size_hint(), range.size_hint()), (UNKNOWN, UNKNOWN), "{last}");
        assert!(iter.by_ref().eq(range.by_ref()));
        assert_eq!((iter.size_hint(), range.size_hint()), (UNKNOWN, UNKNOWN), "{last}");
    }
}

/// The iterator that owns its forest goes through three levels, and then stays at the end.
#[test]
fn into_iter_ends_once_and_for_all() {
    let mut forest = Forest::new();
    let map = filled(1..=36, &mut forest, &());
    let mut iter = map.into_iter(forest);
    for key in 1..=36 {
        assert_eq!(iter.next(), Some((key, 10 * key)));
    }
    assert_eq!(iter.next(), None);
    assert_eq!(iter.next(), None);
}

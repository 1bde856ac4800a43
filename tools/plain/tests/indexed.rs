//! Random calls on `Maps` and `Sets` beside a vector of `BTreeMap`s and one of `BTreeSet`s, with refusals, and indices that are not there.

mod random;

use bforest::{Comparator, LoadError, Map, Maps, OutOfMemory, Set, Sets};
use random::Random;
use std::cmp::{Ordering, Reverse};
use std::collections::{BTreeMap, BTreeSet};
use std::panic::{AssertUnwindSafe, catch_unwind};

/// How many keys there are.
const KEYS: u32 = 60;
const STEPS: u32 = 300_000;

type Model = Vec<BTreeMap<u32, u32>>;

fn entry(found: Option<(&u32, &u32)>) -> Option<(u32, u32)> {
    found.map(|(key, value)| (*key, *value))
}

/// What reads a map.
fn read(maps: &Maps<u32, u32>, model: &Model, at: usize, key: u32) {
    let map = &model[at];
    assert_eq!(maps.get(at, key), map.get(&key).copied());
    assert_eq!(maps.contains_key(at, key), map.contains_key(&key));
    assert_eq!(maps.get_or_less(at, key), entry(map.range(..=key).next_back()));
    assert_eq!(maps.get_or_greater(at, key), entry(map.range(key..).next()));
    assert_eq!(maps.first(at), entry(map.first_key_value()));
    assert_eq!(maps.last(at), entry(map.last_key_value()));
    assert_eq!((maps.levels(at) == 0, maps.len_of(at)), (map.is_empty(), map.len()));
    let range = maps.range(at, key / 2..key);
    assert!(range.eq(map.range(key / 2..key).map(|(k, v)| (*k, *v))));
    let other = key as usize % model.len();
    assert_eq!(maps.is_subset(at, other), map.keys().all(|it| model[other].contains_key(it)));
    assert_eq!(maps.is_disjoint(at, other), !map.keys().any(|it| model[other].contains_key(it)));
    let mut cursor = maps.cursor(at);
    assert_eq!(cursor.goto(key), map.get(&key).copied());
    assert_eq!(cursor.prev(), entry(map.range(..key).next_back()));
}

/// What changes a map; where an insertion is refused, nothing may have changed.
fn change(maps: &mut Maps<u32, u32>, model: &mut Model, call: u32, at: usize, key: u32, value: u32) {
    let map = &mut model[at];
    match call {
        0..10 => match if key % 2 == 0 { maps.insert(at, key, value) } else { maps.try_insert(at, key, value) } {
            Ok(old) => assert_eq!(old, map.insert(key, value)),
            Err(refused) => assert!(refused == OutOfMemory::Full && !map.contains_key(&key)),
        },
        10..12 => {
            let changed = map.get_mut(&key).map(|it| {
                *it ^= value;
                *it
            });
            let lent = maps.get_mut(at, key).map(|it| {
                *it ^= value;
                *it
            });
            assert_eq!(lent, changed);
            // Twice is not at all.
            assert_eq!(maps.update(at, key, |it| it ^ value), changed.map(|it| it ^ value));
            assert_eq!(maps.update(at, key, |it| it ^ value), changed);
        }
        12..14 => match maps.update_or_insert(at, key, value, |it| it ^ value) {
            Ok(found) => assert_eq!(found, *map.entry(key).and_modify(|it| *it ^= value).or_insert(value)),
            Err(refused) => assert!(refused == OutOfMemory::Full && !map.contains_key(&key)),
        },
        14..16 => match maps.get_or_insert(at, key, value) {
            Ok(found) => assert_eq!(found, *map.entry(key).or_insert(value)),
            Err(refused) => assert!(refused == OutOfMemory::Full && !map.contains_key(&key)),
        },
        16..24 => assert_eq!(maps.remove(at, key), map.remove(&key)),
        24 => assert_eq!(maps.pop_first(at), map.pop_first()),
        25 => assert_eq!(maps.pop_last(at), map.pop_last()),
        26 => {
            maps.retain(at, |k, v| {
                *v += 1;
                k % 3 != key % 3
            });
            map.retain(|k, v| {
                *v += 1;
                k % 3 != key % 3
            });
        }
        27 => {
            let mut cursor = maps.cursor_mut(at);
            if cursor.goto(key).is_some() {
                assert_eq!(cursor.remove(), map.remove(&key));
            } else if cursor.insert(key, value).is_ok() {
                map.insert(key, value);
            }
        }
        28 => {
            maps.clear(at);
            map.clear();
        }
        31 => {
            let within = map.range(key..=key + 9).count() > 0;
            map.retain(|it, _| !(key..=key + 9).contains(it));
            assert_eq!(maps.remove_range(at, key..=key + 9), within);
        }
        32 => {
            let room = maps.node_limit() - (maps.slots() - maps.free_slots());
            let fits = fewest_nodes(map.len(), 7) <= room;
            assert_eq!(maps.compact(at), if fits { Ok(()) } else { Err(OutOfMemory::Full) });
        }
        33 => {
            let other = key as usize % model.len();
            let room = maps.node_limit() - (maps.slots() - maps.free_slots());
            let split = maps.split_off(at, key, other);
            if split.is_ok() {
                model[other] = model[at].split_off(&key);
            } else {
                // A node a level at most, and none where all or none go.
                assert!(split == Err(OutOfMemory::Full) && (room as usize) < maps.levels(at));
                assert!(model[at].range(..key).count() > 0 && model[at].range(key..).count() > 0);
            }
        }
        34 => {
            let other = key as usize % model.len();
            match maps.move_entry(at, key, other) {
                Ok(moved) => {
                    assert_eq!(moved, model[at].contains_key(&key));
                    if let Some(value) = model[at].remove(&key) {
                        model[other].insert(key, value);
                    }
                }
                Err(refused) => {
                    assert!(refused == OutOfMemory::Full && at != other);
                    assert!(model[at].contains_key(&key) && !model[other].contains_key(&key));
                }
            }
        }
        29 => {
            let other = key as usize % model.len();
            let copied = maps.copy(at, other);
            if copied.is_ok() {
                model[other] = model[at].clone();
            }
            assert!(copied != Err(OutOfMemory::Memory) && (copied.is_ok() || at != other && !model[at].is_empty()));
        }
        _ => {
            let other = key as usize % model.len();
            maps.swap(at, other);
            model.swap(at, other);
        }
    }
}

#[test]
fn maps_answer_as_a_vector_of_maps() {
    let mut random = Random(0x9e37_79b9_7f4a_7c15);
    for limit in [0, 3, 20, 200] {
        let mut maps: Maps<u32, u32> = Maps::with_node_limit((), limit);
        let mut model: Model = Vec::new();
        for _ in 0..4 {
            assert_eq!(maps.push(), Ok(model.len()));
            model.push(BTreeMap::new());
        }
        assert_eq!(maps.grow_to(9), Ok(()));
        model.resize(9, BTreeMap::new());
        for step in 0..STEPS / 4 {
            let (at, key) = (random.below(9) as usize, random.below(KEYS));
            read(&maps, &model, at, key);
            change(&mut maps, &mut model, random.below(35), at, key, step);
            if step % 4096 == 4095 {
                assert_eq!(format!("{maps:?}"), format!("{model:?}"));
                let copy = maps.clone();
                maps.clear_all();
                model.iter_mut().for_each(BTreeMap::clear);
                assert_eq!((maps.len(), maps.slots(), maps.free_slots(), maps.node_limit()), (9, 0, 0, limit));
                assert!(copy.slots() <= limit && (0..9).all(|it| maps.first(it).is_none()));
            }
        }
        for (at, map) in model.iter().enumerate() {
            assert!(maps.iter(at).eq(map.iter().map(|(k, v)| (*k, *v))));
            assert!(maps.iter_back(at).eq(map.iter().rev().map(|(k, v)| (*k, *v))));
        }
    }
}

#[test]
fn sets_answer_as_a_vector_of_sets() {
    let mut random = Random(0x2545_f491_4f6c_dd1d);
    for limit in [0, 3, 20, 200] {
        let mut sets: Sets<u32> = Sets::with_node_limit((), limit);
        sets.grow_to(8).unwrap();
        assert_eq!(sets.push(), Ok(8));
        let mut model = vec![BTreeSet::new(); 9];
        for step in 0..STEPS / 4 {
            let (at, key) = (random.below(9) as usize, random.below(KEYS * 2));
            assert_eq!(sets.contains(at, key), model[at].contains(&key));
            assert_eq!(sets.get_or_less(at, key), model[at].range(..=key).next_back().copied());
            assert_eq!(sets.get_or_greater(at, key), model[at].range(key..).next().copied());
            assert_eq!((sets.first(at), sets.last(at)), (model[at].first().copied(), model[at].last().copied()));
            assert!(sets.range(at, ..key).rev().eq(model[at].range(..key).rev().copied()));
            let other = key as usize % 9;
            assert_eq!(sets.is_subset(at, other), model[at].is_subset(&model[other]));
            assert_eq!(sets.is_disjoint(at, other), model[at].is_disjoint(&model[other]));
            match random.below(29) {
                0..10 => match if key % 2 == 0 { sets.insert(at, key) } else { sets.try_insert(at, key) } {
                    Ok(new) => assert_eq!(new, model[at].insert(key)),
                    Err(refused) => assert!(refused == OutOfMemory::Full && !model[at].contains(&key)),
                },
                10..18 => assert_eq!(sets.remove(at, key), model[at].remove(&key)),
                18 => assert_eq!(sets.pop_first(at), model[at].pop_first()),
                19 => assert_eq!(sets.pop_last(at), model[at].pop_last()),
                20 => {
                    sets.retain(at, |it| it % 5 != key % 5);
                    model[at].retain(|it| it % 5 != key % 5);
                }
                21 => {
                    sets.clear(at);
                    model[at].clear();
                }
                22 => {
                    sets.swap(at, key as usize % 9);
                    model.swap(at, key as usize % 9);
                }
                27 => {
                    let other = key as usize % 9;
                    match sets.move_key(at, key, other) {
                        Ok(moved) => {
                            assert_eq!(moved, model[at].remove(&key));
                            if moved {
                                model[other].insert(key);
                            }
                        }
                        Err(refused) => {
                            assert!(refused == OutOfMemory::Full && at != other);
                            assert!(model[at].contains(&key) && !model[other].contains(&key));
                        }
                    }
                }
                24 => {
                    let within = model[at].range(key..key + 9).count() > 0;
                    model[at].retain(|it| !(key..key + 9).contains(it));
                    assert_eq!(sets.remove_range(at, key..key + 9), within);
                }
                25 => {
                    let room = sets.node_limit() - (sets.slots() - sets.free_slots());
                    let fits = fewest_nodes(model[at].len(), 15) <= room;
                    assert_eq!(sets.compact(at), if fits { Ok(()) } else { Err(OutOfMemory::Full) });
                }
                26 => {
                    let room = sets.node_limit() - (sets.slots() - sets.free_slots());
                    let split = sets.split_off(at, key, key as usize % 9);
                    if split.is_ok() {
                        model[key as usize % 9] = model[at].split_off(&key);
                    } else {
                        assert!(split == Err(OutOfMemory::Full) && (room as usize) < sets.levels(at));
                        assert!(model[at].range(..key).count() > 0 && model[at].range(key..).count() > 0);
                    }
                }
                23 => match sets.copy(at, key as usize % 9) {
                    Ok(()) => model[key as usize % 9] = model[at].clone(),
                    Err(refused) => assert!(refused == OutOfMemory::Full && at != key as usize % 9 && !model[at].is_empty()),
                },
                _ => assert_eq!(sets.cursor(at).goto_first(), model[at].first().copied()),
            }
            assert_eq!(sets.len_of(at), model[at].len());
            if step % 4096 == 4095 {
                assert_eq!(format!("{sets:?}"), format!("{model:?}"));
                sets.clear_all();
                model.iter_mut().for_each(BTreeSet::clear);
                assert_eq!((sets.len(), sets.slots(), sets.levels(at), sets.node_limit()), (9, 0, 0, limit));
            }
        }
        for (at, set) in model.iter().enumerate() {
            assert!(sets.iter(at).eq(set.iter().copied()));
            assert!(sets.iter_back(at).eq(set.iter().rev().copied()));
        }
    }
}

/// Nodes are reserved up to the limit, and for so many maps or sets of so many entries; where the limit is less, nothing changes.
#[test]
fn room_is_reserved_up_to_the_limit() {
    let mut maps: Maps<u32, u32> = Maps::with_node_limit((), 35);
    let mut sets: Sets<u32> = Sets::with_node_limit((), 18);
    assert!(maps.is_empty() && sets.is_empty());
    assert_eq!((maps.reserve_nodes(36), sets.reserve_nodes(19)), (Err(OutOfMemory::Full), Err(OutOfMemory::Full)));
    assert_eq!((maps.reserve_nodes(5), sets.reserve_nodes(5)), (Ok(()), Ok(())));
    assert_eq!((maps.free_slots(), sets.free_slots(), maps.slots(), sets.slots()), (5, 5, 5, 5));
    // A map of 100 entries has 35 nodes at most, and a set of 100 keys 18.
    assert_eq!((maps.reserve_for(1, 101), sets.reserve_for(2, 100)), (Err(OutOfMemory::Full), Err(OutOfMemory::Full)));
    assert_eq!((maps.free_slots(), sets.free_slots()), (5, 5));
    assert_eq!((maps.reserve_for(1, 100), sets.reserve_for(1, 100)), (Ok(()), Ok(())));
    assert_eq!((maps.free_slots(), sets.free_slots()), (35, 18));
    assert!(maps.is_empty() && sets.is_empty());
    assert_eq!((maps.push(), sets.push()), (Ok(0), Ok(0)));
    assert!(!maps.is_empty() && !sets.is_empty());
}

/// The fewest nodes of so many entries, of which a leaf holds at most `leaf`: on each level above the leaves a node for each eight, up to one.
fn fewest_nodes(entries: usize, leaf: usize) -> u32 {
    let mut level = entries.div_ceil(leaf);
    let mut nodes = level;
    while level > 1 {
        level = level.div_ceil(8);
        nodes += level;
    }
    assert_eq!(nodes, if leaf == 7 { Map::<u32, u32>::fewest_nodes_for(entries) } else { Set::<u32>::fewest_nodes_for(entries) });
    nodes as u32
}

/// What a load has to answer: the order is tested first, and then whether the nodes can be had.
fn loaded(keys: &[u32], leaf: usize, room: u32) -> Result<(), LoadError> {
    match keys.windows(2).position(|it| it[0] >= it[1]) {
        Some(at) => Err(LoadError::Unordered(at)),
        None if fewest_nodes(keys.len(), leaf) > room => Err(LoadError::Refused(OutOfMemory::Full)),
        None => Ok(()),
    }
}

/// Loads of 0 to 400 entries at one of three indices, one in four with two neighbours that do not increase, under four limits.
#[test]
fn the_order_is_lent() {
    let maps: Maps<u32, u32, Reverse<()>> = Maps::new(Reverse(()));
    let sets: Sets<u32, Reverse<()>> = Sets::new(Reverse(()));
    assert_eq!(Comparator::cmp(maps.order(), 1, 2), Ordering::Greater);
    assert_eq!(Comparator::cmp(sets.order(), 1, 2), Ordering::Greater);
}

/// Loads two maps, and puts an entry into the second one.
fn two_maps(limit: u32, second: &[(u32, u32)]) -> Result<Maps<u32, u32>, LoadError> {
    let mut maps = Maps::with_node_limit((), limit);
    let one = maps.push()?;
    maps.load(one, &[(1, 10), (2, 20)])?;
    let other = maps.push()?;
    maps.load(other, second)?;
    maps.insert(other, 9, 90)?;
    Ok(maps)
}

#[test]
fn the_errors_of_a_load_and_of_an_insertion_are_one() {
    let maps = two_maps(2, &[(5, 50)]).unwrap();
    assert!(maps.iter(1).eq([(5, 50), (9, 90)]));
    assert_eq!(two_maps(2, &[(5, 50), (4, 40)]).err(), Some(LoadError::Unordered(0)));
    assert_eq!(two_maps(1, &[(5, 50)]).err(), Some(LoadError::Refused(OutOfMemory::Full)));
    assert_eq!(two_maps(1, &[]).err(), Some(LoadError::Refused(OutOfMemory::Full)));
}

#[test]
fn loads_by_an_index_answer_as_their_entries_say() {
    let mut random = Random(0x1234_5678_9abc_def1);
    for limit in [0, 9, 60, 400] {
        let mut maps: Maps<u32, u32> = Maps::with_node_limit((), limit);
        let mut sets: Sets<u32> = Sets::with_node_limit((), limit);
        maps.grow_to(3).unwrap();
        sets.grow_to(3).unwrap();
        let mut model: Model = vec![BTreeMap::new(); 3];
        let mut of_sets = vec![BTreeSet::new(); 3];
        for turn in 0..1000 {
            let (at, len) = (random.below(3) as usize, random.below(if turn % 2 == 0 { 20 } else { 401 }));
            let mut keys: Vec<u32> = (0..len).map(|it| 3 * it + random.below(3)).collect();
            if len > 1 && random.below(4) == 0 {
                let place = random.below(len - 1) as usize;
                keys[place + 1] = keys[place] - random.below(2).min(keys[place]);
            }
            let entries: Vec<(u32, u32)> = keys.iter().map(|key| (*key, random.below(1000))).collect();
            let room = limit - (maps.slots() - maps.free_slots());
            let answer = maps.load(at, &entries);
            assert_eq!(answer, loaded(&keys, 7, room));
            if answer.is_ok() {
                model[at] = entries.iter().copied().collect();
            }
            let room = limit - (sets.slots() - sets.free_slots());
            let answer = sets.load(at, &keys);
            assert_eq!(answer, loaded(&keys, 15, room));
            if answer.is_ok() {
                of_sets[at] = keys.iter().copied().collect();
            }
            for at in 0..3 {
                assert!(maps.iter(at).eq(model[at].iter().map(|(key, value)| (*key, *value))));
                assert!(sets.iter(at).eq(of_sets[at].iter().copied()));
                assert_eq!((maps.len_of(at), sets.len_of(at)), (model[at].len(), of_sets[at].len()));
            }
        }
    }
}

/// Maps and sets are removed from the back, beside a vector, and others are added.
#[test]
fn the_last_maps_and_sets_go() {
    let mut random = Random(0x0f1e_2d3c_4b5a_6978);
    let (mut maps, mut sets): (Maps<u32, u32>, Sets<u32>) = (Maps::new(()), Sets::new(()));
    let (mut model, mut of_sets): (Model, Vec<BTreeSet<u32>>) = (Vec::new(), Vec::new());
    assert!(!maps.pop() && !sets.pop());
    for turn in 0..2000 {
        match random.below(8) {
            0 => {
                assert_eq!((maps.pop(), sets.pop()), (model.pop().is_some(), of_sets.pop().is_some()));
            }
            1 => {
                let len = random.below(12) as usize;
                maps.truncate(len);
                sets.truncate(len);
                model.truncate(len);
                of_sets.truncate(len);
            }
            _ => {
                assert_eq!((maps.push(), sets.push()), (Ok(model.len()), Ok(model.len())));
                let keys: BTreeSet<u32> = (0..random.below(60)).map(|_| random.below(100)).collect();
                model.push(keys.iter().map(|key| (*key, turn)).collect());
                keys.iter().for_each(|key| assert!(maps.insert(of_sets.len(), *key, turn).is_ok() && sets.insert(of_sets.len(), *key).is_ok()));
                of_sets.push(keys);
            }
        }
        assert_eq!((format!("{maps:?}"), format!("{sets:?}")), (format!("{model:?}"), format!("{of_sets:?}")));
        assert_eq!(maps.nodes_in_use() + maps.free_slots(), maps.slots());
        assert_eq!(sets.nodes_in_use() + sets.free_slots(), sets.slots());
        if model.iter().all(BTreeMap::is_empty) {
            assert_eq!((maps.nodes_in_use(), sets.nodes_in_use()), (0, 0));
        }
    }
}

/// The text of the panic of a call.
fn panic_of<T>(call: impl FnOnce() -> T) -> String {
    let Err(met) = catch_unwind(AssertUnwindSafe(call)) else {
        panic!("the call returned");
    };
    match met.downcast::<String>() {
        Ok(text) => *text,
        Err(other) => (*other.downcast::<&str>().unwrap()).to_string(),
    }
}

#[test]
fn an_index_that_is_not_there_panics_and_is_named() {
    let mut maps: Maps<u32, u32> = Maps::default();
    maps.grow_to(3).unwrap();
    maps.insert(0, 1, 1).unwrap();
    for text in [
        panic_of(|| maps.get(7, 0)),
        panic_of(|| maps.insert(7, 0, 0)),
        panic_of(|| maps.swap(7, 0)),
        panic_of(|| maps.update(7, 0, |value| value)),
        panic_of(|| maps.get_mut(7, 0).is_some()),
        panic_of(|| maps.update_or_insert(7, 0, 0, |value| value)),
        panic_of(|| maps.copy(7, 0)),
        panic_of(|| maps.copy(0, 7)),
        panic_of(|| maps.split_off(7, 0, 0)),
        panic_of(|| maps.split_off(0, 0, 7)),
        panic_of(|| maps.iter(7).count()),
        panic_of(|| maps.len_of(7)),
        panic_of(|| maps.load(7, &[(1, 1)])),
        panic_of(|| maps.remove_range(7, ..)),
        panic_of(|| maps.compact(7)),
        panic_of(|| maps.cursor_mut(7).next()),
    ] {
        assert!(text.contains("the len is 3") && text.contains("the index is 7"), "{text}");
    }
    assert!(maps.iter(0).eq([(1, 1)]));
    assert!(Sets::<u32>::default().is_empty());
}

/// A copy needs as many nodes as what is copied has, before those of the map that it replaces are free. To itself a map is copied for nothing.
#[test]
fn a_copy_is_made_before_the_old_map_ends() {
    // A map of 8 entries has 3 nodes.
    for (limit, copied) in [(8, Err(OutOfMemory::Full)), (9, Ok(()))] {
        let mut maps: Maps<u32, u32> = Maps::with_node_limit((), limit);
        maps.grow_to(2).unwrap();
        for key in 0..8 {
            maps.insert(0, key, key).unwrap();
            maps.insert(1, 10 * key, key).unwrap();
        }
        assert_eq!((maps.slots(), maps.free_slots()), (6, 0));
        assert_eq!(maps.copy(1, 0), copied);
        let tens = if copied.is_ok() { 10 } else { 1 };
        assert!(maps.iter(0).eq((0..8).map(|key| (tens * key, key))));
        assert!(maps.iter(1).eq((0..8).map(|key| (10 * key, key))));
        assert_eq!((maps.slots(), maps.free_slots()), if copied.is_ok() { (9, 3) } else { (6, 0) });
        assert_eq!(maps.copy(1, 1), Ok(()));
    }
}

/// Where there is room for one map more than there are, no copy is refused.
#[test]
fn no_copy_fails_where_there_is_room_for_one_map_more() {
    const MOST: u32 = 40;
    let mut random = Random(0x9e37_79b9_7f4a_7c15);
    let mut maps: Maps<u32, u32> = Maps::new(());
    maps.grow_to(5).unwrap();
    maps.reserve_for(6, MOST as usize).unwrap();
    let slots = maps.slots();
    for _ in 0..20_000 {
        let (at, key) = (random.below(5) as usize, random.below(MOST));
        match random.below(4) {
            0 => maps.copy(at, random.below(5) as usize).unwrap(),
            1 => _ = maps.remove(at, key),
            _ => _ = maps.insert(at, key, key).unwrap(),
        }
        assert_eq!(maps.slots(), slots);
    }
}

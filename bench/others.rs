//! What a user would pick instead of a forest: a sorted vector for each map, and one `BTreeMap` of all maps.

use crate::runs::{added, Many, Maps, Value};
use crate::sides::{many, Held};
use std::collections::BTreeMap;

/// A vector for each map, sorted by the keys.
pub type Vecs<V> = Held<(), Vec<Vec<(u32, V)>>>;

// The index of a key, or else the index where it belongs.
fn find<V>(entries: &[(u32, V)], key: u32) -> Result<usize, usize> {
    entries.binary_search_by(|entry| entry.0.cmp(&key))
}

many! { Vecs<V>, V, (), where V: Value, |_, entries, key, value|
    insert => match find(entries, key) {
        Ok(at) => Some(std::mem::replace(&mut entries[at].1, value)),
        Err(at) => {
            entries.insert(at, (key, value));
            None
        }
    },
    get => find(entries, key).ok().map(|at| entries[at].1),
    remove => find(entries, key).ok().map(|at| entries.remove(at).1),
    clear => *entries = Vec::new(),
    walk => entries.iter().map(|(key, value)| value.number(*key)),
}

impl Maps for Vecs<u32> {
    fn read_on(&self, map: u32, sum: u64) -> u64 {
        let Some(entries) = self.maps.get(map as usize) else { return sum };
        entries.iter().fold(sum, |sum, (key, value)| added(sum, key.wrapping_add(*value)))
    }

    fn read_back(&self, map: u32, sum: u64) -> u64 {
        let Some(entries) = self.maps.get(map as usize) else { return sum };
        entries.iter().rev().fold(sum, |sum, (key, value)| added(sum, key.wrapping_add(*value)))
    }
}

/// One map of all: a key there is the number of a map and a key of that map.
pub struct OneMap<V> {
    map: BTreeMap<(u32, u32), V>,
}

impl<V: Value> Many<V> for OneMap<V> {
    fn new(_count: u32) -> Self {
        OneMap { map: BTreeMap::new() }
    }

    fn insert(&mut self, map: u32, key: u32, value: V) -> Option<V> {
        self.map.insert((map, key), value)
    }

    fn get(&self, map: u32, key: u32) -> Option<V> {
        self.map.get(&(map, key)).copied()
    }

    fn remove(&mut self, map: u32, key: u32) -> Option<V> {
        self.map.remove(&(map, key))
    }

    fn clear(&mut self, map: u32) {
        let keys: Vec<u32> = self.iter(map).map(|entry| entry.0).collect();
        for key in keys {
            self.map.remove(&(map, key));
        }
    }

    fn walk(&self, map: u32, sum: u64) -> u64 {
        self.iter(map).fold(sum, |sum, (key, value)| added(sum, value.number(key)))
    }
}

impl<V: Value> OneMap<V> {
    fn iter(&self, map: u32) -> impl DoubleEndedIterator<Item = (u32, V)> + '_ {
        self.map.range((map, 0)..=(map, u32::MAX)).map(|(key, value)| (key.1, *value))
    }
}

impl Maps for OneMap<u32> {
    fn read_on(&self, map: u32, sum: u64) -> u64 {
        self.iter(map).fold(sum, |sum, (key, value)| added(sum, key.wrapping_add(value)))
    }

    fn read_back(&self, map: u32, sum: u64) -> u64 {
        self.iter(map).rev().fold(sum, |sum, (key, value)| added(sum, key.wrapping_add(value)))
    }
}

//! Copies of handles in builds with guards: a call on one that is not live panics at once, and a call on one that is live is answered. Which
//! is which, `holds` says, that looks at each slot. All slots are asked after a tenth of `BFOREST_CALLS` random calls.
#![cfg(any(debug_assertions, feature = "guards"))]

mod met;
mod random;

use bforest::{Map, MapForest, Set, SetForest};
use met::{NOT_LIVE, met, refused};
use random::Random;
use std::fmt::Debug;

/// Calls on a handle in a forest: a look, an insertion, a removal and an iteration.
type Calls<H, F> = [(&'static str, fn(&mut H, &mut F)); 4];

/// What a test of maps and of sets needs. Keys are `u32`, and a map has each key as its value.
trait Handle: Clone + Debug + Default {
    type Forest: Clone;

    const CALLS: Calls<Self, Self::Forest>;
    /// How many slots a forest of random calls may have: so few that some of them are refused.
    const LIMIT: u32;

    fn forest(limit: u32) -> Self::Forest;
    fn slots(forest: &Self::Forest) -> u32;
    fn is_live(&self, forest: &Self::Forest) -> bool;
    fn keys(&self, forest: &Self::Forest) -> Vec<u32>;
    fn count(&self, forest: &Self::Forest) -> usize;
    fn put(&mut self, key: u32, forest: &mut Self::Forest);
    fn take(&mut self, key: u32, forest: &mut Self::Forest);

    /// Makes a drawn call on this handle, or on this one and another one.
    fn change(&mut self, other: &mut Self, forest: &mut Self::Forest, random: &mut Random);

    /// Makes the forest empty.
    fn end_all(forest: &mut Self::Forest);
}

type Numbers = Map<u32, u32>;
type NumbersForest = MapForest<u32, u32>;

/// Keys are drawn below this.
const KEYS: u32 = 60;

/// A key that is always less than those that are drawn, and those of `each_size`.
const LEAST: u32 = 0;

impl Handle for Numbers {
    type Forest = NumbersForest;

    const CALLS: Calls<Self, Self::Forest> = [
        ("get", |map, forest| _ = map.get(LEAST, forest, &())),
        ("insert", |map, forest| _ = map.insert(LEAST, LEAST, forest, &())),
        ("remove", |map, forest| _ = map.remove(LEAST, forest, &())),
        ("iter", |map, forest| _ = map.iter(forest).count()),
    ];
    const LIMIT: u32 = 40;

    fn forest(limit: u32) -> NumbersForest {
        MapForest::with_node_limit(limit)
    }

    fn slots(forest: &NumbersForest) -> u32 {
        forest.slots()
    }

    fn is_live(&self, forest: &NumbersForest) -> bool {
        forest.holds(self)
    }

    fn keys(&self, forest: &NumbersForest) -> Vec<u32> {
        self.iter(forest).map(|it| it.0).collect()
    }

    fn count(&self, forest: &NumbersForest) -> usize {
        self.len(forest)
    }

    fn put(&mut self, key: u32, forest: &mut NumbersForest) {
        self.insert(key, key, forest, &()).unwrap();
    }

    fn take(&mut self, key: u32, forest: &mut NumbersForest) {
        self.remove(key, forest, &());
    }

    fn change(&mut self, other: &mut Self, forest: &mut NumbersForest, random: &mut Random) {
        let key = 1 + random.below(KEYS);
        match random.below(35) {
            0..=7 => _ = self.insert(key, key, forest, &()),
            8..=9 => _ = self.get_or_insert(key, key, forest, &()),
            10..=11 => _ = self.update_or_insert(key, key, |it| it, forest, &()),
            12..=17 => _ = self.remove(key, forest, &()),
            18..=19 => _ = (self.pop_first(forest), self.pop_last(forest)),
            20..=22 => _ = self.cursor_mut(forest, &()).insert(key, key),
            23 => {
                let mut cursor = self.cursor_mut(forest, &());
                cursor.goto(key);
                while cursor.remove().is_some() {}
            }
            24 => self.retain(forest, |it, _| it % 3 != key % 3),
            25 if key % 4 == 0 => self.clear(forest),
            25 => _ = self.remove_range(key..key + 20, forest, &()),
            26 => _ = self.union_with(other, forest, &()),
            27 => _ = self.intersect_with(other, forest, &()),
            28 => _ = self.difference_with(other, forest, &()),
            29 => {
                other.clear(forest);
                *other = self.deep_clone(forest).unwrap_or_default();
            }
            30 => {
                let list: Vec<(u32, u32)> = (1..=key).map(|it| (it, it)).collect();
                self.clear(forest);
                *self = Map::load(&list, forest).unwrap_or_default();
            }
            31..=32 => _ = self.compact(forest),
            33 => {
                other.clear(forest);
                *other = self.split_off(key, forest, &()).unwrap_or_default();
            }
            _ => *forest = forest.clone(),
        }
    }

    fn end_all(forest: &mut NumbersForest) {
        forest.clear();
    }
}

impl Handle for Set<u32> {
    type Forest = SetForest<u32>;

    const CALLS: Calls<Self, Self::Forest> = [
        ("contains", |set, forest| _ = set.contains(LEAST, forest, &())),
        ("insert", |set, forest| _ = set.insert(LEAST, forest, &())),
        ("remove", |set, forest| _ = set.remove(LEAST, forest, &())),
        ("iter", |set, forest| _ = set.iter(forest).count()),
    ];
    const LIMIT: u32 = 16;

    fn forest(limit: u32) -> SetForest<u32> {
        SetForest::with_node_limit(limit)
    }

    fn slots(forest: &SetForest<u32>) -> u32 {
        forest.slots()
    }

    fn is_live(&self, forest: &SetForest<u32>) -> bool {
        forest.holds(self)
    }

    fn keys(&self, forest: &SetForest<u32>) -> Vec<u32> {
        self.iter(forest).collect()
    }

    fn count(&self, forest: &SetForest<u32>) -> usize {
        self.len(forest)
    }

    fn put(&mut self, key: u32, forest: &mut SetForest<u32>) {
        self.insert(key, forest, &()).unwrap();
    }

    fn take(&mut self, key: u32, forest: &mut SetForest<u32>) {
        self.remove(key, forest, &());
    }

    fn change(&mut self, other: &mut Self, forest: &mut SetForest<u32>, random: &mut Random) {
        let key = 1 + random.below(KEYS);
        match random.below(35) {
            0..=11 => _ = self.insert(key, forest, &()),
            12..=17 => _ = self.remove(key, forest, &()),
            18..=19 => _ = (self.pop_first(forest), self.pop_last(forest)),
            20..=22 => _ = self.cursor(forest, &()).insert(key),
            23 => {
                let mut cursor = self.cursor(forest, &());
                cursor.goto(key);
                while cursor.remove().is_some() {}
            }
            24 => self.retain(forest, |it| it % 3 != key % 3),
            25 if key % 4 == 0 => self.clear(forest),
            25 => _ = self.remove_range(key..key + 20, forest, &()),
            26 => _ = self.union_with(other, forest, &()),
            27 => _ = self.intersect_with(other, forest, &()),
            28 => _ = self.difference_with(other, forest, &()),
            29 => {
                other.clear(forest);
                *other = self.deep_clone(forest).unwrap_or_default();
            }
            30 => {
                let list: Vec<u32> = (1..=key).collect();
                self.clear(forest);
                *self = Set::load(&list, forest).unwrap_or_default();
            }
            31..=32 => _ = self.compact(forest),
            33 => {
                other.clear(forest);
                *other = self.split_off(key, forest, &()).unwrap_or_default();
            }
            _ => *forest = forest.clone(),
        }
    }

    fn end_all(forest: &mut SetForest<u32>) {
        forest.clear();
    }
}

/// Whether a handle is told as one that is not live, by a call that changes nothing.
fn is_told<H: Handle>(handle: &H, forest: &H::Forest) -> bool {
    met(|| handle.count(forest)).is_err_and(|said| said.text.starts_with(NOT_LIVE))
}

// Each copy that there can be of one handle.

/// How many entries a map or set has at most.
const MOST: u32 = 1000;

/// How often a root changes at least, from no entry to `MOST` and back: by the first entry, by each level and by the last entry.
const LEAST_CHANGES: usize = 8;

/// Keeps a copy of a handle that names a tree, if there is none yet.
fn keep<H: Handle>(copies: &mut Vec<H>, handle: &H) {
    let text = format!("{handle:?}");
    if text != format!("{:?}", H::default()) && copies.iter().all(|it| format!("{it:?}") != text) {
        copies.push(handle.clone());
    }
}

/// Makes each call on a copy, and returns whether it is live. Then its tree is that of the handle, and the calls are made in another forest
/// of the same trees, one after the other. Else each call is told, before it changes anything.
fn try_copy<H: Handle>(copy: &H, handle: &H, forest: &mut H::Forest) -> bool {
    if copy.is_live(forest) {
        assert_eq!(copy.keys(forest), handle.keys(forest));
        let (mut copy, mut forest) = (copy.clone(), forest.clone());
        H::CALLS.iter().for_each(|(_, call)| call(&mut copy, &mut forest));
        return true;
    }
    for (name, call) in H::CALLS {
        refused(name, NOT_LIVE, "slot ", || call(&mut copy.clone(), forest));
    }
    false
}

/// Puts the keys in and takes them out again, in the same order, and tries each copy of the handle after each call.
fn each_size<H: Handle>(keys: &[u32]) {
    let (mut handle, mut forest, mut copies) = (H::default(), H::forest(u32::MAX), Vec::new());
    let (mut told, mut changes) = (0, 0);
    for call in [H::put, H::take] {
        for &key in keys {
            keep(&mut copies, &handle);
            let before = format!("{handle:?}");
            call(&mut handle, key, &mut forest);
            changes += usize::from(format!("{handle:?}") != before);
            told += copies.iter().filter(|it| !try_copy(*it, &handle, &mut forest)).count();
        }
    }
    assert!(changes >= LEAST_CHANGES && told > keys.len(), "{changes} changes, {told} copies were told");
    assert!(handle.keys(&forest).is_empty());
}

/// The keys from 1 to `MOST` from the least up, from the greatest down, and scattered.
fn each_order<H: Handle>() {
    // no divisor of `MOST` but 1 divides it
    const STRIDE: u32 = 389;
    let ascending: Vec<u32> = (1..=MOST).collect();
    let descending: Vec<u32> = (1..=MOST).rev().collect();
    let scattered: Vec<u32> = (0..MOST).map(|it| 1 + it * STRIDE % MOST).collect();
    for keys in [ascending, descending, scattered] {
        each_size::<H>(&keys);
    }
}

#[test]
fn each_copy_of_a_map_at_each_size() {
    each_order::<Numbers>();
}

#[test]
fn each_copy_of_a_set_at_each_size() {
    each_order::<Set<u32>>();
}

// Random calls on several handles of one forest.

/// How many handles a forest has, and how many copies are kept.
const HANDLES: usize = 6;
const COPIES: usize = 40;

/// The handles of one forest, of which drawn ones are changed.
struct Changing<H: Handle> {
    handles: [H; HANDLES],
    forest: H::Forest,
    random: Random,
}

impl<H: Handle> Changing<H> {
    fn new(seed: u64) -> Self {
        Changing { handles: std::array::from_fn(|_| H::default()), forest: H::forest(H::LIMIT), random: Random(seed) }
    }

    /// Makes a drawn call on one handle, or on two. Rarely all trees end. Returns the handle as it was.
    fn step(&mut self) -> H {
        let at = self.random.below(HANDLES as u32) as usize;
        let before = self.handles[at].clone();
        if self.random.below(500) == 0 {
            H::end_all(&mut self.forest);
            self.handles = std::array::from_fn(|_| H::default());
            return before;
        }
        self.handles.swap(0, at);
        let [handle, other, ..] = &mut self.handles;
        handle.change(other, &mut self.forest, &mut self.random);
        before
    }
}

/// Tries the handle as it was before each of many random calls, and an older copy.
fn random_copies<H: Handle>(calls: usize) {
    let mut changing: Changing<H> = Changing::new(0x9e37_79b9_7f4a_7c15);
    let (mut copies, mut told) = (vec![H::default(); COPIES], 0);
    for step in 0..calls {
        let before = changing.step();
        let older = copies[changing.random.below(COPIES as u32) as usize].clone();
        let (name, call) = H::CALLS[step % H::CALLS.len()];
        for copy in [&before, &older] {
            let (mut copy, forest) = (copy.clone(), &mut changing.forest);
            if copy.is_live(forest) {
                assert!(!is_told(&copy, forest));
            } else {
                refused(name, NOT_LIVE, "slot ", || call(&mut copy, forest));
                told += 1;
            }
        }
        copies[step % COPIES] = before;
        assert!(changing.handles.iter().all(|it| !is_told(it, &changing.forest)), "after call {step}");
    }
    assert!(told > calls / 10, "{told} copies were told");
}

#[test]
fn random_copies_of_maps() {
    random_copies::<Numbers>(100_000);
}

#[test]
fn random_copies_of_sets() {
    random_copies::<Set<u32>>(100_000);
}

/// A handle of each slot number: those of so many trees of one node in another forest.
fn handles_of_slots<H: Handle>() -> Vec<H> {
    let mut forest = H::forest(H::LIMIT);
    let one = |_| {
        let mut handle = H::default();
        handle.put(1, &mut forest);
        handle
    };
    (0..H::LIMIT).map(one).collect()
}

/// How many random calls are made at least, of which some are refused memory.
const FEWEST: usize = 10_000;

/// A tenth of the calls that `BFOREST_CALLS` names, since a panic for most slots follows each.
fn tenth() -> usize {
    let all: usize = std::env::var("BFOREST_CALLS").map_or(100_000, |it| it.parse().expect("BFOREST_CALLS is a number"));
    FEWEST.max(all / 10)
}

/// After each of many random calls a handle of each slot is told exactly where `holds` says that it is not live.
fn each_slot<H: Handle>(calls: usize) {
    let (mut changing, handles): (Changing<H>, _) = (Changing::new(0x2545_f491_4f6c_dd1d), handles_of_slots::<H>());
    let mut most = 0;
    for call in 0..calls {
        changing.step();
        let slots = H::slots(&changing.forest);
        most = most.max(slots);
        for (slot, handle) in handles.iter().enumerate().take(slots as usize) {
            assert_eq!(is_told(handle, &changing.forest), !handle.is_live(&changing.forest), "slot {slot} after call {call}");
        }
    }
    assert_eq!(most, H::LIMIT);
}

#[test]
fn marks_of_maps_agree_with_holds() {
    each_slot::<Numbers>(tenth());
}

#[test]
fn marks_of_sets_agree_with_holds() {
    each_slot::<Set<u32>>(tenth());
}

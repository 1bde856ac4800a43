//! Random calls on maps and sets, cursors, ranges and iterators beside `BTreeMap`, under five orders and some limits; and the counts of
//! slots and of levels beside what their definitions say. `BFOREST_CALLS` is how many calls are made.

mod random;

use bforest::{Comparator, Map, MapForest, OutOfMemory, Set, SetCursor, SetForest};
use random::Random;
use std::cmp::{Ordering, Reverse};
use std::collections::BTreeMap;
use std::ops::{Bound, RangeBounds};

/// How many maps or sets a forest has.
pub const HANDLES: usize = 6;

/// An order of keys by a number for each.
pub trait Order: Comparator<u32> {
    /// Equal keys have one rank, and the less a key the less its rank.
    fn rank(&self, key: u32) -> i64;

    /// A key further on, by the same way for each key. The order that goes down has none behind 0, so there each key stays.
    fn later(&self, key: u32) -> u32 {
        key + 10
    }
}

/// The keys from the greatest down.
pub struct Down;

/// Keys that agree but for their last digit are equal.
pub struct Tens;

/// The order of the keys, with the searches that a comparator has if it names none.
pub struct Plain;

/// The order of the keys, which searches a node from its front.
pub struct FromFront;

/// How many orders there are, with that of the keys themselves.
const ORDERS: u32 = 5;

impl Comparator<u32> for Down {
    fn cmp(&self, a: u32, b: u32) -> Ordering {
        Reverse(a).cmp(&Reverse(b))
    }
}

impl Comparator<u32> for Tens {
    fn cmp(&self, a: u32, b: u32) -> Ordering {
        (a / 10).cmp(&(b / 10))
    }
}

impl Comparator<u32> for Plain {
    fn cmp(&self, a: u32, b: u32) -> Ordering {
        a.cmp(&b)
    }
}

impl Comparator<u32> for FromFront {
    fn cmp(&self, a: u32, b: u32) -> Ordering {
        a.cmp(&b)
    }

    fn search(&self, k: u32, s: &[u32]) -> Result<usize, usize> {
        for (at, key) in s.iter().enumerate() {
            match self.cmp(*key, k) {
                Ordering::Less => {}
                Ordering::Equal => return Ok(at),
                Ordering::Greater => return Err(at),
            }
        }
        Err(s.len())
    }
}

impl Order for () {
    fn rank(&self, key: u32) -> i64 {
        key.into()
    }
}

impl Order for Down {
    fn rank(&self, key: u32) -> i64 {
        -i64::from(key)
    }

    fn later(&self, key: u32) -> u32 {
        key
    }
}

impl Order for Tens {
    fn rank(&self, key: u32) -> i64 {
        i64::from(key / 10)
    }
}

impl Order for Plain {
    fn rank(&self, key: u32) -> i64 {
        key.into()
    }
}

impl Order for FromFront {
    fn rank(&self, key: u32) -> i64 {
        key.into()
    }
}

/// A key and its value, which in a set is always 0.
pub type Entry = (u32, u32);

/// What is done with a cursor.
#[derive(Clone, Copy, Debug)]
pub enum Step {
    Next,
    Prev,
    First,
    Goto(u32),
    Here,
    Insert(Entry),
    Write(u32),
    Remove,
}

/// A call on one map or set.
#[derive(Clone, Debug)]
pub enum Call {
    Insert(Entry),
    Remove(u32),
    Get(u32),
    GetOrLess(u32),
    GetOrGreater(u32),
    /// The first entry and the last.
    Ends,
    PopFirst,
    PopLast,
    /// A set inserts the key.
    GetOrInsert(Entry),
    /// The bits by which the value changes. A set tests for the key.
    Update(Entry),
    /// The value that is inserted, or the bits by which the value changes. A set inserts the key.
    UpdateOrInsert(Entry),
    /// All entries.
    Iter,
    /// Entries within bounds; of each step whether it is one from behind.
    Range(Bound<u32>, Bound<u32>, Vec<bool>),
    /// A cursor that reads.
    Read(Vec<Step>),
    /// A cursor that writes.
    Edit(Vec<Step>),
    /// Takes the entries within bounds out.
    RemoveRange(Bound<u32>, Bound<u32>),
    /// The entries from a key on go to the map or set of this handle, in place of what was there.
    SplitOff(u32, usize),
    Compact,
    /// Keeps the entries whose key has none of these bits; the value that they get, if they get one.
    Retain(u32, Option<u32>),
    Clear,
    /// A copy of the map or set of this handle, in place of what was there.
    Copy(usize),
    /// These entries, in order and one for each key, in place of what was there.
    Load(Vec<Entry>),
    /// Each key that is not less gets the one further on.
    Shift(u32),
    /// The forest's own `clear`, after which all handles are empty.
    Wipe,
    Reserve(u32),
}

/// What a call or a step answers.
#[derive(Clone, Debug, PartialEq, Eq)]
pub enum Answer {
    Done,
    Flag(bool),
    Value(Option<u32>),
    Entry(Option<Entry>),
    Put(Result<Option<u32>, OutOfMemory>),
    Reserved(Result<(), OutOfMemory>),
}

/// The entries in order, and of equal keys the first.
fn in_order(order: &impl Order, entries: &[Entry]) -> Vec<Entry> {
    let mut entries = entries.to_vec();
    entries.sort_by_key(|it| order.rank(it.0));
    entries.dedup_by_key(|it| order.rank(it.0));
    entries
}

/// Handles in one forest, of which each call names one.
pub trait Subject {
    /// What a call answers, step by step.
    fn call(&mut self, at: usize, call: &Call) -> Vec<Answer>;

    /// How many slots there are, how many of them lie free, and how many levels the tree of a handle has.
    fn counts(&self, at: usize) -> [usize; 3];
}

// The definitions.

/// The sizes of a tree's nodes, level by level, the leaves first: of each leaf its entries, of each other node its children.
#[derive(Clone, Default)]
struct Sizes(Vec<Vec<usize>>);

impl Sizes {
    fn nodes(&self) -> usize {
        self.0.iter().map(Vec::len).sum()
    }

    /// Of each level the node above a place, from the leaf up. A place between two leaves belongs to the left one where `left`.
    fn path(&self, place: usize, left: bool) -> Vec<usize> {
        let mut place = place;
        let mut path = Vec::new();
        for (height, level) in self.0.iter().enumerate() {
            let mut node = 0;
            while place > level[node] || place == level[node] && !(left && height == 0) {
                place -= level[node];
                node += 1;
            }
            path.push(node);
            place = node;
        }
        path
    }

    /// How many nodes a new entry at a place takes: one for each full node from its leaf up without a gap, and one for a new root.
    fn need(&self, place: usize, leaf: usize) -> usize {
        let path = self.path(place, true);
        let full = (0..path.len()).take_while(|&height| self.0[height][path[height]] == most(height, leaf)).count();
        full + usize::from(full == path.len())
    }

    /// An entry comes in: a node that has one too many becomes two.
    fn grow(&mut self, place: usize, leaf: usize) {
        let mut gaining = self.path(place, true);
        gaining.push(0);
        let mut child = 0;
        for (height, node) in gaining.into_iter().enumerate() {
            let Some(level) = self.0.get_mut(height) else {
                self.0.push(vec![if height == 0 { 1 } else { 2 }]);
                return;
            };
            let index = if height == 0 { 0 } else { child - level[..node].iter().sum::<usize>() };
            level[node] += 1;
            if level[node] <= most(height, leaf) {
                return;
            }
            let front = if height == 0 { leaf.div_ceil(2) } else { 4 + usize::from(index <= 3) };
            let behind = level[node] - front;
            level[node] = front;
            level.insert(node + 1, behind);
            child = node;
        }
    }

    /// The entry at a place goes: a node that is left with less than half shares with its right neighbour, or goes into it.
    fn shrink(&mut self, place: usize, leaf: usize) {
        let path = self.path(place, false);
        for (height, node) in path.into_iter().enumerate() {
            if !self.loses(height, node, most(height, leaf)) {
                break;
            }
        }
        self.trim();
    }

    /// `count` entries from a place on go: first, one by one, the leaves behind that of the place of which all entries go, each of which leaves
    /// the levels above as a leaf does that is merged into its right neighbour, and then the others, one after another. Returns how many those are.
    fn remove_leaves(&mut self, place: usize, count: usize) -> usize {
        let leaf = self.path(place, false)[0];
        let here = self.0[0][..=leaf].iter().sum::<usize>() - place;
        let mut left = count;
        while self.0[0].get(leaf + 1).is_some_and(|next| here + next <= left) {
            let path = self.path(place, false);
            left -= self.0[0].remove(leaf + 1);
            for (height, node) in path.into_iter().enumerate().skip(1) {
                if !self.loses(height, node, 8) {
                    break;
                }
            }
            self.trim();
        }
        left
    }

    /// All entries from a place on go at once: of each level the nodes that hold the first ones are left, the last with what is in front.
    fn truncate(&mut self, place: usize) {
        let mut kept = place;
        for level in &mut self.0 {
            let mut held = 0;
            level.retain_mut(|size| {
                *size = (kept - held).min(*size);
                held += *size;
                *size > 0
            });
            kept = level.len();
        }
        self.trim();
    }

    /// The entries from a place on go to a tree of their own, which is returned with the number of new nodes: one for each node that has entries
    /// or children on both sides. Of that tree the first node of each level, where it is at most half full, shares with its right neighbour, or
    /// goes into it.
    fn detach(&mut self, place: usize, leaf: usize) -> (Self, usize) {
        if place == 0 {
            return (std::mem::take(self), 0);
        }
        let mut behind = self.clone();
        let (mut gone, mut parted) = (place, false);
        let mut severed = 0;
        for level in &mut behind.0 {
            let nodes = level.len();
            level.retain_mut(|size| {
                let here = gone.min(*size);
                gone -= here;
                parted |= 0 < here && here < *size;
                *size -= here;
                *size > 0
            });
            gone = nodes - level.len();
            severed += usize::from(parted);
        }
        let mut lost = 0;
        for (height, level) in behind.0.iter_mut().enumerate() {
            let (nodes, most) = (level.len(), most(height, leaf));
            match level[..] {
                [first, second, ..] if 2 * first <= most && first + second <= most => {
                    level.remove(0);
                    level[0] += first;
                }
                [first, second, ..] if 2 * first <= most => {
                    level[0] = (first + second).div_ceil(2);
                    level[1] = (first + second) / 2;
                }
                _ => {}
            }
            if let Some(first) = level.first_mut() {
                *first -= lost;
            }
            lost = nodes - level.len();
        }
        behind.trim();
        self.truncate(place);
        (behind, severed)
    }

    /// Levels without a node go, and those above the first of one node.
    fn trim(&mut self) {
        while self.0.last().is_some_and(|top| top.is_empty() || self.0.len() > 1 && top[..] == [1]) {
            self.0.pop();
        }
    }

    /// As few nodes as so many entries can have: all of a level are full but the last.
    fn packed(entries: usize, leaf: usize) -> Self {
        let (mut levels, mut count) = (Vec::new(), entries);
        while count > 1 || levels.is_empty() && count > 0 {
            let most = most(levels.len(), leaf);
            let level: Vec<usize> = (0..count).step_by(most).map(|it| most.min(count - it)).collect();
            count = level.len();
            levels.push(level);
        }
        Sizes(levels)
    }

    /// A node loses one. Whether it goes.
    fn loses(&mut self, height: usize, node: usize, most: usize) -> bool {
        let level = &mut self.0[height];
        level[node] -= 1;
        let left = level[node];
        match level.get(node + 1) {
            _ if left == 0 => {}
            Some(right) if 2 * left < most && left + right <= most => level[node + 1] += left,
            Some(right) if 2 * left < most => {
                let all = left + right;
                level[node] = all - all / 2;
                level[node + 1] = all / 2;
                return false;
            }
            _ => return false,
        }
        level.remove(node);
        true
    }
}

fn most(height: usize, leaf: usize) -> usize {
    if height == 0 { leaf } else { 8 }
}

/// A map of the definitions: its entries by the rank of their keys, all ranks in order, and the sizes.
#[derive(Clone, Default)]
struct Listed {
    entries: BTreeMap<i64, Entry>,
    ranks: Vec<i64>,
    sizes: Sizes,
}

/// The definitions' forest.
pub struct Model<'a, C> {
    order: &'a C,
    /// How many entries a leaf can hold, and whether entries have values.
    leaf: usize,
    is_map: bool,
    limit: usize,
    slots: usize,
    free: usize,
    lists: Vec<Listed>,
}

impl<'a, C: Order> Model<'a, C> {
    pub fn new(order: &'a C, is_map: bool, limit: u32) -> Self {
        Model {
            order,
            leaf: if is_map { 7 } else { 15 },
            is_map,
            limit: limit as usize,
            slots: 0,
            free: 0,
            lists: (0..HANDLES).map(|_| Listed::default()).collect(),
        }
    }

    fn reserve(&mut self, n: usize) -> Result<(), OutOfMemory> {
        let added = n.saturating_sub(self.free);
        if added > self.limit - self.slots {
            return Err(OutOfMemory::Full);
        }
        self.slots += added;
        self.free += added;
        Ok(())
    }

    fn insert(&mut self, at: usize, (key, value): Entry) -> Result<Option<u32>, OutOfMemory> {
        let rank = self.order.rank(key);
        if let Some(entry) = self.lists[at].entries.get_mut(&rank) {
            return Ok(Some(std::mem::replace(&mut entry.1, value)));
        }
        let place = self.lists[at].ranks.partition_point(|it| *it < rank);
        let need = self.lists[at].sizes.need(place, self.leaf);
        self.reserve(need)?;
        self.free -= need;
        let list = &mut self.lists[at];
        list.sizes.grow(place, self.leaf);
        list.ranks.insert(place, rank);
        list.entries.insert(rank, (key, value));
        Ok(None)
    }

    fn update(&mut self, at: usize, key: u32, bits: u32) -> Option<u32> {
        self.lists[at].entries.get_mut(&self.order.rank(key)).map(|it| {
            it.1 ^= bits;
            it.1
        })
    }

    fn remove(&mut self, at: usize, rank: i64) -> Option<Entry> {
        let list = &mut self.lists[at];
        let entry = list.entries.remove(&rank)?;
        let place = list.ranks.partition_point(|it| *it < rank);
        let before = list.sizes.nodes();
        list.ranks.remove(place);
        list.sizes.shrink(place, self.leaf);
        self.free += before - list.sizes.nodes();
        Some(entry)
    }

    fn clear(&mut self, at: usize) {
        let list = std::mem::take(&mut self.lists[at]);
        self.free += list.sizes.nodes();
    }

    fn copy(&mut self, from: usize, to: usize) -> Result<(), OutOfMemory> {
        let copy = self.lists[from].clone();
        self.reserve(copy.sizes.nodes())?;
        self.free -= copy.sizes.nodes();
        self.clear(to);
        self.lists[to] = copy;
        Ok(())
    }

    fn load(&mut self, at: usize, entries: &[Entry]) -> Result<(), OutOfMemory> {
        let entries = in_order(self.order, entries).into_iter().map(|it| (self.order.rank(it.0), it)).collect();
        let loaded = self.packed(entries)?;
        self.clear(at);
        self.lists[at] = loaded;
        Ok(())
    }

    fn shift(&mut self, at: usize, from: u32) {
        let (order, list) = (self.order, &mut self.lists[at]);
        let later = list.entries.split_off(&order.rank(from)).into_values().map(|(key, value)| (order.later(key), value));
        list.entries.extend(later.map(|it| (order.rank(it.0), it)));
        list.ranks = list.entries.keys().copied().collect();
    }

    fn retain(&mut self, at: usize, bits: u32, put: Option<u32>) {
        for rank in self.lists[at].ranks.clone() {
            let entry = self.lists[at].entries.get_mut(&rank).unwrap();
            if entry.0 & bits != 0 {
                self.remove(at, rank);
            } else if let Some(value) = put {
                entry.1 = value;
            }
        }
    }

    /// The ranks within bounds, which may be crossed.
    fn within(&self, at: usize, low: Bound<u32>, high: Bound<u32>) -> Vec<i64> {
        let ranked = |bound: Bound<u32>| bound.map(|it| self.order.rank(it));
        let bounds = (ranked(low), ranked(high));
        self.lists[at].ranks.iter().copied().filter(|rank| bounds.contains(rank)).collect()
    }

    fn remove_range(&mut self, at: usize, low: Bound<u32>, high: Bound<u32>) -> bool {
        let within = self.within(at, low, high);
        if high == Bound::Unbounded {
            self.cut(at, &within);
        } else if low == Bound::Unbounded {
            self.cut_front(at, &within);
        } else if let Some(first) = within.first() {
            let list = &mut self.lists[at];
            let before = list.sizes.nodes();
            let place = list.ranks.partition_point(|it| it < first);
            within.iter().for_each(|rank| _ = list.entries.remove(rank));
            list.ranks.drain(place..place + within.len());
            let others = list.sizes.remove_leaves(place, within.len());
            (0..others).for_each(|_| list.sizes.shrink(place, self.leaf));
            self.free += before - list.sizes.nodes();
        }
        !within.is_empty()
    }

    /// The first entries go at once.
    fn cut_front(&mut self, at: usize, ahead: &[i64]) {
        let list = &mut self.lists[at];
        let before = list.sizes.nodes();
        ahead.iter().for_each(|rank| _ = list.entries.remove(rank));
        list.ranks.drain(..ahead.len());
        list.sizes = if list.ranks.is_empty() { Sizes::default() } else { list.sizes.detach(ahead.len(), self.leaf).0 };
        self.free += before - list.sizes.nodes();
    }

    /// The last entries go at once.
    fn cut(&mut self, at: usize, behind: &[i64]) {
        let list = &mut self.lists[at];
        let before = list.sizes.nodes();
        behind.iter().for_each(|rank| _ = list.entries.remove(rank));
        list.ranks.truncate(list.entries.len());
        if !behind.is_empty() {
            list.sizes.truncate(list.ranks.len());
        }
        self.free += before - list.sizes.nodes();
    }

    /// The tree of these entries, packed, for which its nodes are taken.
    fn packed(&mut self, entries: BTreeMap<i64, Entry>) -> Result<Listed, OutOfMemory> {
        let sizes = Sizes::packed(entries.len(), self.leaf);
        self.reserve(sizes.nodes())?;
        self.free -= sizes.nodes();
        Ok(Listed { ranks: entries.keys().copied().collect(), entries, sizes })
    }

    fn split_off(&mut self, at: usize, key: u32, to: usize) -> Result<(), OutOfMemory> {
        let rank = self.order.rank(key);
        let mut front = self.lists[at].clone();
        let entries = front.entries.split_off(&rank);
        let ranks = front.ranks.split_off(front.entries.len());
        if entries.is_empty() {
            self.clear(to);
            return Ok(());
        }
        let (sizes, severed) = front.sizes.detach(front.entries.len(), self.leaf);
        self.reserve(severed)?;
        let before = self.lists[at].sizes.nodes();
        let tail = Listed { entries, ranks, sizes };
        self.free = self.free + before - front.sizes.nodes() - tail.sizes.nodes();
        self.lists[at] = front;
        self.clear(to);
        self.lists[to] = tail;
        Ok(())
    }

    fn compact(&mut self, at: usize) -> Result<(), OutOfMemory> {
        let packed = self.packed(self.lists[at].entries.clone())?;
        self.clear(at);
        self.lists[at] = packed;
        Ok(())
    }

    fn range(&self, at: usize, low: Bound<u32>, high: Bound<u32>, ends: &[bool]) -> Vec<Answer> {
        let within: Vec<Entry> = self.within(at, low, high).iter().map(|rank| self.lists[at].entries[rank]).collect();
        let mut left = within.iter().copied();
        ends.iter().map(|&back| Answer::Entry(if back { left.next_back() } else { left.next() })).collect()
    }

    fn entry(&self, at: usize, place: usize) -> Option<Entry> {
        let list = &self.lists[at];
        list.ranks.get(place).map(|rank| list.entries[rank])
    }

    /// A step of a cursor, which is a place.
    fn step(&mut self, at: usize, place: &mut usize, step: Step) -> Answer {
        let count = self.lists[at].ranks.len();
        let place_of = |it: &Self, key| it.lists[at].ranks.partition_point(|rank| *rank < it.order.rank(key));
        match step {
            Step::Next => {
                *place = count.min(*place + 1);
                Answer::Entry(self.entry(at, *place))
            }
            Step::Prev if *place == 0 => Answer::Entry(None),
            Step::Prev => {
                *place -= 1;
                Answer::Entry(self.entry(at, *place))
            }
            Step::First => {
                *place = 0;
                Answer::Value(self.entry(at, 0).map(|it| it.1))
            }
            Step::Goto(key) => {
                *place = place_of(self, key);
                Answer::Value(self.lists[at].entries.get(&self.order.rank(key)).map(|it| it.1))
            }
            Step::Here => Answer::Entry(self.entry(at, *place)),
            Step::Insert(entry) => {
                let answer = self.insert(at, entry);
                *place = place_of(self, entry.0);
                Answer::Put(answer)
            }
            Step::Write(value) => Answer::Flag(match self.lists[at].ranks.get(*place).copied() {
                Some(rank) if self.is_map => {
                    self.lists[at].entries.get_mut(&rank).unwrap().1 = value;
                    true
                }
                _ => false,
            }),
            Step::Remove => Answer::Entry(match self.lists[at].ranks.get(*place).copied() {
                // The cursor of a map answers the value alone.
                Some(rank) => self.remove(at, rank).map(|it| if self.is_map { (0, it.1) } else { it }),
                None => None,
            }),
        }
    }
}

impl<C: Order> Subject for Model<'_, C> {
    fn call(&mut self, at: usize, call: &Call) -> Vec<Answer> {
        match call {
            Call::Insert(entry) => vec![Answer::Put(self.insert(at, *entry))],
            Call::Remove(key) => vec![Answer::Value(self.remove(at, self.order.rank(*key)).map(|it| it.1))],
            Call::Get(key) => vec![Answer::Value(self.lists[at].entries.get(&self.order.rank(*key)).map(|it| it.1))],
            Call::GetOrLess(key) => {
                let below = self.lists[at].entries.range(..=self.order.rank(*key)).next_back();
                vec![Answer::Entry(below.map(|it| *it.1))]
            }
            Call::GetOrGreater(key) => {
                let above = self.lists[at].entries.range(self.order.rank(*key)..).next();
                vec![Answer::Entry(above.map(|it| *it.1))]
            }
            Call::Ends => {
                let entries = &self.lists[at].entries;
                [entries.first_key_value(), entries.last_key_value()].map(|it| Answer::Entry(it.map(|it| *it.1))).into()
            }
            Call::PopFirst | Call::PopLast => {
                let ranks = &self.lists[at].ranks;
                let rank = if matches!(call, Call::PopFirst) { ranks.first() } else { ranks.last() };
                vec![Answer::Entry(rank.copied().and_then(|it| self.remove(at, it)))]
            }
            Call::GetOrInsert(entry) => match self.lists[at].entries.get(&self.order.rank(entry.0)) {
                Some(stored) => vec![Answer::Put(Ok(Some(stored.1)))],
                None => vec![Answer::Put(self.insert(at, *entry).map(|_| Some(entry.1)))],
            },
            Call::Update((key, bits)) => vec![Answer::Value(self.update(at, *key, *bits))],
            Call::UpdateOrInsert((key, value)) => match self.update(at, *key, *value) {
                Some(changed) => vec![Answer::Put(Ok(Some(changed)))],
                None => vec![Answer::Put(self.insert(at, (*key, *value)).map(|_| Some(*value)))],
            },
            Call::Iter => self.lists[at].entries.values().map(|it| Answer::Entry(Some(*it))).collect(),
            Call::Range(low, high, ends) => self.range(at, *low, *high, ends),
            Call::Read(steps) | Call::Edit(steps) => {
                let mut place = self.lists[at].ranks.len();
                steps.iter().map(|step| self.step(at, &mut place, *step)).collect()
            }
            Call::RemoveRange(low, high) => vec![Answer::Flag(self.remove_range(at, *low, *high))],
            Call::SplitOff(key, to) => vec![Answer::Reserved(self.split_off(at, *key, *to))],
            Call::Compact => vec![Answer::Reserved(self.compact(at))],
            Call::Retain(bits, put) => {
                self.retain(at, *bits, put.filter(|_| self.is_map));
                vec![Answer::Done]
            }
            Call::Clear => {
                self.clear(at);
                vec![Answer::Done]
            }
            Call::Copy(from) => vec![Answer::Reserved(self.copy(*from, at))],
            Call::Load(entries) => vec![Answer::Reserved(self.load(at, entries))],
            Call::Shift(from) => {
                self.shift(at, *from);
                vec![Answer::Done]
            }
            Call::Wipe => {
                self.lists.fill_with(Listed::default);
                (self.slots, self.free) = (0, 0);
                vec![Answer::Done]
            }
            Call::Reserve(n) => vec![Answer::Reserved(self.reserve(*n as usize))],
        }
    }

    fn counts(&self, at: usize) -> [usize; 3] {
        let nodes: usize = self.lists.iter().map(|it| it.sizes.nodes()).sum();
        assert_eq!(self.slots - self.free, nodes);
        [self.slots, self.free, self.lists[at].sizes.0.len()]
    }
}

// The library.

/// Maps of the library.
pub struct Maps<'a, C> {
    pub order: &'a C,
    pub forest: MapForest<u32, u32>,
    pub maps: Vec<Map<u32, u32>>,
}

impl<'a, C: Order> Maps<'a, C> {
    pub fn new(order: &'a C, limit: u32) -> Self {
        Maps { order, forest: MapForest::with_node_limit(limit), maps: (0..HANDLES).map(|_| Map::new()).collect() }
    }

    fn copy(&mut self, from: usize, to: usize) -> Result<(), OutOfMemory> {
        let copy = self.maps[from].deep_clone(&mut self.forest)?;
        self.maps[to].clear(&mut self.forest);
        self.maps[to] = copy;
        Ok(())
    }

    fn load(&mut self, at: usize, entries: &[Entry]) -> Result<(), OutOfMemory> {
        let entries = in_order(self.order, entries);
        let loaded = Map::load(&entries, &mut self.forest)?;
        self.maps[at].clear(&mut self.forest);
        self.maps[at] = loaded;
        assert_eq!(self.maps[at].len(&self.forest), entries.len());
        Ok(())
    }

    fn split_off(&mut self, at: usize, key: u32, to: usize) -> Result<(), OutOfMemory> {
        let tail = self.maps[at].split_off(key, &mut self.forest, self.order)?;
        self.maps[to].clear(&mut self.forest);
        self.maps[to] = tail;
        Ok(())
    }

    fn read(&self, at: usize, steps: &[Step]) -> Vec<Answer> {
        let mut cursor = self.maps[at].cursor(&self.forest, self.order);
        let step = |step: &Step| match *step {
            Step::Next => Answer::Entry(cursor.next()),
            Step::Prev => Answer::Entry(cursor.prev()),
            Step::First => Answer::Value(cursor.goto_first()),
            Step::Goto(key) => {
                cursor.goto_end();
                assert_eq!(cursor.entry(), None);
                Answer::Value(cursor.goto(key))
            }
            _ => {
                assert_eq!(cursor.key().zip(cursor.value()), cursor.entry());
                assert!(cursor.entry().is_none() || !cursor.is_empty());
                Answer::Entry(cursor.entry())
            }
        };
        steps.iter().map(step).collect()
    }

    fn edit(&mut self, at: usize, steps: &[Step]) -> Vec<Answer> {
        let mut cursor = self.maps[at].cursor_mut(&mut self.forest, self.order);
        let step = |step: &Step| match *step {
            Step::Next => Answer::Entry(cursor.next()),
            Step::Prev => Answer::Entry(cursor.prev()),
            Step::First => Answer::Value(cursor.goto_first()),
            Step::Goto(key) => Answer::Value(cursor.goto(key)),
            Step::Here => {
                assert_eq!(cursor.key().zip(cursor.value()), cursor.entry());
                assert!(cursor.entry().is_none() || !cursor.is_empty());
                Answer::Entry(cursor.entry())
            }
            Step::Insert((key, value)) if key % 2 == 0 => Answer::Put(cursor.insert(key, value)),
            Step::Insert((key, value)) => Answer::Put(cursor.try_insert(key, value)),
            Step::Write(value) => Answer::Flag(cursor.value_mut().map(|it| *it = value).is_some()),
            Step::Remove => Answer::Entry(cursor.remove().map(|it| (0, it))),
        };
        steps.iter().map(step).collect()
    }
}

impl<C: Order> Subject for Maps<'_, C> {
    fn call(&mut self, at: usize, call: &Call) -> Vec<Answer> {
        let (order, forest, map) = (self.order, &mut self.forest, &mut self.maps[at]);
        match call {
            Call::Insert((key, value)) if key % 2 == 0 => vec![Answer::Put(map.insert(*key, *value, forest, order))],
            Call::Insert((key, value)) => vec![Answer::Put(map.try_insert(*key, *value, forest, order))],
            Call::Remove(key) => vec![Answer::Value(map.remove(*key, forest, order))],
            Call::Get(key) => {
                let value = map.get(*key, forest, order);
                assert_eq!(map.contains_key(*key, forest, order), value.is_some());
                vec![Answer::Value(value)]
            }
            Call::GetOrLess(key) => vec![Answer::Entry(map.get_or_less(*key, forest, order))],
            Call::GetOrGreater(key) => vec![Answer::Entry(map.get_or_greater(*key, forest, order))],
            Call::Ends => vec![Answer::Entry(map.first(forest)), Answer::Entry(map.last(forest))],
            Call::PopFirst => vec![Answer::Entry(map.pop_first(forest))],
            Call::PopLast => vec![Answer::Entry(map.pop_last(forest))],
            Call::GetOrInsert((key, value)) => vec![Answer::Put(map.get_or_insert(*key, *value, forest, order).map(Some))],
            Call::Update((key, bits)) if key % 2 == 0 => vec![Answer::Value(map.update(*key, |it| it ^ bits, forest, order))],
            Call::Update((key, bits)) => {
                let changed = forest.get_mut(map, *key, order).map(|it| {
                    *it ^= bits;
                    *it
                });
                vec![Answer::Value(changed)]
            }
            Call::UpdateOrInsert((key, value)) => {
                vec![Answer::Put(map.update_or_insert(*key, *value, |it| it ^ value, forest, order).map(Some))]
            }
            Call::Iter => {
                assert!(map.increases(forest, order) && map.is_empty() == map.iter(forest).next().is_none());
                let mut entries: Vec<_> = map.iter_back(forest).map(|it| Answer::Entry(Some(it))).collect();
                entries.reverse();
                assert!(map.iter(forest).map(|it| Answer::Entry(Some(it))).eq(entries.iter().cloned()));
                entries
            }
            Call::Range(low, high, ends) => {
                let mut range = map.range((*low, *high), forest, order);
                ends.iter().map(|&back| Answer::Entry(if back { range.next_back() } else { range.next() })).collect()
            }
            Call::Read(steps) => self.read(at, steps),
            Call::Edit(steps) => self.edit(at, steps),
            Call::RemoveRange(low, high) => vec![Answer::Flag(map.remove_range((*low, *high), forest, order))],
            Call::SplitOff(key, to) => vec![Answer::Reserved(self.split_off(at, *key, *to))],
            Call::Compact => vec![Answer::Reserved(map.compact(forest))],
            Call::Retain(bits, put) => {
                map.retain(forest, |key, value| {
                    *value = put.unwrap_or(*value);
                    key & bits == 0
                });
                vec![Answer::Done]
            }
            Call::Clear => {
                map.clear(forest);
                vec![Answer::Done]
            }
            Call::Copy(from) => vec![Answer::Reserved(self.copy(*from, at))],
            Call::Load(entries) => vec![Answer::Reserved(self.load(at, entries))],
            Call::Shift(from) => {
                map.shift(*from, |key| order.later(key), forest, order);
                vec![Answer::Done]
            }
            Call::Wipe => {
                forest.clear();
                assert_eq!(forest.holds(map), map.is_empty());
                self.maps.fill_with(Map::default);
                vec![Answer::Done]
            }
            Call::Reserve(n) => vec![Answer::Reserved(forest.reserve_nodes(*n))],
        }
    }

    fn counts(&self, at: usize) -> [usize; 3] {
        let (slots, free) = (self.forest.slots() as usize, self.forest.free_slots() as usize);
        assert_eq!(self.forest.nodes_in_use() as usize, slots - free);
        assert!(slots <= self.forest.node_limit() as usize);
        [slots, free, self.maps[at].levels(&self.forest)]
    }
}

/// Sets of the library.
pub struct Sets<'a, C> {
    pub order: &'a C,
    pub forest: SetForest<u32>,
    pub sets: Vec<Set<u32>>,
}

/// What a map of the key would answer.
fn as_entry(key: Option<u32>) -> Answer {
    Answer::Entry(key.map(|it| (it, 0)))
}

fn as_value(is_there: bool) -> Answer {
    Answer::Value(is_there.then_some(0))
}

fn as_put(put: Result<bool, OutOfMemory>) -> Answer {
    Answer::Put(put.map(|is_new| if is_new { None } else { Some(0) }))
}

fn set_step<C: Comparator<u32>>(cursor: &mut SetCursor<'_, u32, C>, step: Step) -> Answer {
    match step {
        Step::Next => as_entry(cursor.next()),
        Step::Prev => as_entry(cursor.prev()),
        Step::First => as_value(cursor.goto_first().is_some()),
        Step::Goto(key) => as_value(cursor.goto(key)),
        Step::Here => {
            assert!(cursor.elem().is_none() || !cursor.is_empty());
            as_entry(cursor.elem())
        }
        Step::Insert((key, _)) if key % 2 == 0 => as_put(cursor.insert(key)),
        Step::Insert((key, _)) => as_put(cursor.try_insert(key)),
        Step::Write(_) => Answer::Flag(false),
        Step::Remove => as_entry(cursor.remove()),
    }
}

impl<'a, C: Order> Sets<'a, C> {
    pub fn new(order: &'a C, limit: u32) -> Self {
        Sets { order, forest: SetForest::with_node_limit(limit), sets: (0..HANDLES).map(|_| Set::new()).collect() }
    }

    fn copy(&mut self, from: usize, to: usize) -> Result<(), OutOfMemory> {
        let copy = self.sets[from].deep_clone(&mut self.forest)?;
        self.sets[to].clear(&mut self.forest);
        self.sets[to] = copy;
        Ok(())
    }

    fn load(&mut self, at: usize, entries: &[Entry]) -> Result<(), OutOfMemory> {
        let keys: Vec<u32> = in_order(self.order, entries).into_iter().map(|it| it.0).collect();
        let loaded = Set::load(&keys, &mut self.forest)?;
        self.sets[at].clear(&mut self.forest);
        self.sets[at] = loaded;
        assert_eq!(self.sets[at].len(&self.forest), keys.len());
        Ok(())
    }

    fn split_off(&mut self, at: usize, key: u32, to: usize) -> Result<(), OutOfMemory> {
        let tail = self.sets[at].split_off(key, &mut self.forest, self.order)?;
        self.sets[to].clear(&mut self.forest);
        self.sets[to] = tail;
        Ok(())
    }
}

impl<C: Order> Subject for Sets<'_, C> {
    fn call(&mut self, at: usize, call: &Call) -> Vec<Answer> {
        let (order, forest, set) = (self.order, &mut self.forest, &mut self.sets[at]);
        match call {
            Call::Insert((key, _)) if key % 2 == 0 => vec![as_put(set.insert(*key, forest, order))],
            Call::Insert((key, _)) => vec![as_put(set.try_insert(*key, forest, order))],
            Call::Remove(key) => vec![as_value(set.remove(*key, forest, order))],
            Call::Get(key) => vec![as_value(set.contains(*key, forest, order))],
            Call::GetOrLess(key) => vec![as_entry(set.get_or_less(*key, forest, order))],
            Call::GetOrGreater(key) => vec![as_entry(set.get_or_greater(*key, forest, order))],
            Call::Ends => vec![as_entry(set.first(forest)), as_entry(set.last(forest))],
            Call::PopFirst => vec![as_entry(set.pop_first(forest))],
            Call::PopLast => vec![as_entry(set.pop_last(forest))],
            Call::GetOrInsert((key, _)) | Call::UpdateOrInsert((key, _)) => {
                vec![Answer::Put(set.insert(*key, forest, order).map(|_| Some(0)))]
            }
            Call::Update((key, _)) => vec![as_value(set.contains(*key, forest, order))],
            Call::Iter => {
                assert!(set.increases(forest, order) && set.is_empty() == set.iter(forest).next().is_none());
                let mut keys: Vec<_> = set.iter_back(forest).map(|it| as_entry(Some(it))).collect();
                keys.reverse();
                assert!(set.iter(forest).map(|it| as_entry(Some(it))).eq(keys.iter().cloned()));
                keys
            }
            Call::Range(low, high, ends) => {
                let mut range = set.range((*low, *high), forest, order);
                ends.iter().map(|&back| as_entry(if back { range.next_back() } else { range.next() })).collect()
            }
            Call::Read(steps) | Call::Edit(steps) => {
                let mut cursor = set.cursor(forest, order);
                steps.iter().map(|step| set_step(&mut cursor, *step)).collect()
            }
            Call::RemoveRange(low, high) => vec![Answer::Flag(set.remove_range((*low, *high), forest, order))],
            Call::SplitOff(key, to) => vec![Answer::Reserved(self.split_off(at, *key, *to))],
            Call::Compact => vec![Answer::Reserved(set.compact(forest))],
            Call::Retain(bits, _) => {
                set.retain(forest, |key| key & bits == 0);
                vec![Answer::Done]
            }
            Call::Clear => {
                set.clear(forest);
                vec![Answer::Done]
            }
            Call::Copy(from) => vec![Answer::Reserved(self.copy(*from, at))],
            Call::Load(entries) => vec![Answer::Reserved(self.load(at, entries))],
            Call::Shift(from) => {
                set.shift(*from, |key| order.later(key), forest, order);
                vec![Answer::Done]
            }
            Call::Wipe => {
                forest.clear();
                assert_eq!(forest.holds(set), set.is_empty());
                self.sets.fill_with(Set::default);
                vec![Answer::Done]
            }
            Call::Reserve(n) => vec![Answer::Reserved(forest.reserve_nodes(*n))],
        }
    }

    fn counts(&self, at: usize) -> [usize; 3] {
        let (slots, free) = (self.forest.slots() as usize, self.forest.free_slots() as usize);
        assert_eq!(self.forest.nodes_in_use() as usize, slots - free);
        assert!(slots <= self.forest.node_limit() as usize);
        [slots, free, self.sets[at].levels(&self.forest)]
    }
}

// The runs.

/// What is drawn in a run.
#[derive(Clone, Copy)]
pub struct Draw {
    pub limit: u32,
    /// How many keys there are.
    pub keys: u32,
    /// How many of 64 calls are removals.
    pub losses: u32,
    /// Whether the entries of a set have a value, which is 0.
    pub is_map: bool,
}

impl Draw {
    fn value(&self, random: &mut Random) -> u32 {
        if self.is_map { random.below(1000) } else { 0 }
    }

    fn bound(&self, random: &mut Random) -> Bound<u32> {
        match random.below(5) {
            0 => Bound::Unbounded,
            1 | 2 => Bound::Included(random.below(self.keys)),
            _ => Bound::Excluded(random.below(self.keys)),
        }
    }

    fn steps(&self, random: &mut Random, kinds: u32) -> Vec<Step> {
        let mut key = random.below(self.keys);
        let count = 1 + random.below(12);
        let mut step = |_| {
            key = if random.below(4) == 0 { random.below(self.keys) } else { key.saturating_add(random.below(3)) };
            match random.below(kinds) {
                0 | 1 => Step::Next,
                2 => Step::Prev,
                3 => Step::Here,
                4 => Step::Goto(key),
                5 => Step::First,
                6..=8 => Step::Insert((key, if self.is_map { key } else { 0 })),
                9 => Step::Write(key),
                _ => Step::Remove,
            }
        };
        (0..count).map(&mut step).collect()
    }

    /// A call without an order.
    fn call(&self, random: &mut Random) -> Call {
        let key = random.below(self.keys);
        let kind = random.below(64);
        if kind < self.losses {
            return match random.below(8) {
                0 => Call::PopFirst,
                1 => Call::PopLast,
                _ => Call::Remove(key),
            };
        }
        match random.below(64) {
            0..=25 => Call::Insert((key, self.value(random))),
            26..=27 => Call::UpdateOrInsert((key, self.value(random))),
            28..=31 => Call::GetOrInsert((key, self.value(random))),
            32..=33 => Call::Get(key),
            34..=35 => Call::Update((key, self.value(random))),
            36..=39 => Call::GetOrLess(key),
            40..=42 => Call::GetOrGreater(key),
            43 => Call::Ends,
            44..=49 => {
                let (low, high) = (self.bound(random), self.bound(random));
                let count = random.below(12);
                Call::Range(low, high, (0..count).map(|_| random.below(2) == 1).collect())
            }
            50..=52 => Call::Read(self.steps(random, 6)),
            53 => self.part(random),
            54..=60 => Call::Edit(self.steps(random, 12)),
            61 => Call::Iter,
            _ => self.rare(random),
        }
    }

    /// A call that takes a part of a map or set out, or packs all of it. Most ranges are short.
    fn part(&self, random: &mut Random) -> Call {
        let (from, to) = (random.below(self.keys), random.below(HANDLES as u32) as usize);
        let length = random.below(1 + self.keys / 8);
        match random.below(16) {
            0 => Call::RemoveRange(self.bound(random), self.bound(random)),
            1..=3 => Call::RemoveRange(Bound::Included(from), Bound::Excluded(from.saturating_add(length))),
            4..=6 => Call::RemoveRange(Bound::Excluded(from), Bound::Included(from.saturating_add(length))),
            7..=8 => Call::RemoveRange(Bound::Excluded(from.saturating_add(length)), Bound::Excluded(from)),
            9..=12 => Call::SplitOff(from, to),
            _ => Call::Compact,
        }
    }

    /// A call that ends much, or takes slots.
    fn rare(&self, random: &mut Random) -> Call {
        match random.below(64) {
            0 => Call::Wipe,
            1..=7 => Call::Clear,
            8..=15 => Call::Retain(1 << random.below(8), Some(self.value(random))),
            16..=31 => Call::Retain(1 << random.below(8) | 1 << random.below(8), None),
            32 => Call::Reserve(self.limit),
            33..=40 => Call::Reserve(random.below(200)),
            41..=50 => Call::Copy(random.below(HANDLES as u32) as usize),
            51..=56 => {
                let count = random.below(200);
                Call::Load((0..count).map(|_| (random.below(self.keys), self.value(random))).collect())
            }
            57..=60 => Call::Shift(random.below(self.keys)),
            _ => Call::Iter,
        }
    }
}

/// Makes `calls` calls on both, and compares each answer by `is_same` and the counts after each where they are told.
pub fn compare(
    tried: &mut impl Subject,
    model: &mut impl Subject,
    draw: Draw,
    calls: u32,
    is_same: impl Fn(&Call, &[Answer], &[Answer]) -> bool,
) {
    let mut random = Random(0x9e37_79b9_7f4a_7c15 ^ u64::from(draw.keys * 64 + draw.losses));
    for number in 0..calls {
        let at = random.below(HANDLES as u32) as usize;
        // Where the limit is that of the names, no one reserves them all.
        let call = match draw.call(&mut random) {
            Call::Reserve(u32::MAX) => Call::Iter,
            call => call,
        };
        let (answer, wanted) = (tried.call(at, &call), model.call(at, &call));
        assert!(is_same(&call, &answer, &wanted), "call {number}, {call:?} of {at}: {answer:?}, and not {wanted:?}");
        assert_eq!(tried.counts(at), model.counts(at), "call {number}, {call:?} of {at}");
    }
}

/// The runs of one order: its share of all calls.
fn run<C: Order>(order: &C) {
    let all: u32 = std::env::var("BFOREST_CALLS").map_or(100_000, |it| it.parse().expect("BFOREST_CALLS is a number"));
    let limited = [
        (u32::MAX, 2000, 8),
        (u32::MAX, 300, 24),
        (u32::MAX, 5000, 0),
        (80, 300, 8),
        (12, 120, 16),
        (1, 60, 16),
        (0, 9, 4),
    ];
    for is_map in [true, false] {
        for (limit, keys, losses) in limited {
            let draw = Draw { limit, keys, losses, is_map };
            let calls = all.div_ceil(ORDERS * 2 * limited.len() as u32);
            let mut model = Model::new(order, is_map, limit);
            let is_same = |_: &Call, answer: &[Answer], wanted: &[Answer]| answer == wanted;
            if is_map {
                let mut maps = Maps::new(order, limit);
                compare(&mut maps, &mut model, draw, calls, is_same);
                let wanted = model.call(0, &Call::Iter);
                let last = maps.maps.swap_remove(0).into_iter(maps.forest);
                assert!(last.map(|it| Answer::Entry(Some(it))).eq(wanted));
            } else {
                compare(&mut Sets::new(order, limit), &mut model, draw, calls, is_same);
            }
        }
    }
}

#[test]
fn of_the_keys() {
    run(&());
}

#[test]
fn of_a_comparator() {
    run(&Plain);
}

#[test]
fn searched_from_the_front() {
    run(&FromFront);
}

#[test]
fn reversed() {
    run(&Down);
}

#[test]
fn of_equal_keys() {
    run(&Tens);
}

/// A copy of a handle is live as long as the levels stay.
#[test]
fn copies_of_handles() {
    let mut forest: MapForest<u32, u32> = MapForest::new();
    let mut map = Map::new();
    let mut random = Random(1);
    for step in 0..4000 {
        let (copy, levels) = (map.clone(), map.levels(&forest));
        let key = random.below(400);
        if random.below(10) < if step < 2000 { 7 } else { 3 } {
            map.insert(key, step, &mut forest, &()).unwrap();
        } else {
            map.remove(key, &mut forest, &());
        }
        assert_eq!(forest.holds(&copy), levels == 0 || levels == map.levels(&forest));
        assert_eq!(map.is_same_handle(&copy), levels == map.levels(&forest));
        assert!(forest.holds(&map) && map.increases(&forest, &()));
    }
}

/// So are copies of handles of sets.
#[test]
fn copies_of_handles_of_sets() {
    let mut forest = SetForest::new();
    let mut set = Set::new();
    let mut random = Random(2);
    for step in 0..4000 {
        let (copy, levels) = (set.clone(), set.levels(&forest));
        let key = random.below(800);
        if random.below(10) < if step < 2000 { 7 } else { 3 } {
            set.insert(key, &mut forest, &()).unwrap();
        } else {
            set.remove(key, &mut forest, &());
        }
        assert_eq!(set.is_same_handle(&copy), levels == set.levels(&forest));
    }
}

//! What debug builds, and those with the feature `guards`, keep and test beside the proved code: which slots are roots, whether a handle
//! names one, and the order of the keys beside a place that was searched. Nothing in this file is proved, and other builds have nothing of
//! it.

#[cfg(any(debug_assertions, feature = "guards"))]
use crate::bforest_core::Path;
use crate::bforest_core::{Comparator, Node, NodePool, PackedNode};
use crate::bforest_trees::Trees;
#[cfg(any(debug_assertions, feature = "guards"))]
use crate::bforest_trees::Reader;
#[cfg(any(debug_assertions, feature = "guards"))]
use core::fmt::Arguments;
use core::ops::Bound;

/// Whether a slot is the root of a tree. It is kept in the slot itself, so that it takes no memory that could be refused. Without guards it
/// is nothing.
#[derive(Clone, Copy)]
pub(crate) struct RootMark(#[cfg(any(debug_assertions, feature = "guards"))] bool);

impl RootMark {
    /// The mark of a slot that is no root.
    pub(crate) const NONE: RootMark = RootMark(
        #[cfg(any(debug_assertions, feature = "guards"))]
        false,
    );
}

impl<K: Copy, V: Copy, const N: usize> Trees<K, V, N> {
    /// The handle of a new tree, by its root.
    #[inline(always)]
    pub(crate) fn named(&mut self, root: Node) -> PackedNode {
        let handle = PackedNode::some(root);
        self.mark(handle, true);
        handle
    }

    /// The handle of a tree that was a part of another one.
    #[inline(always)]
    pub(crate) fn marked(&mut self, handle: PackedNode) -> PackedNode {
        self.mark(handle, true);
        handle
    }

    /// Gives a handle the root that its tree has from now on, and with guards the mark, too.
    #[inline(always)]
    pub(crate) fn rename(&mut self, handle: &mut PackedNode, root: PackedNode) {
        rename_in(&mut self.pool, handle, root);
    }

    // Marks the slot that a handle names, if it names one, as a root or as none.
    #[inline(always)]
    fn mark(&mut self, handle: PackedNode, is_root: bool) {
        mark_in(&mut self.pool, handle, is_root);
    }
}

/// The same in a pool, for a function without the trees.
#[inline(always)]
pub(crate) fn rename_in<K: Copy, V: Copy, const N: usize>(pool: &mut NodePool<K, V, N>, handle: &mut PackedNode, root: PackedNode) {
    mark_in(pool, *handle, false);
    *handle = root;
    mark_in(pool, root, true);
}

#[cfg(any(debug_assertions, feature = "guards"))]
fn mark_in<K: Copy, V: Copy, const N: usize>(pool: &mut NodePool<K, V, N>, handle: PackedNode, is_root: bool) {
    if let Some(root) = handle.expand() {
        pool.node_mut(root).root_mark = RootMark(is_root);
    }
}

#[cfg(not(any(debug_assertions, feature = "guards")))]
#[inline(always)]
fn mark_in<K: Copy, V: Copy, const N: usize>(_pool: &mut NodePool<K, V, N>, _handle: PackedNode, _is_root: bool) {}

/// The place of a key among the first `len` keys of a leaf's row, by the comparator's search. Guards then compare the key with
/// itself and with those beside its place, three times at most, before anything is written.
#[inline(always)]
#[cfg_attr(any(debug_assertions, feature = "guards"), track_caller)]
pub(crate) fn place_of<K: Copy, C: Comparator<K>>(key: K, row: &[K], len: usize, comp: &C) -> Result<usize, usize> {
    let place = comp.search_prefix(key, row, len);
    #[cfg(any(debug_assertions, feature = "guards"))]
    match place {
        Ok(index) => order::expect(key, &row[..len], index, true, comp),
        Err(index) => order::expect(key, &row[..len], index, false, comp),
    }
    place
}

#[cfg(any(debug_assertions, feature = "guards"))]
impl<K: Copy, V: Copy, const N: usize> Trees<K, V, N> {
    /// Panics where a handle is neither empty nor names a root.
    #[track_caller]
    pub(crate) fn expect_live(&self, handle: PackedNode) {
        let Some(root) = handle.expand() else {
            return;
        };
        let (slot, slots) = (root.number(), self.slots());
        if slot >= slots {
            not_live(format_args!(
                "its root was in slot {slot}, and the number of slots is {slots} (the forest was cleared, or the handle belongs to \
                 another one)"
            ));
        }
        let node = self.pool.node(root);
        if node.is_free() {
            not_live(format_args!(
                "its tree has ended, since the slot {slot} of its root is free (a copy of the handle was cleared, or was changed and \
                 has another root now)"
            ));
        }
        if !node.root_mark.0 {
            not_live(format_args!(
                "the slot {slot} is a node within a tree (the handle is a copy from before its map got a new root or lost one, or it \
                 belongs to another forest)"
            ));
        }
    }

    /// Panics where the keys of a leaf beside the place of a key, which is there or not, are out of order.
    #[track_caller]
    pub(crate) fn expect_order<C: Comparator<K>>(&self, leaf: Node, index: usize, is_there: bool, key: K, comp: &C) {
        order::expect(key, self.pool.node(leaf).unwrap_leaf().0, index, is_there, comp);
    }

    /// Panics where the keys of a tree do not strictly increase.
    #[track_caller]
    pub(crate) fn expect_increasing<C: Comparator<K>>(&self, handle: PackedNode, comp: &C) {
        let mut reader = Reader::new(handle, self);
        let mut before = None;
        while let Some((key, _)) = reader.take_next(&self.pool) {
            if before.is_some_and(|it| !comp.cmp(it, key).is_lt()) {
                order::out_of_order(order::OTHER_ORDER);
            }
            before = Some(key);
        }
    }

    /// Searches for the key of a bound, if it has one, and panics where the keys of the leaf beside its place are out of order.
    #[track_caller]
    pub(crate) fn expect_order_at<C: Comparator<K>>(&self, handle: PackedNode, bound: Bound<K>, comp: &C) {
        let (Some(root), Bound::Included(key) | Bound::Excluded(key)) = (handle.expand(), bound) else {
            return;
        };
        let mut path = Path::default();
        let is_there = path.find(key, root, &self.pool, comp).is_some();
        if let Some((leaf, index)) = path.leaf_pos() {
            self.expect_order(leaf, index, is_there, key, comp);
        }
    }
}

#[cfg(any(debug_assertions, feature = "guards"))]
#[cold]
#[track_caller]
fn not_live(why: Arguments<'_>) -> ! {
    panic!("the handle is not live in this forest, which the call requires and `holds` tests: {why}");
}

#[cfg(not(any(debug_assertions, feature = "guards")))]
impl<K: Copy, V: Copy, const N: usize> Trees<K, V, N> {
    #[inline(always)]
    pub(crate) fn expect_live(&self, _handle: PackedNode) {}

    #[inline(always)]
    pub(crate) fn expect_order<C: Comparator<K>>(&self, _leaf: Node, _index: usize, _is_there: bool, _key: K, _comp: &C) {}

    #[inline(always)]
    pub(crate) fn expect_order_at<C: Comparator<K>>(&self, _handle: PackedNode, _bound: Bound<K>, _comp: &C) {}

    #[inline(always)]
    pub(crate) fn expect_increasing<C: Comparator<K>>(&self, _handle: PackedNode, _comp: &C) {}
}

/// The order of the keys beside a place that was searched.
#[cfg(any(debug_assertions, feature = "guards"))]
mod order {
    use crate::bforest_core::Comparator;
    use core::cmp::Ordering;

    // What a comparator may have done.
    const NO_ORDER: &str = "it is no order, as with a NaN: each key has to equal itself and no two keys, and to swap two keys has to \
                            reverse the answer";
    pub(super) const OTHER_ORDER: &str = "two keys next to each other do not increase under it, so that the map was filled under another one";
    const OTHERWISE: &str = "it answers otherwise for the same two keys than in the search before";

    // Panics where a key does not equal itself, or where three keys in a row do not increase: the key at its place, and the two that are
    // next to it there. A comparator's own search may answer a place past all keys, and then these are the last two.
    #[track_caller]
    pub(super) fn expect<K: Copy, C: Comparator<K>>(key: K, keys: &[K], index: usize, is_there: bool, comp: &C) {
        if !comp.cmp(key, key).is_eq() {
            out_of_order(NO_ORDER);
        }
        let front = keys.get(..index).unwrap_or(keys);
        let back = keys.get(index.saturating_add(usize::from(is_there))..).unwrap_or(&[]);
        if let Some(&before) = front.last() {
            expect_beside(key, before, Ordering::Greater, is_there, comp);
        }
        if let Some(&after) = back.first() {
            expect_beside(key, after, Ordering::Less, is_there, comp);
        }
        // at an end of the leaf the two keys there
        if let (&[.., first, second], &[]) | (&[], &[first, second, ..]) = (front, back) {
            if !comp.cmp(first, second).is_lt() {
                out_of_order(OTHER_ORDER);
            }
        }
    }

    // Panics where a key does not compare as wanted with the one that is stored beside its place.
    #[track_caller]
    fn expect_beside<K: Copy, C: Comparator<K>>(key: K, stored: K, wanted: Ordering, is_there: bool, comp: &C) {
        let told = comp.cmp(key, stored);
        if told == wanted {
            return;
        }
        let is_second = is_there && told.is_eq();
        out_of_order(if is_second || comp.cmp(stored, key) != told.reverse() {
            NO_ORDER
        } else if is_there {
            OTHER_ORDER
        } else {
            OTHERWISE
        });
    }

    #[cold]
    #[track_caller]
    pub(super) fn out_of_order(why: &str) -> ! {
        panic!("the comparator is not that of the map, which the call requires and `increases` tests: {why}");
    }
}

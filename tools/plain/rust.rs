//! What Rust's users expect beside the calls of the forest. Nothing in this file is proved.

use crate::bforest_core::Node;
use crate::set_merge::Merge;
use crate::{
    Comparator, Idx, LoadError, Map, MapCursor, MapCursorMut, MapForest, MapIntoIter, MapIter, MapIterBack, MapRange, Maps, OutOfMemory,
    Set, SetCursor, SetDifference, SetForest, SetIntersection, SetIter, SetIterBack, SetRange, SetSymmetricDifference, SetUnion, Sets,
};
use alloc::collections::TryReserveError;
use core::cmp::{Ordering, Reverse};
use core::error::Error;
use core::fmt::{self, Debug, Display, Formatter};
use core::iter::FusedIterator;
use core::marker::PhantomData;

impl Display for OutOfMemory {
    fn fmt(&self, f: &mut Formatter<'_>) -> fmt::Result {
        f.write_str(match self {
            OutOfMemory::Memory => "the memory for more nodes was refused",
            OutOfMemory::Full => "the forest may have no more nodes",
        })
    }
}

impl Error for OutOfMemory {}

impl From<TryReserveError> for OutOfMemory {
    /// Returns [`OutOfMemory::Memory`], so that `?` serves for [`Maps::push`] and for [`Maps::insert`] in one function.
    fn from(_: TryReserveError) -> Self {
        OutOfMemory::Memory
    }
}

impl Display for LoadError {
    fn fmt(&self, f: &mut Formatter<'_>) -> fmt::Result {
        match self {
            LoadError::Unordered(at) => write!(f, "the key at index {at} is not less than the next one"),
            LoadError::Refused(why) => Display::fmt(why, f),
        }
    }
}

impl Error for LoadError {}

impl From<OutOfMemory> for LoadError {
    /// Returns [`LoadError::Refused`], so that `?` serves for [`Maps::load`] and for [`Maps::insert`] in one function.
    fn from(why: OutOfMemory) -> Self {
        LoadError::Refused(why)
    }
}

impl From<TryReserveError> for LoadError {
    /// Returns [`LoadError::Refused`] with [`OutOfMemory::Memory`], so that `?` serves for [`Maps::push`], too.
    fn from(why: TryReserveError) -> Self {
        LoadError::Refused(why.into())
    }
}

impl<K: Copy, V: Copy> Default for MapForest<K, V> {
    /// Returns an empty forest, as [`MapForest::new`] does.
    fn default() -> Self {
        MapForest::new()
    }
}

impl<K: Copy> Default for SetForest<K> {
    /// Returns an empty forest, as [`SetForest::new`] does.
    fn default() -> Self {
        SetForest::new()
    }
}

impl<K: Copy, V: Copy, C: Comparator<K> + Default, I: Idx> Default for Maps<K, V, C, I> {
    /// Returns no maps, as [`Maps::typed`] does.
    fn default() -> Self {
        Maps::typed(C::default())
    }
}

impl<K: Copy, C: Comparator<K> + Default, I: Idx> Default for Sets<K, C, I> {
    /// Returns no sets, as [`Sets::typed`] does.
    fn default() -> Self {
        Sets::typed(C::default())
    }
}

impl<K: Copy, V: Copy, C: Comparator<K>, I: Idx> Maps<K, V, C, I> {
    /// Returns the order that all maps have, as it was handed over.
    #[must_use]
    pub fn order(&self) -> &C {
        &self.order
    }

    /// Returns whether a key of a map compares equal to `key`. One search, as [`Map::get`] makes.
    ///
    /// This call is not among [what is proved](crate#what-is-proved); [`Maps::get`] is.
    ///
    /// # Panics
    ///
    /// Where `index` is not less than `len`; the panic names it.
    #[must_use]
    #[track_caller]
    pub fn contains_key(&self, index: I, key: K) -> bool {
        self.get(index, key).is_some()
    }

    /// Returns a cursor that reads and changes a map, as [`Map::cursor_mut`] does. It stands at the end, behind the last entry.
    ///
    /// # Panics
    ///
    /// Where `index` is not less than `len`; the panic names it.
    #[must_use]
    #[track_caller]
    pub fn cursor_mut(&mut self, index: I) -> MapCursorMut<'_, K, V, C> {
        self.maps[index.index()].cursor_mut(&mut self.forest, &self.order)
    }

    /// Returns a value whose `Debug` shows the entries of a map in order.
    ///
    /// # Panics
    ///
    /// Where `index` is not less than `len`; the panic names it.
    #[must_use]
    #[track_caller]
    pub fn debug(&self, index: I) -> impl Debug + use<'_, K, V, C, I>
    where
        K: Debug,
        V: Debug,
    {
        Entries(self.iter(index))
    }
}

impl<K: Copy, C: Comparator<K>, I: Idx> Sets<K, C, I> {
    /// Returns the order that all sets have, as it was handed over.
    #[must_use]
    pub fn order(&self) -> &C {
        &self.order
    }

    /// Returns a cursor that reads and changes a set, as [`Set::cursor`] does. It stands at the end, behind the last key.
    ///
    /// # Panics
    ///
    /// Where `index` is not less than `len`; the panic names it.
    #[must_use]
    #[track_caller]
    pub fn cursor(&mut self, index: I) -> SetCursor<'_, K, C> {
        self.sets[index.index()].cursor(&mut self.forest, &self.order)
    }

    /// Returns a value whose `Debug` shows the keys of a set in order.
    ///
    /// # Panics
    ///
    /// Where `index` is not less than `len`; the panic names it.
    #[must_use]
    #[track_caller]
    pub fn debug(&self, index: I) -> impl Debug + use<'_, K, C, I>
    where
        K: Debug,
    {
        Keys(self.iter(index))
    }
}

// All maps are shown in the order of their indices.
impl<K: Copy + Debug, V: Copy + Debug, C: Comparator<K>, I> Debug for Maps<K, V, C, I> {
    fn fmt(&self, f: &mut Formatter<'_>) -> fmt::Result {
        f.debug_list().entries(self.maps.iter().map(|map| map.debug(&self.forest))).finish()
    }
}

impl<K: Copy + Debug, C: Comparator<K>, I> Debug for Sets<K, C, I> {
    fn fmt(&self, f: &mut Formatter<'_>) -> fmt::Result {
        f.debug_list().entries(self.sets.iter().map(|set| set.debug(&self.forest))).finish()
    }
}

impl<K: Copy, V: Copy> Clone for Map<K, V> {
    /// Returns a second handle to the same tree. No entry is copied.
    fn clone(&self) -> Self {
        Map::clone(self)
    }
}

impl<K: Copy> Clone for Set<K> {
    /// Returns a second handle to the same tree. No key is copied.
    fn clone(&self) -> Self {
        Set::clone(self)
    }
}

impl<K: Copy, V: Copy, C: Comparator<K>> Clone for MapCursor<'_, K, V, C> {
    /// Returns a cursor at the same place. The entries are not copied.
    fn clone(&self) -> Self {
        MapCursor {
            trees: self.trees,
            root: self.root,
            comp: self.comp,
            look: self.look.clone(),
        }
    }
}

impl<K: Copy, V: Copy, C: Comparator<K>> Clone for MapRange<'_, K, V, C> {
    /// Returns an iterator over what is left of the range. The entries are not copied.
    fn clone(&self) -> Self {
        MapRange {
            trees: self.trees,
            root: self.root,
            ends: self.ends.clone(),
            mark: PhantomData,
        }
    }
}

impl<K: Copy, C: Comparator<K>> Clone for SetRange<'_, K, C> {
    /// Returns an iterator over what is left of the range. The keys are not copied.
    fn clone(&self) -> Self {
        SetRange {
            trees: self.trees,
            root: self.root,
            ends: self.ends.clone(),
            mark: PhantomData,
        }
    }
}

impl<K: Copy, C: Comparator<K>> Clone for Merge<'_, K, C> {
    fn clone(&self) -> Self {
        Merge {
            first: self.first.clone(),
            second: self.second.clone(),
            comp: self.comp,
        }
    }
}

// What the iterators over two sets have beside their steps.
macro_rules! over_two_sets {
    ($($name:ident)*) => {$(
        impl<K: Copy, C: Comparator<K>> Clone for $name<'_, K, C> {
            /// Returns an iterator over the keys that are left. No key is copied.
            fn clone(&self) -> Self {
                $name { merge: self.merge.clone() }
            }
        }

        impl<K: Copy, C: Comparator<K>> FusedIterator for $name<'_, K, C> {}

        impl<K: Copy, C: Comparator<K>> Debug for $name<'_, K, C> {
            fn fmt(&self, f: &mut Formatter<'_>) -> fmt::Result {
                f.debug_struct(stringify!($name)).finish_non_exhaustive()
            }
        }
    )*};
}

over_two_sets! { SetUnion SetIntersection SetDifference SetSymmetricDifference }

/// A comparator that is lent, also as `&dyn Comparator<K>`.
impl<K: Copy, C: Comparator<K> + ?Sized> Comparator<K> for &C {
    fn cmp(&self, a: K, b: K) -> Ordering {
        C::cmp(self, a, b)
    }

    fn search(&self, k: K, s: &[K]) -> Result<usize, usize> {
        C::search(self, k, s)
    }

    fn upper_bound(&self, k: K, s: &[K]) -> usize {
        C::upper_bound(self, k, s)
    }

    fn search_prefix(&self, k: K, row: &[K], len: usize) -> Result<usize, usize> {
        C::search_prefix(self, k, row, len)
    }

    fn upper_bound_prefix(&self, k: K, row: &[K], len: usize) -> usize {
        C::upper_bound_prefix(self, k, row, len)
    }
}

/// The reversed order: under `Reverse(())` the greatest key is first.
impl<K: Copy, C: Comparator<K>> Comparator<K> for Reverse<C> {
    fn cmp(&self, a: K, b: K) -> Ordering {
        self.0.cmp(b, a)
    }
}

// Each iterator returns `None` again once it has returned it.
impl<K: Copy, V: Copy> FusedIterator for MapIter<'_, K, V> {}
impl<K: Copy, V: Copy> FusedIterator for MapIterBack<'_, K, V> {}
impl<K: Copy, V: Copy> FusedIterator for MapIntoIter<K, V> {}
impl<K: Copy, V: Copy, C: Comparator<K>> FusedIterator for MapRange<'_, K, V, C> {}
impl<K: Copy> FusedIterator for SetIter<'_, K> {}
impl<K: Copy> FusedIterator for SetIterBack<'_, K> {}
impl<K: Copy, C: Comparator<K>> FusedIterator for SetRange<'_, K, C> {}

// A handle shows the number of its root: it knows no forest, and so no entry.
impl<K: Copy, V: Copy> Debug for Map<K, V> {
    fn fmt(&self, f: &mut Formatter<'_>) -> fmt::Result {
        f.debug_tuple("Map").field(&self.root.expand().map(Node::number)).finish()
    }
}

impl<K: Copy> Debug for Set<K> {
    fn fmt(&self, f: &mut Formatter<'_>) -> fmt::Result {
        f.debug_tuple("Set").field(&self.root.expand().map(Node::number)).finish()
    }
}

impl<K: Copy, V: Copy> Map<K, V> {
    /// Returns whether a key of the map compares equal to `key`. One search, as in [`Map::get`].
    ///
    /// This call is not among [what is proved](crate#what-is-proved); [`Map::get`] is.
    ///
    /// # Panics
    ///
    /// As [`Map::get`]: the call requires that the handle is live and that its keys increase under the comparator.
    #[cfg_attr(any(debug_assertions, feature = "guards"), track_caller)]
    #[must_use]
    pub fn contains_key<C: Comparator<K>>(&self, key: K, forest: &MapForest<K, V>, comp: &C) -> bool {
        self.get(key, forest, comp).is_some()
    }

    /// Returns a value whose `Debug` shows the entries in order, as that of a map.
    ///
    /// # Panics
    ///
    /// In builds with guards, where the handle is not live, as [`Map::iter`].
    #[cfg_attr(any(debug_assertions, feature = "guards"), track_caller)]
    #[must_use]
    pub fn debug<'a>(&self, forest: &'a MapForest<K, V>) -> impl Debug + use<'a, K, V>
    where
        K: Debug,
        V: Debug,
    {
        Entries(self.iter(forest))
    }
}

impl<K: Copy> Set<K> {
    /// Returns a value whose `Debug` shows the keys in order, as that of a set.
    ///
    /// # Panics
    ///
    /// In builds with guards, where the handle is not live, as [`Set::iter`].
    #[cfg_attr(any(debug_assertions, feature = "guards"), track_caller)]
    #[must_use]
    pub fn debug<'a>(&self, forest: &'a SetForest<K>) -> impl Debug + use<'a, K>
    where
        K: Debug,
    {
        Keys(self.iter(forest))
    }
}

struct Entries<'a, K: Copy, V: Copy>(MapIter<'a, K, V>);

impl<K: Copy + Debug, V: Copy + Debug> Debug for Entries<'_, K, V> {
    fn fmt(&self, f: &mut Formatter<'_>) -> fmt::Result {
        f.debug_map().entries(self.0.clone()).finish()
    }
}

struct Keys<'a, K: Copy>(SetIter<'a, K>);

impl<K: Copy + Debug> Debug for Keys<'_, K> {
    fn fmt(&self, f: &mut Formatter<'_>) -> fmt::Result {
        f.debug_set().entries(self.0.clone()).finish()
    }
}

// A forest shows its counts: it knows no handles, and so not which trees are in use.
impl<K: Copy, V: Copy> Debug for MapForest<K, V> {
    fn fmt(&self, f: &mut Formatter<'_>) -> fmt::Result {
        show_forest(f, "MapForest", [self.slots(), self.free_slots(), self.node_limit()])
    }
}

impl<K: Copy> Debug for SetForest<K> {
    fn fmt(&self, f: &mut Formatter<'_>) -> fmt::Result {
        show_forest(f, "SetForest", [self.slots(), self.free_slots(), self.node_limit()])
    }
}

fn show_forest(f: &mut Formatter<'_>, name: &str, counts: [u32; 3]) -> fmt::Result {
    f.debug_struct(name)
        .field("slots", &counts[0])
        .field("free_slots", &counts[1])
        .field("node_limit", &counts[2])
        .finish()
}

// A cursor shows where it stands.
impl<K: Copy + Debug, V: Copy + Debug, C: Comparator<K>> Debug for MapCursor<'_, K, V, C> {
    fn fmt(&self, f: &mut Formatter<'_>) -> fmt::Result {
        f.debug_struct("MapCursor").field("entry", &self.entry()).finish()
    }
}

impl<K: Copy + Debug, V: Copy + Debug, C: Comparator<K>> Debug for MapCursorMut<'_, K, V, C> {
    fn fmt(&self, f: &mut Formatter<'_>) -> fmt::Result {
        f.debug_struct("MapCursorMut").field("entry", &self.entry()).finish()
    }
}

impl<K: Copy + Debug, C: Comparator<K>> Debug for SetCursor<'_, K, C> {
    fn fmt(&self, f: &mut Formatter<'_>) -> fmt::Result {
        f.debug_struct("SetCursor").field("elem", &self.elem()).finish()
    }
}

impl<K: Copy, V: Copy> Debug for MapIter<'_, K, V> {
    fn fmt(&self, f: &mut Formatter<'_>) -> fmt::Result {
        f.debug_struct("MapIter").finish_non_exhaustive()
    }
}

impl<K: Copy, V: Copy> Debug for MapIterBack<'_, K, V> {
    fn fmt(&self, f: &mut Formatter<'_>) -> fmt::Result {
        f.debug_struct("MapIterBack").finish_non_exhaustive()
    }
}

impl<K: Copy, V: Copy> Debug for MapIntoIter<K, V> {
    fn fmt(&self, f: &mut Formatter<'_>) -> fmt::Result {
        f.debug_struct("MapIntoIter").finish_non_exhaustive()
    }
}

impl<K: Copy, V: Copy, C: Comparator<K>> Debug for MapRange<'_, K, V, C> {
    fn fmt(&self, f: &mut Formatter<'_>) -> fmt::Result {
        f.debug_struct("MapRange").finish_non_exhaustive()
    }
}

impl<K: Copy> Debug for SetIter<'_, K> {
    fn fmt(&self, f: &mut Formatter<'_>) -> fmt::Result {
        f.debug_struct("SetIter").finish_non_exhaustive()
    }
}

impl<K: Copy> Debug for SetIterBack<'_, K> {
    fn fmt(&self, f: &mut Formatter<'_>) -> fmt::Result {
        f.debug_struct("SetIterBack").finish_non_exhaustive()
    }
}

impl<K: Copy, C: Comparator<K>> Debug for SetRange<'_, K, C> {
    fn fmt(&self, f: &mut Formatter<'_>) -> fmt::Result {
        f.debug_struct("SetRange").finish_non_exhaustive()
    }
}

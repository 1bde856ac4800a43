//! `Maps` and `Sets` by a type of index of the caller's own.

use bforest::{Idx, Maps, OutOfMemory, Sets};
use std::panic::{AssertUnwindSafe, catch_unwind};

#[derive(Clone, Copy, Debug, PartialEq, Eq)]
struct Block(u32);

impl Idx for Block {
    fn new(index: usize) -> Self {
        Block(index as u32)
    }

    fn index(self) -> usize {
        self.0 as usize
    }
}

/// A type of few values, which says nothing of the numbers that it has no value for.
#[derive(Clone, Copy, Debug, PartialEq, Eq)]
struct Room(u8);

impl Idx for Room {
    fn new(index: usize) -> Self {
        Room(index as u8)
    }

    fn index(self) -> usize {
        self.0.into()
    }
}

#[derive(Default)]
struct Function {
    live: Maps<u32, char, (), Block>,
    successors: Sets<u32, (), Block>,
    by_number: Maps<u32, char>,
}

#[test]
fn maps_by_blocks() -> Result<(), OutOfMemory> {
    let mut it = Function::default();
    let (entry, exit) = (it.live.push()?, it.live.push()?);
    assert_eq!((entry, exit, it.live.len()), (Block(0), Block(1), 2));
    it.live.insert(entry, 3, 'a')?;
    it.live.copy(entry, exit)?;
    assert_eq!(it.live.update(exit, 3, |_| 'b'), Some('b'));
    it.live.cursor_mut(exit).insert(4, 'c')?;
    it.live.swap(entry, exit);
    assert!(it.live.contains_key(entry, 4) && it.live.iter(exit).eq([(3, 'a')]));
    assert_eq!(format!("{:?} {:?}", it.live.debug(entry), it.live), "{3: 'b', 4: 'c'} [{3: 'b', 4: 'c'}, {3: 'a'}]");
    let copy = it.live.clone();
    it.live.split_off(entry, 4, exit)?;
    assert!(it.live.iter(exit).eq([(4, 'c')]) && copy.iter(exit).eq([(3, 'a')]));
    assert!(it.live.union_with(exit, entry)? && it.live.remove_range(exit, ..4));
    assert_eq!((it.live.first(exit), it.live.len_of(entry)), (Some((4, 'c')), 1));
    assert_eq!((it.by_number.push(), it.by_number.get(0, 1)), (Ok(0), None));
    Ok(())
}

#[test]
fn sets_by_blocks() -> Result<(), OutOfMemory> {
    let mut it = Function::default();
    it.successors.grow_to(2)?;
    assert_eq!(it.successors.push(), Ok(Block(2)));
    assert_eq!(it.successors.insert(Block(2), 7), Ok(true));
    it.successors.cursor(Block(1)).insert(8)?;
    assert!(it.successors.is_disjoint(Block(1), Block(2)) && it.successors.is_subset(Block(0), Block(1)));
    assert_eq!(format!("{:?} {:?}", it.successors.debug(Block(1)), it.successors), "{8} [{}, {8}, {7}]");
    let mut few: Sets<u32, (), Block> = Sets::typed(());
    few.grow_to(1)?;
    assert_eq!((few.insert(Block(0), 1), few.node_limit()), (Ok(true), u32::MAX));
    Ok(())
}

#[test]
fn a_limit_on_nodes() -> Result<(), OutOfMemory> {
    let mut maps: Maps<u32, u32, (), Block> = Maps::typed_with_node_limit((), 1);
    let mut sets: Sets<u32, (), Block> = Sets::typed_with_node_limit((), 1);
    maps.grow_to(2)?;
    sets.grow_to(2)?;
    assert_eq!((maps.insert(Block(0), 1, 2), sets.insert(Block(0), 1)), (Ok(None), Ok(true)));
    assert_eq!(maps.insert(Block(1), 1, 2), Err(OutOfMemory::Full));
    assert_eq!(sets.insert(Block(1), 1), Err(OutOfMemory::Full));
    Ok(())
}

/// The message of a panic.
fn message<T>(call: impl FnOnce() -> T) -> String {
    let Err(told) = catch_unwind(AssertUnwindSafe(call)) else {
        return String::new();
    };
    told.downcast_ref::<String>().cloned().unwrap_or_default()
}

#[test]
fn an_index_that_is_not_there_panics() {
    let mut maps: Maps<u32, u32, (), Room> = Maps::typed(());
    assert_eq!(maps.grow_to(255), Ok(()));
    assert!(message(|| maps.get(Room(255), 1)).contains("255"));
    assert_eq!(maps.push(), Ok(Room(255)));
    // a room has no value for 256, and nothing changes
    for _ in 0..2 {
        assert_eq!(message(|| maps.push()), "this type of index has no value for 256");
        assert_eq!((maps.len(), maps.get(Room(0), 1)), (256, None));
    }
}

/// What a caller may leave to the compiler where each map is named by a `usize`.
#[test]
fn the_type_of_index_is_inferred() -> Result<(), OutOfMemory> {
    let mut maps = Maps::new(());
    maps.grow_to(2)?;
    maps.insert(1, 2u32, 'a')?;
    let at = maps.push()?;
    maps.insert(at, 2, 'b')?;
    let numbers = [0, 1, at];
    assert!(numbers.iter().filter_map(|it| maps.get(*it, 2)).eq(['a', 'b']));
    let mut sets = Sets::with_node_limit((), 1);
    sets.push()?;
    assert_eq!(sets.insert(0, 'a'), Ok(true));
    let mut by_default = Maps::<u32, u32, ()>::default();
    by_default.grow_to(1)?;
    assert_eq!(by_default.get(0, 1), None);
    Ok(())
}

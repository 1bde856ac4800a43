//! A program without Rust's library, whose allocator is an array: its status is 0 where each answer is right, else the number of the first
//! question with a wrong one.

#![no_std]
#![no_main]

use bforest::{Map, MapForest, OutOfMemory, Set, SetForest};
use core::alloc::{GlobalAlloc, Layout};
use core::cell::UnsafeCell;
use core::panic::PanicInfo;
use core::ptr::null_mut;
use core::sync::atomic::{AtomicUsize, Ordering};

// What starts a program and ends it.
#[link(name = "c")]
unsafe extern "C" {
    safe fn abort() -> !;
}

const BYTES: usize = 1 << 16;

/// Memory that is handed out from the front, and never given back.
#[repr(align(64))]
struct Room {
    bytes: UnsafeCell<[u8; BYTES]>,
    taken: AtomicUsize,
}

// The bytes are shared out by one counter.
unsafe impl Sync for Room {}

unsafe impl GlobalAlloc for Room {
    unsafe fn alloc(&self, layout: Layout) -> *mut u8 {
        let behind = |taken: usize| taken.next_multiple_of(layout.align()).checked_add(layout.size());
        let fits = |taken: usize| behind(taken).filter(|&it| it <= BYTES && layout.align() <= 64);
        match self.taken.fetch_update(Ordering::Relaxed, Ordering::Relaxed, fits) {
            // in the array, by `fits`
            Ok(taken) => unsafe { self.bytes.get().cast::<u8>().add(taken.next_multiple_of(layout.align())) },
            Err(_) => null_mut(),
        }
    }

    unsafe fn dealloc(&self, _: *mut u8, _: Layout) {}
}

#[global_allocator]
static ROOM: Room = Room { bytes: UnsafeCell::new([0; BYTES]), taken: AtomicUsize::new(0) };

#[panic_handler]
fn panicked(_: &PanicInfo<'_>) -> ! {
    abort()
}

/// A map of 100 entries, of which each third is taken out.
fn is_map_right() -> bool {
    let mut forest = MapForest::new();
    let mut map = Map::new();
    let put = (0..100_u32).all(|key| map.insert(key, 10 * key, &mut forest, &()) == Ok(None));
    let taken = (0..100).step_by(3).all(|key| map.remove(key, &mut forest, &()) == Some(10 * key));
    let left = (0..100).filter(|key| key % 3 != 0).map(|key| (key, 10 * key));
    put && taken && map.iter(&forest).eq(left) && map.get_or_less(99, &forest, &()) == Some((98, 980))
}

/// A set that is filled from its last key to its first one: 13 leaves, which are too many for one inner node.
fn is_set_right() -> bool {
    let mut forest = SetForest::new();
    let mut set = Set::new();
    let put = (0..100_u16).rev().all(|key| set.insert(key, &mut forest, &()) == Ok(true));
    put && set.iter(&forest).eq(0..100)
        && set.range(10..=12, &forest, &()).rev().eq([12, 11, 10])
        && set.levels(&forest) == 3
}

/// Insertions until the array is full: the last one is refused, and nothing has changed then.
fn is_refusal_right() -> bool {
    let mut forest = MapForest::new();
    let mut map = Map::new();
    let mut count = 0_u64;
    let (slots, refused) = loop {
        let slots = forest.slots();
        match map.insert(count, count, &mut forest, &()) {
            Ok(_) => count += 1,
            Err(refused) => break (slots, refused),
        }
    };
    let is_unchanged = forest.slots() == slots && map.iter(&forest).eq((0..count).map(|it| (it, it)));
    refused == OutOfMemory::Memory && is_unchanged && count > 100
}

#[unsafe(no_mangle)]
extern "C" fn main() -> i32 {
    for (number, is_right) in (1..).zip([is_map_right, is_set_right, is_refusal_right]) {
        if !is_right() {
            return number;
        }
    }
    0
}

//! The marks of an editor's buffers, by their positions: text that is inserted or deleted shifts all marks behind it, and the marks in
//! deleted text go with it. Two marks never have one position: a new one takes the place of the old one.

use super::random::{added, Random};

/// A position of a buffer's text.
type Position = u32;

/// What a user does in a buffer.
#[derive(Clone, Copy)]
pub struct Event {
    buffer: usize,
    at: Position,
    what: What,
}

#[derive(Clone, Copy)]
enum What {
    Insert { length: u32 },
    Delete { length: u32 },
    Set { mark: u32 },
    Unset,
    Next,
    Previous,
}

pub const BUFFERS: u32 = 20;
const LENGTH: u32 = 20_000;
/// Most edits are near the end of the text, where few marks are shifted.
const NEAR: u32 = 4_000;

/// So many random events, about a hundred marks a buffer.
pub fn input(events: u32) -> Vec<Event> {
    let mut random = Random::new(4);
    (0..events).map(|mark| event(&mut random, mark)).collect()
}

fn event(random: &mut Random, mark: u32) -> Event {
    let buffer = random.below(BUFFERS) as usize;
    let at = if random.below(3) == 0 { random.below(LENGTH) } else { LENGTH - NEAR + random.below(NEAR) };
    let what = match random.below(12) {
        0 | 1 => What::Insert { length: 1 + random.below(40) },
        2 | 3 => What::Delete { length: 1 + random.below(40) },
        4 | 5 => What::Set { mark },
        6 => What::Unset,
        7..=9 => What::Next,
        _ => What::Previous,
    };
    Event { buffer, at, what }
}

/// The marks of all buffers.
pub trait Marks {
    fn new(buffers: u32) -> Self;
    /// Text of this length comes in before a position.
    fn insert(&mut self, buffer: usize, at: Position, length: u32);
    /// Text of this length from a position on goes.
    fn delete(&mut self, buffer: usize, at: Position, length: u32);
    fn set(&mut self, buffer: usize, at: Position, mark: u32);
    /// Takes out the mark at a position, or else the next one behind it, and returns it.
    fn unset(&mut self, buffer: usize, at: Position) -> Option<u32>;
    /// The first mark behind a position.
    fn next(&self, buffer: usize, at: Position) -> Option<(Position, u32)>;
    /// The last mark before a position.
    fn previous(&self, buffer: usize, at: Position) -> Option<(Position, u32)>;
}

/// Takes in all events, and returns a checksum of the marks that were found.
pub fn run<M: Marks>(events: &[Event]) -> u64 {
    let mut marks = M::new(BUFFERS);
    for buffer in 0..BUFFERS as usize {
        (0..100).for_each(|mark| marks.set(buffer, mark * (LENGTH / 100), mark));
    }
    events.iter().fold(0, |sum, event| {
        let Event { buffer, at, what } = *event;
        let found = match what {
            What::Next => marks.next(buffer, at),
            What::Previous => marks.previous(buffer, at),
            What::Unset => marks.unset(buffer, at).map(|mark| (0, mark)),
            What::Set { mark } => {
                marks.set(buffer, at, mark);
                None
            }
            What::Insert { length } => {
                marks.insert(buffer, at, length);
                None
            }
            What::Delete { length } => {
                marks.delete(buffer, at, length);
                None
            }
        };
        found.map_or(sum, |(at, mark)| added(sum, at ^ mark))
    })
}

pub mod standard {
    use super::{Marks, Position};
    use std::collections::BTreeMap;
    use std::ops::Bound::{Excluded, Unbounded};

    pub struct ByPosition(Vec<BTreeMap<Position, u32>>);

    impl Marks for ByPosition {
        fn new(buffers: u32) -> Self {
            ByPosition((0..buffers).map(|_| BTreeMap::new()).collect())
        }

        fn insert(&mut self, buffer: usize, at: Position, length: u32) {
            let marks = &mut self.0[buffer];
            let behind = marks.split_off(&at);
            marks.extend(behind.into_iter().map(|(at, mark)| (at + length, mark)));
        }

        fn delete(&mut self, buffer: usize, at: Position, length: u32) {
            let marks = &mut self.0[buffer];
            let behind = marks.split_off(&at);
            let kept = behind.into_iter().skip_while(|it| it.0 < at + length);
            marks.extend(kept.map(|(at, mark)| (at - length, mark)));
        }

        fn set(&mut self, buffer: usize, at: Position, mark: u32) {
            self.0[buffer].insert(at, mark);
        }

        fn unset(&mut self, buffer: usize, at: Position) -> Option<u32> {
            let marks = &mut self.0[buffer];
            let at = *marks.range(at..).next()?.0;
            marks.remove(&at)
        }

        fn next(&self, buffer: usize, at: Position) -> Option<(Position, u32)> {
            self.0[buffer].range((Excluded(at), Unbounded)).next().map(|(at, mark)| (*at, *mark))
        }

        fn previous(&self, buffer: usize, at: Position) -> Option<(Position, u32)> {
            self.0[buffer].range(..at).next_back().map(|(at, mark)| (*at, *mark))
        }
    }
}

#[cfg(package)]
pub mod package {
    use super::{Marks, Position};
    use bforest::{Map, MapForest};

    const ROOM: &str = "there is memory";

    pub struct ByPosition {
        forest: MapForest<Position, u32>,
        buffers: Vec<Map<Position, u32>>,
    }

    impl Marks for ByPosition {
        fn new(buffers: u32) -> Self {
            ByPosition { forest: MapForest::new(), buffers: (0..buffers).map(|_| Map::new()).collect() }
        }

        fn insert(&mut self, buffer: usize, at: Position, length: u32) {
            self.buffers[buffer].shift(at, |at| at + length, &mut self.forest, &());
        }

        fn delete(&mut self, buffer: usize, at: Position, length: u32) {
            let marks = &mut self.buffers[buffer];
            let mut cursor = marks.cursor_mut(&mut self.forest, &());
            cursor.goto(at);
            while cursor.key().is_some_and(|mark| mark < at + length) {
                cursor.remove();
            }
            marks.shift(at + length, |at| at - length, &mut self.forest, &());
        }

        fn set(&mut self, buffer: usize, at: Position, mark: u32) {
            self.buffers[buffer].insert(at, mark, &mut self.forest, &()).expect(ROOM);
        }

        fn unset(&mut self, buffer: usize, at: Position) -> Option<u32> {
            let mut cursor = self.buffers[buffer].cursor_mut(&mut self.forest, &());
            cursor.goto(at);
            cursor.remove()
        }

        fn next(&self, buffer: usize, at: Position) -> Option<(Position, u32)> {
            self.buffers[buffer].get_or_greater(at + 1, &self.forest, &())
        }

        fn previous(&self, buffer: usize, at: Position) -> Option<(Position, u32)> {
            self.buffers[buffer].get_or_less(at.checked_sub(1)?, &self.forest, &())
        }
    }
}

#[cfg(original)]
pub mod original {
    use super::{Marks, Position};
    use cranelift_bforest::{Map, MapForest};

    pub struct ByPosition {
        forest: MapForest<Position, u32>,
        buffers: Vec<Map<Position, u32>>,
        /// Marks that are being shifted.
        behind: Vec<(Position, u32)>,
    }

    impl ByPosition {
        /// Takes out the marks from a position on.
        fn cut(&mut self, buffer: usize, at: Position) {
            let mut cursor = self.buffers[buffer].cursor_mut(&mut self.forest, &());
            self.behind.clear();
            cursor.goto(at);
            while let (Some(at), Some(mark)) = (cursor.key(), cursor.remove()) {
                self.behind.push((at, mark));
            }
        }
    }

    impl Marks for ByPosition {
        fn new(buffers: u32) -> Self {
            let buffers = (0..buffers).map(|_| Map::new()).collect();
            ByPosition { forest: MapForest::new(), buffers, behind: Vec::new() }
        }

        fn insert(&mut self, buffer: usize, at: Position, length: u32) {
            self.cut(buffer, at);
            for (at, mark) in &self.behind {
                self.buffers[buffer].insert(at + length, *mark, &mut self.forest, &());
            }
        }

        fn delete(&mut self, buffer: usize, at: Position, length: u32) {
            self.cut(buffer, at);
            for (at, mark) in self.behind.iter().skip_while(|it| it.0 < at + length) {
                self.buffers[buffer].insert(at - length, *mark, &mut self.forest, &());
            }
        }

        fn set(&mut self, buffer: usize, at: Position, mark: u32) {
            self.buffers[buffer].insert(at, mark, &mut self.forest, &());
        }

        fn unset(&mut self, buffer: usize, at: Position) -> Option<u32> {
            let mut cursor = self.buffers[buffer].cursor_mut(&mut self.forest, &());
            cursor.goto(at);
            cursor.remove()
        }

        fn next(&self, buffer: usize, at: Position) -> Option<(Position, u32)> {
            self.buffers[buffer].range(at + 1.., &self.forest, &()).next()
        }

        fn previous(&self, buffer: usize, at: Position) -> Option<(Position, u32)> {
            self.buffers[buffer].get_or_less(at.checked_sub(1)?, &self.forest, &())
        }
    }
}

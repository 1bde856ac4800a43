//! Registers for the values of a function, by a linear scan: intervals that wait, by their starts; intervals that are in registers, by
//! their ends; and the registers that are free. Where none is free, the interval that ends last gives its register up, and waits for its
//! next use.

use super::random::{added, Random};

/// The points from its start to its end are those where a value is live. A number names it.
#[derive(Clone, Copy)]
pub struct Interval {
    start: u32,
    end: u32,
}

/// The intervals of a function.
pub type Function = Vec<Interval>;

const INTERVALS: u32 = 120;
const POINTS: u32 = 480;
const REGISTERS: u32 = 12;
/// An interval as short as this is not split.
const SHORT: u32 = 6;

/// So many functions, each with random intervals: most are short.
pub fn input(functions: u32) -> Vec<Function> {
    let mut random = Random::new(2);
    let mut interval = |_| {
        let start = random.below(POINTS);
        let most = if random.below(5) == 0 { 200 } else { 30 };
        Interval { start, end: start + 2 + random.below(most) }
    };
    (0..functions).map(|_| (0..INTERVALS).map(&mut interval).collect()).collect()
}

/// An interval in its register.
#[derive(Clone, Copy)]
pub struct Active {
    pub end: u32,
    pub value: u32,
    pub register: u32,
}

/// What a scan keeps. Of two intervals with one start or one end, that with the lesser number is first.
pub trait Scan {
    /// Nothing waits or is active, and so many registers are free.
    fn new(registers: u32) -> Self;
    fn wait(&mut self, start: u32, value: u32);
    /// Takes out the interval that starts first.
    fn next(&mut self) -> Option<(u32, u32)>;
    /// Frees the registers of all intervals that end at a point or before.
    fn expire(&mut self, point: u32);
    /// Takes the free register with the least number.
    fn take_free(&mut self) -> Option<u32>;
    fn activate(&mut self, it: Active);
    /// Takes out the active interval that ends last, where that is behind a point.
    fn take_last(&mut self, behind: u32) -> Option<Active>;
}

/// Scans all functions, and returns a checksum of the registers given and of the intervals that got none.
pub fn run<S: Scan>(functions: &[Function]) -> u64 {
    let mut scan = S::new(REGISTERS);
    functions.iter().fold(0, |sum, intervals| allocate(&mut scan, intervals, sum))
}

fn allocate<S: Scan>(scan: &mut S, intervals: &[Interval], mut sum: u64) -> u64 {
    for (value, it) in intervals.iter().enumerate() {
        scan.wait(it.start, value as u32);
    }
    while let Some((start, value)) = scan.next() {
        scan.expire(start);
        let end = intervals[value as usize].end;
        let register = scan.take_free().or_else(|| {
            let last = scan.take_last(end)?;
            spill(scan, start, last.end, last.value);
            Some(last.register)
        });
        match register {
            Some(register) => scan.activate(Active { end, value, register }),
            None => spill(scan, start, end, value),
        }
        sum = added(sum, register.unwrap_or(REGISTERS));
    }
    scan.expire(u32::MAX);
    sum
}

/// The rest of an interval waits for the next use, unless that is too near the end.
fn spill<S: Scan>(scan: &mut S, point: u32, end: u32, value: u32) {
    if end - point > SHORT {
        scan.wait(point + (end - point) / 2, value);
    }
}

pub mod standard {
    use super::{Active, Scan};
    use std::collections::{BTreeMap, BTreeSet};

    pub struct Registers {
        waiting: BTreeSet<(u32, u32)>,
        active: BTreeMap<(u32, u32), u32>,
        free: BTreeSet<u32>,
    }

    impl Scan for Registers {
        fn new(registers: u32) -> Self {
            Registers { waiting: BTreeSet::new(), active: BTreeMap::new(), free: (0..registers).collect() }
        }

        fn wait(&mut self, start: u32, value: u32) {
            self.waiting.insert((start, value));
        }

        fn next(&mut self) -> Option<(u32, u32)> {
            self.waiting.pop_first()
        }

        fn expire(&mut self, point: u32) {
            while let Some(first) = self.active.first_entry() {
                if first.key().0 > point {
                    break;
                }
                self.free.insert(first.remove());
            }
        }

        fn take_free(&mut self) -> Option<u32> {
            self.free.pop_first()
        }

        fn activate(&mut self, it: Active) {
            self.active.insert((it.end, it.value), it.register);
        }

        fn take_last(&mut self, behind: u32) -> Option<Active> {
            let last = self.active.last_entry().filter(|last| last.key().0 > behind)?;
            let ((end, value), register) = last.remove_entry();
            Some(Active { end, value, register })
        }
    }
}

#[cfg(package)]
pub mod package {
    use super::{Active, Scan};
    use bforest::{Map, MapForest, Set, SetForest};

    const ROOM: &str = "there is memory";

    #[derive(Default)]
    pub struct Registers {
        points: SetForest<(u32, u32)>,
        waiting: Set<(u32, u32)>,
        ends: MapForest<(u32, u32), u32>,
        active: Map<(u32, u32), u32>,
        registers: SetForest<u32>,
        free: Set<u32>,
    }

    impl Registers {
        fn release(&mut self, register: u32) {
            self.free.insert(register, &mut self.registers, &()).expect(ROOM);
        }
    }

    impl Scan for Registers {
        fn new(registers: u32) -> Self {
            let mut made = Registers::default();
            (0..registers).for_each(|register| made.release(register));
            made
        }

        fn wait(&mut self, start: u32, value: u32) {
            self.waiting.insert((start, value), &mut self.points, &()).expect(ROOM);
        }

        fn next(&mut self) -> Option<(u32, u32)> {
            self.waiting.pop_first(&mut self.points)
        }

        fn expire(&mut self, point: u32) {
            while self.active.first(&self.ends).is_some_and(|it| it.0 .0 <= point) {
                if let Some((_, register)) = self.active.pop_first(&mut self.ends) {
                    self.release(register);
                }
            }
        }

        fn take_free(&mut self) -> Option<u32> {
            self.free.pop_first(&mut self.registers)
        }

        fn activate(&mut self, it: Active) {
            self.active.insert((it.end, it.value), it.register, &mut self.ends, &()).expect(ROOM);
        }

        fn take_last(&mut self, behind: u32) -> Option<Active> {
            let ((end, value), register) = self.active.last(&self.ends)?;
            if end <= behind {
                return None;
            }
            self.active.pop_last(&mut self.ends);
            Some(Active { end, value, register })
        }
    }
}

#[cfg(original)]
pub mod original {
    use super::{Active, Scan};
    use cranelift_bforest::{Map, MapForest, Set, SetForest};

    pub struct Registers {
        points: SetForest<(u32, u32)>,
        waiting: Set<(u32, u32)>,
        ends: MapForest<(u32, u32), u32>,
        active: Map<(u32, u32), u32>,
        registers: SetForest<u32>,
        free: Set<u32>,
    }

    impl Scan for Registers {
        fn new(registers: u32) -> Self {
            let mut made = Registers {
                points: SetForest::new(),
                waiting: Set::new(),
                ends: MapForest::new(),
                active: Map::new(),
                registers: SetForest::new(),
                free: Set::new(),
            };
            for register in 0..registers {
                made.free.insert(register, &mut made.registers, &());
            }
            made
        }

        fn wait(&mut self, start: u32, value: u32) {
            self.waiting.insert((start, value), &mut self.points, &());
        }

        fn next(&mut self) -> Option<(u32, u32)> {
            let mut cursor = self.waiting.cursor(&mut self.points, &());
            cursor.goto_first();
            cursor.remove()
        }

        fn expire(&mut self, point: u32) {
            let mut cursor = self.active.cursor_mut(&mut self.ends, &());
            cursor.goto_first();
            while cursor.key().is_some_and(|key| key.0 <= point) {
                if let Some(register) = cursor.remove() {
                    self.free.insert(register, &mut self.registers, &());
                }
            }
        }

        fn take_free(&mut self) -> Option<u32> {
            let mut cursor = self.free.cursor(&mut self.registers, &());
            cursor.goto_first();
            cursor.remove()
        }

        fn activate(&mut self, it: Active) {
            self.active.insert((it.end, it.value), it.register, &mut self.ends, &());
        }

        fn take_last(&mut self, behind: u32) -> Option<Active> {
            let mut cursor = self.active.cursor_mut(&mut self.ends, &());
            let ((end, value), register) = cursor.prev().filter(|last| last.0 .0 > behind)?;
            cursor.remove();
            Some(Active { end, value, register })
        }
    }
}

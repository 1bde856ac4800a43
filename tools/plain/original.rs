//! The random calls of the package's test on the Rust original, beside the same definitions. The argument is how many.
//!
//! Left out is what the original answers otherwise on purpose, or has not: counts, limits, ranges from behind, ranges and look-up from below of
//! sets, look-up from above, calls at the first entry and the last, `get_or_insert`, `update`, `update_or_insert`, copies, loads, shifts,
//! ranges that are removed, splits and compactions; a look-up from below answers the key that was asked where it is present.

#[path = "bforest/tests/against_std.rs"]
mod against_std;

use against_std::{Answer, Call, Down, Draw, HANDLES, Model, Order, Plain, Step, Subject, Tens, compare};
use cranelift_bforest::{Comparator, Map, MapForest, Set, SetForest};
use std::cmp::Ordering;

impl Comparator<u32> for Down {
    fn cmp(&self, a: u32, b: u32) -> Ordering {
        b.cmp(&a)
    }
}

impl Comparator<u32> for Tens {
    fn cmp(&self, a: u32, b: u32) -> Ordering {
        (a / 10).cmp(&(b / 10))
    }
}

impl Comparator<u32> for Plain {
    fn cmp(&self, a: u32, b: u32) -> Ordering {
        a.cmp(&b)
    }
}

struct Maps<'a, C> {
    order: &'a C,
    forest: MapForest<u32, u32>,
    maps: Vec<Map<u32, u32>>,
}

impl<C: Comparator<u32>> Maps<'_, C> {
    fn read(&self, at: usize, steps: &[Step]) -> Vec<Answer> {
        let mut cursor = self.maps[at].cursor(&self.forest, self.order);
        let step = |step: &Step| match *step {
            Step::Next => Answer::Entry(cursor.next()),
            Step::Prev => Answer::Entry(cursor.prev()),
            Step::First => Answer::Value(cursor.goto_first()),
            Step::Goto(key) => Answer::Value(cursor.goto(key)),
            _ => Answer::Entry(cursor.key().zip(cursor.value())),
        };
        steps.iter().map(step).collect()
    }

    fn edit(&mut self, at: usize, steps: &[Step]) -> Vec<Answer> {
        let mut cursor = self.maps[at].cursor_mut(&mut self.forest, self.order);
        let step = |step: &Step| match *step {
            Step::Next => Answer::Entry(cursor.next()),
            Step::Prev => Answer::Entry(cursor.prev()),
            Step::First => Answer::Value(cursor.goto_first()),
            Step::Goto(key) => Answer::Value(cursor.goto(key)),
            Step::Here => Answer::Entry(cursor.key().zip(cursor.value())),
            Step::Insert((key, value)) => Answer::Put(Ok(cursor.insert(key, value))),
            Step::Write(value) => Answer::Flag(cursor.value_mut().map(|it| *it = value).is_some()),
            Step::Remove => Answer::Entry(cursor.remove().map(|it| (0, it))),
        };
        steps.iter().map(step).collect()
    }
}

impl<C: Comparator<u32>> Subject for Maps<'_, C> {
    fn call(&mut self, at: usize, call: &Call) -> Vec<Answer> {
        let (order, forest, map) = (self.order, &mut self.forest, &mut self.maps[at]);
        match call {
            Call::Insert((key, value)) => vec![Answer::Put(Ok(map.insert(*key, *value, forest, order)))],
            Call::Remove(key) => vec![Answer::Value(map.remove(*key, forest, order))],
            Call::Get(key) => vec![Answer::Value(map.get(*key, forest, order))],
            Call::GetOrLess(key) => vec![Answer::Entry(map.get_or_less(*key, forest, order))],
            Call::Iter => map.iter(forest).map(|it| Answer::Entry(Some(it))).collect(),
            Call::Range(low, high, ends) => {
                let mut range = map.range((*low, *high), forest, order);
                ends.iter().map(|_| Answer::Entry(range.next())).collect()
            }
            Call::Read(steps) => self.read(at, steps),
            Call::Edit(steps) => self.edit(at, steps),
            Call::Retain(bits, put) => {
                map.retain(forest, |key, value| {
                    *value = put.unwrap_or(*value);
                    key & bits == 0
                });
                vec![Answer::Done]
            }
            Call::Clear => {
                map.clear(forest);
                vec![Answer::Done]
            }
            Call::Wipe => {
                forest.clear();
                self.maps.fill_with(Map::new);
                vec![Answer::Done]
            }
            Call::Reserve(_) => vec![Answer::Done],
            Call::GetOrGreater(_) | Call::Ends | Call::PopFirst | Call::PopLast | Call::GetOrInsert(_) => vec![Answer::Done],
            Call::Update(_) | Call::UpdateOrInsert(_) | Call::Copy(_) | Call::Load(_) | Call::Shift(_) => vec![Answer::Done],
            Call::RemoveRange(..) | Call::SplitOff(..) | Call::Compact => vec![Answer::Done],
        }
    }

    fn counts(&self, _at: usize) -> [usize; 3] {
        [0; 3]
    }
}

struct Sets<'a, C> {
    order: &'a C,
    forest: SetForest<u32>,
    sets: Vec<Set<u32>>,
}

fn as_entry(key: Option<u32>) -> Answer {
    Answer::Entry(key.map(|it| (it, 0)))
}

fn as_value(is_there: bool) -> Answer {
    Answer::Value(is_there.then_some(0))
}

fn as_put(is_new: bool) -> Answer {
    Answer::Put(Ok(if is_new { None } else { Some(0) }))
}

impl<C: Comparator<u32>> Subject for Sets<'_, C> {
    fn call(&mut self, at: usize, call: &Call) -> Vec<Answer> {
        let (order, forest, set) = (self.order, &mut self.forest, &mut self.sets[at]);
        match call {
            Call::Insert((key, _)) => vec![as_put(set.insert(*key, forest, order))],
            Call::Remove(key) => vec![as_value(set.remove(*key, forest, order))],
            Call::Get(key) => vec![as_value(set.contains(*key, forest, order))],
            Call::Iter => set.iter(forest).map(|it| as_entry(Some(it))).collect(),
            Call::Read(steps) | Call::Edit(steps) => {
                let mut cursor = set.cursor(forest, order);
                let step = |step: &Step| match *step {
                    Step::Next => as_entry(cursor.next()),
                    Step::Prev => as_entry(cursor.prev()),
                    Step::First => as_value(cursor.goto_first().is_some()),
                    Step::Goto(key) => as_value(cursor.goto(key)),
                    Step::Here => as_entry(cursor.elem()),
                    Step::Insert((key, _)) => as_put(cursor.insert(key)),
                    Step::Write(_) => Answer::Flag(false),
                    Step::Remove => as_entry(cursor.remove()),
                };
                steps.iter().map(step).collect()
            }
            Call::Retain(bits, _) => {
                set.retain(forest, |key| key & bits == 0);
                vec![Answer::Done]
            }
            Call::Clear => {
                set.clear(forest);
                vec![Answer::Done]
            }
            Call::Wipe => {
                forest.clear();
                self.sets.fill_with(Set::new);
                vec![Answer::Done]
            }
            Call::GetOrLess(_) | Call::Range(..) | Call::Reserve(_) => vec![Answer::Done],
            Call::GetOrGreater(_) | Call::Ends | Call::PopFirst | Call::PopLast | Call::GetOrInsert(_) => vec![Answer::Done],
            Call::Update(_) | Call::UpdateOrInsert(_) | Call::Copy(_) | Call::Load(_) | Call::Shift(_) => vec![Answer::Done],
            Call::RemoveRange(..) | Call::SplitOff(..) | Call::Compact => vec![Answer::Done],
        }
    }

    fn counts(&self, _at: usize) -> [usize; 3] {
        [0; 3]
    }
}

/// The definitions, which are asked for no counts and for no call that the original lacks, and whose ranges go forwards.
struct Uncounted<'a, C>(Model<'a, C>);

impl<C: Order> Subject for Uncounted<'_, C> {
    fn call(&mut self, at: usize, call: &Call) -> Vec<Answer> {
        match call {
            Call::Range(low, high, ends) => self.0.call(at, &Call::Range(*low, *high, vec![false; ends.len()])),
            Call::GetOrGreater(_) | Call::Ends | Call::PopFirst | Call::PopLast | Call::GetOrInsert(_) => vec![Answer::Done],
            Call::Update(_) | Call::UpdateOrInsert(_) | Call::Copy(_) | Call::Load(_) | Call::Shift(_) => vec![Answer::Done],
            Call::RemoveRange(..) | Call::SplitOff(..) | Call::Compact => vec![Answer::Done],
            call => self.0.call(at, call),
        }
    }

    fn counts(&self, _at: usize) -> [usize; 3] {
        [0; 3]
    }
}

/// Whether the original answers as the definitions do, but for what it answers otherwise on purpose.
fn is_same<C: Order>(order: &C, is_map: bool, call: &Call, answer: &[Answer], wanted: &[Answer]) -> bool {
    match (call, answer, wanted) {
        (Call::Reserve(_), _, _) => true,
        (Call::GetOrLess(_) | Call::Range(..), _, _) if !is_map => true,
        (Call::GetOrLess(_), [Answer::Entry(Some(it))], [Answer::Entry(Some(other))]) => {
            order.rank(it.0) == order.rank(other.0) && it.1 == other.1
        }
        _ => answer == wanted,
    }
}

fn run<C: Order + Comparator<u32>>(order: &C, all: u32) {
    for is_map in [true, false] {
        for (keys, losses) in [(2000, 8), (300, 24), (120, 16), (5000, 0)] {
            let draw = Draw { limit: u32::MAX, keys, losses, is_map };
            let mut model = Uncounted(Model::new(order, is_map, u32::MAX));
            let same = |call: &Call, answer: &[Answer], wanted: &[Answer]| is_same(order, is_map, call, answer, wanted);
            let calls = all.div_ceil(4 * 2 * 4);
            if is_map {
                let maps = (0..HANDLES).map(|_| Map::new()).collect();
                compare(&mut Maps { order, forest: MapForest::new(), maps }, &mut model, draw, calls, same);
            } else {
                let sets = (0..HANDLES).map(|_| Set::new()).collect();
                compare(&mut Sets { order, forest: SetForest::new(), sets }, &mut model, draw, calls, same);
            }
        }
    }
}

fn main() {
    let all = std::env::args().nth(1).map_or(100_000, |it| it.parse().expect("how many calls"));
    run(&(), all);
    run(&Plain, all);
    run(&Down, all);
    run(&Tens, all);
    println!("original: {all} random calls agree");
}

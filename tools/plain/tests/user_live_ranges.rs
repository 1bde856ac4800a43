//! The live ranges of variables, from start to end, edited by writing cursors.

use bforest::{Map, MapForest, OutOfMemory};

/// A point of the program.
#[derive(Clone, Copy, Debug, PartialEq, Eq, PartialOrd, Ord)]
struct Point(u32);

type Forest = MapForest<Point, Point>;

/// Where one variable is live: ranges from a start to an end that is not in them. No two of them touch.
#[derive(Default)]
struct Live(Map<Point, Point>);

impl Live {
    fn at(&self, point: Point, forest: &Forest) -> bool {
        let below = self.0.get_or_less(point, forest, &());
        below.is_some_and(|(_, end)| point < end)
    }

    /// Adds a span that is not empty, and joins it with the ranges that it meets or touches.
    fn add(&mut self, from: Point, to: Point, forest: &mut Forest) -> Result<(), OutOfMemory> {
        let mut cursor = self.0.cursor_mut(forest, &());
        if cursor.goto(from).is_none() {
            match cursor.prev() {
                Some((_, end)) if end >= from => {}
                before => {
                    // `from` belongs between two entries: go to the second, so that `insert` finds it near.
                    if before.is_some() {
                        cursor.next();
                    }
                    cursor.insert(from, to)?;
                }
            }
        }
        // The cursor stands at the range that takes in all others. No call below can be refused.
        let mut end = cursor.value().map_or(to, |it| it.max(to));
        cursor.next();
        while cursor.key().is_some_and(|it| it <= end) {
            end = end.max(cursor.remove().unwrap_or(end));
        }
        cursor.prev();
        if let Some(value) = cursor.value_mut() {
            *value = end;
        }
        Ok(())
    }

    /// Makes two ranges of the one that goes over a point. They touch.
    fn cut(&mut self, at: Point, forest: &mut Forest) -> Result<(), OutOfMemory> {
        let over = self.0.get_or_less(at, forest, &());
        let cut = over.filter(|it| it.0 < at && at < it.1);
        if let Some((start, end)) = cut {
            let mut cursor = self.0.cursor_mut(forest, &());
            cursor.goto(start);
            cursor.next();
            cursor.insert(at, end)?;
            cursor.prev();
            cursor.insert(start, at)?;
        }
        Ok(())
    }

    /// Removes a span. Only the cut at its end can be refused.
    fn remove(&mut self, from: Point, to: Point, forest: &mut Forest) -> Result<(), OutOfMemory> {
        self.cut(to, forest)?;
        let mut cursor = self.0.cursor_mut(forest, &());
        if cursor.goto(from).is_none() && cursor.prev().is_some() {
            if let Some(end) = cursor.value_mut() {
                *end = from.min(*end);
            }
            cursor.next();
        }
        while cursor.key().is_some_and(|start| start < to) {
            cursor.remove();
        }
        Ok(())
    }

    /// Keeps what is within a span.
    fn trim(&mut self, from: Point, to: Point, forest: &mut Forest) -> Result<(), OutOfMemory> {
        self.remove(Point(0), from, forest)?;
        self.remove(to, Point(u32::MAX), forest)
    }

    /// Moves what is live from a point on to another variable, or changes nothing.
    fn split(&mut self, at: Point, forest: &mut Forest) -> Result<Live, OutOfMemory> {
        let above = self.0.range(at.., forest, &()).count() + 1;
        let most = self.0.levels(forest) + 1 + above.div_ceil(2);
        forest.reserve_nodes(most as u32)?;
        self.cut(at, forest)?;
        let moved: Vec<_> = self.0.range(at.., forest, &()).collect();
        self.remove(at, Point(u32::MAX), forest)?;
        let mut rest = Map::new();
        let mut cursor = rest.cursor_mut(forest, &());
        for (start, end) in moved {
            cursor.insert(start, end)?;
            cursor.next();
        }
        Ok(Live(rest))
    }
}

const POINTS: usize = 600;

/// The longest runs of live points.
fn runs(model: &[bool]) -> Vec<(Point, Point)> {
    let (mut runs, mut at) = (Vec::new(), 0);
    for run in model.chunk_by(|a, b| a == b) {
        let start = Point(at);
        at += run.len() as u32;
        runs.extend(run[0].then_some((start, Point(at))));
    }
    runs
}

/// Makes random calls beside a model, and returns how many were refused.
fn compare(limit: u32, mut seed: u64) -> usize {
    let mut random = |below: usize| {
        seed = seed.wrapping_mul(6364136223846793005).wrapping_add(1);
        (seed >> 33) as usize % below
    };
    let mut forest = Forest::with_node_limit(limit);
    let (mut live, mut model) = (Live::default(), [false; POINTS]);
    let mut refused = 0;
    for _ in 0..10_000 {
        let from = random(POINTS - 1);
        let to = (from + 1 + random(12)).min(POINTS);
        let (start, end) = (Point(from as u32), Point(to as u32));
        let mut new = model;
        let done = match random(200) {
            0 => {
                new[..from / 9].fill(false);
                new[POINTS - from / 9..].fill(false);
                let (low, high) = (from / 9, POINTS - from / 9);
                live.trim(Point(low as u32), Point(high as u32), &mut forest)
            }
            1 => live.split(start, &mut forest).map(|mut rest| {
                let moved = runs(&model).into_iter().filter(|it| it.1 > start);
                let moved = moved.map(|it| (it.0.max(start), it.1));
                assert!(rest.0.iter(&forest).eq(moved));
                new[from..].fill(false);
                rest.0.clear(&mut forest);
            }),
            2..110 => {
                new[from..to].fill(true);
                live.add(start, end, &mut forest)
            }
            _ => {
                new[from..to].fill(false);
                live.remove(start, end, &mut forest)
            }
        };
        match done {
            Ok(()) => model = new,
            Err(why) => refused += usize::from(why == OutOfMemory::Full),
        }
        // A refused call has changed nothing.
        assert!(live.0.iter(&forest).eq(runs(&model)));
        assert_eq!(live.at(start, &forest), model[from]);
    }
    refused
}

#[test]
fn beside_a_model() {
    assert_eq!(compare(u32::MAX, 1), 0);
    assert!(compare(9, 2) > 0 && compare(12, 3) > 0);
}

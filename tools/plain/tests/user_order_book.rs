//! The order books of several instruments in one forest, with the open quantity at each price.

use bforest::{Comparator, Map, MapForest, OutOfMemory};
use std::cmp::{Ordering, Reverse};
use std::collections::BTreeMap;

#[derive(Clone, Copy, Debug, PartialEq, Eq, PartialOrd, Ord)]
struct Price(i64);

type Level = (Price, u64);
type Fills = Result<Vec<Level>, OutOfMemory>;

/// One side of the book of one instrument.
#[derive(Clone, Copy)]
struct Side {
    book: usize,
    asks: bool,
}

impl Side {
    /// The best price is first.
    fn order(self) -> &'static dyn Comparator<Price> {
        if self.asks { &() } else { &Reverse(()) }
    }

    fn other(self) -> Self {
        Self {
            asks: !self.asks,
            ..self
        }
    }
}

#[derive(Default)]
struct Exchange {
    forest: MapForest<Price, u64>,
    books: [[Map<Price, u64>; 2]; 3],
}

impl Exchange {
    fn levels(&self, side: Side) -> impl Iterator<Item = Level> {
        self.books[side.book][side.asks as usize].iter(&self.forest)
    }

    /// The levels from a price to one that is no better.
    fn span(&self, side: Side, near: Price, far: Price) -> impl DoubleEndedIterator<Item = Level> {
        let levels = &self.books[side.book][side.asks as usize];
        levels.range(near..=far, &self.forest, &side.order())
    }

    /// Matches an order against the other side, and adds what is left. A refused order changes nothing.
    fn submit(&mut self, side: Side, limit: Price, mut left: u64) -> Fills {
        let (own, other) = (side.order(), side.other().order());
        let [bids, asks] = &mut self.books[side.book];
        let (own_levels, levels) = if side.asks {
            (asks, bids)
        } else {
            (bids, asks)
        };
        let most = own_levels.levels(&self.forest) + 1;
        self.forest.reserve_nodes(most as u32)?;

        let mut fills = Vec::new();
        let mut cursor = levels.cursor_mut(&mut self.forest, &other);
        cursor.goto_first();
        while let Some((price, open)) = cursor.entry() {
            if left == 0 || other.cmp(price, limit) == Ordering::Greater {
                break;
            }
            let fill = open.min(left);
            left -= fill;
            fills.push((price, fill));
            match cursor.value_mut() {
                Some(value) if fill < open => *value -= fill,
                _ => drop(cursor.remove()),
            }
        }
        if left > 0 {
            let mut cursor = own_levels.cursor_mut(&mut self.forest, &own);
            let open = cursor.goto(limit).unwrap_or(0);
            cursor.insert(limit, open + left)?;
        }
        Ok(fills)
    }

    /// Cancels a part of a level, or all of it. Returns how much was open.
    fn cancel(&mut self, side: Side, at: Price, less: u64) -> Option<u64> {
        let order = side.order();
        let levels = &mut self.books[side.book][side.asks as usize];
        let mut cursor = levels.cursor_mut(&mut self.forest, &order);
        // Where the level is absent, the cursor stands at the next one, which is not meant.
        let open = cursor.goto(at)?;
        match cursor.value_mut() {
            Some(value) if less < open => *value -= less,
            _ => drop(cursor.remove()),
        }
        Some(open)
    }

    fn cancel_all(&mut self, book: usize) {
        self.books[book]
            .iter_mut()
            .for_each(|it| it.clear(&mut self.forest));
    }
}

/// Makes random orders beside maps of the standard library, and returns how many were refused.
fn compare(limit: u32, mut seed: u64) -> usize {
    let mut random = |below: u64| {
        seed ^= seed << 13;
        seed ^= seed >> 7;
        seed ^= seed << 17;
        seed % below
    };
    let forest = MapForest::with_node_limit(limit);
    let mut exchange = Exchange {
        forest,
        ..Exchange::default()
    };
    // The key of a bid is its negated price.
    let mut model: [[BTreeMap<i64, u64>; 2]; 3] = Default::default();
    let mut refused = 0;
    for _ in 0..10_000 {
        let side = Side {
            book: random(3) as usize,
            asks: random(2) == 0,
        };
        let [bids, asks] = &mut model[side.book];
        let (own, other, sign) = if side.asks {
            (asks, bids, 1)
        } else {
            (bids, asks, -1)
        };
        let (key, quantity) = (sign * 1_000 + random(200) as i64, random(30) + 1);
        let price = Price(sign * key);
        match random(2_000) {
            0 => {
                exchange.cancel_all(side.book);
                own.clear();
                other.clear();
            }
            1..500 => {
                let open = own.remove(&key);
                assert_eq!(exchange.cancel(side, price, quantity), open);
                own.extend(
                    open.filter(|&it| it > quantity)
                        .map(|it| (key, it - quantity)),
                );
            }
            _ => match exchange.submit(side, price, quantity) {
                Ok(fills) => {
                    let mut left = quantity;
                    for (at, fill) in fills {
                        let (best, open) = other.pop_first().expect("a level to take");
                        assert!(best == -sign * at.0 && best <= -key && fill == open.min(left));
                        left -= fill;
                        other.extend((fill < open).then_some((best, open - fill)));
                    }
                    assert!(left == 0 || other.first_key_value().is_none_or(|it| *it.0 > -key));
                    *own.entry(key).or_default() += left;
                    own.retain(|_, open| *open > 0);
                }
                Err(why) => refused += usize::from(why == OutOfMemory::Full),
            },
        }
        let level = |sign: i64| move |(key, open): (&i64, &u64)| (Price(sign * key), *open);
        assert!(exchange.levels(side).eq(own.iter().map(level(sign))));
        assert!(
            exchange
                .levels(side.other())
                .eq(other.iter().map(level(-sign)))
        );
        // The levels near the price from both ends, until these meet.
        let mut found = exchange.span(side, price, Price(sign * (key + 40)));
        let mut expected = own.range(key..=key + 40).map(level(sign));
        for _ in 0..25 {
            assert_eq!(found.next(), expected.next());
            assert_eq!(found.next_back(), expected.next_back());
        }
    }
    refused
}

#[test]
fn beside_the_standard_library() {
    assert_eq!(compare(u32::MAX, 1), 0);
    assert!(compare(60, 2) > 0);
}

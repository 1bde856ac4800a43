//! A matching engine: for each instrument the open orders to buy and to sell, in queues by their prices. A new order meets the best prices
//! of the other side first, and what is left of it waits. Orders are cancelled by their numbers.

use super::random::{added, Random};

/// What comes in. The first order has the number 0, the next one 1, and so on.
#[derive(Clone, Copy)]
pub enum Event {
    Limit { book: u32, is_buy: bool, price: u32, quantity: u32 },
    Cancel { order: u32 },
    Best { book: u32 },
}

const BOOKS: u32 = 40;
/// Prices lie at most so far from the middle, and most lie near it.
const SPREAD: u32 = 60;
const MIDDLE: u32 = 10_000;

/// So many random events: half are orders, a quarter are cancels, and a quarter ask for the best prices.
pub fn input(events: u32) -> Vec<Event> {
    let mut random = Random::new(3);
    let mut orders = 0;
    (0..events).map(|_| event(&mut random, &mut orders)).collect()
}

fn event(random: &mut Random, orders: &mut u32) -> Event {
    let book = random.below(BOOKS);
    match random.below(4) {
        0 if *orders > 0 => Event::Cancel { order: *orders - 1 - random.below((*orders).min(2_000)) },
        1 => Event::Best { book },
        _ => {
            *orders += 1;
            let is_buy = random.below(2) == 0;
            let (near, far) = (random.below(SPREAD), random.below(SPREAD));
            // Few orders cross the middle.
            let away = near.min(far);
            let price = if is_buy { MIDDLE + 5 - away } else { MIDDLE - 5 + away };
            Event::Limit { book, is_buy, price, quantity: 1 + random.below(100) }
        }
    }
}

/// The number of no order.
pub const NONE: u32 = u32::MAX;

/// An order, in the queue of its price. It is closed where its quantity is 0.
#[derive(Clone, Copy)]
pub struct Order {
    book: u32,
    is_buy: bool,
    price: u32,
    quantity: u32,
    before: u32,
    behind: u32,
}

/// The queue of a price: its first order and its last.
#[derive(Clone, Copy)]
pub struct Level {
    first: u32,
    last: u32,
    quantity: u32,
}

impl Level {
    pub const EMPTY: Level = Level { first: NONE, last: NONE, quantity: 0 };

    pub fn is_empty(&self) -> bool {
        self.first == NONE
    }

    /// Puts an order at the end of the queue.
    pub fn push(&mut self, order: u32, orders: &mut [Order]) {
        orders[order as usize].before = self.last;
        match orders.get_mut(self.last as usize) {
            Some(last) => last.behind = order,
            None => self.first = order,
        }
        self.last = order;
        self.quantity += orders[order as usize].quantity;
    }

    /// Takes an order out of the queue, and closes it.
    pub fn unlink(&mut self, order: u32, orders: &mut [Order]) {
        let Order { before, behind, quantity, .. } = orders[order as usize];
        match orders.get_mut(before as usize) {
            Some(it) => it.behind = behind,
            None => self.first = behind,
        }
        match orders.get_mut(behind as usize) {
            Some(it) => it.before = before,
            None => self.last = before,
        }
        self.quantity -= quantity;
        orders[order as usize].quantity = 0;
    }

    /// Fills a quantity by the first orders of the queue, and returns what is left of it.
    pub fn fill(&mut self, mut left: u32, orders: &mut [Order]) -> u32 {
        while left > 0 && self.first != NONE {
            let open = &mut orders[self.first as usize].quantity;
            let traded = left.min(*open);
            left -= traded;
            if traded == *open {
                self.unlink(self.first, orders);
            } else {
                *open -= traded;
                self.quantity -= traded;
            }
        }
        left
    }
}

/// Whether an order may trade at the price of the other side.
pub fn meets(is_buy: bool, limit: u32, price: u32) -> bool {
    if is_buy {
        price <= limit
    } else {
        price >= limit
    }
}

/// One side of a book.
#[derive(Clone, Copy)]
pub struct Place {
    pub book: usize,
    pub is_buy: bool,
}

/// The levels of all books, by their prices. No level is empty.
pub trait Books {
    fn new(books: u32) -> Self;
    /// Fills an order of this limit by the best levels of a side, which is not its own, and returns what is left of it.
    fn trade(&mut self, other: Place, limit: u32, left: u32, orders: &mut [Order]) -> u32;
    /// Puts an order at the end of the queue of its price.
    fn rest(&mut self, own: Place, price: u32, order: u32, orders: &mut [Order]);
    /// Takes an order out of the queue of its price.
    fn cancel(&mut self, own: Place, price: u32, order: u32, orders: &mut [Order]);
    /// The best price of a side, and its level: the last to buy, or the first to sell.
    fn best(&self, own: Place) -> Option<(u32, Level)>;
}

/// Takes in all events, and returns a checksum.
pub fn run<B: Books>(events: &[Event]) -> u64 {
    let (mut books, mut orders) = (B::new(BOOKS), Vec::new());
    events.iter().fold(0, |sum, event| match *event {
        Event::Limit { book, is_buy, price, quantity } => added(
            sum,
            limit(&mut books, &mut orders, Order { book, is_buy, price, quantity, before: NONE, behind: NONE }),
        ),
        Event::Cancel { order } => {
            let it = orders[order as usize];
            if it.quantity > 0 {
                books.cancel(Place { book: it.book as usize, is_buy: it.is_buy }, it.price, order, &mut orders);
            }
            added(sum, it.quantity)
        }
        Event::Best { book } => [true, false].into_iter().fold(sum, |sum, is_buy| {
            let (price, level) = books.best(Place { book: book as usize, is_buy }).unwrap_or((0, Level::EMPTY));
            added(sum, price ^ level.quantity)
        }),
    })
}

/// Takes an order in, and returns what is left of it.
fn limit<B: Books>(books: &mut B, orders: &mut Vec<Order>, mut it: Order) -> u32 {
    let own = Place { book: it.book as usize, is_buy: it.is_buy };
    let other = Place { is_buy: !it.is_buy, ..own };
    it.quantity = books.trade(other, it.price, it.quantity, orders);
    orders.push(it);
    if it.quantity > 0 {
        books.rest(own, it.price, orders.len() as u32 - 1, orders);
    }
    it.quantity
}

pub mod standard {
    use super::{meets, Books, Level, Order, Place};
    use std::collections::btree_map::{BTreeMap, Entry};

    /// The levels to sell and to buy of each book.
    pub struct Levels(Vec<[BTreeMap<u32, Level>; 2]>);

    impl Levels {
        fn at(&mut self, place: Place) -> &mut BTreeMap<u32, Level> {
            &mut self.0[place.book][usize::from(place.is_buy)]
        }
    }

    impl Books for Levels {
        fn new(books: u32) -> Self {
            Levels((0..books).map(|_| Default::default()).collect())
        }

        fn trade(&mut self, other: Place, limit: u32, mut left: u32, orders: &mut [Order]) -> u32 {
            let levels = self.at(other);
            while left > 0 {
                let best = if other.is_buy { levels.last_entry() } else { levels.first_entry() };
                let Some(mut best) = best.filter(|it| meets(!other.is_buy, limit, *it.key())) else { break };
                left = best.get_mut().fill(left, orders);
                if best.get().is_empty() {
                    best.remove();
                }
            }
            left
        }

        fn rest(&mut self, own: Place, price: u32, order: u32, orders: &mut [Order]) {
            self.at(own).entry(price).or_insert(Level::EMPTY).push(order, orders);
        }

        fn cancel(&mut self, own: Place, price: u32, order: u32, orders: &mut [Order]) {
            if let Entry::Occupied(mut level) = self.at(own).entry(price) {
                level.get_mut().unlink(order, orders);
                if level.get().is_empty() {
                    level.remove();
                }
            }
        }

        fn best(&self, own: Place) -> Option<(u32, Level)> {
            let levels = &self.0[own.book][usize::from(own.is_buy)];
            let best = if own.is_buy { levels.last_key_value() } else { levels.first_key_value() };
            best.map(|(price, level)| (*price, *level))
        }
    }
}

#[cfg(package)]
pub mod package {
    use super::{meets, Books, Level, Order, Place};
    use bforest::{Map, MapForest};

    const ROOM: &str = "there is memory";

    /// The levels to sell and to buy of each book.
    pub struct Levels {
        forest: MapForest<u32, Level>,
        books: Vec<[Map<u32, Level>; 2]>,
    }

    impl Books for Levels {
        fn new(books: u32) -> Self {
            Levels { forest: MapForest::new(), books: (0..books).map(|_| Default::default()).collect() }
        }

        fn trade(&mut self, other: Place, limit: u32, mut left: u32, orders: &mut [Order]) -> u32 {
            let levels = &mut self.books[other.book][usize::from(other.is_buy)];
            while left > 0 {
                let best = if other.is_buy { levels.last(&self.forest) } else { levels.first(&self.forest) };
                let Some((price, mut level)) = best else { break };
                if !meets(!other.is_buy, limit, price) {
                    break;
                }
                left = level.fill(left, orders);
                if !level.is_empty() {
                    levels.update(price, |_| level, &mut self.forest, &());
                } else if other.is_buy {
                    levels.pop_last(&mut self.forest);
                } else {
                    levels.pop_first(&mut self.forest);
                }
            }
            left
        }

        fn rest(&mut self, own: Place, price: u32, order: u32, orders: &mut [Order]) {
            let levels = &mut self.books[own.book][usize::from(own.is_buy)];
            let mut alone = Level::EMPTY;
            alone.push(order, orders);
            let push = |mut level: Level| {
                level.push(order, orders);
                level
            };
            levels.update_or_insert(price, alone, push, &mut self.forest, &()).expect(ROOM);
        }

        fn cancel(&mut self, own: Place, price: u32, order: u32, orders: &mut [Order]) {
            let levels = &mut self.books[own.book][usize::from(own.is_buy)];
            let Some(level) = self.forest.get_mut(levels, price, &()) else { return };
            level.unlink(order, orders);
            if level.is_empty() {
                levels.remove(price, &mut self.forest, &());
            }
        }

        fn best(&self, own: Place) -> Option<(u32, Level)> {
            let levels = &self.books[own.book][usize::from(own.is_buy)];
            if own.is_buy {
                levels.last(&self.forest)
            } else {
                levels.first(&self.forest)
            }
        }
    }
}

#[cfg(original)]
pub mod original {
    use super::{meets, Books, Level, Order, Place};
    use cranelift_bforest::{Map, MapForest};

    /// The levels to sell and to buy of each book.
    pub struct Levels {
        forest: MapForest<u32, Level>,
        books: Vec<[Map<u32, Level>; 2]>,
    }

    impl Books for Levels {
        fn new(books: u32) -> Self {
            Levels { forest: MapForest::new(), books: (0..books).map(|_| Default::default()).collect() }
        }

        fn trade(&mut self, other: Place, limit: u32, mut left: u32, orders: &mut [Order]) -> u32 {
            let levels = &mut self.books[other.book][usize::from(other.is_buy)];
            let mut cursor = levels.cursor_mut(&mut self.forest, &());
            while left > 0 {
                let best = if other.is_buy {
                    // Behind the last entry it stands at first, and after each removal.
                    cursor.prev().map(|it| it.0)
                } else {
                    cursor.goto_first();
                    cursor.key()
                };
                if !best.is_some_and(|price| meets(!other.is_buy, limit, price)) {
                    break;
                }
                let Some(level) = cursor.value_mut() else { break };
                left = level.fill(left, orders);
                if level.is_empty() {
                    cursor.remove();
                }
            }
            left
        }

        fn rest(&mut self, own: Place, price: u32, order: u32, orders: &mut [Order]) {
            let levels = &mut self.books[own.book][usize::from(own.is_buy)];
            let mut cursor = levels.cursor_mut(&mut self.forest, &());
            if cursor.goto(price).is_none() {
                cursor.insert(price, Level::EMPTY);
            }
            if let Some(level) = cursor.value_mut() {
                level.push(order, orders);
            }
        }

        fn cancel(&mut self, own: Place, price: u32, order: u32, orders: &mut [Order]) {
            let levels = &mut self.books[own.book][usize::from(own.is_buy)];
            let mut cursor = levels.cursor_mut(&mut self.forest, &());
            if cursor.goto(price).is_none() {
                return;
            }
            let Some(level) = cursor.value_mut() else { return };
            level.unlink(order, orders);
            if level.is_empty() {
                cursor.remove();
            }
        }

        fn best(&self, own: Place) -> Option<(u32, Level)> {
            let levels = &self.books[own.book][usize::from(own.is_buy)];
            let mut cursor = levels.cursor(&self.forest, &());
            if own.is_buy {
                return cursor.prev();
            }
            let level = cursor.goto_first()?;
            Some((cursor.key()?, level))
        }
    }
}

//! The counting twin: it takes an event by the steps of the proved meter (crates side, small, level and quote), and counts as
//! `book::send` does. It sees that each sum keeps W3's rule. It is compared and not timed.

use crate::session::*;

/// For how many orders volumes were added up before a search or without one, how many records made a search, and for how many orders
/// the searches added up volumes. Both numbers of orders together are `Sent.sums`.
#[derive(Clone, Copy, Default)]
pub struct Counts {
    pub guesses: u64,
    pub searches: u64,
    pub sums: u64,
}

/// A key, the contracts at better keys, and at it. Of two prices the better one has the greater key; 0 is no price.
#[derive(Clone, Copy, Default)]
struct Level {
    key: u32,
    before: u32,
    at: u32,
}

impl Level {
    /// Whether it is the best quote's: fewer than M before it, and M or more with it, or no quote at all.
    fn is_best(&self, least: u32) -> bool {
        self.before < least && (self.key == 0 || least <= self.before + self.at)
    }

    /// How many contracts too many are before it, or how many are missing at it or better, where it is not the best.
    fn lacking(&self, least: u32) -> u32 {
        if least <= self.before {
            return self.before - least;
        }
        least - (self.before + self.at)
    }

    /// Whether the best level can be at a key, seen from this one, which is not the best.
    fn can_be_best(&self, key: u32, least: u32) -> bool {
        if least <= self.before {
            return self.key < key;
        }
        0 < key && key < self.key
    }
}

/// One event's work on a best quote: the best key found to qualify, 0 for none, and what was counted.
struct Work {
    least: u32,
    found: u32,
    counts: Counts,
}

impl Work {
    /// A sum for a key: W3 asks that a live order has it, and that it is better than every one already found to qualify.
    fn summed(&mut self, side: &Side, key: u32, depth: u32) {
        assert!(
            side.orders.iter().any(|o| o.key == key),
            "a sum for {key}, which no order has"
        );
        assert!(
            self.found < key,
            "a sum for {key}, where {} qualifies",
            self.found
        );
        if self.least <= depth {
            self.found = key;
        }
    }

    /// A level is tried, by one sum; that of no price by none.
    fn tried(&mut self, side: &Side, level: Level) -> Level {
        if level.key > 0 {
            self.counts.guesses += 1;
            self.summed(side, level.key, level.before + level.at);
        }
        level
    }
}

/// What an event does to a side: an order of `old` and `held` has `key` and `volume`, where none has 0 and 0.
struct Change {
    old: u32,
    held: u32,
    key: u32,
    volume: u32,
}

#[derive(Clone, Copy)]
struct Order {
    id: u32,
    key: u32,
    volume: u32,
}

/// The orders in the order in which they were added, and the best level.
#[derive(Default)]
struct Side {
    orders: Vec<Order>,
    level: Level,
}

fn part(counts: bool, volume: u32) -> u32 {
    counts as u32 * volume
}

impl Side {
    fn sum(&self, counts: impl Fn(u32) -> bool) -> u32 {
        self.orders
            .iter()
            .map(|o| part(counts(o.key), o.volume))
            .sum()
    }

    fn measured(&self, key: u32) -> Level {
        Level {
            key,
            before: self.sum(|k| k > key),
            at: self.sum(|k| k == key),
        }
    }

    /// The search from the best key found to qualify: volumes are added up for an order only if its key is better than it.
    fn search(&self, work: &mut Work) -> Level {
        work.counts.searches += 1;
        for o in &self.orders {
            if work.found < o.key {
                work.counts.sums += 1;
                work.summed(self, o.key, self.sum(|k| k >= o.key));
            }
        }
        self.measured(work.found)
    }

    /// The old level after a change of one order.
    fn moved(&self, c: &Change) -> Level {
        let Level { key, before, at } = self.level;
        Level {
            key,
            before: before + part(key < c.key, c.volume) - part(key < c.old, c.held),
            at: at + part(key == c.key, c.volume) - part(key == c.old, c.held),
        }
    }

    /// The level next to one, in the direction of the best one: the orders at it are added up.
    fn stepped(&self, level: Level, work: &mut Work) -> Level {
        let keys = self.orders.iter().map(|o| o.key);
        let key = if work.least <= level.before {
            keys.filter(|k| *k > level.key)
                .min()
                .unwrap_or(2_000_000_001)
        } else {
            keys.filter(|k| *k < level.key).max().unwrap_or(0)
        };
        work.tried(self, self.measured(key))
    }

    /// The best level of a small side, of which only the key is kept: the orders by price, the best one first.
    fn few(&self, work: &mut Work) -> Level {
        let mut keys: Vec<_> = self.orders.iter().map(|o| o.key).collect();
        keys.sort_by(|a, b| b.cmp(a));
        for key in keys {
            if work.found < key {
                work.counts.guesses += 1;
                work.summed(self, key, self.sum(|k| k >= key));
            }
        }
        Level {
            key: work.found,
            ..Level::default()
        }
    }

    /// The best level from one that is not: one step from it, or two, or at the changed order's key, or by the search.
    fn sought(&self, old: Level, key: u32, work: &mut Work) -> Level {
        let mut level = self.stepped(old, work);
        if !level.is_best(work.least) && level.lacking(work.least) <= 8 * level.at {
            level = self.stepped(level, work);
        }
        if !level.is_best(work.least) && level.can_be_best(key, work.least) {
            level = work.tried(self, self.measured(key));
        }
        if level.is_best(work.least) {
            return level;
        }
        self.search(work)
    }

    fn requote(&mut self, change: &Change, least: u32, counts: &mut Counts) {
        let mut work = Work {
            least,
            found: 0,
            counts: *counts,
        };
        self.level = if self.orders.len() <= 4 {
            self.few(&mut work)
        } else if self.orders.len() == 5 && change.old == 0 {
            // A small side kept no depths that could be carried.
            self.search(&mut work)
        } else {
            let old = self.moved(change);
            if old.is_best(least) {
                old
            } else {
                self.sought(old, change.key, &mut work)
            }
        };
        *counts = work.counts;
    }
}

struct Meter {
    terms: Terms,
    sides: [Side; 2],
    now: u32,
    kept: u32,
    counts: Counts,
}

fn key_of(s: usize, price: i32) -> u32 {
    (1_000_000_001 + if s == 0 { price } else { -price }) as u32
}

impl Meter {
    /// Both quotes are there, D is 1 or more, and D × 100,000 ≤ a × SP or D ≤ b.
    fn keeps(&self) -> bool {
        let [bid, ask] = [0, 1].map(|s: usize| self.sides[s].level.key as i64);
        let d = 2_000_000_002 - bid - ask;
        let (a, b, sp) = (
            self.terms.a as i64,
            self.terms.b as i64,
            self.terms.sp as i64,
        );
        bid != 0 && ask != 0 && d >= 1 && (d * 100_000 <= a * sp || d <= b)
    }

    fn run_on(&mut self, t: u32) {
        self.kept += part(self.keeps(), t - self.now);
        self.now = t;
    }

    /// An event: taken, or refused by the lowest number that applies.
    fn take(&mut self, r: Record) -> Result<(), u64> {
        in_time(r.t, self.now, self.terms.length)?;
        if r.kind == TICK {
            self.run_on(r.t);
            return Ok(());
        }
        let place = |s: usize| self.sides[s].orders.iter().position(|o| o.id == r.id);
        let found = place(0).map(|i| (0, i)).or(place(1).map(|i| (1, i)));
        let good = good_volume(r.volume) && (r.kind == DEAL || good_price(r.price));
        let (s, place) = if r.kind <= ADD_SELL {
            if found.is_some() {
                return Err(10);
            }
            let s = (r.kind - ADD_BUY) as usize;
            (s, self.sides[s].orders.len())
        } else {
            found.ok_or(11u64)?
        };
        if r.kind != CANCEL && !good {
            return Err(12);
        }
        if r.kind <= ADD_SELL
            && self.sides[0].orders.len() + self.sides[1].orders.len() == MAX_ORDERS
        {
            return Err(13);
        }
        let old = self.sides[s].orders.get(place).copied();
        let (old, held) = old.map_or((0, 0), |o| (o.key, o.volume));
        if r.kind == DEAL && r.volume > held {
            return Err(14);
        }
        self.run_on(r.t);
        let (key, volume) = match r.kind {
            CANCEL => (0, 0),
            DEAL if r.volume == held => (0, 0),
            DEAL => (old, held - r.volume),
            _ => (key_of(s, r.price), r.volume),
        };
        let side = &mut self.sides[s];
        let order = Order {
            id: r.id,
            key,
            volume,
        };
        if key == 0 {
            side.orders.remove(place);
        } else if place == side.orders.len() {
            side.orders.push(order);
        } else {
            side.orders[place] = order;
        }
        let change = Change {
            old,
            held,
            key,
            volume,
        };
        side.requote(&change, self.terms.least, &mut self.counts);
        Ok(())
    }
}

/// The session's answer, and what was counted.
pub fn run(head: &[u8], records: &[u8]) -> (u64, Counts) {
    let terms = match read_terms(head) {
        Ok(terms) => terms,
        Err(number) => return (refused(number, 0), Counts::default()),
    };
    let mut meter = Meter {
        terms,
        sides: Default::default(),
        now: 0,
        kept: 0,
        counts: Counts::default(),
    };
    for (i, bytes) in records.chunks(RECORD).enumerate() {
        let read = read_record(bytes).filter(|_| i < LIMIT);
        if let Err(number) = read.ok_or(15).and_then(|r| meter.take(r)) {
            return (refused(number, i + 1), meter.counts);
        }
    }
    meter.run_on(terms.length);
    (meter.kept as u64, meter.counts)
}

//! Meter (b): the fastest that we could write. Each side carries its best key with the depth at it and before it, so an
//! event that does not move the quote costs no search; one that does costs steps from level to level over flat arrays, or a
//! bisection of the prices where the quote moves far. A side of at most four orders is sorted and added up without a branch.
//! Orders are found by a hash of their id.

use crate::session::*;

/// The key of an empty slot, and the best key of a side without a quote.
const NONE: i32 = i32::MIN;

/// The slots of a side that is searched whole.
const FEW: usize = 4;

/// So many orders of the average volume are gone through by steps; what is farther away is bisected.
const STEPS: u32 = 4;

/// A side's slots. A key is the price, negated for sells, so that the better price has the greater key.
type Keys = [i32; MAX_ORDERS];
type Volumes = [u32; MAX_ORDERS];

/// The best key of a side, the contracts at better keys, at it, and in all: `before` < M ≤ `before` + `at` while there is a
/// quote. Of a side that is searched whole only the key is kept up.
#[derive(Clone, Copy)]
struct Level {
    key: i32,
    before: u32,
    at: u32,
    total: u32,
}

#[inline(always)]
fn part(counts: bool, volume: u32) -> u32 {
    if counts {
        volume
    } else {
        0
    }
}

/// The contracts of the slots whose key counts; the slots come in whole groups of eight.
#[inline(always)]
fn sum(keys: &[i32], volumes: &[u32], counts: impl Fn(i32) -> bool) -> u32 {
    let mut lanes = [0; 8];
    for (k, v) in keys.chunks_exact(8).zip(volumes.chunks_exact(8)) {
        for i in 0..8 {
            lanes[i] += part(counts(k[i]), v[i]);
        }
    }
    lanes.iter().sum()
}

/// The greatest of the numbers that the keys are turned into.
#[inline(always)]
fn greatest(keys: &[i32], turned: impl Fn(i32) -> i32) -> i32 {
    let mut lanes = [i32::MIN; 8];
    for k in keys.chunks_exact(8) {
        for i in 0..8 {
            lanes[i] = lanes[i].max(turned(k[i]));
        }
    }
    lanes.into_iter().fold(i32::MIN, i32::max)
}

/// The next better key, which must be there.
fn above(keys: &[i32], key: i32) -> i32 {
    !greatest(keys, |k| if k > key { !k } else { i32::MIN })
}

/// The next worse key, or none.
fn below(keys: &[i32], key: i32) -> i32 {
    greatest(keys, |k| if k < key { k } else { NONE })
}

/// The whole search over four slots: they are sorted, the better key first, and added up.
#[inline(always)]
fn whole(keys: &Keys, volumes: &Volumes, least: u32) -> i32 {
    let pair = |i: usize| (keys[i] as i64) << 32 | volumes[i] as i64;
    let sorted = |x: i64, y: i64| (x.max(y), x.min(y));
    let ((a, b), (c, d)) = (sorted(pair(0), pair(1)), sorted(pair(2), pair(3)));
    let ((a, c), (b, d)) = (sorted(a, c), sorted(b, d));
    let (b, c) = sorted(b, c);
    let mut depth = 0;
    let depths = [a, b, c, d].map(|x| {
        depth += x as u32;
        depth
    });
    let mut best = (NONE as i64) << 32;
    for (x, depth) in [d, c, b, a].into_iter().zip(depths.into_iter().rev()) {
        best = if depth >= least { x } else { best };
    }
    (best >> 32) as i32
}

/// The best level, from one with M or more before it, or fewer than M at it or better.
#[inline(never)]
fn settled(keys: &[i32], volumes: &[u32], level: Level, least: u32) -> Level {
    let Level {
        mut key,
        mut before,
        mut at,
        total,
    } = level;
    if total < least {
        return Level {
            key: NONE,
            before: total,
            at: 0,
            total,
        };
    }
    let near = STEPS * total / keys.len() as u32;
    if before >= least {
        while before - least < near {
            key = above(keys, key);
            at = sum(keys, volumes, |k| k == key);
            before -= at;
            if before < least {
                return Level {
                    key,
                    before,
                    at,
                    total,
                };
            }
        }
        let low = if key == NONE {
            above(keys, NONE)
        } else {
            key + 1
        };
        return bisected(keys, volumes, low, greatest(keys, |k| k) + 1, level, least);
    }
    while least - before - at < near {
        before += at;
        key = below(keys, key);
        at = sum(keys, volumes, |k| k == key);
        if before + at >= least {
            return Level {
                key,
                before,
                at,
                total,
            };
        }
    }
    bisected(keys, volumes, above(keys, NONE), key, level, least)
}

/// The best level, where M or more contracts are at `low` or better, and fewer at `high` or better.
fn bisected(
    keys: &[i32],
    volumes: &[u32],
    mut low: i32,
    high: i32,
    level: Level,
    least: u32,
) -> Level {
    // The best key is `low`, or above it by less than `width`.
    let mut width = high - low;
    while width > 1 {
        let half = width / 2;
        let enough = sum(keys, volumes, |k| k >= low + half) >= least;
        low += -(enough as i32) & half;
        width -= half;
    }
    Level {
        total: level.total,
        ..measured(keys, volumes, low)
    }
}

fn measured(keys: &[i32], volumes: &[u32], key: i32) -> Level {
    Level {
        key,
        before: sum(keys, volumes, |k| k > key),
        at: sum(keys, volumes, |k| k == key),
        total: volumes.iter().sum(),
    }
}

/// Where the live orders are: a table of open addressing, nearly empty.
struct Index {
    entries: [Entry; Index::SIZE],
}

/// `place` is 1 + slot, 65 + slot for sells, 0 where the entry is empty.
#[derive(Clone, Copy)]
struct Entry {
    id: u32,
    place: u32,
}

impl Index {
    const BITS: u32 = 10;
    const SIZE: usize = 1 << Index::BITS;

    #[inline(always)]
    fn home(id: u32) -> usize {
        (id.wrapping_mul(0x9E37_79B1) >> (32 - Index::BITS)) as usize
    }

    /// The entry with the id, or the empty one where it would go.
    #[inline(always)]
    fn find(&self, id: u32) -> usize {
        let mut i = Index::home(id);
        loop {
            let e = self.entries[i];
            if e.place == 0 || e.id == id {
                return i;
            }
            i = (i + 1) % Index::SIZE;
        }
    }

    /// Empties an entry; those after it that it displaced move up.
    #[inline(always)]
    fn remove(&mut self, entry: usize) {
        let mut hole = entry;
        let mut i = entry;
        loop {
            i = (i + 1) % Index::SIZE;
            let e = self.entries[i];
            if e.place == 0 {
                break;
            }
            let from_home = i.wrapping_sub(Index::home(e.id)) % Index::SIZE;
            let from_hole = i.wrapping_sub(hole) % Index::SIZE;
            if from_home >= from_hole {
                self.entries[hole] = e;
                hole = i;
            }
        }
        self.entries[hole].place = 0;
    }
}

#[inline(always)]
fn word(bytes: &[u8; RECORD], at: usize) -> u32 {
    u32::from_le_bytes(bytes[at..at + 4].try_into().unwrap())
}

pub struct Meter {
    terms: Terms,
    limit: i64,
    keys: [Keys; 2],
    volumes: [Volumes; 2],
    /// A bit for each slot in use.
    used: [u64; 2],
    levels: [Level; 2],
    index: Index,
    live: usize,
    now: u32,
    kept: u32,
    keeps: bool,
}

impl Meter {
    #[inline(always)]
    fn new(terms: Terms) -> Meter {
        // D × 100,000 ≤ a × SP or D ≤ b, as one limit of D; D is also 1 or more.
        let limit = (terms.a as i64 * terms.sp as i64).div_euclid(100_000);
        let none = Level {
            key: NONE,
            before: 0,
            at: 0,
            total: 0,
        };
        Meter {
            terms,
            limit: limit.max(terms.b as i64),
            keys: [[NONE; MAX_ORDERS]; 2],
            volumes: [[0; MAX_ORDERS]; 2],
            used: [0; 2],
            levels: [none; 2],
            index: Index {
                entries: [Entry { id: 0, place: 0 }; Index::SIZE],
            },
            live: 0,
            now: 0,
            kept: 0,
            keeps: false,
        }
    }

    #[inline(always)]
    fn run_on(&mut self, t: u32) {
        self.kept += part(self.keeps, t - self.now);
        self.now = t;
    }

    /// The slots that can be in use, in whole groups of eight.
    #[inline(always)]
    fn slots(&self, s: usize) -> (&[i32], &[u32]) {
        let n = (64 - self.used[s].leading_zeros() as usize + 7) & !7;
        (&self.keys[s][..n], &self.volumes[s][..n])
    }

    /// A slot takes another key and volume, and the best key moves to where it then belongs.
    #[inline(always)]
    fn put(&mut self, s: usize, slot: usize, key: i32, volume: u32) {
        let least = self.terms.least;
        let (old, held) = (self.keys[s][slot], self.volumes[s][slot]);
        self.keys[s][slot] = key;
        self.volumes[s][slot] = volume;
        if self.used[s] < 1 << FEW {
            self.levels[s].key = whole(&self.keys[s], &self.volumes[s], least);
        } else {
            let level = &mut self.levels[s];
            let best = level.key;
            level.before = level.before + part(key > best, volume) - part(old > best, held);
            level.at = level.at + part(key == best, volume) - part(old == best, held);
            level.total = level.total + volume - held;
            if level.before < least && (least <= level.before + level.at || best == NONE) {
                return;
            }
            let level = *level;
            let (keys, volumes) = self.slots(s);
            self.levels[s] = settled(keys, volumes, level, least);
        }
        let (bid, ask) = (self.levels[0].key, self.levels[1].key);
        let d = -(ask as i64) - bid as i64;
        self.keeps = (bid != NONE) & (ask != NONE) & (1 <= d) & (d <= self.limit);
    }

    /// A slot for one order more; the level of a side that is no longer small is measured.
    #[inline(always)]
    fn taken(&mut self, s: usize) -> usize {
        let used = self.used[s];
        let slot = used.trailing_ones() as usize % MAX_ORDERS;
        if used < 1 << FEW && slot == FEW {
            let (keys, volumes) = (&self.keys[s][..8], &self.volumes[s][..8]);
            self.levels[s] = measured(keys, volumes, self.levels[s].key);
        }
        self.used[s] |= 1 << slot;
        self.live += 1;
        slot
    }

    /// Whether a time can be the next one; refused by the number.
    #[inline(always)]
    fn in_time(&self, t: u32) -> Result<(), u64> {
        in_time(t, self.now, self.terms.length)
    }

    /// A full record: taken, or refused by the number.
    #[inline(always)]
    fn take(&mut self, bytes: &[u8; RECORD]) -> Result<(), u64> {
        // The kind's word holds the three zero bytes as well.
        let kind = word(bytes, 0);
        let (t, id) = (word(bytes, 4), word(bytes, 8));
        let (price, volume) = (word(bytes, 12) as i32, word(bytes, 16));
        self.take_fields(kind, t, id, price, volume)
    }

    /// The same by its fields.
    #[inline(always)]
    fn take_fields(
        &mut self,
        kind: u32,
        t: u32,
        id: u32,
        price: i32,
        volume: u32,
    ) -> Result<(), u64> {
        if kind == TICK as u32 {
            if id | price as u32 | volume != 0 {
                return Err(15);
            }
            self.in_time(t)?;
            self.run_on(t);
            return Ok(());
        }
        // The side, the slot, and what the slot is to hold.
        let (s, slot, key, volume) = if kind == AMEND as u32 {
            self.in_time(t)?;
            let place = self.index.entries[self.index.find(id)].place as usize;
            if place == 0 {
                return Err(11);
            }
            if !good_price(price) || !good_volume(volume) {
                return Err(12);
            }
            let s = (place - 1) / MAX_ORDERS % 2;
            let slot = (place - 1) % MAX_ORDERS;
            (s, slot, if s == 0 { price } else { -price }, volume)
        } else if kind.wrapping_sub(1) < 2 {
            self.in_time(t)?;
            let entry = self.index.find(id);
            if self.index.entries[entry].place != 0 {
                return Err(10);
            }
            if !good_price(price) || !good_volume(volume) {
                return Err(12);
            }
            if self.live == MAX_ORDERS {
                return Err(13);
            }
            let s = (kind as usize - 1) % 2;
            let slot = self.taken(s);
            let place = (1 + MAX_ORDERS * s + slot) as u32;
            self.index.entries[entry] = Entry { id, place };
            (s, slot, if s == 0 { price } else { -price }, volume)
        } else {
            let deal = kind == DEAL as u32;
            if kind.wrapping_sub(4) > 1 || price != 0 || (!deal && volume != 0) {
                return Err(15);
            }
            self.in_time(t)?;
            let entry = self.index.find(id);
            let place = self.index.entries[entry].place as usize;
            if place == 0 {
                return Err(11);
            }
            let s = (place - 1) / MAX_ORDERS % 2;
            let slot = (place - 1) % MAX_ORDERS;
            let left = self.volumes[s][slot];
            let gone = if deal { volume } else { left };
            if !good_volume(gone) {
                return Err(12);
            }
            if gone > left {
                return Err(14);
            }
            if gone < left {
                (s, slot, self.keys[s][slot], left - gone)
            } else {
                self.index.remove(entry);
                self.live -= 1;
                self.used[s] &= !(1 << slot);
                (s, slot, NONE, 0)
            }
        };
        self.run_on(t);
        self.put(s, slot, key, volume);
        Ok(())
    }
}

pub fn run(head: &[u8], records: &[u8]) -> u64 {
    let terms = match read_terms(head) {
        Ok(terms) => terms,
        Err(number) => return refused(number, 0),
    };
    let mut meter = Meter::new(terms);
    let full = records.chunks_exact(RECORD);
    let past = full.len() + 1;
    let cut = !full.remainder().is_empty();
    for (i, bytes) in full.take(LIMIT).enumerate() {
        if let Err(number) = meter.take(bytes.try_into().unwrap()) {
            return refused(number, i + 1);
        }
    }
    if cut || past > LIMIT + 1 {
        return refused(15, past.min(LIMIT + 1));
    }
    meter.run_on(terms.length);
    meter.kept as u64
}

impl crate::month::Meter for Meter {
    fn new(terms: Terms) -> Meter {
        Meter::new(terms)
    }

    #[inline(always)]
    fn take(&mut self, r: Record) -> Result<(), u64> {
        self.take_fields(r.kind as u32, r.t, r.id, r.price, r.volume)
    }

    fn run_on(&mut self, t: u32) {
        self.run_on(t);
    }

    #[inline(always)]
    fn now(&self) -> u32 {
        self.now
    }

    #[inline(always)]
    fn keeps(&self) -> bool {
        self.keeps
    }

    fn kept(&self) -> u32 {
        self.kept
    }

    fn orders(&self) -> usize {
        self.live
    }

    fn quotes(&self) -> [Option<i32>; 2] {
        let [bid, ask] = self.levels.map(|l| l.key);
        [(bid != NONE).then_some(bid), (ask != NONE).then(|| -ask)]
    }
}

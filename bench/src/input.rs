//! Sessions from a seed: the measured ones, and small ones of every kind, damaged ones among them.

use crate::session::*;

/// A session as the C call takes it.
pub struct Session {
    pub head: Vec<u8>,
    pub records: Vec<u8>,
}

/// SplitMix64.
pub struct Rng(pub u64);

impl Rng {
    pub fn next(&mut self) -> u64 {
        self.0 = self.0.wrapping_add(0x9E37_79B9_7F4A_7C15);
        let z = (self.0 ^ (self.0 >> 30)).wrapping_mul(0xBF58_476D_1CE4_E5B9);
        let z = (z ^ (z >> 27)).wrapping_mul(0x94D0_49BB_1331_11EB);
        z ^ (z >> 31)
    }

    pub fn below(&mut self, n: u64) -> u64 {
        ((self.next() as u128 * n as u128) >> 64) as u64
    }

    pub fn within(&mut self, low: i64, high: i64) -> i64 {
        low + self.below((high - low + 1) as u64) as i64
    }

    pub fn chance(&mut self, percent: u64) -> bool {
        self.below(100) < percent
    }

    pub fn pick<T: Copy>(&mut self, from: &[T]) -> T {
        from[self.below(from.len() as u64) as usize]
    }
}

pub fn head(row: [u32; 7], sp: i32) -> Vec<u8> {
    let words = row.into_iter().chain([sp as u32]);
    words.flat_map(u32::to_le_bytes).collect()
}

pub fn push(records: &mut Vec<u8>, kind: u8, t: u32, id: u32, price: i32, volume: u32) {
    records.extend_from_slice(&[kind, 0, 0, 0]);
    for word in [t, id, price as u32, volume] {
        records.extend_from_slice(&word.to_le_bytes());
    }
}

/// How a session's events are drawn.
#[derive(Clone, Copy)]
pub struct Shape {
    /// Live orders that the session starts with, and about which their number moves.
    pub live: usize,
    /// Percent of amendments, of ticks and of deals; the rest adds and cancels.
    pub amend: u64,
    pub tick: u64,
    pub deal: u64,
    /// How far an order's price is from the middle at most, on its own side and across it.
    pub width: i64,
    pub across: i64,
    pub middle: i64,
    pub volumes: (i64, i64),
    /// Percent of the events that fall on one of the first two orders, a buy and a sell, and the volumes that those are
    /// amended to.
    pub first: u64,
    pub first_volumes: (i64, i64),
}

/// Draws valid events, and keeps the live orders for that.
struct Feed<'a> {
    shape: &'a Shape,
    live: Vec<(u32, bool, u32)>,
}

impl Feed<'_> {
    fn price(&self, rng: &mut Rng, buy: bool) -> i32 {
        let off = rng.within(-self.shape.across, self.shape.width);
        let price = self.shape.middle + if buy { -off } else { off };
        price.clamp(-1_000_000_000, 1_000_000_000) as i32
    }

    fn volume(&self, rng: &mut Rng) -> u32 {
        rng.within(self.shape.volumes.0, self.shape.volumes.1) as u32
    }

    /// The order that an event falls on, and the volume that an amendment gives it.
    fn drawn(&self, rng: &mut Rng) -> (usize, (i64, i64)) {
        let shape = self.shape;
        if shape.first > 0 && rng.chance(shape.first) {
            let two = self.live.len().min(2) as u64;
            return (rng.below(two) as usize, shape.first_volumes);
        }
        (rng.below(self.live.len() as u64) as usize, shape.volumes)
    }

    fn add(&mut self, rng: &mut Rng, t: u32, records: &mut Vec<u8>) {
        let buy = self.live.iter().filter(|o| o.1).count() * 2 <= self.live.len();
        let mut id = rng.next() as u32;
        while self.live.iter().any(|o| o.0 == id) {
            id = rng.next() as u32;
        }
        let volume = self.volume(rng);
        let kind = if buy { ADD_BUY } else { ADD_SELL };
        push(records, kind, t, id, self.price(rng, buy), volume);
        self.live.push((id, buy, volume));
    }

    fn event(&mut self, rng: &mut Rng, t: u32, records: &mut Vec<u8>) {
        let shape = self.shape;
        let drawn = rng.below(100);
        if drawn < shape.tick {
            return push(records, TICK, t, 0, 0, 0);
        }
        if self.live.is_empty() {
            return self.add(rng, t, records);
        }
        let (i, volumes) = self.drawn(rng);
        let (id, buy, left) = self.live[i];
        if drawn < shape.tick + shape.amend {
            self.live[i].2 = rng.within(volumes.0, volumes.1) as u32;
            let price = self.price(rng, buy);
            push(records, AMEND, t, id, price, self.live[i].2);
        } else if drawn < shape.tick + shape.amend + shape.deal {
            let volume = rng.within(1, left as i64) as u32;
            let volume = if rng.chance(30) { left } else { volume };
            push(records, DEAL, t, id, 0, volume);
            self.live[i].2 -= volume;
            if volume == left {
                self.live.swap_remove(i);
            }
        } else if self.live.len() < MAX_ORDERS
            && self.live.len() <= rng.below(2 * shape.live as u64) as usize
        {
            self.add(rng, t, records);
        } else {
            push(records, CANCEL, t, id, 0, 0);
            self.live.swap_remove(i);
        }
    }
}

/// n records whose times are spread over the quantum.
fn records(rng: &mut Rng, shape: &Shape, length: u32, n: usize) -> Vec<u8> {
    let mut feed = Feed {
        shape,
        live: Vec::new(),
    };
    let mut records = Vec::with_capacity(RECORD * n);
    let gap = length as u64 / n.max(1) as u64;
    for i in 0..n {
        let t =
            (i as u64 * length as u64 / n as u64 + rng.below(gap + 1)).min(length as u64) as u32;
        if i < shape.live {
            feed.add(rng, t, &mut records);
        } else {
            feed.event(rng, t, &mut records);
        }
    }
    records
}

/// The quantum of the measured sessions: a day.
pub const LENGTH: u32 = 86_400_000;

/// A full book whose orders are amended; what each measured session has in its own way comes on top.
const FULL: Shape = Shape {
    live: 64,
    amend: 100,
    tick: 0,
    deal: 0,
    width: 0,
    across: 0,
    middle: 20_000,
    volumes: (1, 1),
    first: 0,
    first_volumes: (0, 0),
};

/// The measured sessions; M is 500, the spread's limit 0.125% of 20,000 = 25 steps.
pub const KINDS: [(&str, Shape); 5] = [
    (
        "quiet",
        Shape {
            live: 8,
            amend: 70,
            tick: 30,
            width: 25,
            volumes: (100, 400),
            ..FULL
        },
    ),
    (
        "busy",
        Shape {
            width: 75,
            volumes: (10, 200),
            ..FULL
        },
    ),
    (
        "mixed",
        Shape {
            live: 24,
            amend: 40,
            tick: 10,
            deal: 15,
            width: 45,
            volumes: (20, 300),
            ..FULL
        },
    ),
    (
        "deep",
        Shape {
            width: 20,
            across: 45,
            volumes: (1, 34),
            ..FULL
        },
    ),
    (
        "jumping",
        Shape {
            width: 35,
            across: 40,
            volumes: (1, 20),
            first: 90,
            first_volumes: (200, 800),
            ..FULL
        },
    ),
];

pub fn measured(shape: &Shape, n: usize, seed: u64) -> Session {
    Session {
        head: head([1, 1, LENGTH, 500, 125, 0, 600], 20_000),
        records: records(&mut Rng(seed), shape, LENGTH, n),
    }
}

/// Document 01's example, of which 6,000 milliseconds are kept.
pub fn example() -> Session {
    let mut records = Vec::new();
    push(&mut records, ADD_BUY, 0, 1, 99, 500);
    push(&mut records, ADD_SELL, 0, 2, 101, 500);
    push(&mut records, CANCEL, 4_000, 2, 0, 0);
    push(&mut records, ADD_SELL, 4_000, 3, 101, 500);
    push(&mut records, CANCEL, 6_000, 1, 0, 0);
    Session {
        head: head([1, 1, 10_000, 500, 100, 1, 600], 2_000),
        records,
    }
}

/// A small session: valid, or damaged in its leading bytes, in an event or in its bytes.
pub fn small(seed: u64) -> Session {
    let rng = &mut Rng(seed);
    let length = rng.pick(&[1_000, 2_000, 10_000, 86_400_000]);
    let far = rng.chance(10);
    let middle = rng.pick(&[0, 0, 5, -100, 20_000, -1_000_000_000, 1_000_000_000]);
    let amend = rng.below(60);
    let shape = Shape {
        live: rng.pick(&[1, 2, 4, 8, 16, 40, 64]),
        amend,
        tick: rng.below(20),
        deal: rng.below(20),
        width: if far {
            2_000_000_000
        } else {
            rng.within(0, 40)
        },
        across: if rng.chance(30) { rng.within(0, 20) } else { 0 },
        middle,
        volumes: rng.pick(&[(1, 3), (1, 400), (100, 100), (1, 1_000_000)]),
        first: 0,
        first_volumes: (0, 0),
    };
    // Some jump, so that the search is met as well.
    let jumps = rng.chance(10);
    let shape = if jumps {
        Shape {
            live: rng.pick(&[12, 32, 64]),
            middle,
            ..KINDS[4].1
        }
    } else {
        shape
    };
    let most = if jumps || rng.chance(20) { 200 } else { 60 };
    let n = rng.below(most) as usize;
    let least = rng.pick(&[1, 2, 5, 100, 300, 1_000, 100_000]);
    let least = if jumps { rng.pick(&[300, 500]) } else { least };
    let a = rng.pick(&[0, 100, 125, 1_000, 100_000]);
    let b = rng.pick(&[0, 0, 1, 10, 30, 1_000_000]);
    let sp = rng.pick(&[
        middle as i32,
        middle as i32,
        -5,
        2_000,
        1_999,
        1_000_000_000,
    ]);
    let row = [
        rng.within(1, 2) as u32,
        rng.below(3) as u32,
        length,
        least,
        a,
        b,
        rng.within(1, 799) as u32,
    ];
    let mut session = Session {
        head: head(row, sp),
        records: records(rng, &shape, length, n),
    };
    match rng.below(8) {
        0 => damage_head(rng, &mut session.head),
        1 | 2 => {
            for _ in 0..rng.within(1, 3) {
                damage_event(rng, &mut session.records, length);
            }
        }
        3 => damage_bytes(rng, &mut session.records),
        // Adds after the others, to a full table and past it.
        4 => {
            for _ in 0..rng.within(0, 80) {
                let (kind, id) = (rng.within(1, 2) as u8, rng.next() as u32);
                push(
                    &mut session.records,
                    kind,
                    length,
                    id,
                    rng.within(-30, 30) as i32,
                    1,
                );
            }
        }
        _ => {}
    }
    session
}

fn damage_head(rng: &mut Rng, head: &mut Vec<u8>) {
    if rng.chance(30) {
        head.resize(rng.below(40) as usize, 0);
        return;
    }
    let (word, values) = rng.pick(&[
        (0, [0, 3]),
        (1, [3, u32::MAX]),
        (2, [0, 86_401_000]),
        (2, [999, 1_001]),
        (3, [0, 100_001]),
        (4, [100_001, u32::MAX]),
        (5, [1_000_001, u32::MAX]),
        (6, [0, 800]),
        (7, [1_000_000_001, -1_000_000_001i32 as u32]),
        (7, [i32::MIN as u32, i32::MAX as u32]),
    ]);
    let value: u32 = rng.pick(&values);
    head[4 * word..4 * word + 4].copy_from_slice(&value.to_le_bytes());
}

/// One field of one record takes another value, often one at the edge of its range.
fn damage_event(rng: &mut Rng, records: &mut [u8], length: u32) {
    if records.is_empty() {
        return;
    }
    let at = RECORD * rng.below((records.len() / RECORD) as u64) as usize;
    let other = RECORD * rng.below((records.len() / RECORD) as u64) as usize;
    let field = rng.pick(&[0, 4, 8, 12, 16]);
    let value: u32 = match field {
        0 => rng.within(0, 7) as u32,
        4 => rng.pick(&[0, length - 1, length, length + 1, u32::MAX]),
        8 if rng.chance(60) => {
            u32::from_le_bytes(records[other + 8..other + 12].try_into().unwrap())
        }
        8 => rng.next() as u32,
        12 => rng.pick(&[
            1_000_000_000,
            1_000_000_001,
            -1_000_000_000i32 as u32,
            -1_000_000_001i32 as u32,
            1 << 31,
        ]),
        _ => rng.pick(&[0, 1, 1_000_000, 1_000_001, u32::MAX]),
    };
    records[at + field..at + field + 4].copy_from_slice(&value.to_le_bytes());
}

/// A byte takes another value, or the bytes end early.
fn damage_bytes(rng: &mut Rng, records: &mut Vec<u8>) {
    if records.is_empty() {
        return;
    }
    let at = rng.below(records.len() as u64) as usize;
    if rng.chance(50) {
        records.truncate(at);
    } else {
        records[at] ^= rng.within(1, 255) as u8;
    }
}

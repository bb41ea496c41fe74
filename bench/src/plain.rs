//! Meter (a): document 01 written down. The live orders are a Vec, the touched side's best quote is searched
//! again after each event by nested loops, and kept time grows by stretches.

use crate::session::*;

#[derive(Clone, Copy, PartialEq)]
enum Side {
    Buy,
    Sell,
}

struct Order {
    id: u32,
    side: Side,
    price: i32,
    volume: u32,
}

pub struct Meter {
    terms: Terms,
    live: Vec<Order>,
    now: u32,
    kept: u32,
    bid: Option<i32>,
    ask: Option<i32>,
    stretches: u32,
    /// Whether the last stretch reaches the present.
    open: bool,
}

/// The session's answer, and the number of kept stretches.
pub fn run(head: &[u8], records: &[u8]) -> (u64, u32) {
    let terms = match read_terms(head) {
        Ok(terms) => terms,
        Err(number) => return (refused(number, 0), 0),
    };
    let mut meter = Meter::new(terms);
    for (i, bytes) in records.chunks(RECORD).enumerate() {
        let place = i + 1;
        let taken = if place > LIMIT {
            Err(15)
        } else {
            match read_record(bytes) {
                Some(r) => meter.take(r),
                None => Err(15),
            }
        };
        if let Err(number) = taken {
            return (refused(number, place), 0);
        }
    }
    meter.run_on(terms.length);
    (meter.kept as u64, meter.stretches)
}

/// The best price of an order of the side for which the side's orders at that price or better hold M together.
fn best(live: &[Order], side: Side, least: u32) -> Option<i32> {
    match side {
        Side::Buy => search(live, side, least, |p, q| p >= q),
        Side::Sell => search(live, side, least, |p, q| p <= q),
    }
}

/// The nested loops; `at_least` says whether a price is at another or better.
fn search(
    live: &[Order],
    side: Side,
    least: u32,
    at_least: impl Fn(i32, i32) -> bool,
) -> Option<i32> {
    let mut best = None;
    for candidate in live.iter().filter(|o| o.side == side) {
        let mut held = 0;
        for o in live {
            if o.side == side && at_least(o.price, candidate.price) {
                held += o.volume;
                if held >= least {
                    if best.map_or(true, |b| at_least(candidate.price, b)) {
                        best = Some(candidate.price);
                    }
                    break;
                }
            }
        }
    }
    best
}

impl Meter {
    fn new(terms: Terms) -> Meter {
        Meter {
            terms,
            live: Vec::new(),
            now: 0,
            kept: 0,
            bid: None,
            ask: None,
            stretches: 0,
            open: false,
        }
    }

    fn keeps(&self) -> bool {
        let (Some(bid), Some(ask)) = (self.bid, self.ask) else {
            return false;
        };
        let d = ask as i64 - bid as i64;
        d >= 1
            && (d * 100_000 <= self.terms.a as i64 * self.terms.sp as i64
                || d <= self.terms.b as i64)
    }

    fn run_on(&mut self, t: u32) {
        if t == self.now {
            return;
        }
        let keeps = self.keeps();
        if keeps {
            self.kept += t - self.now;
            self.stretches += !self.open as u32;
        }
        self.open = keeps;
        self.now = t;
    }

    fn search(&mut self, side: Side) {
        let found = best(&self.live, side, self.terms.least);
        match side {
            Side::Buy => self.bid = found,
            Side::Sell => self.ask = found,
        }
    }

    /// An event: taken, or refused by the lowest number that applies.
    fn take(&mut self, r: Record) -> Result<(), u64> {
        in_time(r.t, self.now, self.terms.length)?;
        if r.kind == TICK {
            self.run_on(r.t);
            return Ok(());
        }
        let place = self.live.iter().position(|o| o.id == r.id);
        if r.kind == ADD_BUY || r.kind == ADD_SELL {
            if place.is_some() {
                return Err(10);
            }
            if !good_price(r.price) || !good_volume(r.volume) {
                return Err(12);
            }
            if self.live.len() == MAX_ORDERS {
                return Err(13);
            }
            let side = if r.kind == ADD_BUY {
                Side::Buy
            } else {
                Side::Sell
            };
            self.run_on(r.t);
            self.live.push(Order {
                id: r.id,
                side,
                price: r.price,
                volume: r.volume,
            });
            self.search(side);
            return Ok(());
        }
        let place = place.ok_or(11u64)?;
        let side = self.live[place].side;
        match r.kind {
            AMEND => {
                if !good_price(r.price) || !good_volume(r.volume) {
                    return Err(12);
                }
                self.run_on(r.t);
                self.live[place].price = r.price;
                self.live[place].volume = r.volume;
            }
            CANCEL => {
                self.run_on(r.t);
                self.live.remove(place);
            }
            _ => {
                let left = self.live[place].volume;
                if !good_volume(r.volume) {
                    return Err(12);
                }
                if r.volume > left {
                    return Err(14);
                }
                self.run_on(r.t);
                self.live[place].volume -= r.volume;
                if r.volume == left {
                    self.live.remove(place);
                }
            }
        }
        self.search(side);
        Ok(())
    }
}

impl crate::month::Meter for Meter {
    fn new(terms: Terms) -> Meter {
        Meter::new(terms)
    }

    fn take(&mut self, r: Record) -> Result<(), u64> {
        self.take(r)
    }

    fn run_on(&mut self, t: u32) {
        self.run_on(t);
    }

    fn now(&self) -> u32 {
        self.now
    }

    fn keeps(&self) -> bool {
        self.keeps()
    }

    fn kept(&self) -> u32 {
        self.kept
    }

    fn orders(&self) -> usize {
        self.live.len()
    }

    fn quotes(&self) -> [Option<i32>; 2] {
        [self.bid, self.ask]
    }
}

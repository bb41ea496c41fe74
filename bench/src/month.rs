//! A month in plain Rust, for the comparison: the cells and the open quantum are fields that change in place. It goes by one of the
//! two meters, takes a block of a list of calls, as `quoting_month_call` does, and writes the same twenty words. It has no asks,
//! commits, strikes, messages and outlooks, and so no count of accepted calls.

use crate::session::*;

/// The words of an answer.
pub const ANSWER: usize = 20;

/// What is answered where the bytes are no call.
pub const NO_CALL: u64 = 3 << 32;

const DAYS: u32 = 31;
const CELLS: usize = 186;
const NO_LIMIT: u32 = 65_535;
const MOST_LAPSES: u32 = 1_000;
const MOST_CHARGE: u64 = 100_000_000_000;

/// A meter of one quantum.
pub trait Meter {
    fn new(terms: Terms) -> Self;
    fn take(&mut self, r: Record) -> Result<(), u64>;
    fn run_on(&mut self, t: u32);
    fn now(&self) -> u32;
    /// Whether time is kept from now on.
    fn keeps(&self) -> bool;
    fn kept(&self) -> u32;
    fn orders(&self) -> usize;
    fn quotes(&self) -> [Option<i32>; 2];
}

/// A month, called by blocks: how many words the answer has, or `NO_CALL`.
pub trait Month {
    fn fresh() -> Self;
    fn call(&mut self, block: &[u8], answer: &mut [u32; ANSWER]) -> u64;
}

#[derive(Clone, Copy)]
struct Cell {
    kept: u32,
    length: u32,
    share: u32,
    limit: u32,
    lapses: u32,
    active: u64,
    passive: u64,
}

impl Cell {
    fn met(&self) -> bool {
        1_000 * self.kept as u64 >= self.share as u64 * self.length as u64
            && (self.limit == NO_LIMIT || self.lapses <= self.limit)
    }

    fn weight(&self) -> u64 {
        if !self.met() {
            return 0;
        }
        let f = 1_000 * self.kept as u64 / self.length as u64;
        if f >= 800 {
            return 20_000;
        }
        let (n, d) = (f - self.share as u64, 800 - self.share as u64);
        10_000 + 10_000 * n.pow(5) / d.pow(5)
    }
}

/// The open quantum.
struct Quantum<M> {
    place: usize,
    length: u32,
    share: u32,
    limit: u32,
    meter: M,
    lapses: u32,
    /// Whether the millisecond before now is kept; a quantum starts as if it were.
    was_kept: bool,
}

impl<M: Meter> Quantum<M> {
    #[inline(always)]
    fn take(&mut self, r: Record) -> Result<(), u64> {
        let (from, to, keeps) = (self.meter.now(), r.t, self.meter.keeps());
        self.meter.take(r)?;
        self.passed(from, to, keeps);
        Ok(())
    }

    /// Time went by, and was kept or not: whether a lapse starts in it.
    #[inline(always)]
    fn passed(&mut self, from: u32, to: u32, keeps: bool) {
        if from < to {
            self.lapses += (self.was_kept & !keeps) as u32;
            self.was_kept = keeps;
        }
    }
}

pub struct InPlace<M> {
    cells: [Option<Cell>; CELLS],
    open: Option<Quantum<M>>,
}

impl<M: Meter> Month for InPlace<M> {
    fn fresh() -> Self {
        InPlace {
            cells: [None; CELLS],
            open: None,
        }
    }

    /// Not inlined: a terminal calls it for each event as it comes, as it does the proved one.
    #[inline(never)]
    fn call(&mut self, block: &[u8], answer: &mut [u32; ANSWER]) -> u64 {
        let Some(r) = event_in(block) else {
            return self.other(block, answer);
        };
        let taken = match &mut self.open {
            Some(q) => q.take(r),
            None => Err(7),
        };
        *answer = [0; ANSWER];
        put_refusal(taken, answer);
        ANSWER as u64
    }
}

/// The event that is all a block says.
#[inline(always)]
fn event_in(block: &[u8]) -> Option<Record> {
    if block.len() < 8 {
        return None;
    }
    let w = |i: usize| word(block, 4 * i);
    let (kind, id, price, volume) = match (w(0), block.len()) {
        (2, 24) if w(3).wrapping_sub(1) < 2 => (w(3) as u8, w(2), w(4), w(5)),
        (3, 20) => (AMEND, w(2), w(3), w(4)),
        (4, 12) => (CANCEL, w(2), 0, 0),
        (5, 16) => (DEAL, w(2), 0, w(3)),
        (6, 8) => (TICK, 0, 0, 0),
        _ => return None,
    };
    Some(Record {
        kind,
        t: w(1),
        id,
        price: price as i32,
        volume,
    })
}

/// Accepted, or refused by the number.
#[inline(always)]
fn put_refusal(done: Result<(), u64>, answer: &mut [u32; ANSWER]) {
    if let Err(number) = done {
        answer[0] = 1;
        answer[1] = number as u32;
    }
}

fn wide(low: u32, high: u32) -> u64 {
    low as u64 + ((high as u64) << 32)
}

fn halves(n: u64) -> [u32; 2] {
    [n as u32, (n >> 32) as u32]
}

fn quote(price: Option<i32>) -> [u32; 2] {
    [price.is_some() as u32, price.unwrap_or(0) as u32]
}

/// The place of a cell, or refusal 3.
fn place_of(day: u32, expiry: u32, quantum: u32) -> Result<usize, u64> {
    let good = (1..=DAYS).contains(&day) && (1..=2).contains(&expiry) && quantum <= 2;
    let place = || ((day - 1) * 6 + (expiry - 1) * 3 + quantum) as usize;
    good.then(place).ok_or(3)
}

fn charges(words: [u32; 4]) -> Result<(u64, u64), u64> {
    let (active, passive) = (wide(words[0], words[1]), wide(words[2], words[3]));
    let good = active <= MOST_CHARGE && passive <= MOST_CHARGE;
    good.then_some((active, passive)).ok_or(3)
}

impl<M: Meter> InPlace<M> {
    /// A call that is no event.
    #[cold]
    fn other(&mut self, block: &[u8], answer: &mut [u32; ANSWER]) -> u64 {
        if block.len() % 4 != 0 {
            return NO_CALL;
        }
        let words: Vec<u32> = block.chunks_exact(4).map(|w| word(w, 0)).collect();
        let mut shown = [0; ANSWER];
        let done = match words[..] {
            [1, n, ref rest @ ..] if rest.len() == n as usize + 3 => self.start(rest),
            [7, a, b, p, q] => self.close([a, b, p, q]),
            [8] => self.open.take().map(drop).ok_or(7),
            [9, day, e, q, a, b, p, r] => self.charge(day, e, q, [a, b, p, r]),
            [10, day, e, q] => self.withdraw(day, e, q),
            [11, day, e, q] => self.look(day, e, q, &mut shown),
            [12] => {
                self.report(&mut shown);
                Ok(())
            }
            _ => return NO_CALL,
        };
        put_refusal(done, &mut shown);
        *answer = shown;
        ANSWER as u64
    }

    /// The row's words, the day, SP and the lapse limit.
    fn start(&mut self, words: &[u32]) -> Result<(), u64> {
        let (row, rest) = words.split_at(words.len() - 3);
        let row: [u32; 7] = row.try_into().map_err(|_| 1u64)?;
        let (day, sp, limit) = (rest[0], rest[1], rest[2]);
        let terms = terms_of(row, sp as i32)?;
        let place = place_of(day, row[0], row[1])?;
        if self.cells[place].is_some() {
            return Err(4);
        }
        if self.open.is_some() {
            return Err(6);
        }
        if limit > MOST_LAPSES && limit != NO_LIMIT {
            return Err(17);
        }
        self.open = Some(Quantum {
            place,
            length: terms.length,
            share: row[6],
            limit,
            meter: M::new(terms),
            lapses: 0,
            was_kept: true,
        });
        Ok(())
    }

    fn close(&mut self, words: [u32; 4]) -> Result<(), u64> {
        let (active, passive) = charges(words)?;
        let mut q = self.open.take().ok_or(7u64)?;
        let (now, keeps) = (q.meter.now(), q.meter.keeps());
        q.meter.run_on(q.length);
        q.passed(now, q.length, keeps);
        self.cells[q.place] = Some(Cell {
            kept: q.meter.kept(),
            length: q.length,
            share: q.share,
            limit: q.limit,
            lapses: q.lapses,
            active,
            passive,
        });
        Ok(())
    }

    fn charge(&mut self, day: u32, e: u32, q: u32, words: [u32; 4]) -> Result<(), u64> {
        let (active, passive) = charges(words)?;
        let cell = self.cells[place_of(day, e, q)?].as_mut().ok_or(5u64)?;
        (cell.active, cell.passive) = (active, passive);
        Ok(())
    }

    fn withdraw(&mut self, day: u32, e: u32, q: u32) -> Result<(), u64> {
        let cell = self.cells[place_of(day, e, q)?].take();
        cell.map(drop).ok_or(5)
    }

    fn look(&self, day: u32, e: u32, q: u32, shown: &mut [u32; ANSWER]) -> Result<(), u64> {
        let c = self.cells[place_of(day, e, q)?].ok_or(5u64)?;
        shown[..8].copy_from_slice(&[2, 0, 1, c.kept, c.length, c.share, c.limit, c.lapses]);
        shown[8..10].copy_from_slice(&halves(c.active));
        shown[10..12].copy_from_slice(&halves(c.passive));
        shown[12..14].copy_from_slice(&[c.met() as u32, c.weight() as u32]);
        Ok(())
    }

    fn report(&self, shown: &mut [u32; ANSWER]) {
        shown[0] = 4;
        if let Some(q) = &self.open {
            let [bid, ask] = q.meter.quotes();
            shown[2..5].copy_from_slice(&[1, q.meter.now(), q.meter.orders() as u32]);
            shown[5..7].copy_from_slice(&quote(bid));
            shown[7..9].copy_from_slice(&quote(ask));
            shown[9..11].copy_from_slice(&[q.meter.kept(), q.lapses]);
        }
        let failed = |series: usize| {
            let cells = self.cells.iter().skip(series).step_by(6).flatten();
            cells.filter(|c| !c.met()).count() as u32
        };
        let failures: [u32; 6] = std::array::from_fn(failed);
        shown[11..17].copy_from_slice(&failures);
        let worth = |c: &Cell| (2 * c.active + 3 * c.passive) * c.weight();
        let whole: u64 = self.cells.iter().flatten().map(worth).sum();
        let fee = (whole / 80_000).min(120_000_000);
        let due = failures.iter().all(|n| *n <= 15);
        shown[17..19].copy_from_slice(&halves(if due { fee } else { 0 }));
    }
}

//! What the two Rust meters share: the leading bytes, the record's fields, and the answer's form.

/// A run takes at most this many records.
pub const LIMIT: usize = 4_000_000;
pub const RECORD: usize = 20;
pub const MAX_ORDERS: usize = 64;

/// What a session fixes: of the row what a session needs, and SP.
#[derive(Clone, Copy)]
pub struct Terms {
    pub length: u32,
    pub least: u32,
    pub a: u32,
    pub b: u32,
    pub sp: i32,
}

pub struct Record {
    pub kind: u8,
    pub t: u32,
    pub id: u32,
    pub price: i32,
    pub volume: u32,
}

pub const ADD_BUY: u8 = 1;
pub const ADD_SELL: u8 = 2;
pub const AMEND: u8 = 3;
pub const CANCEL: u8 = 4;
pub const DEAL: u8 = 5;
pub const TICK: u8 = 6;

/// 4,294,967,296 × refusal + place.
pub fn refused(number: u64, place: usize) -> u64 {
    (number << 32) + place as u64
}

pub fn good_price(p: i32) -> bool {
    (-1_000_000_000..=1_000_000_000).contains(&p)
}

pub fn good_volume(v: u32) -> bool {
    (1..=1_000_000).contains(&v)
}

/// Whether an event's time is neither before the last one's nor after the quantum's end.
#[inline(always)]
pub fn in_time(t: u32, now: u32, length: u32) -> Result<(), u64> {
    if t < now {
        return Err(8);
    }
    if t > length {
        return Err(9);
    }
    Ok(())
}

#[inline(always)]
pub fn word(bytes: &[u8], at: usize) -> u32 {
    u32::from_le_bytes(bytes[at..at + 4].try_into().unwrap())
}

/// The 32 leading bytes: the row's seven words, then SP; or the refusal's number.
pub fn read_terms(head: &[u8]) -> Result<Terms, u64> {
    if head.len() != 32 {
        return Err(1);
    }
    let row = std::array::from_fn(|i| word(head, 4 * i));
    terms_of(row, word(head, 28) as i32)
}

/// A row's seven words and SP; or the refusal's number.
pub fn terms_of(row: [u32; 7], sp: i32) -> Result<Terms, u64> {
    let [expiry, quantum, length, least, a, b, share] = row;
    let good = (1..=2).contains(&expiry)
        && quantum <= 2
        && (1_000..=86_400_000).contains(&length)
        && length % 1_000 == 0
        && (1..=100_000).contains(&least)
        && a <= 100_000
        && b <= 1_000_000
        && (1..=799).contains(&share);
    if !good {
        return Err(2);
    }
    if !good_price(sp) {
        return Err(3);
    }
    Ok(Terms {
        length,
        least,
        a,
        b,
        sp,
    })
}

/// The fields of a record, or none where it has cause 15.
#[inline(always)]
pub fn read_record(bytes: &[u8]) -> Option<Record> {
    let bytes: &[u8; RECORD] = bytes.try_into().ok()?;
    let kind = word(bytes, 0);
    let (t, id, price, volume) = (
        word(bytes, 4),
        word(bytes, 8),
        word(bytes, 12),
        word(bytes, 16),
    );
    // The kind's word holds the three zero bytes as well.
    let unused = match kind {
        1..=3 => 0,
        4 => price | volume,
        5 => price,
        6 => id | price | volume,
        _ => return None,
    };
    if unused != 0 {
        return None;
    }
    Some(Record {
        kind: kind as u8,
        t,
        id,
        price: price as i32,
        volume,
    })
}

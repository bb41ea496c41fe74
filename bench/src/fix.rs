//! FIX messages: the proved reader's C call against two readers in Rust, nanoseconds a message.

use crate::{clock, fix_fast, fix_plain, row};
use std::hint::black_box;
use std::process::exit;

#[cfg(feature = "proved")]
mod proved {
    extern "C" {
        fn quoting_fix(
            message: *const u8,
            message_len: usize,
            words: *mut u32,
            words_len: usize,
        ) -> u64;
    }

    /// 1 for D, 2 for F, 3 for G, with the other twelve words; else the refusal's number.
    pub fn run(message: &[u8], out: &mut [u32; 12]) -> u64 {
        let mut words = [0; 13];
        // SAFETY: the call reads the lent message and writes the thirteen lent words; it keeps neither.
        let answer = unsafe {
            quoting_fix(
                message.as_ptr(),
                message.len(),
                words.as_mut_ptr(),
                words.len(),
            )
        };
        if answer >> 32 != 0 {
            return answer >> 32;
        }
        out.copy_from_slice(&words[1..]);
        u64::from(words[0])
    }
}

/// QuickFIX's parse, where it is installed.
#[cfg(quickfix)]
mod quickfix {
    use std::ffi::{c_char, c_int, c_void};

    extern "C" {
        fn quickfix_text(bytes: *const c_char, length: usize) -> *mut c_void;
        fn quickfix_free(text: *mut c_void);
        fn quickfix_parse(text: *const c_void) -> c_int;
    }

    /// The message as a string of C++.
    pub struct Text(*mut c_void);

    impl Text {
        pub fn new(m: &[u8]) -> Self {
            // SAFETY: the bytes are copied during the call.
            Text(unsafe { quickfix_text(m.as_ptr().cast(), m.len()) })
        }

        pub fn is_parsed(&self) -> bool {
            // SAFETY: the string lives until this value is dropped, and the call only reads it.
            unsafe { quickfix_parse(self.0) == 1 }
        }
    }

    impl Drop for Text {
        fn drop(&mut self) {
            // SAFETY: made by `new`, and dropped once.
            unsafe { quickfix_free(self.0) }
        }
    }
}

type Reader = fn(&[u8], &mut [u32; 12]) -> u64;

const READERS: &[(&str, Reader)] = &[
    #[cfg(feature = "proved")]
    ("proved", proved::run),
    ("(a)", fix_plain::run),
    ("(b)", fix_fast::run),
];

struct Random(u64);

impl Random {
    fn below(&mut self, n: u64) -> u64 {
        self.0 ^= self.0 << 13;
        self.0 ^= self.0 >> 7;
        self.0 ^= self.0 << 17;
        (self.0 >> 11) % n
    }
}

fn time(r: &mut Random) -> String {
    let (h, m, s, ms) = (10 + r.below(4), r.below(60), r.below(60), r.below(1000));
    format!("20261115-{h}:{m:02}:{s:02}.{ms:03}")
}

/// The fields between 35 and 10. A header's are those that terminals send, and with it the body has a few more.
fn fields(kind: char, header: bool, r: &mut Random) -> Vec<String> {
    let mut fs = Vec::new();
    if header {
        fs.push(format!("34={}", 1 + r.below(200_000)));
        fs.push(format!("49=MAKER0{}", r.below(10)));
        fs.push(format!("52={}", time(r)));
        fs.extend([
            "56=EXCHANGE".into(),
            format!("1=A-{}", 1000 + r.below(9000)),
        ]);
    }
    fs.push(format!("11={}", 1_000_000 + r.below(3_000_000)));
    if header {
        fs.push("15=RUB".into());
    }
    if header && kind != 'F' {
        fs.extend(["21=1".into(), "40=2".into()]);
    }
    if kind != 'F' {
        fs.push(format!("38={}", 1 + r.below(5000)));
    }
    if kind != 'D' {
        fs.push(format!("41={}", 1_000_000 + r.below(3_000_000)));
    }
    if kind != 'F' {
        fs.push(format!("44={}", r.below(40_000) as i64 - 5000));
        fs.push(format!("54={}", 1 + r.below(2)));
    }
    if header {
        fs.push("55=SBER-12.26".into());
    }
    if header && kind != 'F' {
        fs.push("59=0".into());
    }
    fs.push(format!("60={}", time(r)));
    if header {
        fs.extend(["453=1".into(), format!("448=MM{}", 10 + r.below(90))]);
        fs.extend(["447=D".into(), "452=3".into()]);
    }
    fs
}

pub fn framed(body: &str) -> Vec<u8> {
    let front = format!("8=FIX.4.4|9={}|{body}", body.len()).replace('|', "\x01");
    let sum = front.bytes().fold(0u8, u8::wrapping_add);
    format!("{front}10={sum:03}\x01").into_bytes()
}

fn message(kind: char, header: bool, r: &mut Random) -> Vec<u8> {
    framed(&format!("35={kind}|{}|", fields(kind, header, r).join("|")))
}

/// The answer of all readers and the words that they leave, which must be the same.
fn answer(m: &[u8]) -> u64 {
    let said = READERS.iter().map(|(_, read)| {
        let mut out = [9; 12];
        (read(m, &mut out), out)
    });
    let said: Vec<_> = said.collect();
    if said.iter().any(|s| *s != said[0]) {
        eprintln!(
            "the readers differ on {:?}: {said:?}",
            String::from_utf8_lossy(m)
        );
        exit(1);
    }
    said[0].0
}

/// A message with one byte changed, put in or left out; half of them with length and checksum repaired.
fn damaged(m: &[u8], r: &mut Random) -> Vec<u8> {
    let (at, b) = (
        r.below(m.len() as u64) as usize,
        *b"0123456789=-:.\x01FD "[..]
            .get(r.below(18) as usize)
            .unwrap(),
    );
    let mut m = m.to_vec();
    match r.below(3) {
        0 => m[at] = b,
        1 => m.insert(at, b),
        _ => drop(m.remove(at)),
    }
    let inner = m
        .windows(3)
        .position(|w| w == b"35=")
        .zip(m.len().checked_sub(7));
    match inner {
        Some((from, to)) if from < to && r.below(2) == 0 => {
            let mut body = String::from_utf8(m[from..to].to_vec()).unwrap();
            if !body.ends_with('\x01') {
                body.push('\x01');
            }
            framed(&body)
        }
        _ => m,
    }
}

/// Compares the readers on messages of each kind and on damaged ones, and sees that each answer was met.
pub fn check(messages: u64, seed: u64) {
    let mut r = Random(seed | 1 << 40);
    let mut met = [0u64; 22];
    for i in 0..messages {
        let whole = message(['D', 'F', 'G'][i as usize % 3], i % 2 == 0, &mut r);
        met[answer(&whole) as usize] += 1;
        met[answer(&damaged(&whole, &mut r)) as usize] += 1;
    }
    let numbers = [1, 2, 3, 20, 21].map(|n| met[n]);
    let [d, f, g, frame, field] = numbers;
    println!("{} messages, the same answer from all: D {d}, F {f}, G {g}, refused by 20 {frame}, by 21 {field}.", 2 * messages);
    if messages >= 1000 && numbers.contains(&0) {
        eprintln!("an answer was never met");
        exit(1);
    }
}

/// The least time of each reader over several rounds of all messages, in nanoseconds a message.
fn measure(ms: &[Vec<u8>]) -> Vec<f64> {
    const ROUNDS: u32 = 100;
    const PASSES: u32 = 10;
    let mut least = vec![u64::MAX; READERS.len()];
    for _ in 0..ROUNDS {
        for (i, (_, read)) in READERS.iter().enumerate() {
            let began = clock();
            for m in (0..PASSES).flat_map(|_| ms) {
                let mut out = [0; 12];
                black_box(read(black_box(m), &mut out));
                black_box(out);
            }
            least[i] = least[i].min(clock() - began);
        }
    }
    let count = PASSES as f64 * ms.len() as f64;
    least.iter().map(|t| *t as f64 / count).collect()
}

/// The least time of QuickFIX's parse over several rounds, in nanoseconds a message.
#[cfg(quickfix)]
fn quickfix_time(ms: &[Vec<u8>]) -> Option<f64> {
    let texts: Vec<_> = ms.iter().map(|m| quickfix::Text::new(m)).collect();
    if !texts.iter().all(quickfix::Text::is_parsed) {
        eprintln!("QuickFIX does not parse a message that is read");
        exit(1);
    }
    let round = |_| {
        let began = clock();
        for t in &texts {
            black_box(t.is_parsed());
        }
        clock() - began
    };
    let least = (0..40).map(round).min()?;
    Some(least as f64 / ms.len() as f64)
}

#[cfg(not(quickfix))]
fn quickfix_time(_: &[Vec<u8>]) -> Option<f64> {
    None
}

/// A line for each type, bare and with the usual header.
pub fn table(seed: u64) {
    let names: Vec<_> = READERS.iter().map(|r| r.0).collect();
    let mut titles: Vec<_> = ["message", "bytes"].map(String::from).into();
    titles.extend(names.iter().map(|n| format!("{n} ns")));
    titles.extend(names[1..].iter().map(|n| format!("{}/{n}", names[0])));
    titles.extend(["QuickFIX ns".into(), format!("QuickFIX/{}", names[0])]);
    println!("FIX messages, nanoseconds a message, and ratios:");
    println!();
    row(titles.clone());
    row(titles.iter().map(|_| "--:".to_string()));
    for header in [false, true] {
        for kind in ['D', 'F', 'G'] {
            let mut r = Random(seed | 1 << 40);
            let ms: Vec<_> = (0..1000).map(|_| message(kind, header, &mut r)).collect();
            let times = measure(&ms);
            let bytes = ms.iter().map(Vec::len).sum::<usize>() / ms.len();
            let with = if header { "with header" } else { "bare" };
            let mut cells = vec![format!("{kind} {with}"), bytes.to_string()];
            cells.extend(times.iter().map(|t| format!("{t:.0}")));
            cells.extend(times[1..].iter().map(|t| format!("{:.2}", times[0] / t)));
            match quickfix_time(&ms) {
                Some(t) => cells.extend([format!("{t:.0}"), format!("{:.1}", t / times[0])]),
                None => cells.extend(["not installed".into(), String::new()]),
            }
            row(cells);
        }
    }
    println!();
}

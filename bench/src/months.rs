//! Months: a call by the proved `quoting_month_call` against a list of calls by `quoting_calls`, against months in plain Rust by either
//! meter, and against the same event in a session. Nanoseconds and instructions a call.

use crate::input::{self, Rng, Session, Shape};
use crate::month::{InPlace, Month, ANSWER};
use crate::session::*;
use crate::{clock, fast, plain, row};
use std::hint::black_box;
use std::process::{exit, Command};

#[cfg(feature = "proved")]
pub mod proved {
    use super::*;

    const WORDS: usize = 2_464;
    const HINTS: usize = 2_048;

    #[rustfmt::skip]
    extern "C" {
        fn quoting_month_fresh(words: *mut u32, words_len: usize) -> u64;
        fn quoting_month_call(
            words: *mut u32, words_len: usize, hints: *mut u8, hints_len: usize,
            call: *const u8, call_len: usize, answer: *mut u32, answer_len: usize,
        ) -> u64;
        fn quoting_month_records(
            words: *mut u32, words_len: usize, hints: *mut u8, hints_len: usize,
            records: *const u8, records_len: usize, answer: *mut u32, answer_len: usize,
        ) -> u64;
        fn quoting_calls(calls: *const u8, calls_len: usize, answers: *mut u32, answers_len: usize) -> u64;
        // `quoting_session` as an archive with every call has it; `make bench` gives it this name, beside that of the session's own archive,
        // which the library has.
        fn library_session(head: *const u8, head_len: usize, records: *const u8, records_len: usize) -> u64;
    }

    /// A month's words and its hints.
    pub struct Lent([u32; WORDS], [u8; HINTS]);

    impl Month for Lent {
        fn fresh() -> Self {
            let mut words = [0; WORDS];
            // SAFETY: the call writes the lent words, whose pointer and number these are.
            let written = unsafe { quoting_month_fresh(words.as_mut_ptr(), WORDS) };
            assert_eq!(written, WORDS as u64);
            Lent(words, [0; HINTS])
        }

        #[inline(always)]
        fn call(&mut self, block: &[u8], answer: &mut [u32; ANSWER]) -> u64 {
            let Lent(words, hints) = self;
            let (words, hints) = (words.as_mut_ptr(), hints.as_mut_ptr());
            let (bytes, length) = (block.as_ptr(), block.len());
            // SAFETY: the lent parts do not overlap, the words are those that the calls before left, and nothing is kept.
            unsafe {
                let answer = answer.as_mut_ptr();
                quoting_month_call(words, WORDS, hints, HINTS, bytes, length, answer, ANSWER)
            }
        }
    }

    /// The calls as one list; it always writes every answer after the one before.
    pub fn calls(list: &List, space: &mut [u32], _: usize) {
        let (bytes, length) = (list.calls.as_ptr(), list.calls.len());
        // SAFETY: the call reads the lent bytes and writes the lent words; it keeps neither.
        let made = unsafe { quoting_calls(bytes, length, space.as_mut_ptr(), space.len()) };
        assert_eq!(made, list.ends.len() as u64);
    }

    /// The events as a session: K, and no answers.
    pub fn session(list: &List, space: &mut [u32], _: usize) {
        let kept = crate::proved::run(&list.session.head, &list.session.records);
        space[0] = u32::try_from(kept).unwrap();
    }

    /// The events as records on a live month, a thousand at a time, between its open and its close: K, and no answers.
    pub fn records(list: &List, space: &mut [u32], _: usize) {
        const BATCH: usize = 1_000 * RECORD;
        let (mut month, mut answer) = (Lent::fresh(), [0; ANSWER]);
        month.call(&list.calls[..list.ends[0]], &mut answer);
        for batch in list.session.records.chunks(BATCH) {
            let Lent(words, hints) = &mut month;
            let (words, hints) = (words.as_mut_ptr(), hints.as_mut_ptr());
            let (bytes, length) = (batch.as_ptr(), batch.len());
            // SAFETY: the lent parts do not overlap, the words are those that the calls before left, and nothing is kept.
            let taken = unsafe {
                let answer = answer.as_mut_ptr();
                quoting_month_records(words, WORDS, hints, HINTS, bytes, length, answer, ANSWER)
            };
            assert_eq!(taken, (length / RECORD) as u64);
        }
        for ends in list.ends[list.ends.len() - 3..].windows(2) {
            month.call(&list.calls[ends[0]..ends[1]], &mut answer);
        }
        space[0] = answer[3];
    }

    /// The same by the code of an archive with every call.
    pub fn session_in_library(list: &List, space: &mut [u32], _: usize) {
        let Session { head, records } = &list.session;
        let (from, length) = (records.as_ptr(), records.len());
        // SAFETY: the call reads the two lent parts, whose pointers and lengths these are, and keeps neither.
        let kept = unsafe { library_session(head.as_ptr(), head.len(), from, length) };
        space[0] = u32::try_from(kept).unwrap();
    }
}

/// A list of calls, where each one ends, and the session of its events where it is of one.
pub struct List {
    pub calls: Vec<u8>,
    pub ends: Vec<usize>,
    pub session: Session,
}

/// Runs a list from a fresh month: each answer is written the step after the one before, 0 where only the last is to stay.
pub type Run = fn(&List, &mut [u32], usize);

const RUNS: &[(&str, Run)] = &[
    #[cfg(feature = "proved")]
    ("in place", run::<proved::Lent>),
    #[cfg(feature = "proved")]
    ("quoting_calls", proved::calls),
    ("(a)", run::<InPlace<plain::Meter>>),
    ("(b)", run::<InPlace<fast::Meter>>),
    #[cfg(feature = "proved")]
    ("session", proved::session),
    #[cfg(feature = "proved")]
    ("session in one archive", proved::session_in_library),
    #[cfg(feature = "proved")]
    ("records", proved::records),
];

/// Whether a run answers K alone.
fn is_session(name: &str) -> bool {
    name.starts_with("session") || name == "records"
}

pub fn run<M: Month>(list: &List, space: &mut [u32], step: usize) {
    let mut month = M::fresh();
    let (mut from, mut at) = (0, 0);
    for end in &list.ends {
        let answer = &mut space[at..at + ANSWER];
        let written = month.call(&list.calls[from..*end], answer.try_into().unwrap());
        assert_eq!(written, ANSWER as u64);
        (from, at) = (*end, at + step);
    }
}

impl List {
    pub fn new(session: Session) -> List {
        let (calls, ends) = (Vec::new(), Vec::new());
        List {
            calls,
            ends,
            session,
        }
    }

    pub fn call(&mut self, words: &[u32]) {
        let bytes: Vec<u8> = words.iter().flat_map(|w| w.to_le_bytes()).collect();
        self.block(&bytes);
    }

    /// A call whose bytes are made already.
    pub fn block(&mut self, bytes: &[u8]) {
        self.calls.extend_from_slice(bytes);
        self.ends.push(self.calls.len());
    }

    /// An open with a session's leading words, whose last is SP.
    pub fn open(&mut self, head: &[u8], day: u32, limit: u32) {
        let words: Vec<u32> = head.chunks_exact(4).map(|w| word(w, 0)).collect();
        let (sp, row) = words.split_last().unwrap_or((&0, &[]));
        self.call(&[&[1, row.len() as u32], row, &[day, *sp, limit]].concat());
    }

    fn event(&mut self, r: Record) {
        let (t, id, price) = (r.t, r.id, r.price as u32);
        match r.kind {
            AMEND => self.call(&[3, t, id, price, r.volume]),
            CANCEL => self.call(&[4, t, id]),
            DEAL => self.call(&[5, t, id, r.volume]),
            TICK => self.call(&[6, t]),
            side => self.call(&[2, t, id, side as u32, price, r.volume]),
        }
    }

    /// The answers of a month.
    pub fn answers(&self, run: Run) -> Vec<u32> {
        let mut space = vec![9; ANSWER * self.ends.len()];
        run(self, &mut space, ANSWER);
        space
    }
}

/// A session's open, its events, a close and a look.
pub fn listed(session: Session) -> List {
    let mut list = List::new(session);
    let Session { head, records } = &list.session;
    let (head, records) = (head.clone(), records.clone());
    list.open(&head, 1, 65_535);
    let events = records.chunks(RECORD).filter_map(read_record);
    events.for_each(|r| list.event(r));
    list.call(&[7, 0, 0, 0, 0]);
    list.call(&[11, 1, 1, 1]);
    list
}

/// One of two days, or one that is none.
fn day(rng: &mut Rng) -> u32 {
    let out = rng.chance(5);
    let days = if out { [0, 32] } else { [1, 2] };
    rng.pick(&days)
}

/// A call of a cell, which may be blank or out of range, or a report; seldom the quantum's end.
fn drawn(rng: &mut Rng) -> Vec<u32> {
    let cell = [day(rng), rng.within(1, 2) as u32, rng.below(3) as u32];
    match rng.below(40) {
        0 => [&[7], &charges(rng)[..]].concat(),
        1 => vec![8],
        2..=9 => [&[9], &cell[..], &charges(rng)].concat(),
        10..=12 => [&[10], &cell[..]].concat(),
        13..=24 => vec![12],
        _ => [&[11], &cell[..]].concat(),
    }
}

/// Two charges, as four words; the last to be picked is one past the range.
fn charges(rng: &mut Rng) -> [u32; 4] {
    let charge = [
        [5_000, 0],
        [0, 22],
        [1_215_752_192, 23],
        [1_215_752_193, 23],
    ];
    let [low, high] = rng.pick(&charge);
    [low, high, rng.below(1_000_000_000) as u32, 0]
}

/// Small sessions one after the other, with other calls among their events; what a record does not say is left out.
fn small(seed: u64) -> List {
    let rng = &mut Rng(seed);
    let nothing = Session {
        head: Vec::new(),
        records: Vec::new(),
    };
    let mut list = List::new(nothing);
    for _ in 0..rng.within(1, 8) {
        let s = input::small(rng.next());
        let usual = rng.chance(70);
        let limit = if usual {
            65_535
        } else {
            rng.pick(&[0, 2, 1_000, 1_001])
        };
        list.open(&s.head, day(rng), limit);
        for r in s.records.chunks(RECORD).filter_map(read_record) {
            list.event(r);
            if rng.chance(5) {
                list.call(&drawn(rng));
            }
        }
        list.call(&[12]);
        if rng.chance(90) {
            list.call(&[&[7], &charges(rng)[..]].concat());
        }
    }
    list.call(&[12]);
    list
}

/// The answers to a list, which must be the same from all months.
fn compare(list: &List, what: &str) -> Vec<u32> {
    let months = RUNS.iter().filter(|r| !is_session(r.0));
    let said: Vec<_> = months
        .map(|(name, run)| (name, list.answers(*run)))
        .collect();
    for (name, answers) in &said[1..] {
        let (first, mine) = (said[0].1.chunks(ANSWER), answers.chunks(ANSWER));
        let other = first.zip(mine).enumerate().find(|(_, (a, b))| a != b);
        if let Some((i, (a, b))) = other {
            eprintln!("the months differ on {what}, call {}:", i + 1);
            eprintln!("  {}: {a:?}\n  {name}: {b:?}", said[0].0);
            exit(1);
        }
    }
    said.into_iter().next().unwrap().1
}

/// Compares the months on small lists, and sees that each answer was met.
pub fn check(lists: u64, seed: u64) {
    let (mut calls, mut kinds, mut met) = (0, [0u64; 5], [0u64; 18]);
    for i in seed..seed + lists {
        let answers = compare(&small(i), &format!("the small list of seed {i}"));
        for answer in answers.chunks(ANSWER) {
            calls += 1;
            kinds[answer[0] as usize] += 1;
            met[answer[1] as usize] += 1;
        }
    }
    let numbers = [1, 2, 3, 4, 5, 6, 7, 8, 9, 10, 11, 12, 13, 14, 17].map(|n| (n, met[n]));
    let [accepted, refused, looks, _, reports] = kinds;
    let by: Vec<_> = numbers.iter().map(|(n, m)| format!("{m} by {n}")).collect();
    println!("{lists} small lists of {calls} calls, the same answers from all months: {accepted} accepted, {looks} looks, {reports} reports, {refused} refused, {}.", by.join(", "));
    if lists >= 1_000 && (numbers.iter().any(|n| n.1 == 0) || looks == 0) {
        eprintln!("an answer was never met");
        exit(1);
    }
}

/// What the measured lists are of; the shapes are those of the sessions.
pub fn kinds() -> [(&'static str, Shape); 4] {
    let [quiet, busy, mixed] = [0, 1, 2].map(|i: usize| input::KINDS[i].1);
    let of = |amend, tick| Shape {
        amend,
        tick,
        ..quiet
    };
    [
        ("tick", of(0, 100)),
        ("amendment, 8 live", of(100, 0)),
        ("amendment, 64 live", busy),
        ("mixed", mixed),
    ]
}

/// The least time of each run over several rounds, in nanoseconds a call.
fn measure(list: &List, space: &mut [u32]) -> Vec<f64> {
    const ROUNDS: u32 = 40;
    let mut least = vec![u64::MAX; RUNS.len()];
    for _ in 0..ROUNDS {
        for (i, (_, run)) in RUNS.iter().enumerate() {
            let began = clock();
            run(black_box(list), black_box(space), 0);
            least[i] = least[i].min(clock() - began);
        }
    }
    let calls = list.ends.len() as f64;
    least.iter().map(|t| *t as f64 / calls).collect()
}

/// The measured list of a kind, its first events alone.
pub fn measured(kind: usize, of: usize, events: usize, seed: u64) -> List {
    let mut s = input::measured(&kinds()[kind].1, of, seed + 1_000 * kind as u64);
    s.records.truncate(RECORD * events);
    listed(s)
}

/// The events of a counted list.
const COUNTED: usize = 10_000;

/// One run, whose instructions callgrind counts by this name.
#[no_mangle]
#[inline(never)]
pub fn bench_counted(run: Run, list: &List, space: &mut [u32]) {
    run(list, space, 0);
}

/// What callgrind runs: one month, by its place, on the first events of one kind's list.
pub fn counted(run: usize, kind: usize, events: usize, seed: u64) {
    let list = measured(kind, COUNTED, events, seed);
    let mut space = vec![0; ANSWER * list.ends.len()];
    bench_counted(RUNS[run].1, black_box(&list), black_box(&mut space));
}

/// The instructions of a run of this program that counts what the word says; none where valgrind is not installed.
pub fn callgrind(word: &str, seed: u64) -> Option<u64> {
    let mut command = Command::new("valgrind");
    command.args(["--tool=callgrind", "--callgrind-out-file=/dev/null"]);
    command.arg("--toggle-collect=bench_counted");
    // Copies by vectors: `rep movsb` would count as an instruction a byte.
    command.env(
        "GLIBC_TUNABLES",
        "glibc.cpu.x86_rep_movsb_threshold=1000000",
    );
    command.arg(std::env::current_exe().ok()?);
    let (option, value) = word.split_once('=')?;
    command.args(["--seed", &seed.to_string(), option, value]);
    let out = command.output().ok()?;
    let said = String::from_utf8_lossy(&out.stderr);
    let number = said
        .split("Collected :")
        .nth(1)?
        .split_whitespace()
        .next()?;
    number.parse().ok().filter(|_| out.status.success())
}

/// Instructions of a further call: what the second half of a list adds to its first.
fn instructions(run: usize, kind: usize, seed: u64) -> Option<f64> {
    const HALF: usize = COUNTED / 2;
    let of = |events| callgrind(&format!("--count={run},{kind},{events}"), seed);
    let whole = of(COUNTED)?;
    let half = of(HALF)?;
    Some((whole - half) as f64 / HALF as f64)
}

/// The cells of a line: a number for each run, and the first one over the others.
fn cells(name: &str, numbers: &[f64], digits: usize) {
    let mut cells = vec![name.to_string()];
    cells.extend(numbers.iter().map(|n| format!("{n:.digits$}")));
    let over = numbers[1..]
        .iter()
        .map(|n| format!("{:.2}", numbers[0] / n));
    cells.extend(over);
    row(cells);
}

fn titles(unit: &str) {
    let names: Vec<_> = RUNS.iter().map(|r| r.0).collect();
    let mut titles = vec![unit.to_string()];
    titles.extend(names.iter().map(|n| n.to_string()));
    titles.extend(names[1..].iter().map(|n| format!("{}/{n}", names[0])));
    row(titles.clone());
    row(titles.iter().map(|_| "--:".to_string()));
}

/// A line for each kind of call: nanoseconds, then instructions where valgrind is installed.
pub fn table(seed: u64) {
    const CALLS: usize = 100_000;
    println!("Calls of a month and a session's event, nanoseconds a call, and ratios:");
    println!();
    titles("ns");
    for (kind, (name, _)) in kinds().iter().enumerate() {
        let list = measured(kind, CALLS, CALLS, seed);
        let answers = compare(&list, name);
        let mut space = vec![0; answers.len()];
        assert!(answers.chunks(ANSWER).all(|a| a[0] != 1), "{name}: refused");
        let kept = answers[answers.len() - ANSWER + 3];
        for (name, run) in RUNS.iter().filter(|r| is_session(r.0)) {
            run(&list, &mut space, 0);
            assert_eq!(kept, space[0], "K of the {name}");
        }
        cells(name, &measure(&list, &mut space), 1);
    }
    println!();
    println!("Instructions of a further call, by callgrind:");
    println!();
    titles("instructions");
    for (kind, (name, _)) in kinds().iter().enumerate() {
        let runs = 0..RUNS.len();
        let counts: Option<Vec<_>> = runs.map(|run| instructions(run, kind, seed)).collect();
        match counts {
            Some(counts) => cells(name, &counts, 0),
            None => row([name.to_string(), "no valgrind".into()]),
        }
    }
    println!();
}

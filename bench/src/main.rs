//! The proved meter's C call against two meters in Rust: their answers are compared, and their time measured. A third one
//! in Rust counts the sums. The proved reader of FIX messages against two in Rust. And the calls of the proved
//! month, one by one and as a list, against two months in Rust.

mod counted;
mod fast;
mod fix;
mod fix_fast;
mod fix_plain;
mod input;
mod month;
mod months;
mod plain;
#[cfg(feature = "proved")]
mod rows;
mod session;

use counted::Counts;
use input::{measured, small, Session};
use session::{refused, LIMIT};
use std::hint::black_box;
use std::process::exit;
use std::sync::atomic::{AtomicU32, Ordering::Relaxed};

#[cfg(feature = "proved")]
mod proved {
    extern "C" {
        fn quoting_session(
            head: *const u8,
            head_len: usize,
            records: *const u8,
            records_len: usize,
        ) -> u64;
    }

    pub fn run(head: &[u8], records: &[u8]) -> u64 {
        // SAFETY: the call reads the two lent parts, whose pointers and lengths these are, and keeps neither.
        unsafe { quoting_session(head.as_ptr(), head.len(), records.as_ptr(), records.len()) }
    }
}

type Meter = fn(&[u8], &[u8]) -> u64;

const METERS: &[(&str, Meter)] = &[
    #[cfg(feature = "proved")]
    ("proved", proved::run),
    ("(a)", |head, records| {
        let (answer, stretches) = plain::run(head, records);
        STRETCHES.store(stretches, Relaxed);
        answer
    }),
    ("(b)", fast::run),
];

/// The kept stretches of the session that (a) ran last.
static STRETCHES: AtomicU32 = AtomicU32::new(0);

/// Nanoseconds of processor time that this thread has used: what runs beside it is not counted.
fn clock() -> u64 {
    #[repr(C)]
    struct Timespec {
        seconds: i64,
        nanoseconds: i64,
    }
    extern "C" {
        fn clock_gettime(clock: i32, time: *mut Timespec) -> i32;
    }
    const THREAD_CPUTIME: i32 = 3;
    let mut time = Timespec {
        seconds: 0,
        nanoseconds: 0,
    };
    // SAFETY: `time` has the layout of a C timespec on 64-bit Linux.
    let status = unsafe { clock_gettime(THREAD_CPUTIME, &mut time) };
    assert_eq!(status, 0);
    time.seconds as u64 * 1_000_000_000 + time.nanoseconds as u64
}

/// Stops where an answer is not the same as the others.
fn compare(answers: &[(&str, u64)], what: &str) {
    if answers.iter().all(|a| a.1 == answers[0].1) {
        return;
    }
    eprintln!("the answers differ on {what}:");
    for (name, a) in answers {
        eprintln!("  {name}: refusal {}, place or K {}", a >> 32, *a as u32);
    }
    exit(1);
}

/// One run of a meter: its answer, and the time that it took.
fn timed(run: Meter, s: &Session) -> (u64, u64) {
    let began = clock();
    let answer = run(black_box(&s.head), black_box(&s.records));
    (answer, clock() - began)
}

/// One run of each meter and of the counting twin: the times, the answer, which must be the same from all, and the counts.
fn round(s: &Session, what: &str) -> (Vec<u64>, u64, Counts) {
    let runs: Vec<_> = METERS.iter().map(|m| timed(m.1, s)).collect();
    let (answer, counts) = counted::run(&s.head, &s.records);
    let mut answers: Vec<_> = METERS.iter().zip(&runs).map(|(m, r)| (m.0, r.0)).collect();
    answers.push(("counted", answer));
    compare(&answers, what);
    (runs.iter().map(|r| r.1).collect(), answer, counts)
}

/// Compares the meters on document 01's example and on small sessions, and sees that enough of each kind were met.
fn check(sessions: u64, seed: u64) {
    assert_eq!(round(&input::example(), "document 01's example").1, 6_000);
    let mut met = [0; 17];
    let (mut quoted, mut searched) = (0, 0);
    for i in seed..seed + sessions {
        let (_, answer, counts) = round(&small(i), &format!("the small session of seed {i}"));
        searched += (counts.searches > 0) as u64;
        met[(answer >> 32) as usize] += 1;
        quoted += (answer >> 32 == 0 && answer > 0) as u64;
    }
    let numbers = [1, 2, 3, 8, 9, 10, 11, 12, 13, 14, 15];
    let refusals: Vec<_> = numbers
        .iter()
        .map(|n| format!("{} by {n}", met[*n]))
        .collect();
    println!(
        "{sessions} small sessions, the same answer from all: {} accepted, {quoted} of them with kept time; refused {}; searches in {searched}.",
        met[0],
        refusals.join(", ")
    );
    if sessions >= 10_000
        && (numbers.iter().any(|n| met[*n] == 0) || quoted * 3 < met[0] || searched * 50 < sessions)
    {
        eprintln!("a refusal was never met, or too few sessions have kept time or a search");
        exit(1);
    }
}

/// The least time of each meter over several rounds, the answer and the counts. In a round each meter runs once, in turn;
/// one that has had its rounds and spent its budget is left out.
fn measure(s: &Session, what: &str) -> (Vec<u64>, u64, Counts) {
    const BUDGET: u64 = 500_000_000;
    const ROUNDS: std::ops::Range<u32> = 2..400;
    let (mut least, answer, counts) = round(s, what);
    let mut spent = least.clone();
    for n in 1..ROUNDS.end {
        for (i, (name, run)) in METERS.iter().enumerate() {
            if n >= ROUNDS.start && spent[i] >= BUDGET {
                continue;
            }
            let (again, time) = timed(*run, s);
            compare(&[("first", answer), (name, again)], what);
            least[i] = least[i].min(time);
            spent[i] += time;
        }
    }
    (least, answer, counts)
}

/// What follows the colon of the first line that starts so.
fn field(path: &str, start: &str) -> String {
    let text = std::fs::read_to_string(path).unwrap_or_default();
    let line = text.lines().find(|l| l.starts_with(start));
    let value = line.and_then(|l| l.split(": ").last());
    value.unwrap_or("unknown").to_string()
}

fn load() -> String {
    let text = field("/proc/loadavg", "");
    text.split(' ').take(3).collect::<Vec<_>>().join(" ")
}

fn row(cells: impl IntoIterator<Item = String>) {
    println!("| {} |", cells.into_iter().collect::<Vec<_>>().join(" | "));
}

fn main() {
    let (mut most, mut sessions, mut seed, mut only) = (LIMIT as u64, 20_000, 1, None);
    let mut words = std::env::args().skip(1);
    while let Some(word) = words.next() {
        let value = words.next();
        let number = value.as_deref().and_then(|v| v.parse().ok());
        match (word.as_str(), number) {
            ("--most", Some(n)) => most = n,
            ("--check", Some(n)) => sessions = n,
            ("--seed", Some(n)) => seed = n,
            ("--only", None) if value.is_some() => only = value,
            ("--count" | "--row", None) if value.is_some() => {
                let numbers = value.iter().flat_map(|v| v.split(','));
                let numbers: Vec<_> = numbers.filter_map(|n| n.parse().ok()).collect();
                match (word.as_str(), &numbers[..]) {
                    ("--count", &[run, kind, events]) => {
                        return months::counted(run, kind, events, seed)
                    }
                    #[cfg(feature = "proved")]
                    ("--row", &[place, column, units]) => {
                        return rows::counted(place, column, units, seed)
                    }
                    _ => (),
                }
            }
            _ => {
                eprintln!(
                    "bench [--most RECORDS] [--check CASES] [--seed N] [--only SHAPE|fix|month|library]"
                );
                exit(2);
            }
        }
    }
    check(sessions, seed);
    fix::check(sessions, seed);
    months::check(sessions / 10, seed);

    let cores = std::thread::available_parallelism().map_or(0, usize::from);
    let model = field("/proc/cpuinfo", "model name");
    println!("{model}, {cores} cores, load average {} before.", load());
    println!();
    let names: Vec<_> = METERS.iter().map(|m| m.0).collect();
    let titles = [
        "session",
        "records",
        "kept %",
        "stretches",
        "guesses",
        "searches %",
        "sums",
    ];
    let mut titles: Vec<_> = titles.map(String::from).into();
    titles.extend(names.iter().map(|n| format!("{n} ns")));
    titles.extend(names[1..].iter().map(|n| format!("{}/{n}", names[0])));
    if !matches!(only.as_deref(), Some("fix" | "month" | "library")) {
        println!("Sums that a record made before a search, records in a hundred that made a search, sums that a search made, nanoseconds a record, and ratios:");
        println!();
        row(titles.clone());
        row(titles.iter().map(|_| "--:".to_string()));
    }
    let mut growth = Vec::new();
    for (kind, (name, shape)) in input::KINDS.iter().enumerate() {
        if only.as_ref().is_some_and(|o| o != name) {
            continue;
        }
        let mut first: Option<Vec<f64>> = None;
        for n in [10_000, 100_000, 1_000_000, LIMIT] {
            if n as u64 > most {
                break;
            }
            let mut s = measured(shape, n, seed + 1_000 * kind as u64);
            let what = format!("the {name} session of {n} records");
            let (times, answer, counts) = measure(&s, &what);
            assert!(
                answer >> 32 == 0,
                "{what} is refused by {} at {}",
                answer >> 32,
                answer as u32
            );
            let pace: Vec<f64> = times.iter().map(|t| *t as f64 / n as f64).collect();
            let kept = answer as f64 / input::LENGTH as f64 * 100.0;
            let mut cells = vec![name.to_string(), n.to_string(), format!("{kept:.1}")];
            cells.push(STRETCHES.load(Relaxed).to_string());
            let guesses = counts.guesses as f64 / n as f64;
            let percent = counts.searches as f64 / n as f64 * 100.0;
            let sums = counts.sums as f64 / counts.searches.max(1) as f64;
            cells.push(format!("{guesses:.2}"));
            cells.extend([format!("{percent:.2}"), format!("{sums:.1}")]);
            cells.extend(pace.iter().map(|p| format!("{p:.1}")));
            cells.extend(pace[1..].iter().map(|p| format!("{:.2}", pace[0] / p)));
            row(cells);
            let first = first.get_or_insert(pace.clone());
            if n == LIMIT {
                let grown = names.iter().zip(pace.iter().zip(first));
                let grown: Vec<_> = grown
                    .map(|(m, (l, f))| format!("{m} {:.2}", *l / *f))
                    .collect();
                growth.push(format!("{name} {}", grown.join(", ")));
            }
            if n == LIMIT && kind == 0 {
                input::push(&mut s.records, session::TICK, input::LENGTH, 0, 0, 0);
                let (_, answer, _) = round(&s, "one record past the limit");
                assert_eq!(answer, refused(15, LIMIT + 1));
            }
        }
    }
    println!();
    if !growth.is_empty() {
        println!(
            "A record's time at {LIMIT} records over that at 10000: {}.",
            growth.join("; ")
        );
    }
    if !only.as_ref().is_some_and(|o| o != "fix") {
        fix::table(seed);
    }
    if !only.as_ref().is_some_and(|o| o != "month") {
        months::table(seed);
    }
    #[cfg(feature = "proved")]
    if !only.as_ref().is_some_and(|o| o != "library") {
        rows::table(seed);
    }
    println!("Load average {} after.", load());
}

//! The library's calls in one table: nanoseconds and instructions of each, beside the same work in plain Rust where that has the call.

use crate::fix::framed;
use crate::input::{self, Session};
use crate::month::{InPlace, ANSWER};
use crate::months::{self, bench_counted, callgrind, proved, run, List, Run};
use crate::session::RECORD;
use crate::{clock, fast, plain, row};
use std::hint::black_box;
use std::process::exit;

/// A row: the list of so many units, the calls of a unit, the units of the measured list, and what runs it: the library, (a) and (b).
struct Row {
    name: String,
    list: Box<dyn Fn(usize) -> List>,
    calls: usize,
    units: usize,
    runs: [Option<Run>; 3],
}

const LIBRARY: usize = 0;

fn plain_session(list: &List, space: &mut [u32], _: usize) {
    let Session { head, records } = &list.session;
    space[0] = u32::try_from(plain::run(head, records).0).unwrap();
}

fn fast_session(list: &List, space: &mut [u32], _: usize) {
    let Session { head, records } = &list.session;
    space[0] = u32::try_from(fast::run(head, records)).unwrap();
}

/// The months in plain Rust.
const MONTHS: [Option<Run>; 2] = [
    Some(run::<InPlace<plain::Meter>>),
    Some(run::<InPlace<fast::Meter>>),
];

const NONE: [Option<Run>; 2] = [None, None];

const SESSIONS: [Option<Run>; 2] = [Some(plain_session), Some(fast_session)];

fn beside(library: Run, [a, b]: [Option<Run>; 2]) -> [Option<Run>; 3] {
    [Some(library), a, b]
}

// ---- the rows

const EVENTS: usize = 100_000;

/// The first records of a session of a shape, alone or with the calls of its events.
fn session_of(kind: usize, records: usize, seed: u64) -> Session {
    let mut s = input::measured(&input::KINDS[kind].1, EVENTS, seed + 1_000 * kind as u64);
    s.records.truncate(RECORD * records);
    s
}

/// Sessions, then the same records in bulk on a live month.
fn session_rows(seed: u64) -> Vec<Row> {
    let of = |what: &str, library: Run| {
        let made = input::KINDS
            .iter()
            .enumerate()
            .map(|(kind, (name, _))| Row {
                name: format!("{what}, {name}"),
                list: Box::new(move |n| months::listed(session_of(kind, n, seed))),
                calls: 1,
                units: EVENTS,
                runs: beside(library, SESSIONS),
            });
        made.collect::<Vec<_>>()
    };
    let mut rows = of("session", proved::session);
    rows.extend(of("records", proved::records));
    rows
}

/// Events as calls of a month, one by one and as a list.
fn event_rows(seed: u64) -> Vec<Row> {
    let of = |what: &str, library: Run| {
        let made = months::kinds()
            .into_iter()
            .enumerate()
            .map(|(kind, (name, _))| Row {
                name: format!("{what}, {name}"),
                list: Box::new(move |n| months::measured(kind, EVENTS, n, seed)),
                calls: 1,
                units: EVENTS,
                runs: beside(library, MONTHS),
            });
        made.collect::<Vec<_>>()
    };
    let mut rows = of("call", run::<proved::Lent>);
    rows.extend(of("quoting_calls", proved::calls));
    rows
}

fn nothing() -> List {
    List::new(Session {
        head: Vec::new(),
        records: Vec::new(),
    })
}

/// Ninety cells, each kept for eight seconds of ten.
fn filled() -> List {
    let mut list = nothing();
    for place in 0..90u32 {
        let row = [place / 3 % 2 + 1, place % 3, 10_000, 5, 100, 10, 600];
        list.open(&input::head(row, 5_000), place / 6 + 1, 65_535);
        list.call(&[2, 10, 1, 1, 4_999, 50]);
        list.call(&[2, 2_000, 2, 2, 5_001, 50]);
        list.call(&[7, 5, 0, 7, 0]);
    }
    list
}

fn start(list: &mut List, day: u32) {
    list.open(
        &input::head([1, 1, 10_000, 5, 100, 10, 600], 5_000),
        day,
        65_535,
    );
}

/// An open quantum with eight orders.
fn opened() -> List {
    let mut list = nothing();
    start(&mut list, 1);
    for id in 1..=8u32 {
        let side = id % 2 + 1;
        let price = if side == 1 { 4_999 - id } else { 5_001 + id };
        list.call(&[2, 10, id, side, price, 50]);
    }
    list
}

/// A message's block: the kind, the lengths of the quantum's start and of the message, both, and zeros up to a word's end.
fn message(list: &mut List, body: &str) {
    let (start, message) = (b"20261102-10:00:00.000", framed(body));
    let mut block = [16, start.len() as u32, message.len() as u32]
        .iter()
        .flat_map(|w| w.to_le_bytes())
        .collect::<Vec<_>>();
    block.extend_from_slice(start);
    block.extend_from_slice(&message);
    block.resize(block.len().next_multiple_of(4), 0);
    list.block(&block);
}

fn order_and_cancel(list: &mut List) {
    message(
        list,
        "35=D|11=11|38=5|44=4990|54=1|60=20261102-10:00:09.500|",
    );
    message(list, "35=F|11=12|41=11|60=20261102-10:00:09.500|");
}

fn there_and_back(list: &mut List) {
    message(
        list,
        "35=G|11=21|38=7|41=2|44=4991|54=1|60=20261102-10:00:09.500|",
    );
    message(
        list,
        "35=G|11=2|38=5|41=21|44=4992|54=1|60=20261102-10:00:09.500|",
    );
}

fn open_and_drop(list: &mut List) {
    start(list, 31);
    list.call(&[8]);
}

/// The other calls of a month.
fn call_rows() -> Vec<Row> {
    type Put = fn(&mut List);
    let of = |name: &str, before: fn() -> List, unit: Put, calls, units, plain| Row {
        name: name.into(),
        list: Box::new(move |n| {
            let mut list = before();
            (0..n).for_each(|_| unit(&mut list));
            list
        }),
        calls,
        units,
        runs: beside(run::<proved::Lent>, plain),
    };
    vec![
        of("message D or F", opened, order_and_cancel, 2, 5_000, NONE),
        of("message G", opened, there_and_back, 2, 5_000, NONE),
        of(
            "report, 90 cells",
            filled,
            |l| l.call(&[12]),
            1,
            2_000,
            MONTHS,
        ),
        of(
            "look",
            filled,
            |l| l.call(&[11, 1, 1, 1]),
            1,
            20_000,
            MONTHS,
        ),
        of("outlook", opened, |l| l.call(&[17]), 1, 20_000, NONE),
        of(
            "charge",
            filled,
            |l| l.call(&[9, 1, 1, 1, 5, 0, 7, 0]),
            1,
            20_000,
            MONTHS,
        ),
        of("open or drop", filled, open_and_drop, 2, 10_000, MONTHS),
        of(
            "ask",
            opened,
            |l| l.call(&[14, 20, 2, 4_995, 60]),
            1,
            20_000,
            NONE,
        ),
    ]
}

fn rows(seed: u64) -> Vec<Row> {
    let mut rows = session_rows(seed);
    rows.extend(event_rows(seed));
    rows.extend(call_rows());
    rows
}

// ---- measuring

/// Stops where two runs answer differently, or where a call is refused.
fn check(r: &Row) {
    let list = (r.list)(200);
    let runs = r.runs.iter().flatten();
    let said: Vec<_> = runs.map(|run| list.answers(*run)).collect();
    // A refused call's third word is 0; after a session's K the words are as they were, which is not 0.
    let refused = said[0].chunks(ANSWER).any(|a| a[0] == 1 && a[2] == 0);
    if refused || said.iter().any(|s| *s != said[0]) {
        eprintln!("{}: refused, or the answers differ", r.name);
        exit(1);
    }
}

fn space_for(list: &List) -> Vec<u32> {
    vec![0; ANSWER * list.ends.len().max(1)]
}

/// The least time of a run over several rounds.
fn least(run: Run, list: &List) -> u64 {
    const BUDGET: u64 = 400_000_000;
    let mut space = space_for(list);
    let (mut least, mut spent) = (u64::MAX, 0);
    for n in 0..200 {
        if n >= 3 && spent > BUDGET {
            break;
        }
        let began = clock();
        run(black_box(list), black_box(&mut space), 0);
        let time = clock() - began;
        least = least.min(time);
        spent += time;
    }
    least
}

/// Nanoseconds of a call: a list without its start.
fn time(r: &Row, run: Run) -> f64 {
    let (whole, start) = ((r.list)(r.units), (r.list)(0));
    let time = least(run, &whole).saturating_sub(least(run, &start));
    time as f64 / (r.units * r.calls) as f64
}

/// What callgrind runs: a row's first units by one column.
pub fn counted(place: usize, column: usize, units: usize, seed: u64) {
    let rows = rows(seed);
    let list = (rows[place].list)(units);
    let run = rows[place].runs[column].unwrap();
    bench_counted(run, black_box(&list), black_box(&mut space_for(&list)));
}

/// Instructions of a further call: what the second half of a list adds to its first.
fn instructions(r: &Row, place: usize, column: usize, seed: u64) -> Option<f64> {
    let half = r.units / 20;
    let of = |units| callgrind(&format!("--row={place},{column},{units}"), seed);
    Some((of(2 * half)? - of(half)?) as f64 / (half * r.calls) as f64)
}

// ---- the table

fn cell(number: Option<f64>, digits: usize) -> String {
    number.map_or("".into(), |n| format!("{n:.digits$}"))
}

/// The library's number, (a)'s and (b)'s, and the first over the others.
fn cells(numbers: &[Option<f64>], digits: usize) -> Vec<String> {
    let over = numbers[1..]
        .iter()
        .map(|n| n.zip(numbers[LIBRARY]).map(|(n, own)| own / n));
    let own = numbers.iter().map(|n| cell(*n, digits));
    own.chain(over.map(|n| cell(n, 2))).collect()
}

/// One line for each call: nanoseconds, then instructions where valgrind is installed.
pub fn table(seed: u64) {
    println!("The library's calls, beside plain Rust where it has the call: nanoseconds a call or a record, ratios; the same in instructions:");
    println!();
    let group = ["library", "(a)", "(b)", "/(a)", "/(b)"];
    let mut titles = vec![String::new()];
    titles.extend(group.map(|g| {
        format!("{g} ns")
            .replace("/(a) ns", "/(a)")
            .replace("/(b) ns", "/(b)")
    }));
    titles.extend(["instructions", "(a)", "(b)", "/(a)", "/(b)"].map(String::from));
    row(titles.clone());
    row(titles
        .iter()
        .enumerate()
        .map(|(i, _)| if i == 0 { "---" } else { "--:" }.to_string()));
    let mut paces = Vec::new();
    for (place, r) in rows(seed).iter().enumerate() {
        check(r);
        let times: Vec<_> = r
            .runs
            .iter()
            .map(|run| run.map(|run| time(r, run)))
            .collect();
        let columns = 0..r.runs.len();
        let counts: Vec<_> = columns
            .map(|c| r.runs[c].and_then(|_| instructions(r, place, c, seed)))
            .collect();
        paces.push(times[LIBRARY].unwrap_or(0.0));
        let mut line = vec![r.name.clone()];
        line.extend(cells(&times, 1));
        line.extend(cells(&counts, 0));
        row(line);
    }
    let shapes = input::KINDS.len();
    let over =
        (0..shapes).map(|i| format!("{} {:.2}", input::KINDS[i].0, paces[shapes + i] / paces[i]));
    println!();
    println!(
        "Records over the session, in time: {}.",
        over.collect::<Vec<_>>().join(", ")
    );
    println!();
}

//! Measures the proved library beside ordinary Rust versions of the same algorithms, in processor time, and prints one table.
//!
//! `bench` alone has a column for this build of the Rust code. `bench OTHER`, with the path of the same program built for this machine's
//! own processor, has one for that build too: OTHER is started as a worker (`OTHER worker`), names its archive, gets the number of a row a line, and answers
//! the nanoseconds of a call. `bench check` compares the results of all rows and measures nothing. With ROWS=TEXT in the environment
//! only the rows with that text in their names are taken.
//!
//! bench/count uses the other two: `bench rows` names the archive, and then for each row its number, how many calls a turn has, and its
//! name; `bench turn SIDE ROW CALLS` makes these calls of one side, and says how many bytes each consumes, or - where the row is about calls. A
//! third side, hash, is there for the split feed: Rust that looks the splits up in a hash map.
//!
//! Each family of the library has a file, with its rows, ordinary Rust of its functions, and the calls of the proved ones: list, table, matrix,
//! index, machine, certificate, segment, text, why. The functions and sizes of the face, and the one way to call it, are the Rust crate's.
#[path = "../../bindings/rust/src/call.rs"]
mod call;
mod certificate;
mod clock;
mod flow;
mod index;
mod inputs;
mod join;
mod later;
mod list;
mod machine;
mod matrix;
#[allow(dead_code)]
#[path = "../../bindings/rust/src/raw.rs"]
mod raw;
mod row;
mod segment;
mod sets;
mod sizes;
mod table;
mod text;
mod why;
mod worker;

use row::{Buffers, Row, Side, Work};
use std::time::Instant;
use worker::Worker;

/// The archive that this program is linked with.
const ARCHIVE: &[u8] = include_bytes!(env!("ARCHIVE"));

/// Runs of a row, each of every side in turn. The answer is their median.
const RUNS: usize = 21;

/// The rows of all families, with the text in their names that is asked for.
fn rows() -> Vec<Row> {
    let families = [
        list::feeds(),
        table::feeds(),
        index::rows(),
        matrix::rows(),
        list::rows(),
        table::rows(),
        machine::rows(),
        segment::rows(),
        certificate::rows(),
        text::rows(),
        why::rows(),
    ];
    let wanted = std::env::var("ROWS").unwrap_or_default();
    let rows = families.into_iter().flatten();
    rows.filter(|row| row.name.contains(&wanted)).collect()
}

/// The archive's size and a checksum of its bytes (FNV-1a), so that a table says what it measures.
fn archive() -> String {
    let sum = ARCHIVE
        .iter()
        .fold(0xcbf2_9ce4_8422_2325_u64, |sum, &byte| (sum ^ u64::from(byte)).wrapping_mul(0x100_0000_01b3));
    format!("{} bytes, checksum {sum:016x}", ARCHIVE.len())
}

fn median(mut times: Vec<f64>) -> f64 {
    times.sort_by(f64::total_cmp);
    times[times.len() / 2]
}

/// A number with three figures and its unit.
fn scaled(x: f64, units: [&str; 4]) -> String {
    let (x, unit) = match x {
        x if x < 1e3 => (x, units[0]),
        x if x < 1e6 => (x / 1e3, units[1]),
        x if x < 1e9 => (x / 1e6, units[2]),
        x => (x / 1e9, units[3]),
    };
    let figures = match x {
        x if x < 9.995 => 2,
        x if x < 99.95 => 1,
        _ => 0,
    };
    format!("{x:.figures$} {unit}")
}

/// Bytes in a second where the row consumes bytes, else the time of a call.
fn shown(row: &Work, nanoseconds: f64) -> String {
    match row.call.bytes() {
        Some(n) => scaled(n as f64 * 1e9 / nanoseconds, ["B/s", "kB/s", "MB/s", "GB/s"]),
        None => scaled(nanoseconds, ["ns", "us", "ms", "s"]),
    }
}

fn load() -> String {
    let text = std::fs::read_to_string("/proc/loadavg").unwrap_or_default();
    text.split(' ').next().unwrap_or("unknown").to_string()
}

/// Measures a row, and prints its line; `i` is its number for the worker.
fn measure_row(i: usize, row: &Work, worker: &mut Option<Worker>) {
    row.compare();
    let calls = [row.calls(Side::Proved), row.calls(Side::Rust)];
    if let Some(worker) = worker {
        worker.time(i);
    }
    let mut times = [Vec::new(), Vec::new(), Vec::new()];
    let runs = if calls[0] == 1 { 7 } else { RUNS };
    for _ in 0..runs {
        times[0].push(row.time(Side::Proved, calls[0]));
        times[1].push(row.time(Side::Rust, calls[1]));
        if let Some(worker) = worker {
            times[2].push(worker.time(i));
        }
    }
    let [ours, rust, native] = times;
    let (ours, rust) = (median(ours), median(rust));
    let (name, a, b) = (&row.name, shown(row, ours), shown(row, rust));
    print!("| {name} | {a} | {b} | {:.2} |", ours / rust);
    if native.is_empty() {
        println!(" - | - |");
    } else {
        let native = median(native);
        println!(" {} | {:.2} |", shown(row, native), ours / native);
    }
}

fn measure(other: Option<&str>) {
    let begin = Instant::now();
    let mut worker = other.map(|program| Worker::start(program, &archive()));
    println!("Archive of {}. Load at the beginning {}.", archive(), load());
    println!();
    println!("| row | proved | Rust, baseline | times | Rust, native | times |");
    println!("|---|---:|---:|---:|---:|---:|");
    for (i, row) in rows().iter().enumerate() {
        measure_row(i, &row.work(), &mut worker);
    }
    if let Some(worker) = worker {
        worker.stop();
    }
    println!();
    let seconds = begin.elapsed().as_secs();
    println!(
        "Load at the end {}, {seconds} s in all. Both sides gave the same answers, records and words in every row.",
        load()
    );
}

/// The rows, for bench/count.
fn name_rows() {
    println!("{}", archive());
    for (i, row) in rows().iter().enumerate() {
        println!("{i} {} {}", row.turn, row.name);
    }
}

/// Makes some calls of one side, for bench/count.
fn turn(side: &str, row: &str, calls: &str) {
    let row: usize = row.parse().expect("a row's number");
    let work = rows()[row].work();
    let calls = calls.parse().expect("a number of calls");
    let mut buffers = Buffers::new(&*work.call);
    match side {
        "proved" => work.repeat(Side::Proved, calls, &mut buffers),
        "rust" => work.repeat(Side::Rust, calls, &mut buffers),
        "hash" => {
            let fed = work.call.repeat_hashed(calls, &mut buffers);
            fed.expect("a row of the split feed");
        }
        _ => panic!("the side is proved, rust or hash"),
    }
    match work.call.bytes() {
        Some(n) => println!("{n}"),
        None => println!("-"),
    }
}

fn main() {
    let arguments: Vec<String> = std::env::args().skip(1).collect();
    let arguments: Vec<&str> = arguments.iter().map(String::as_str).collect();
    match arguments[..] {
        ["worker"] => worker::work(&rows(), &archive()),
        ["check"] => rows().iter().for_each(|row| row.work().compare()),
        ["rows"] => name_rows(),
        ["turn", side, row, calls] => turn(side, row, calls),
        [] => measure(None),
        [other] => measure(Some(other)),
        _ => panic!("the head of main.rs says what can be asked"),
    }
}

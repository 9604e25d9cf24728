//! Measures this library's calls beside the Rust's, on the same inputs, and prints a table.
//!
//! A row's two sides run in turn, and each time is the median of all rounds. With the arguments
//! `count SIDE KIND TIMES` it only runs one side so often on one kind of script, for a program that counts
//! instructions.

mod scripts;
mod sides;

use std::hint::black_box;
use std::time::Instant;

use chips::i2c::ds3231::DateTime;
use scripts::KINDS;

/// How often each side of a row is timed.
const ROUNDS: usize = 201;

/// About how many events or conversions a timed round has.
const PER_ROUND: usize = 32_768;

const LENGTHS: [usize; 4] = [32, 128, 512, 2048];

const CONVERSIONS: usize = 4096;

fn main() {
    let arguments: Vec<String> = std::env::args().skip(1).collect();
    let words: Vec<&str> = arguments.iter().map(String::as_str).collect();
    match words[..] {
        [] => table(),
        ["count", side, kind, times] => count(side, kind, times.parse().expect("a number")),
        _ => eprintln!("usage: bench [count library|used|rust KIND TIMES]"),
    }
}

/// Runs one side so often on a script of 2,048 records: `used` is this library's run with its chip and store read.
fn count(side: &str, kind: &str, times: usize) {
    let (_, make) = KINDS.iter().find(|(name, _)| *name == kind).expect("a kind of script");
    let script = make(2048);
    let mut answers = vec![0; 2048];
    match side {
        "library" => repeat(times, || assert_eq!(sides::library_run(black_box(&script), &mut answers), 0)),
        "used" => repeat(times, || sides::library_digest(black_box(&script), &mut answers)),
        _ => repeat(times, || assert_eq!(sides::rust_run(black_box(&script), &mut answers), 0)),
    }
}

fn table() {
    println!("Millions of events or conversions a second; a ratio of 1 or more is not slower than the Rust.\n");
    println!("| what | number | this library | the Rust | library / Rust |");
    println!("|---|---|---|---|---|");
    for (name, make) in KINDS {
        for records in LENGTHS {
            runs(name, &make(records), records);
        }
    }
    for (name, make) in KINDS {
        used(name, &make(2048), 2048);
    }
    for (name, make) in KINDS {
        unchecked(name, &make(2048), 2048);
    }
    for (name, make) in KINDS {
        let script = make(2048);
        let library = || sides::library_check(black_box(&script));
        let rust = || sides::rust_check(black_box(&script));
        row(&format!("check alone, {name}"), 2048, library, rust);
    }
    conversions();
}

/// The whole run: the check and the events.
fn runs(name: &str, script: &[u8], records: usize) {
    let (mut ours, mut theirs) = (vec![0; records], vec![0; records]);
    let library = || sides::library_run(black_box(script), black_box(&mut ours));
    let rust = || sides::rust_run(black_box(script), black_box(&mut theirs));
    row(&format!("run, {name}"), records, library, rust);
    assert_eq!(ours, theirs, "the answers differ");
}

/// The whole run with its chip and store read after it. The Rust's run keeps both: `black_box` is lent the chip.
fn used(name: &str, script: &[u8], records: usize) {
    let (mut ours, mut theirs) = (vec![0; records], vec![0; records]);
    let library = || sides::library_digest(black_box(script), black_box(&mut ours));
    let rust = || sides::rust_run(black_box(script), black_box(&mut theirs));
    row(&format!("run, {name}; chip and store read"), records, library, rust);
    assert_eq!(ours, theirs, "the answers differ");
}

/// This library's run, which checks the script, beside the Rust's events with no check.
fn unchecked(name: &str, script: &[u8], records: usize) {
    let (mut ours, mut theirs) = (vec![0; records], vec![0; records]);
    let library = || sides::library_run(black_box(script), black_box(&mut ours));
    let rust = || sides::rust_events(black_box(script), black_box(&mut theirs));
    row(&format!("run, {name}; the Rust with no check"), records, library, rust);
}

fn conversions() {
    // 1,540,877 is prime to the range, so that the times are spread over all of it.
    let seconds: Vec<u64> = (0..CONVERSIONS as u64).map(|i| i * i * 1_540_877 % 6_311_433_600).collect();
    let dates: Vec<DateTime> = seconds.iter().filter_map(|s| DateTime::from_seconds_since_2000(*s)).collect();
    for (second, date) in seconds.iter().zip(&dates) {
        assert_eq!(sides::library_date(*second), sides::rust_date(*second));
        assert_eq!(sides::library_seconds(*date), sides::rust_seconds(*date));
    }
    let sum = |each: fn(u64) -> u64| {
        let seconds = &seconds;
        move || seconds.iter().fold(0, |sum: u64, s| sum.wrapping_add(each(black_box(*s))))
    };
    let total = |each: fn(DateTime) -> u64| {
        let dates = &dates;
        move || dates.iter().fold(0, |sum: u64, date| sum.wrapping_add(each(black_box(*date))))
    };
    row("from_seconds_since_2000", CONVERSIONS, sum(sides::library_date), sum(sides::rust_date));
    let (library, checked, plain) = (sides::library_seconds, sides::rust_checked_seconds, sides::rust_seconds);
    row("seconds_since_2000, date checked", CONVERSIONS, total(library), total(checked));
    row("seconds_since_2000; the Rust with no check", CONVERSIONS, total(library), total(plain));
}

/// Times both sides in turn on `size` items and prints how many millions each does in a second, by the medians.
fn row<A, B>(name: &str, size: usize, mut library: impl FnMut() -> A, mut rust: impl FnMut() -> B) {
    let (mut ours, mut theirs) = (Vec::new(), Vec::new());
    for _ in 0..ROUNDS {
        ours.push(round(size, &mut library));
        theirs.push(round(size, &mut rust));
    }
    let (ours, theirs) = (1e3 / median(ours), 1e3 / median(theirs));
    println!("| {name} | {size} | {ours:.1} | {theirs:.1} | {:.2} |", ours / theirs);
}

/// The nanoseconds for one item, over a round.
fn round<A>(size: usize, side: &mut impl FnMut() -> A) -> f64 {
    let times = PER_ROUND / size;
    let from = Instant::now();
    repeat(times, side);
    from.elapsed().as_secs_f64() * 1e9 / (times * size) as f64
}

fn repeat<A>(times: usize, mut side: impl FnMut() -> A) {
    for _ in 0..times {
        black_box(side());
    }
}

fn median(mut times: Vec<f64>) -> f64 {
    times.sort_by(f64::total_cmp);
    times[times.len() / 2]
}

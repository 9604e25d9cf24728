//! What is measured: this library's calls, and the Rust's beside them.

use std::hint::black_box;

use chips::i2c::ds3231::{DateTime, Ds3231, Ds3231Config};
use emu_core::{I2cTarget, Nanos};
use oracle::call::RECORD;
use oracle::script::LONGEST;

mod library {
    unsafe extern "C" {
        pub fn clock_script_check(script: *const u8, length: usize) -> u32;
        pub fn clock_script_run(script: *const u8, length: usize, answers: *mut u8, answers_length: usize) -> u32;
        pub fn clock_script_digest(script: *const u8, length: usize, answers: *mut u8, answers_length: usize) -> u64;
        pub fn clock_date_from_seconds(seconds: u64) -> u64;
        pub fn clock_seconds_from_date(year: u16, month: u8, day: u8, hour: u8, minute: u8, second: u8) -> u64;
    }
}

/// This library's check.
pub fn library_check(script: &[u8]) -> u32 {
    // SAFETY: the pointer and the length are those of a slice.
    unsafe { library::clock_script_check(script.as_ptr(), script.len()) }
}

/// This library's run: the check, then the events.
pub fn library_run(script: &[u8], answers: &mut [u8]) -> u32 {
    // SAFETY: the pointers and the lengths are those of two slices that do not overlap.
    unsafe { library::clock_script_run(script.as_ptr(), script.len(), answers.as_mut_ptr(), answers.len()) }
}

/// The same run, whose chip and store are then read: a number that every field of both counts in.
pub fn library_digest(script: &[u8], answers: &mut [u8]) -> u64 {
    // SAFETY: the pointers and the lengths are those of two slices that do not overlap.
    unsafe { library::clock_script_digest(script.as_ptr(), script.len(), answers.as_mut_ptr(), answers.len()) }
}

/// This library's date of a number of seconds.
pub fn library_date(seconds: u64) -> u64 {
    // SAFETY: it takes every number.
    unsafe { library::clock_date_from_seconds(seconds) }
}

/// This library's seconds of a date, which it checks.
pub fn library_seconds(date: DateTime) -> u64 {
    let DateTime { year, month, day, hour, minute, second } = date;
    // SAFETY: it takes every number.
    unsafe { library::clock_seconds_from_date(year, month, day, hour, minute, second) }
}

/// Document 01's check of a script in plain Rust: 0, or 1 where it is refused.
#[inline(never)]
pub fn rust_check(script: &[u8]) -> u32 {
    if script.len() > LONGEST || !script.len().is_multiple_of(RECORD) {
        return 1;
    }
    let mut last = 0;
    for record in script.chunks_exact(RECORD) {
        let at = instant(record);
        let (kind, value) = (record[8], record[9]);
        let bad_value = (kind == 2 && value > 1) || (kind == 3 && value != 0);
        if kind > 3 || bad_value || record[10..] != [0; 6] || at < last {
            return 1;
        }
        last = at;
    }
    0
}

/// The events of a script on the published chip, with no check.
#[inline(never)]
pub fn rust_events(script: &[u8], answers: &mut [u8]) -> u32 {
    let mut chip = Ds3231::new(Ds3231Config::default()).expect("the default configuration is valid");
    for (record, answer) in script.chunks_exact(RECORD).zip(answers) {
        let at = Nanos(instant(record));
        let value = record[9];
        *answer = match record[8] {
            0 => u8::from(chip.address(value >> 1, value & 1 == 1, at)),
            1 => u8::from(chip.write(value, at)),
            2 => chip.read(value == 1, at),
            _ => {
                chip.stop(at);
                0
            }
        };
    }
    black_box(&chip);
    0
}

/// The check in plain Rust, then the events on the published chip.
pub fn rust_run(script: &[u8], answers: &mut [u8]) -> u32 {
    if rust_check(script) != 0 || answers.len() != script.len() / RECORD {
        return 1;
    }
    rust_events(script, answers)
}

fn instant(record: &[u8]) -> u64 {
    u64::from_le_bytes(record[..8].try_into().expect("a record has sixteen bytes"))
}

/// The Rust's date of a number of seconds, packed as this library packs it.
#[inline(never)]
pub fn rust_date(seconds: u64) -> u64 {
    DateTime::from_seconds_since_2000(seconds).map_or(8 << 56, |date| {
        let day = u64::from(date.year) << 16 | u64::from(date.month) << 8 | u64::from(date.day);
        day << 24 | u64::from(date.hour) << 16 | u64::from(date.minute) << 8 | u64::from(date.second)
    })
}

/// The Rust's seconds of a valid date, which it does not check.
#[inline(never)]
pub fn rust_seconds(date: DateTime) -> u64 {
    date.seconds_since_2000()
}

/// The Rust's seconds of a date, checked first.
#[inline(never)]
pub fn rust_checked_seconds(date: DateTime) -> u64 {
    date.validate().map_or(1 << 56, |()| date.seconds_since_2000())
}

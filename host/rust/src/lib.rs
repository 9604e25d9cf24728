//! Scripts and dates of the proved model of the DS3231 clock chip, as safe calls.
//!
//! A [`Script`] is made of [`Event`]s, and its run from power-on gives one answer byte an event:
//!
//! ```
//! use clock_script::{Address, Event, Script};
//!
//! let script: Script = [
//!     Event::start(1_000_000_000, Address::DS3231, false),
//!     Event::write(1_000_100_000, 0x02),   // the pointer: the hours
//!     Event::write(1_000_200_000, 0x61),   // one o'clock PM
//!     Event::stop(1_000_400_000),
//!     Event::start(1_500_000_000, Address::DS3231, true),
//!     Event::read(1_500_100_000, false),   // the pointer stands at 03, the weekday
//!     Event::stop(1_500_200_000),
//! ]
//! .into_iter()
//! .collect();
//! assert_eq!(script.run()?, [1, 1, 1, 0, 1, 4, 0]);   // 4: Thursday, 2026-01-01
//! # Ok::<(), clock_script::Refusal>(())
//! ```
//!
//! [`check`], [`run`] and [`run_into`] take the bytes of any script, [`record()`] makes the bytes of one record, and
//! [`date_from_seconds`] and [`seconds_from_date`] convert dates. The headers `clock_script.h` and `clock_dates.h` beside
//! this package say what each call promises. No call keeps anything: all may run on several threads at once.

#![warn(missing_docs)]

mod dates;
mod events;

pub use dates::{date_from_seconds, seconds_from_date, Date, DateRefusal};
pub use events::{Address, AddressError, Event, Script};

use std::fmt;

/// The bytes of a record.
pub const RECORD: usize = 16;

mod ffi {
    extern "C" {
        pub fn clock_script_check(script: *const u8, length: usize) -> u32;
        pub fn clock_script_run(script: *const u8, length: usize, answers: *mut u8, answers_length: usize) -> u32;
    }
}

/// A refusal of a script.
///
/// It is shown with its number, its record if it has one, and the words of the table of refusals:
///
/// ```
/// let refusal = clock_script::check(&clock_script::record(0, 4, 0)).unwrap_err();
/// assert_eq!(refusal.to_string(), "refusal 16 at record 0: kind above 3");
/// ```
#[derive(Clone, Copy, Debug, PartialEq, Eq, Hash)]
pub struct Refusal {
    /// Its number in the table of refusals, 13 to 19.
    pub number: u16,
    /// The record that it is about, counted from 0; 0 where it is about none.
    pub record: u16,
}

impl Refusal {
    /// The record that the refusal is about, counted from 0. The refusals 13 to 15 are about none.
    pub fn at_record(&self) -> Option<u16> {
        match self.number {
            13..=15 => None,
            _ => Some(self.record),
        }
    }

    fn words(&self) -> &'static str {
        match self.number {
            13 => "script length not a multiple of 16",
            14 => "over 32,768 bytes",
            15 => "answers not one byte a record",
            16 => "kind above 3",
            17 => "READ above 1, STOP not 0",
            18 => "bytes 10 to 15 not zero",
            19 => "instant below the previous record's",
            _ => "not a refusal of a script",
        }
    }
}

impl fmt::Display for Refusal {
    fn fmt(&self, to: &mut fmt::Formatter<'_>) -> fmt::Result {
        match self.at_record() {
            None => write!(to, "refusal {}: {}", self.number, self.words()),
            Some(record) => write!(to, "refusal {} at record {record}: {}", self.number, self.words()),
        }
    }
}

impl std::error::Error for Refusal {}

fn taken_apart(returned: u32) -> Result<(), Refusal> {
    if returned == 0 {
        return Ok(());
    }
    Err(Refusal { number: (returned >> 16) as u16, record: (returned & 0xFFFF) as u16 })
}

/// Checks a script.
///
/// ```
/// assert_eq!(clock_script::check(&[]), Ok(()));
/// assert_eq!(clock_script::check(&[0; 17]).unwrap_err().number, 13);
/// ```
pub fn check(script: &[u8]) -> Result<(), Refusal> {
    // SAFETY: the pointer and the length are those of a slice, and the call reads no byte outside it.
    taken_apart(unsafe { ffi::clock_script_check(script.as_ptr(), script.len()) })
}

/// Runs a script from power-on into `answers`, one byte a record. A refusal leaves `answers` as it was.
///
/// ```
/// let mut answers = [0xA5; 2];
/// let refusal = clock_script::run_into(&[0; 16], &mut answers).unwrap_err();
/// assert_eq!(refusal.number, 15);
/// assert_eq!(answers, [0xA5; 2]);
/// ```
pub fn run_into(script: &[u8], answers: &mut [u8]) -> Result<(), Refusal> {
    // SAFETY: the pointers and the lengths are those of slices; a `&mut` slice overlaps no other; the call reads and writes
    // no byte outside them.
    taken_apart(unsafe { ffi::clock_script_run(script.as_ptr(), script.len(), answers.as_mut_ptr(), answers.len()) })
}

/// Runs a script from power-on and gives its answers.
///
/// ```
/// assert_eq!(clock_script::run(&clock_script::record(5, 0, 0xD0)), Ok(vec![1]));
/// ```
pub fn run(script: &[u8]) -> Result<Vec<u8>, Refusal> {
    let mut answers = vec![0; script.len() / RECORD];
    run_into(script, &mut answers)?;
    Ok(answers)
}

/// One record of a script: any kind and any value, legal or not. [`Event::record`] makes legal ones.
pub fn record(at: u64, kind: u8, value: u8) -> [u8; RECORD] {
    let mut bytes = [0; RECORD];
    bytes[..8].copy_from_slice(&at.to_le_bytes());
    bytes[8] = kind;
    bytes[9] = value;
    bytes
}

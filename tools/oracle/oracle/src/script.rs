//! Scripts: the check and the run, and the lines `clockrun` prints, from document 01.

use std::fmt::Write;

use chips::i2c::I2cDiagnostic;
use chips::i2c::ds3231::{Ds3231, Ds3231Config};

use crate::answer::{diagnostic_line, event_answer};
use crate::call::{Call, RECORD};

/// The bytes of the longest script: 2,048 records.
pub const LONGEST: usize = 32_768;

const START: u8 = 0;
const WRITE: u8 = 1;
const READ: u8 = 2;
const STOP: u8 = 3;

/// Why a script is refused: document 01's number, and the record for 16 to 19.
#[derive(Clone, Copy, Debug, PartialEq, Eq)]
pub struct Refusal {
    pub number: u32,
    pub record: Option<usize>,
}

/// What a script's run gives.
pub struct Run {
    /// One byte an event.
    pub answers: Vec<u8>,
    pub diagnostics: Vec<I2cDiagnostic>,
    pub dropped: u64,
}

/// The events of a script.
///
/// # Errors
/// The script's first refusal: 14, 13, then record by record 16 to 19.
pub fn check(script: &[u8]) -> Result<Vec<Call>, Refusal> {
    if script.len() > LONGEST {
        return Err(Refusal { number: 14, record: None });
    }
    if !script.len().is_multiple_of(RECORD) {
        return Err(Refusal { number: 13, record: None });
    }
    let mut events = Vec::new();
    let mut last = 0;
    for (index, bytes) in script.chunks_exact(RECORD).enumerate() {
        let (event, at) = judge(bytes, last).map_err(|number| Refusal { number, record: Some(index) })?;
        events.push(event);
        last = at;
    }
    Ok(events)
}

/// The event of a record and its instant, or the record's refusal; `last` is the instant of the
/// record before it, 0 before the first.
fn judge(bytes: &[u8], last: u64) -> Result<(Call, u64), u32> {
    let at = bytes[..8].iter().rev().fold(0, |sum, byte| sum << 8 | u64::from(*byte));
    let (kind, value) = (bytes[8], bytes[9]);
    if kind > STOP {
        return Err(16);
    }
    if (kind == READ && value > 1) || (kind == STOP && value != 0) {
        return Err(17);
    }
    if bytes[10..].iter().any(|byte| *byte != 0) {
        return Err(18);
    }
    if at < last {
        return Err(19);
    }
    let event = match kind {
        START => Call::Start { address: value >> 1, read: value & 1 == 1, at },
        WRITE => Call::Write { byte: value, at },
        READ => Call::Read { acknowledge: value == 1, at },
        _ => Call::Stop { at },
    };
    Ok((event, at))
}

/// A script's record: kind, value and instant.
#[must_use]
pub fn record(kind: u8, value: u8, at: u64) -> [u8; RECORD] {
    let mut bytes = [0; RECORD];
    bytes[..8].copy_from_slice(&at.to_le_bytes());
    bytes[8] = kind;
    bytes[9] = value;
    bytes
}

/// The script of the bus events among `calls`.
#[must_use]
pub fn of_calls(calls: &[Call]) -> Vec<u8> {
    let mut script = Vec::new();
    for call in calls {
        let bytes = match *call {
            Call::Start { address, read, at } => record(START, address << 1 | u8::from(read), at),
            Call::Write { byte, at } => record(WRITE, byte, at),
            Call::Read { acknowledge, at } => record(READ, u8::from(acknowledge), at),
            Call::Stop { at } => record(STOP, 0, at),
            _ => continue,
        };
        script.extend(bytes);
    }
    script
}

/// `clockrun`'s power-on.
#[must_use]
pub fn power_on() -> Call {
    let config = Ds3231Config::default();
    Call::Power { start: config.start, stopped: config.oscillator_stopped, quarters: config.temperature_quarters }
}

/// Runs the events from `clockrun`'s power-on.
///
/// # Panics
/// Where the Rust refuses its own default configuration.
#[must_use]
pub fn run(events: &[Call]) -> Run {
    let mut chip = Ds3231::new(Ds3231Config::default()).expect("the default configuration is valid");
    let answers = events.iter().map(|event| event_answer(&mut chip, *event)).collect();
    Run { answers, diagnostics: chip.take_diagnostics(), dropped: chip.dropped_diagnostics() }
}

/// What `clockrun` prints for `script`.
#[must_use]
pub fn lines(script: &[u8]) -> String {
    let mut text = String::new();
    match check(script) {
        Ok(events) => listing(script, &run(&events), &mut text),
        Err(Refusal { number, record: Some(record) }) => writeln!(text, "refused,{number},{record}"),
        Err(Refusal { number, record: None }) => writeln!(text, "refused,{number},-"),
    }
    .expect("a string takes every text");
    text
}

fn listing(script: &[u8], run: &Run, text: &mut String) -> std::fmt::Result {
    writeln!(text, "at,event,value,answer")?;
    for (bytes, answer) in script.chunks_exact(RECORD).zip(&run.answers) {
        let at = bytes[..8].iter().rev().fold(0, |sum, byte| sum << 8 | u64::from(*byte));
        let word = match bytes[8] {
            START => "START",
            WRITE => "WRITE",
            READ => "READ",
            _ => "STOP",
        };
        writeln!(text, "{at},{word},{:02X},{answer:02X}", bytes[9])?;
    }
    for diagnostic in &run.diagnostics {
        writeln!(text, "{}", diagnostic_line(diagnostic))?;
    }
    writeln!(text, "dropped,{}", run.dropped)
}

//! The Rust's answers to calls, as text.

use std::fmt::Write;

use chips::i2c::ds3231::{DateTime, DateTimeError, Ds3231, Ds3231Config, Ds3231ConfigError};
use chips::i2c::{I2cDiagnostic, I2cDiagnosticKind};
use emu_core::{I2cTarget, Nanos};

use crate::call::Call;

/// The control register, which a NOTMODELLED line names.
const CONTROL: u8 = 0x0E;

/// A bus with a chip on it after an accepted power-on.
#[derive(Default)]
pub struct Bench {
    chip: Option<Ds3231>,
}

impl Bench {
    /// The chip, after an accepted power-on.
    #[must_use]
    pub fn chip(&self) -> Option<&Ds3231> {
        self.chip.as_ref()
    }

    /// Makes `call` and adds its answer to `out`, each line with its line feed.
    ///
    /// # Errors
    /// Where the Rust has no answer: a chip call before an accepted power-on, or `seconds` or
    /// `weekday` of an invalid time.
    pub fn call(&mut self, call: Call, out: &mut String) -> Result<(), String> {
        let line = match call {
            Call::Power { start, stopped, quarters } => self.power(start, stopped, quarters),
            Call::Validate(time) => time.validate().map_or_else(|e| date_refusal(&e), |()| "ok".into()),
            Call::FromSeconds(seconds) => {
                DateTime::from_seconds_since_2000(seconds).map_or_else(|| "refused,8".into(), |time| date_text(&time))
            }
            Call::Seconds(time) => valid(time)?.seconds_since_2000().to_string(),
            Call::Weekday(time) => valid(time)?.weekday().to_string(),
            _ => {
                let chip = self.chip.as_mut();
                chip_answer(chip.ok_or("no accepted power-on before a call of the chip")?, call)
            }
        };
        out.push_str(&line);
        out.push('\n');
        Ok(())
    }

    fn power(&mut self, start: DateTime, stopped: bool, quarters: i16) -> String {
        self.chip = None;
        let config = Ds3231Config { start, oscillator_stopped: stopped, temperature_quarters: quarters };
        match Ds3231::new(config) {
            Ok(chip) => {
                self.chip = Some(chip);
                "ok".into()
            }
            Err(Ds3231ConfigError::Start(error)) => date_refusal(&error),
            Err(Ds3231ConfigError::Temperature(quarters)) => format!("refused,7,{quarters}"),
        }
    }
}

/// The answer of the chip, without its last line feed.
fn chip_answer(chip: &mut Ds3231, call: Call) -> String {
    match call {
        Call::Register { register, at } => {
            chip.register(register, Nanos(at)).map_or_else(|| "refused,9".into(), |byte| format!("{byte:02X}"))
        }
        Call::Now { at } => date_text(&chip.now(Nanos(at))),
        Call::Dropped => chip.dropped_diagnostics().to_string(),
        Call::Take => taking(&chip.take_diagnostics()),
        event => format!("{:02X}", event_answer(chip, event)),
    }
}

/// The answer byte of a bus event: START and WRITE 1 or 0, READ the byte, STOP 0.
///
/// # Panics
/// For a call that is no bus event.
pub fn event_answer(chip: &mut Ds3231, event: Call) -> u8 {
    match event {
        Call::Start { address, read, at } => u8::from(chip.address(address, read, Nanos(at))),
        Call::Write { byte, at } => u8::from(chip.write(byte, Nanos(at))),
        Call::Read { acknowledge, at } => chip.read(acknowledge, Nanos(at)),
        Call::Stop { at } => {
            chip.stop(Nanos(at));
            0
        }
        other => panic!("{other} is no bus event"),
    }
}

fn taking(taken: &[I2cDiagnostic]) -> String {
    let mut text = taken.len().to_string();
    for diagnostic in taken {
        text.push('\n');
        text.push_str(&diagnostic_line(diagnostic));
    }
    text
}

/// The line of a diagnostic, without its line feed.
#[must_use]
pub fn diagnostic_line(diagnostic: &I2cDiagnostic) -> String {
    let (kind, register, byte) = match diagnostic.kind {
        I2cDiagnosticKind::Undefined { register, value } => ("UNDEFINED", register, Some(u32::from(value))),
        I2cDiagnosticKind::ReadOnly { register } => ("READONLY", register, None),
        I2cDiagnosticKind::NoSuchRegister { register } => ("NOREGISTER", register, None),
        I2cDiagnosticKind::NotModelled { value, .. } => ("NOTMODELLED", CONTROL, Some(value)),
    };
    let byte = byte.map_or_else(|| "--".into(), |byte| format!("{byte:02X}"));
    format!("{},{},{kind},{register:02X},{byte}", diagnostic.chip, diagnostic.at.get())
}

/// The refusal of a date, with the values document 01 gives to it.
fn date_refusal(error: &DateTimeError) -> String {
    match error {
        DateTimeError::Year(year) => format!("refused,1,{year}"),
        DateTimeError::Month(month) => format!("refused,2,{month}"),
        DateTimeError::Day { year, month, day } => format!("refused,3,{year},{month},{day}"),
        DateTimeError::Hour(hour) => format!("refused,4,{hour}"),
        DateTimeError::Minute(minute) => format!("refused,5,{minute}"),
        DateTimeError::Second(second) => format!("refused,6,{second}"),
    }
}

fn date_text(time: &DateTime) -> String {
    let mut text = String::new();
    let DateTime { year, month, day, hour, minute, second } = time;
    write!(text, "{year:04}-{month:02}-{day:02}T{hour:02}:{minute:02}:{second:02}").expect("a string takes every text");
    text
}

/// The time, where the Rust's `seconds_since_2000` and `weekday` are defined on it.
fn valid(time: DateTime) -> Result<DateTime, String> {
    match time.validate() {
        Ok(()) => Ok(time),
        Err(error) => Err(format!("the Rust has no answer for an invalid time ({error})")),
    }
}

//! What a list of calls does to the Rust's chip, as far as later changes of answers depend on it.

use chips::i2c::ds3231::Ds3231;

use crate::answer::Bench;
use crate::call::Call;

/// The seconds from 2000-01-01 to the end of 2199.
const SECONDS_IN_RANGE: u64 = 6_311_433_600;
const NANOS_PER_SECOND: u64 = 1_000_000_000;
const WEEKDAY: u8 = 0x03;
const STATUS: u8 = 0x0F;

/// What a list or script is about.
#[derive(Clone, Copy, Debug, PartialEq, Eq)]
pub enum Class {
    /// Neither of the others.
    Plain,
    /// Status is read after an alarm byte was written.
    Alarm,
    /// The clock passes the end of 2199, whatever else happens.
    Wrapped,
}

/// What was seen so far.
#[derive(Default)]
struct Seen {
    alarm_written: bool,
    status_read: bool,
}

/// The class of a list of calls, found by running it.
///
/// # Errors
/// Where a call has no answer.
pub fn class(list: &[Call]) -> Result<Class, String> {
    if passes_the_end(list)? {
        return Ok(Class::Wrapped);
    }
    let mut bench = Bench::default();
    let mut seen = Seen::default();
    let mut answers = String::new();
    for call in list {
        if let Some(chip) = bench.chip() {
            seen.before(&Inside::of(chip), *call);
        }
        bench.call(*call, &mut answers)?;
    }
    Ok(if seen.status_read { Class::Alarm } else { Class::Plain })
}

/// Whether the clock passes the end of 2199 in a list of calls.
///
/// # Errors
/// Where a call has no answer.
pub fn passes_the_end(list: &[Call]) -> Result<bool, String> {
    let mut bench = Bench::default();
    let mut answers = String::new();
    let mut clock: Option<Inside> = None;
    let past = |clock: &Option<Inside>, at: Option<u64>| {
        clock.as_ref().zip(at).is_some_and(|(clock, at)| clock.past_the_end(at))
    };
    for call in list {
        let before = past(&clock, call.at());
        bench.call(*call, &mut answers)?;
        if matches!(call, Call::Power { .. } | Call::Start { .. } | Call::Stop { .. }) {
            clock = bench.chip().map(Inside::of);
        }
        if before || past(&clock, call.at()) {
            return Ok(true);
        }
    }
    Ok(false)
}

/// For each call of a list whether its answer is the weekday register.
///
/// # Errors
/// Where a call has no answer.
pub fn weekday_answers(list: &[Call]) -> Result<Vec<bool>, String> {
    let mut bench = Bench::default();
    let mut answers = String::new();
    list.iter()
        .map(|call| {
            let shows = bench.chip().is_some_and(|chip| Inside::of(chip).answers(*call, WEEKDAY));
            bench.call(*call, &mut answers)?;
            Ok(shows)
        })
        .collect()
}

impl Seen {
    fn before(&mut self, chip: &Inside, call: Call) {
        self.status_read |= chip.answers(call, STATUS) && self.alarm_written;
        let writes = matches!(call, Call::Write { .. }) && chip.phase == "Writing";
        self.alarm_written |= writes && (0x07..=0x0D).contains(&chip.pointer);
    }
}

/// The parts of the chip that its `Debug` text shows and no call does.
struct Inside {
    phase: String,
    pointer: u64,
    base_seconds: u64,
    base_at: u64,
}

impl Inside {
    fn of(chip: &Ds3231) -> Inside {
        let text = format!("{chip:?}");
        let number = |name| word(&text, name).parse().expect("the Debug text shows a number");
        Inside {
            phase: word(&text, "phase: ").into(),
            pointer: number("pointer: "),
            base_seconds: number("base_seconds: "),
            base_at: number("base_at: Nanos("),
        }
    }

    /// Whether the answer to `call` is that of the register `wanted`.
    fn answers(&self, call: Call, wanted: u8) -> bool {
        match call {
            Call::Read { .. } => self.phase == "Reading" && self.pointer == wanted.into(),
            Call::Register { register, .. } => register == wanted,
            _ => false,
        }
    }

    /// Whether the clock, running since it was last set, has passed the end of 2199 by `at`.
    fn past_the_end(&self, at: u64) -> bool {
        let elapsed = at.saturating_sub(self.base_at) / NANOS_PER_SECOND;
        self.base_seconds + elapsed >= SECONDS_IN_RANGE
    }
}

/// The word after the first `name` in the `Debug` text.
fn word<'a>(text: &'a str, name: &str) -> &'a str {
    let begin = text.find(name).expect("the Debug text names its fields") + name.len();
    let rest = &text[begin..];
    rest.split(|c: char| !c.is_alphanumeric()).next().unwrap_or_default()
}

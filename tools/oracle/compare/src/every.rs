//! The exhaustive families. Item K depends on K alone.

use chips::i2c::ds3231::DateTime;
use oracle::bytes::{digits, hour_byte, month_byte};
use oracle::call::Call;
use oracle::families::bus::{ADDRESS, Bus, SECOND};
use oracle::random::Random;
use oracle::script;

const REGISTER_COUNT: usize = 0x13;
const BYTE_COUNT: usize = 256;
const DAY: u64 = 86_400;
/// The days of 2000 to 2199.
const DAY_COUNT: usize = 73_049;
const FIRST_YEAR: u16 = 2000;
/// The seconds of 2000 to 2199.
const RANGE: u64 = DAY_COUNT as u64 * DAY;

/// A year, a month, a day, an hour, a minute, a second, and whether the oscillator had stopped.
type Start = (u16, u8, u8, u8, u8, u8, bool);

/// The starts of the family of registers: a second before the end of a leap day, of a century and of the range, an
/// ordinary one, and a stopped oscillator.
const STARTS: [Start; 5] = [
    (2024, 2, 29, 23, 59, 59, false),
    (2099, 12, 31, 23, 59, 59, false),
    (2199, 12, 31, 23, 59, 59, false),
    (2026, 7, 15, 9, 41, 7, false),
    (2000, 1, 1, 12, 0, 0, true),
];

/// Each start, hour mode, register and byte.
pub const REGISTERS: usize = STARTS.len() * 2 * REGISTER_COUNT * BYTE_COUNT;
/// Each day, and one item of refused seconds.
pub const DAYS: usize = DAY_COUNT + 1;
/// The months 0 to 13 of 1999 to 2200.
pub const MONTHS: usize = 202 * 14;
/// Each year.
pub const YEARS: usize = 200;
/// Each byte, ended by a STOP and by a repeated START.
pub const BYTES: usize = 2 * BYTE_COUNT;
/// Each two bytes, ended by a STOP and by a repeated START.
pub const TWO_BYTES: usize = 2 * BYTE_COUNT * BYTE_COUNT;

/// READs from any pointer that show every register, and the time registers latched anew after the last register.
const READS: usize = REGISTER_COUNT + 7;

/// A bus with no random calls between the events.
fn bus() -> Bus {
    Bus::new(Random::new(0))
}

/// START for reading, then READs with `pause` after each, and STOP.
fn read_all(bus: &mut Bus, pause: u64) {
    bus.start(ADDRESS, true);
    for left in (0..READS).rev() {
        bus.read(left > 0);
        bus.wait(pause);
    }
    bus.stop();
}

/// One byte written to one register: `register` and `now` before the STOP and after it, then all registers by the bus
/// over three seconds, `now` and the diagnostics.
#[must_use]
pub fn register(number: usize) -> Vec<Call> {
    let byte = (number % BYTE_COUNT) as u8;
    let register = (number / BYTE_COUNT % REGISTER_COUNT) as u8;
    let twelve_hour = number / BYTE_COUNT / REGISTER_COUNT % 2 == 1;
    let (year, month, day, hour, minute, second, stopped) = STARTS[number / BYTE_COUNT / REGISTER_COUNT / 2];
    let mut bus = bus();
    let start = DateTime { year, month, day, hour, minute, second };
    bus.power = Call::Power { start, stopped, quarters: -101 };
    bus.go(0);
    if twelve_hour {
        bus.set(2, &[hour_byte(hour, true)]);
    }
    bus.begin(register, &[byte]);
    bus.register(register, bus.last());
    bus.register(2, bus.last());
    bus.now(bus.last());
    bus.stop();
    bus.look_at_all();
    bus.now(bus.last());
    read_all(&mut bus, SECOND / 8);
    bus.now(bus.last());
    bus.calls.extend([Call::Dropped, Call::Take, Call::Dropped]);
    bus.list()
}

/// One day: its first and its last second by `from_seconds`, and what `validate`, `seconds` and `weekday` say of both
/// times; after the last day refused seconds.
#[must_use]
pub fn day(number: usize) -> Vec<Call> {
    if number == DAY_COUNT {
        let refused = [RANGE, RANGE + 1, RANGE + DAY, 1 << 33, 2 * RANGE, 1 << 63, u64::MAX];
        return refused.map(Call::FromSeconds).into();
    }
    let first = number as u64 * DAY;
    [first, first + DAY - 1].into_iter().flat_map(second).collect()
}

fn second(seconds: u64) -> [Call; 4] {
    let time = DateTime::from_seconds_since_2000(seconds).expect("the seconds are in the range");
    [Call::FromSeconds(seconds), Call::Validate(time), Call::Seconds(time), Call::Weekday(time)]
}

/// `validate` of days at the borders of one month.
#[must_use]
pub fn month(number: usize) -> Vec<Call> {
    let year = FIRST_YEAR - 1 + (number / 14) as u16;
    let month = (number % 14) as u8;
    let time = |day| DateTime { year, month, day, hour: 23, minute: 59, second: 59 };
    [0, 1, 28, 29, 30, 31, 32].into_iter().map(|day| Call::Validate(time(day))).collect()
}

/// The chip set by the bus to the days 29 to 31 of each month of one year.
#[must_use]
pub fn month_ends(number: usize) -> Vec<Call> {
    let year = FIRST_YEAR + number as u16;
    let mut bus = bus();
    for month in 1..=12 {
        for day in 29..=31 {
            bus.set(4, &[digits(day), month_byte(year, month), digits((year % 100) as u8)]);
            bus.look_at_all();
            bus.now(bus.last());
            bus.get(3, 4);
        }
    }
    bus.calls.extend([Call::Dropped, Call::Take, Call::Dropped]);
    bus.list()
}

/// A transaction of one written byte, then all registers read.
#[must_use]
pub fn byte(number: usize) -> Vec<u8> {
    transaction(&[number as u8], number < BYTE_COUNT)
}

/// A transaction of two written bytes, then all registers read.
#[must_use]
pub fn two_bytes(number: usize) -> Vec<u8> {
    transaction(&[(number / BYTE_COUNT) as u8, number as u8], number < BYTE_COUNT * BYTE_COUNT)
}

/// A transaction of `bytes`, ended by a STOP or by the next START; then all registers read, from where it left the
/// pointer, a second after each.
fn transaction(bytes: &[u8], stop: bool) -> Vec<u8> {
    let mut bus = bus();
    bus.start(ADDRESS, false);
    for byte in bytes {
        bus.write(*byte);
    }
    if stop {
        bus.stop();
    }
    read_all(&mut bus, SECOND);
    script::of_calls(&bus.calls)
}

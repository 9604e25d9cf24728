//! Bytes to write: the legal bytes of each time register, and the others.

use chips::i2c::ds3231::DateTime;

use crate::random::Random;

/// The first register that is no time register.
const TIME_REGISTERS: u8 = 7;

/// The two digits of `value`.
#[must_use]
pub fn digits(value: u8) -> u8 {
    value / 10 * 16 + value % 10
}

/// The hour byte of `hour` in 24-hour or 12-hour mode.
#[must_use]
pub fn hour_byte(hour: u8, twelve_hour: bool) -> u8 {
    if !twelve_hour {
        return digits(hour);
    }
    let afternoon = if hour >= 12 { 0x20 } else { 0 };
    0x40 | afternoon | digits((hour + 11) % 12 + 1)
}

/// The month byte of `month` in the century of `year`.
#[must_use]
pub fn month_byte(year: u16, month: u8) -> u8 {
    digits(month) | if year >= 2100 { 0x80 } else { 0 }
}

/// The seven bytes that set `time`.
#[must_use]
pub fn time_bytes(time: &DateTime, weekday: u8, twelve_hour: bool) -> [u8; 7] {
    [
        digits(time.second),
        digits(time.minute),
        hour_byte(time.hour, twelve_hour),
        weekday,
        digits(time.day),
        month_byte(time.year, time.month),
        digits((time.year % 100) as u8),
    ]
}

/// The legal bytes of a time register.
fn legal_bytes(register: u8) -> Vec<u8> {
    match register {
        0 | 1 => (0..60).map(digits).collect(),
        2 => (0..24).flat_map(|hour| [hour_byte(hour, false), hour_byte(hour, true)]).collect(),
        3 => (1..=7).collect(),
        4 => (1..=31).map(digits).collect(),
        5 => (1..=12).flat_map(|month| [month_byte(2000, month), month_byte(2100, month)]).collect(),
        _ => (0..100).map(digits).collect(),
    }
}

/// A legal byte for `register`: any byte where it is no time register.
pub fn legal(random: &mut Random, register: u8) -> u8 {
    if register >= TIME_REGISTERS {
        return random.byte();
    }
    random.pick(&legal_bytes(register))
}

/// An undefined byte for the time register `register`.
pub fn undefined(random: &mut Random, register: u8) -> u8 {
    let legal = legal_bytes(register);
    let others: Vec<u8> = (0..=255).filter(|byte| !legal.contains(byte)).collect();
    random.pick(&others)
}

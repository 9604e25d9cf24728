//! Families about the time registers.

use chips::i2c::ds3231::DateTime;

use super::bus::{ADDRESS, Bus, SECOND};
use crate::bytes::{digits, hour_byte, legal, month_byte, time_bytes, undefined};
use crate::random::Random;

/// Year, month, day, hour, minute, second.
pub type Numbers = (u16, u8, u8, u8, u8, u8);

/// A time from its six numbers.
#[must_use]
pub const fn time(numbers: Numbers) -> DateTime {
    let (year, month, day, hour, minute, second) = numbers;
    DateTime { year, month, day, hour, minute, second }
}

/// Times at month ends, leap days and century borders.
pub const BORDERS: [Numbers; 20] = [
    (2000, 1, 1, 0, 0, 0),
    (2000, 2, 28, 23, 59, 58),
    (2000, 2, 29, 23, 59, 59),
    (2000, 12, 31, 23, 59, 59),
    (2001, 2, 28, 23, 59, 59),
    (2023, 4, 30, 11, 59, 59),
    (2024, 2, 28, 23, 59, 59),
    (2024, 2, 29, 12, 0, 0),
    (2026, 1, 31, 23, 59, 58),
    (2096, 2, 29, 23, 59, 59),
    (2099, 12, 31, 23, 59, 59),
    (2100, 1, 1, 0, 0, 0),
    (2100, 2, 28, 23, 59, 59),
    (2100, 3, 1, 0, 59, 59),
    (2100, 12, 31, 23, 59, 59),
    (2104, 2, 29, 23, 59, 59),
    (2199, 2, 28, 23, 59, 59),
    (2199, 12, 30, 23, 59, 59),
    (2199, 12, 31, 23, 59, 50),
    (2199, 12, 31, 23, 59, 59),
];

/// The last second that the clock shows.
pub const LAST: DateTime = time((2199, 12, 31, 23, 59, 59));

/// Any valid time; the days past 28 come at the borders.
pub fn any_time(random: &mut Random) -> DateTime {
    if random.once_in(3) {
        return time(random.pick(&BORDERS));
    }
    time((
        random.within(2000, 2199) as u16,
        random.within(1, 12) as u8,
        random.within(1, 28) as u8,
        random.below(24) as u8,
        random.below(60) as u8,
        random.below(60) as u8,
    ))
}

/// The seven bytes of `time`, with any weekday, in either hour mode.
fn any_bytes(random: &mut Random, time: &DateTime) -> [u8; 7] {
    let weekday = random.within(1, 7) as u8;
    time_bytes(time, weekday, random.once_in(2))
}

/// Sets the time at a border by a whole burst, or by single fields after it; reads it later.
pub fn setting(bus: &mut Bus, index: usize) {
    let border = time(BORDERS[(index * 7) % BORDERS.len()]);
    bus.power_at(border);
    let bytes = any_bytes(&mut bus.random, &border);
    if bus.looking {
        bus.wait(SECOND / 4);
    } else {
        bus.set(0, &bytes);
        bus.wait_some();
    }
    match index % 4 {
        0 => whole_burst(bus),
        1 => single_field(bus, index),
        2 => illogical_day(bus),
        _ => part_burst(bus),
    }
    bus.get(0, 7);
    bus.wait_some();
    bus.get(0, 7);
}

fn whole_burst(bus: &mut Bus) {
    let time = any_time(&mut bus.random);
    let bytes = any_bytes(&mut bus.random, &time);
    bus.set(0, &bytes);
    bus.wait_some();
}

fn single_field(bus: &mut Bus, index: usize) {
    let register = (index / 4 % 7) as u8;
    let byte = legal(&mut bus.random, register);
    bus.set(register, &[byte]);
}

/// A day that its month does not have: by a date byte, by a month byte or by a year byte.
fn illogical_day(bus: &mut Bus) {
    match bus.random.below(3) {
        0 => bus.set(4, &[0x31, month_byte(2000, 2)]),
        1 => {
            bus.set(4, &[0x31, month_byte(2000, 1)]);
            bus.wait_some();
            let month = bus.random.pick(&[2, 4, 6, 9, 11]);
            bus.set(5, &[digits(month)]);
        }
        _ => {
            bus.set(4, &[0x29, month_byte(2000, 2), 0x24]);
            bus.wait_some();
            bus.set(6, &[0x25]);
        }
    }
}

/// Some registers in a row, the transaction closed by another START.
fn part_burst(bus: &mut Bus) {
    let first = bus.random.below(6) as u8;
    let count = bus.random.within(2, 4) as u8;
    let bytes: Vec<u8> = (first..(first + count).min(7)).map(|register| legal(&mut bus.random, register)).collect();
    bus.begin(first, &bytes);
    bus.wait(SECOND / 3);
    bus.start(ADDRESS, true);
    bus.reads(3);
    bus.stop();
}

/// Undefined bytes for each time register, alone and among legal bytes.
pub fn undefined_bytes(bus: &mut Bus, index: usize) {
    let register = (index % 7) as u8;
    for _ in 0..2 {
        let byte = undefined(&mut bus.random, register);
        bus.set(register, &[byte]);
    }
    let mut bytes = [0; 7];
    for (register, byte) in (0..).zip(&mut bytes) {
        *byte =
            if bus.random.once_in(3) { undefined(&mut bus.random, register) } else { legal(&mut bus.random, register) };
    }
    bus.set(0, &bytes);
    bus.get(0, 7);
}

/// An hour byte in each mode, then an hour byte and a weekday byte.
pub fn hours(bus: &mut Bus, index: usize) {
    let mut hour = (index * 5 % 24) as u8;
    for twelve_hour in [true, false] {
        bus.begin(2, &[hour_byte(hour, twelve_hour)]);
        if bus.looking {
            bus.register(2, bus.last());
            bus.now(bus.last());
        }
        bus.stop();
        bus.wait(bus.last() % 7 * 600 * SECOND);
        bus.get(2, 2);
        hour = (hour + 11) % 24;
    }
    let weekday = bus.random.byte() % 10;
    bus.set(2, &[hour_byte(hour, true), weekday]);
    bus.get(0, 7);
}

/// Instants that jump, up to 2^64 - 1, with the time read at each.
pub fn jumps(bus: &mut Bus, index: usize) {
    let highest = [61, 62, 63, 64][index % 4];
    let mut width = bus.random.within(30, 40);
    while width < highest {
        let at = 1_u64 << width | bus.random.below(1 << width);
        bus.go(at.max(bus.last()));
        bus.get(0, 7);
        if bus.random.once_in(2) {
            let register = bus.random.below(7) as u8;
            let byte = legal(&mut bus.random, register);
            bus.set(register, &[byte]);
        }
        width += bus.random.within(8, 14);
    }
    if highest == 64 {
        bus.go(u64::MAX);
        bus.get(0, 7);
    }
}

/// The clock passes the end of 2199: by running, inside a transaction, by a long wait.
pub fn wraps(bus: &mut Bus, index: usize) {
    let weekday = bus.random.within(1, 7) as u8;
    let bytes = time_bytes(&LAST, weekday, bus.random.once_in(2));
    bus.power_at(LAST);
    match index % 4 {
        0 => {
            bus.set(0, &bytes);
            bus.get(0, 7);
            bus.wait(SECOND);
            bus.get(0, 7);
        }
        1 => {
            bus.begin(0, &bytes);
            bus.wait(2 * SECOND);
            bus.stop();
            bus.get(0, 7);
        }
        2 => {
            bus.set(0, &bytes);
            bus.wait(6_311_433_600 * SECOND);
            bus.get(0, 7);
        }
        _ => {
            bus.set(0, &bytes);
            bus.wait(2 * SECOND);
            bus.set(1, &[0x30]);
            bus.get(0, 7);
        }
    }
    bus.wait_some();
    bus.get(3, 4);
}

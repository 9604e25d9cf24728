//! Families of lists of calls that no script reaches: other power-ons, falling instants, `register`
//! and `now` inside a transaction, taking, every byte of a register.

use super::bus::{ADDRESS, Bus, SECOND};
use super::registers::{flood, transactions};
use super::time::{Numbers, any_time, time};
use crate::bytes::{hour_byte, legal, undefined};
use crate::call::Call;

const CONTROL: u8 = 0x0E;
const STATUS: u8 = 0x0F;

/// Power-ons that are refused, some with several faults: time and quarters.
const REFUSED: [(Numbers, i16); 22] = [
    ((1999, 12, 31, 23, 59, 59), 100),
    ((2200, 1, 1, 0, 0, 0), 100),
    ((65535, 13, 32, 24, 60, 60), 512),
    ((2024, 0, 29, 23, 59, 59), 100),
    ((2024, 13, 29, 23, 59, 59), 100),
    ((2024, 255, 0, 24, 60, 60), -513),
    ((2024, 2, 0, 23, 59, 59), 100),
    ((2025, 2, 29, 23, 59, 59), 100),
    ((2100, 2, 29, 23, 59, 59), 100),
    ((2024, 4, 31, 24, 60, 60), 512),
    ((2024, 12, 32, 0, 0, 0), 100),
    ((2024, 2, 29, 24, 59, 59), 100),
    ((2024, 2, 29, 255, 60, 60), -513),
    ((2024, 2, 29, 23, 60, 59), 100),
    ((2024, 2, 29, 23, 255, 60), 512),
    ((2024, 2, 29, 23, 59, 60), 100),
    ((2024, 2, 29, 23, 59, 255), -513),
    ((2024, 2, 29, 23, 59, 59), 512),
    ((2024, 2, 29, 23, 59, 59), -513),
    ((2024, 2, 29, 23, 59, 59), 32767),
    ((2024, 2, 29, 23, 59, 59), -32768),
    ((0, 0, 0, 0, 0, 0), 0),
];

/// Quarters of a degree at borders and signs.
const QUARTERS: [i16; 9] = [-101, -512, 511, -1, 0, 1, -4, -511, 100];

/// Power-ons: first the refused ones, one a list, then accepted ones with all registers read.
pub fn power(bus: &mut Bus, index: usize) {
    if let Some((start, quarters)) = REFUSED.get(index) {
        let stopped = bus.random.once_in(2);
        bus.power = Call::Power { start: time(*start), stopped, quarters: *quarters };
        return;
    }
    let accepted = index - REFUSED.len();
    let start = any_time(&mut bus.random);
    let quarters = QUARTERS[accepted % QUARTERS.len()];
    bus.power = Call::Power { start, stopped: accepted.is_multiple_of(2), quarters };
    bus.go(0);
    bus.looking = false;
    bus.now(0);
    bus.look_at_all();
    bus.get(STATUS, 6);
    bus.set(STATUS, &[0x0F]);
    bus.register(STATUS, bus.last());
}

/// `clockrun`'s power-on, or any other.
pub fn any_power(bus: &mut Bus) {
    if bus.random.once_in(2) {
        return;
    }
    let start = any_time(&mut bus.random);
    let stopped = bus.random.once_in(2);
    let quarters = bus.random.pick(&QUARTERS);
    bus.power = Call::Power { start, stopped, quarters };
}

/// `register` and `now` inside a transaction: before, at and after accepted bytes.
pub fn inside(bus: &mut Bus, index: usize) {
    let start = any_time(&mut bus.random);
    bus.power_at(start);
    bus.looking = false;
    let hour = (index * 7 % 24) as u8;
    bus.begin(2, &[hour_byte(hour, index.is_multiple_of(2))]);
    bus.look_at_all();
    bus.now(bus.last());
    bus.write(0x01);
    bus.write(0x15);
    bus.register(2, bus.last());
    bus.register(3, bus.last());
    bus.register(4, bus.last());
    bus.wait(SECOND);
    bus.stop();
    bus.register(2, bus.last());
    bus.register(3, bus.last());
    bus.register(4, bus.last());
    bus.now(bus.last());
}

/// Instants that fall.
pub fn falling(bus: &mut Bus, index: usize) {
    match index % 8 {
        0 => below_the_base(bus),
        1 => seconds_by_arrival(bus),
        2 => first_by_arrival(bus),
        3 => conversion_before(bus),
        4 => latch_before(bus),
        _ => anywhere(bus),
    }
}

/// A commit without a seconds byte anchors the clock at the start of a second; below it the clock
/// stands, and a commit there drops the part second.
fn below_the_base(bus: &mut Bus) {
    bus.looking = false;
    bus.go(5 * SECOND + 700_000_000);
    bus.set(1, &[0x30]);
    for at in [5_700_000_000, 5_200_000_000, 4_999_999_999, 0, 6_000_000_000] {
        bus.now(at);
    }
    bus.go(3 * SECOND + 300_000_000);
    bus.set(1, &[0x45]);
    for at in [3_300_000_000, 4_300_000_000, 4_300_199_999, 4_300_200_000, 0] {
        bus.now(at);
    }
}

/// Two seconds bytes in one transaction, the later one at the lower instant.
fn seconds_by_arrival(bus: &mut Bus) {
    bus.looking = false;
    bus.go(9 * SECOND);
    bus.begin(0, &[0x10]);
    bus.write(0x20);
    for _ in 0..17 {
        bus.write(0x01);
    }
    bus.go(2 * SECOND);
    bus.write(0x40);
    bus.stop();
    for at in [0, 2_000_000_000, 3_000_000_000, 9_000_000_000] {
        bus.now(at);
    }
}

/// The first accepted byte at a higher instant than the next.
fn first_by_arrival(bus: &mut Bus) {
    bus.looking = false;
    bus.go(9 * SECOND + 300_000_000);
    bus.begin(1, &[0x10]);
    bus.go(2 * SECOND + 100_000_000);
    bus.write(0x05);
    bus.go(SECOND);
    bus.stop();
    for at in [0, 9_000_000_000, 9_999_999_999, 10_000_000_000] {
        bus.now(at);
        bus.register(2, at);
    }
}

/// A conversion seen before its start, and asked for again there.
fn conversion_before(bus: &mut Bus) {
    bus.looking = false;
    bus.go(10 * SECOND);
    bus.set(CONTROL, &[0x3C]);
    for at in [0, 9_999_999_999, 10_200_199_999, 10_200_200_000] {
        bus.register(CONTROL, at);
        bus.register(STATUS, at);
    }
    bus.go(5 * SECOND);
    bus.set(CONTROL, &[0x3C]);
    bus.register(STATUS, 5_300_000_000);
    bus.go(5 * SECOND + SECOND / 2);
    bus.get(STATUS, 1);
    bus.go(11 * SECOND);
    bus.set(CONTROL, &[0x3C]);
    bus.register(STATUS, 0);
}

/// A latch made at a lower instant than the one before.
fn latch_before(bus: &mut Bus) {
    bus.go(100 * SECOND);
    bus.get(0, 3);
    bus.go(50 * SECOND);
    bus.get(0, 3);
    bus.go(20 * SECOND);
    bus.begin(0x12, &[]);
    bus.start(ADDRESS, true);
    bus.read(true);
    bus.go(10 * SECOND);
    bus.reads(2);
    bus.stop();
}

/// Transactions, each event at any instant of the first two minutes.
fn anywhere(bus: &mut Bus) {
    for _ in 0..4 {
        let register = bus.random.below(7) as u8;
        let bytes = [legal(&mut bus.random, register), 0x05];
        fall(bus);
        bus.begin(register, &bytes[..1]);
        fall(bus);
        bus.write(bytes[1]);
        fall(bus);
        bus.stop();
        let at = bus.random.below(120 * SECOND);
        bus.now(at);
        fall(bus);
        bus.get(0, 3);
    }
}

fn fall(bus: &mut Bus) {
    let at = bus.random.below(1_200) * SECOND / 10;
    bus.go(at);
}

/// Diagnostics taken: some, none, a full store, after NOTMODELLED.
pub fn taking(bus: &mut Bus, index: usize) {
    bus.looking = false;
    match index % 8 {
        0 => take_some(bus),
        1 => take_full(bus),
        2..=4 => take_not_modelled(bus),
        _ => take_between(bus),
    }
}

fn take(bus: &mut Bus) {
    bus.calls.push(Call::Dropped);
    bus.calls.push(Call::Take);
    bus.calls.push(Call::Dropped);
}

fn take_some(bus: &mut Bus) {
    take(bus);
    flood(bus, 3);
    bus.set(0x11, &[0x55, 0x66]);
    bus.set(0xFF, &[0x00]);
    take(bus);
    take(bus);
    bus.begin(0x04, &[0x31, 0x02]);
    take(bus);
    bus.stop();
    take(bus);
}

fn take_full(bus: &mut Bus) {
    flood(bus, 255);
    bus.calls.push(Call::Dropped);
    bus.set(0x13, &[]);
    bus.calls.push(Call::Dropped);
    bus.set(CONTROL, &[0x00]);
    bus.calls.push(Call::Dropped);
    flood(bus, 4);
    take(bus);
    bus.set(CONTROL, &[0x00]);
    take(bus);
    flood(bus, 3);
    take(bus);
}

fn take_not_modelled(bus: &mut Bus) {
    let byte = bus.random.pick(&[0x20, 0x05, 0x06, 0x27, 0x18]);
    bus.set(CONTROL, &[0x3C, 0x08]);
    take(bus);
    bus.set(CONTROL, &[byte]);
    bus.set(CONTROL, &[byte]);
    take(bus);
    bus.set(CONTROL, &[0x00]);
    take(bus);
}

fn take_between(bus: &mut Bus) {
    for _ in 0..3 {
        let register = bus.random.below(7) as u8;
        let byte = undefined(&mut bus.random, register);
        bus.set(register, &[byte]);
        bus.set(0x12, &[byte]);
        if bus.random.once_in(2) {
            take(bus);
        }
    }
    take(bus);
}

/// Every byte written to one register, a transaction each, with `register` and `now` after it.
pub fn every_byte(bus: &mut Bus, index: usize) {
    bus.looking = false;
    let register = (index % 0x13) as u8;
    let start = any_time(&mut bus.random);
    bus.power_at(start);
    for byte in 0..=255 {
        bus.set(register, &[byte]);
        bus.register(register, bus.last());
        bus.register(2, bus.last());
        bus.now(bus.last());
    }
    take(bus);
}

/// Transactions with diagnostics taken between them.
pub fn taken_transactions(bus: &mut Bus, index: usize) {
    for _ in 0..3 {
        transactions(bus, index);
        take(bus);
    }
}

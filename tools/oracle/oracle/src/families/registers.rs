//! Families about the registers from 0x07 on, about the bus and about the store.

use super::bus::{ADDRESS, Bus, SECOND, STEP};
use crate::bytes::{legal, undefined};

const CONTROL: u8 = 0x0E;
const STATUS: u8 = 0x0F;
/// How long a conversion runs.
const CONVERSION: u64 = 200_000_000;

/// Pointer writes, bursts of reads and writes, repeated STARTs: what a firmware does.
pub fn transactions(bus: &mut Bus, _index: usize) {
    for _ in 0..bus.random.within(2, 4) {
        let pointer = bus.random.below(0x13) as u8;
        let count = bus.random.within(1, 5);
        match bus.random.below(4) {
            0 => write_some(bus, pointer, count),
            1 => bus.get(pointer, count),
            2 => {
                bus.set(pointer, &[]);
                bus.start(ADDRESS, true);
                bus.reads(count);
                bus.stop();
            }
            _ => {
                bus.start(ADDRESS, true);
                bus.reads(count);
                bus.stop();
            }
        }
        bus.wait_some();
    }
}

/// READs that pass 0x12 while seconds pass, so that the time is latched anew in mid-transaction.
pub fn rounds(bus: &mut Bus, index: usize) {
    bus.set((index % 0x13) as u8, &[]);
    bus.start(ADDRESS, true);
    for left in (0..bus.random.within(20, 40)).rev() {
        let pause = bus.random.below(SECOND);
        bus.wait(pause);
        bus.read(left > 0);
    }
    bus.stop();
}

/// A transaction of `count` bytes, legal ones for the time registers.
fn write_some(bus: &mut Bus, pointer: u8, count: u64) {
    let registers = (pointer..0x13).chain(0..0x13).take(count as usize);
    let bytes: Vec<u8> = registers.map(|register| legal(&mut bus.random, register)).collect();
    bus.set(pointer, &bytes);
}

/// Control, status, aging, temperature and alarms, written and read back, past 0x12 too.
pub fn others(bus: &mut Bus, index: usize) {
    let byte = bus.random.byte();
    match index % 6 {
        0 => {
            bus.set(CONTROL, &[byte & 0xDF]);
            bus.set(CONTROL, &[byte & 0xC0 | 0x06]);
        }
        1 => bus.set(STATUS, &[byte]),
        2 => bus.set(0x10, &[byte, byte, !byte]),
        3 => bus.set(0x07, &[byte, 0x80, 0x12, 0x41]),
        4 => bus.set(0x0B, &[byte, 0x80, 0x81]),
        _ => bus.set(0x11, &[byte, byte, 0x30, 0x59]),
    }
    if matches!(index % 6, 3 | 4) {
        bus.get(0x07, 8);
    } else {
        bus.get(CONTROL, 3);
        bus.set(STATUS, &[!byte]);
        bus.get(STATUS, 1);
    }
    bus.get(0x10, 6);
}

/// Alarm bytes, then status polled.
pub fn alarms(bus: &mut Bus, index: usize) {
    let seconds = bus.random.within(0, 5) as u8;
    let masks: [[u8; 7]; 5] = [
        [0x80; 7],
        [seconds, 0x80, 0x80, 0x80, 0x80, 0x80, 0x80],
        [seconds, 0x00, 0x00, 0x01, 0x01, 0x00, 0x81],
        [seconds, 0x00, 0x00, 0x44, 0x01, 0x00, 0x44],
        [0x00; 7],
    ];
    bus.set(0x07, &masks[index % masks.len()]);
    for _ in 0..3 {
        bus.wait_some();
        bus.get(STATUS, 1);
    }
    bus.set(STATUS, &[0x00]);
    bus.wait(SECOND);
    bus.get(CONTROL, 2);
}

/// Conversions: read just below, at and above their end, written again while they run, ending
/// past the last instant.
pub fn conversions(bus: &mut Bus, index: usize) {
    match index % 6 {
        0 => conversion_end(bus, &[]),
        1 => conversion_end(bus, &[(CONVERSION / 2, 0x1C)]),
        2 => conversion_end(bus, &[(CONVERSION / 2, 0x3C)]),
        3 => conversion_end(bus, &[(CONVERSION / 4, 0x20), (CONVERSION / 2, 0x07)]),
        4 => last_instants(bus, u64::MAX - CONVERSION / 2),
        _ => last_instants(bus, u64::MAX),
    }
    if index % 6 < 4 {
        bus.wait_some();
        bus.set(CONTROL, &[0x3C]);
        bus.get(CONTROL, 2);
    }
}

/// A conversion, control written again at some instants after its start, then control and status
/// read at and next to its end.
fn conversion_end(bus: &mut Bus, again: &[(u64, u8)]) {
    bus.wait(bus.last() % 3 * SECOND / 2);
    bus.set(CONTROL, &[0x3C]);
    let start = bus.last() - STEP;
    for (after, byte) in again {
        bus.go(start + after);
        bus.set(CONTROL, &[*byte]);
    }
    bus.go(start + CONVERSION - 4 * STEP);
    bus.begin(CONTROL, &[]);
    bus.start(ADDRESS, true);
    for after in [CONVERSION - 1, CONVERSION, CONVERSION + 1] {
        if bus.looking {
            bus.register(CONTROL, start + after);
            bus.register(STATUS, start + after);
        }
    }
    bus.go(start + CONVERSION - 1);
    bus.read(true);
    bus.go(start + CONVERSION - u64::from(again.len() as u32 % 2));
    bus.read(false);
    bus.go(start + CONVERSION + 1);
    bus.get(CONTROL, 2);
}

/// A conversion whose end saturates at 2^64 - 1.
fn last_instants(bus: &mut Bus, at: u64) {
    bus.go(at);
    bus.begin(CONTROL, &[0x3C]);
    bus.stop();
    bus.begin(CONTROL, &[]);
    bus.start(ADDRESS, true);
    bus.go(bus.last().max(u64::MAX - 1));
    bus.read(true);
    if bus.looking {
        bus.register(CONTROL, u64::MAX - 1);
        bus.register(STATUS, u64::MAX);
    }
    bus.go(u64::MAX);
    bus.read(true);
    bus.stop();
    bus.get(CONTROL, 2);
}

/// Bytes with no START, foreign addresses, repeated STARTs, pointer bytes past 0x12.
pub fn stray(bus: &mut Bus, index: usize) {
    for step in 0..3 {
        match (index + step) % 6 {
            0 => no_start(bus),
            1 => foreign(bus),
            2 => {
                let pointer = bus.random.within(0x13, 0xFF) as u8;
                bus.set(pointer, &[0x11, 0x22]);
                bus.start(ADDRESS, true);
                bus.reads(2);
                bus.stop();
            }
            3 => {
                bus.begin(0x05, &[]);
                bus.read(true);
                bus.start(ADDRESS, true);
                bus.write(0x01);
                bus.reads(2);
                bus.stop();
            }
            4 => {
                bus.begin(0x01, &[0x15]);
                bus.begin(0x02, &[0x07]);
                bus.start(ADDRESS, false);
                bus.start(ADDRESS, true);
                bus.reads(1);
                bus.stop();
            }
            _ => {
                bus.start(ADDRESS, true);
                bus.read(false);
                bus.read(false);
                bus.stop();
                bus.stop();
            }
        }
    }
    bus.get(0, 3);
}

fn no_start(bus: &mut Bus) {
    let byte = bus.random.byte();
    bus.write(byte);
    bus.read(true);
    bus.stop();
    bus.write(byte);
}

fn foreign(bus: &mut Bus) {
    bus.begin(0x01, &[0x30]);
    let address = bus.random.pick(&[0x00, 0x55, 0x57, 0x67, 0x69, 0x6B, 0x7F]);
    let reading = bus.random.once_in(2);
    bus.start(address, reading);
    bus.write(0x02);
    bus.read(true);
    bus.stop();
}

/// Transactions of seven undefined bytes until `reports` are made.
pub fn flood(bus: &mut Bus, reports: usize) {
    let mut left = reports;
    while left > 0 {
        let count = left.min(7);
        let bytes: Vec<u8> = (0..count as u8).map(|register| undefined(&mut bus.random, register)).collect();
        bus.begin(0, &bytes);
        left -= count;
    }
    bus.stop();
}

/// More than 256 reports: the store is full at a report of each kind.
pub fn floods(bus: &mut Bus, index: usize) {
    bus.looking = false;
    flood(bus, 254 + index % 3);
    bus.set(0x20, &[]);
    bus.set(0x12, &[0x00]);
    bus.set(CONTROL, &[0x03]);
    bus.set(0x04, &[0x31, 0x02]);
    bus.set(CONTROL, &[0x00]);
    bus.get(0x04, 2);
}

//! Scripts that are refused, and scripts at the borders of refusal.

use super::bus::Bus;
use super::registers::transactions;
use crate::call::RECORD;
use crate::random::Random;
use crate::script::{LONGEST, of_calls, record};

const KIND: usize = 8;
const VALUE: usize = 9;
const REST: usize = 10;

/// A good script with at least fourteen records and a gap of instants before each.
fn good(random: &mut Random) -> Vec<u8> {
    let mut bus = Bus::new(random.clone());
    while bus.calls.len() < 14 {
        transactions(&mut bus, 0);
    }
    bus.calls.truncate(14);
    *random = bus.random;
    of_calls(&bus.calls)
}

/// The record `index` of a script.
fn at(script: &mut [u8], index: usize) -> &mut [u8] {
    &mut script[index * RECORD..(index + 1) * RECORD]
}

fn bad_kind(random: &mut Random, record: &mut [u8]) {
    record[KIND] = random.within(4, 255) as u8;
}

/// Refused with 17: a READ with a value above 1, or a STOP with a value that is not 0.
fn bad_value(random: &mut Random, record: &mut [u8]) {
    record[KIND] = random.within(2, 3) as u8;
    record[VALUE] = random.within(2, 255) as u8;
}

fn bad_rest(random: &mut Random, record: &mut [u8]) {
    let place = REST + random.below(6) as usize;
    record[place] = random.within(1, 255) as u8;
}

fn bad_instant(random: &mut Random, record: &mut [u8]) {
    record[..8].copy_from_slice(&random.below(1_000_000_000).to_le_bytes());
}

/// A script with the damage numbered `index`.
#[must_use]
pub fn damaged(random: &mut Random, index: usize) -> Vec<u8> {
    let mut script = good(random);
    let place = random.within(1, 12) as usize;
    match index % 20 {
        0 => script.extend(vec![0; random.within(1, 15) as usize]),
        1 => {
            bad_kind(random, at(&mut script, 0));
            script.pop();
        }
        2 => bad_kind(random, at(&mut script, place)),
        3 => at(&mut script, place)[KIND..REST].copy_from_slice(&[2, 2]),
        4 => at(&mut script, place)[KIND..REST].copy_from_slice(&[3, 1]),
        5 => bad_rest(random, at(&mut script, place)),
        6 => bad_instant(random, at(&mut script, place)),
        7 => several(random, at(&mut script, place), 16),
        8 => several(random, at(&mut script, place), 17),
        9 => several(random, at(&mut script, place), 18),
        10..=15 => in_two_records(random, &mut script, place, index % 20),
        16 => bad_kind(random, at(&mut script, 0)),
        17 => bad_rest(random, at(&mut script, 13)),
        18 => return vec![0xFF; random.within(1, 33) as usize],
        _ => script = accepted_borders(),
    }
    script
}

/// All faults of one record from `first` to 19.
fn several(random: &mut Random, record: &mut [u8], first: u32) {
    bad_instant(random, record);
    bad_rest(random, record);
    if first <= 17 {
        bad_value(random, record);
    }
    if first <= 16 {
        bad_kind(random, record);
    }
}

/// A fault in one record, and one of lower number in the next, or the same in a later one.
fn in_two_records(random: &mut Random, script: &mut [u8], place: usize, case: usize) {
    match case {
        10 | 13 => bad_instant(random, at(script, place)),
        11 | 14 => bad_rest(random, at(script, place)),
        _ => bad_value(random, at(script, place)),
    }
    match case {
        10..=12 => bad_kind(random, at(script, place + 1)),
        13 => bad_rest(random, at(script, place + 1)),
        14 => bad_value(random, at(script, place + 1)),
        _ => bad_instant(random, at(script, place + 1)),
    }
}

/// Accepted: equal instants, any START value, instant 0 and instant 2^64 - 1.
fn accepted_borders() -> Vec<u8> {
    let records = [
        record(3, 0, 0),
        record(0, 0xFF, 0),
        record(0, 0xD0, 7),
        record(1, 0xFF, 7),
        record(2, 1, 7),
        record(2, 0, u64::MAX),
        record(3, 0, u64::MAX),
    ];
    records.concat()
}

/// Scripts at the borders of length: none, the longest, one record or one byte more, and the
/// longest with a fault in its last record.
#[must_use]
pub fn sizes(random: &mut Random, index: usize) -> Vec<u8> {
    let mut script = longest(random);
    match index % 6 {
        0 => script.clear(),
        1 => {}
        2 => script.extend([0xFF; RECORD]),
        3 => script.push(0),
        4 => bad_kind(random, at(&mut script, 2_047)),
        _ => {
            script.pop();
        }
    }
    script
}

/// 2,048 records: transactions that write minutes or read the first registers.
fn longest(random: &mut Random) -> Vec<u8> {
    let mut bus = Bus::new(random.clone());
    bus.go(0);
    while bus.calls.len() < LONGEST / RECORD {
        if bus.random.once_in(4) {
            let minute = bus.random.below(6) as u8 * 0x11;
            bus.set(1, &[minute]);
        } else {
            bus.get(0, 2);
        }
    }
    bus.calls.truncate(LONGEST / RECORD);
    of_calls(&bus.calls)
}

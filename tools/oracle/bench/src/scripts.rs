//! The scripts that are measured, each a group of records over and over, a microsecond apart.

use oracle::script::record;

const START: u8 = 0;
const WRITE: u8 = 1;
const READ: u8 = 2;
const STOP: u8 = 3;

/// The kinds of scripts, by name: each makes a script of so many records.
pub const KINDS: [(&str, fn(usize) -> Vec<u8>); 3] =
    [("time reads", time_reads), ("time setting", time_setting), ("mixed", mixed)];

/// An event: kind and value.
type Event = (u8, u8);

/// A script of `records` records: the events of `group` in turn.
fn repeated(group: &[Event], records: usize) -> Vec<u8> {
    let events = group.iter().cycle().take(records);
    (0..).zip(events).flat_map(|(i, (kind, value))| record(*kind, *value, 1000 * i)).collect()
}

/// The pointer set to 0x00, then the seven time registers read.
fn time_reads(records: usize) -> Vec<u8> {
    let mut group = vec![(START, 0xD0), (WRITE, 0x00), (START, 0xD1)];
    group.extend([(READ, 1); 6]);
    group.extend([(READ, 0), (STOP, 0)]);
    repeated(&group, records)
}

/// The seven time registers written.
fn time_setting(records: usize) -> Vec<u8> {
    let group = [
        (START, 0xD0),
        (WRITE, 0x00),
        (WRITE, 0x56),
        (WRITE, 0x34),
        (WRITE, 0x12),
        (WRITE, 0x03),
        (WRITE, 0x28),
        (WRITE, 0x02),
        (WRITE, 0x24),
        (STOP, 0),
    ];
    repeated(&group, records)
}

/// Time set in 12-hour mode, an undefined byte, alarms, a conversion, status polled, the temperature read, another chip
/// addressed, all 19 registers read.
fn mixed(records: usize) -> Vec<u8> {
    let mut group = vec![(START, 0xD0), (WRITE, 0x01), (WRITE, 0x59), (WRITE, 0x71), (STOP, 0)];
    group.extend([(START, 0xD0), (WRITE, 0x04), (WRITE, 0x32), (WRITE, 0x92), (STOP, 0)]);
    group.extend([(START, 0xD0), (WRITE, 0x07), (WRITE, 0x80), (WRITE, 0x30), (WRITE, 0x06), (STOP, 0)]);
    group.extend([(START, 0xD0), (WRITE, 0x0E), (WRITE, 0x3C), (WRITE, 0x00), (START, 0xD0), (WRITE, 0x0E)]);
    group.extend([(START, 0xD1), (READ, 1), (READ, 0), (START, 0xA1), (READ, 1), (READ, 0), (STOP, 0)]);
    group.extend([(START, 0xD0), (WRITE, 0x11), (START, 0xD1), (READ, 1), (READ, 0), (STOP, 0)]);
    group.push((START, 0xD1));
    group.extend([(READ, 1); 18]);
    group.extend([(READ, 0), (STOP, 0)]);
    repeated(&group, records)
}

//! Lists of date calls: `validate`, `from_seconds`, `seconds`, `weekday`.

use chips::i2c::ds3231::DateTime;

use super::time::{BORDERS, Numbers, any_time, time};
use crate::call::Call;
use crate::random::Random;

/// Seconds at the borders of minutes, hours, days, leap days, years and centuries, and the last.
const SECONDS: [u64; 22] = [
    0,
    1,
    59,
    60,
    3_599,
    3_600,
    86_399,
    86_400,
    5_097_599,
    5_097_600,
    5_183_999,
    5_184_000,
    31_622_399,
    31_622_400,
    820_540_800,
    3_155_759_999,
    3_155_760_000,
    3_160_771_200,
    3_160_857_599,
    3_160_857_600,
    6_311_433_598,
    6_311_433_599,
];

/// Seconds past the end.
const TOO_MANY: [u64; 6] = [6_311_433_600, 6_311_433_601, 1 << 33, 1 << 63, u64::MAX - 1, u64::MAX];

/// Times with one fault or several.
const FAULTS: [Numbers; 26] = [
    (1999, 12, 31, 23, 59, 59),
    (2200, 1, 1, 0, 0, 0),
    (0, 1, 1, 0, 0, 0),
    (65535, 12, 31, 23, 59, 59),
    (2000, 0, 1, 0, 0, 0),
    (2000, 13, 1, 0, 0, 0),
    (2000, 255, 1, 0, 0, 0),
    (2000, 1, 0, 0, 0, 0),
    (2000, 1, 32, 0, 0, 0),
    (2001, 2, 29, 0, 0, 0),
    (2000, 2, 30, 0, 0, 0),
    (2100, 2, 29, 0, 0, 0),
    (2024, 4, 31, 0, 0, 0),
    (2024, 6, 31, 0, 0, 0),
    (2024, 9, 31, 0, 0, 0),
    (2024, 11, 31, 0, 0, 0),
    (2024, 12, 255, 0, 0, 0),
    (2000, 1, 1, 24, 0, 0),
    (2000, 1, 1, 0, 60, 0),
    (2000, 1, 1, 0, 0, 60),
    (1999, 13, 32, 24, 60, 60),
    (2199, 13, 32, 24, 60, 60),
    (2199, 12, 32, 24, 60, 60),
    (2199, 12, 31, 24, 60, 60),
    (2199, 12, 31, 23, 60, 60),
    (2199, 12, 31, 23, 59, 60),
];

/// A list of date calls: the borders of each call first, then random ones.
#[must_use]
pub fn dates(random: &mut Random, index: usize) -> Vec<Call> {
    let borders = || BORDERS.into_iter().map(time);
    match index {
        0 => borders().chain(FAULTS.into_iter().map(time)).map(Call::Validate).collect(),
        1 => SECONDS.into_iter().chain(TOO_MANY).map(Call::FromSeconds).collect(),
        2 => borders().map(Call::Seconds).collect(),
        3 => borders().map(Call::Weekday).collect(),
        4 => month_ends(random),
        _ => (0..20).map(|_| any_call(random)).collect(),
    }
}

/// Each day from 28 to 32 of every month of one year: valid or not.
fn month_ends(random: &mut Random) -> Vec<Call> {
    let year = random.within(2000, 2199) as u16;
    let days = (1..=12).flat_map(|month| (28..=32).map(move |day| (month, day)));
    days.map(|(month, day)| Call::Validate(time((year, month, day, 12, 30, 45)))).collect()
}

fn any_call(random: &mut Random) -> Call {
    let time = any_time(random);
    match random.below(4) {
        0 => Call::Validate(any_numbers(random)),
        1 if random.once_in(8) => Call::FromSeconds(random.number()),
        1 => Call::FromSeconds(random.below(6_311_433_600)),
        2 => Call::Seconds(time),
        _ => Call::Weekday(time),
    }
}

/// A time with some fields of any value.
fn any_numbers(random: &mut Random) -> DateTime {
    let mut time = any_time(random);
    if random.once_in(4) {
        time.year = random.within(1990, 2210) as u16;
    }
    for field in [&mut time.month, &mut time.day, &mut time.hour, &mut time.minute, &mut time.second] {
        if random.once_in(5) {
            *field = random.pick(&[0, 12, 13, 23, 24, 28, 29, 30, 31, 32, 59, 60, 61, 255]);
        }
    }
    time
}

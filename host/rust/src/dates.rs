//! Dates and seconds since 2000-01-01T00:00:00, of the years 2000 to 2199.
use std::fmt;

mod ffi {
    extern "C" {
        pub fn clock_date_from_seconds(seconds: u64) -> u64;
        pub fn clock_seconds_from_date(year: u16, month: u8, day: u8, hour: u8, minute: u8, second: u8) -> u64;
    }
}

/// A date with its time of day. Its fields may have any value: [`seconds_from_date`] refuses the ones out of range.
/// Dates are ordered as their fields are, the year first.
#[derive(Clone, Copy, Debug, PartialEq, Eq, PartialOrd, Ord, Hash)]
pub struct Date {
    /// 2000 to 2199.
    pub year: u16,
    /// 1 to 12.
    pub month: u8,
    /// 1 to the month's last day.
    pub day: u8,
    /// 0 to 23.
    pub hour: u8,
    /// 0 to 59.
    pub minute: u8,
    /// 0 to 59.
    pub second: u8,
}

/// A refusal of a date, or of a number of seconds.
///
/// It is shown with its number and the words of the table of refusals:
///
/// ```
/// let refusal = clock_script::date_from_seconds(6_311_433_600).unwrap_err();
/// assert_eq!(refusal.to_string(), "refusal 8: seconds 6,311,433,600 or more");
/// ```
#[derive(Clone, Copy, Debug, PartialEq, Eq, Hash)]
pub enum DateRefusal {
    /// 1: the year is out of range.
    Year,
    /// 2: the month is out of range.
    Month,
    /// 3: the day is out of range.
    Day,
    /// 4: the hour is out of range.
    Hour,
    /// 5: the minute is out of range.
    Minute,
    /// 6: the second is out of range.
    Second,
    /// 8: the seconds are 6,311,433,600 or more.
    Seconds,
}

impl DateRefusal {
    /// Its number in the table of refusals.
    pub const fn number(self) -> u8 {
        match self {
            DateRefusal::Year => 1,
            DateRefusal::Month => 2,
            DateRefusal::Day => 3,
            DateRefusal::Hour => 4,
            DateRefusal::Minute => 5,
            DateRefusal::Second => 6,
            DateRefusal::Seconds => 8,
        }
    }

    fn words(self) -> &'static str {
        match self {
            DateRefusal::Year => "year out of range",
            DateRefusal::Month => "month out of range",
            DateRefusal::Day => "day out of range",
            DateRefusal::Hour => "hour out of range",
            DateRefusal::Minute => "minute out of range",
            DateRefusal::Second => "second out of range",
            DateRefusal::Seconds => "seconds 6,311,433,600 or more",
        }
    }
}

impl fmt::Display for DateRefusal {
    fn fmt(&self, to: &mut fmt::Formatter<'_>) -> fmt::Result {
        write!(to, "refusal {}: {}", self.number(), self.words())
    }
}

impl std::error::Error for DateRefusal {}

/// An answer below 2^56 is the date or the seconds; any other is a refusal, its number times 2^56.
fn taken_apart(returned: u64) -> Result<u64, DateRefusal> {
    match returned >> 56 {
        0 => Ok(returned),
        1 => Err(DateRefusal::Year),
        2 => Err(DateRefusal::Month),
        3 => Err(DateRefusal::Day),
        4 => Err(DateRefusal::Hour),
        5 => Err(DateRefusal::Minute),
        6 => Err(DateRefusal::Second),
        8 => Err(DateRefusal::Seconds),
        number => unreachable!("the calls on dates have no refusal {number}"),
    }
}

/// The date of a number of seconds since 2000-01-01T00:00:00.
///
/// ```
/// use clock_script::{date_from_seconds, Date};
///
/// let date = Date { year: 2026, month: 1, day: 1, hour: 0, minute: 0, second: 0 };
/// assert_eq!(date_from_seconds(820_540_800), Ok(date));
/// ```
pub fn date_from_seconds(seconds: u64) -> Result<Date, DateRefusal> {
    // SAFETY: the call takes a number, any number.
    let packed = taken_apart(unsafe { ffi::clock_date_from_seconds(seconds) })?;
    let [second, minute, hour, day, month, low, high, _] = packed.to_le_bytes();
    Ok(Date { year: u16::from_le_bytes([low, high]), month, day, hour, minute, second })
}

/// The seconds since 2000-01-01T00:00:00 of a date. The first field that is out of range is refused.
///
/// ```
/// use clock_script::{seconds_from_date, Date, DateRefusal};
///
/// let date = Date { year: 2100, month: 2, day: 29, hour: 0, minute: 0, second: 0 };
/// assert_eq!(seconds_from_date(date), Err(DateRefusal::Day));
/// ```
pub fn seconds_from_date(date: Date) -> Result<u64, DateRefusal> {
    // SAFETY: the call takes numbers, any numbers.
    taken_apart(unsafe {
        ffi::clock_seconds_from_date(date.year, date.month, date.day, date.hour, date.minute, date.second)
    })
}

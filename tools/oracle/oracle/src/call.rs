//! A call: its record of sixteen bytes and its line of text.

use std::fmt;
use std::str::{FromStr, SplitWhitespace};

use chips::i2c::ds3231::DateTime;

/// The bytes of a record.
pub const RECORD: usize = 16;

/// One call of the clock model. Instants are nanoseconds since power-on.
#[derive(Clone, Copy, Debug, PartialEq, Eq)]
pub enum Call {
    Start { address: u8, read: bool, at: u64 },
    Write { byte: u8, at: u64 },
    Read { acknowledge: bool, at: u64 },
    Stop { at: u64 },
    Power { start: DateTime, stopped: bool, quarters: i16 },
    Register { register: u8, at: u64 },
    Now { at: u64 },
    Dropped,
    Take,
    Validate(DateTime),
    FromSeconds(u64),
    Seconds(DateTime),
    Weekday(DateTime),
}

impl Call {
    /// The call's instant, where it has one.
    #[must_use]
    pub fn at(&self) -> Option<u64> {
        match *self {
            Call::Start { at, .. }
            | Call::Write { at, .. }
            | Call::Read { at, .. }
            | Call::Stop { at }
            | Call::Register { at, .. }
            | Call::Now { at } => Some(at),
            _ => None,
        }
    }

    /// The record of the call.
    #[must_use]
    pub fn to_record(&self) -> [u8; RECORD] {
        match *self {
            Call::Start { address, read, at } => record(at, 0, [address, u8::from(read), 0]),
            Call::Write { byte, at } => record(at, 1, [byte, 0, 0]),
            Call::Read { acknowledge, at } => record(at, 2, [u8::from(acknowledge), 0, 0]),
            Call::Stop { at } => record(at, 3, [0; 3]),
            Call::Power { start, stopped, quarters } => {
                let [low, high] = quarters.to_le_bytes();
                record(time_to_u64(&start, stopped), 4, [0, low, high])
            }
            Call::Register { register, at } => record(at, 5, [register, 0, 0]),
            Call::Now { at } => record(at, 6, [0; 3]),
            Call::Dropped => record(0, 7, [0; 3]),
            Call::Take => record(0, 8, [0; 3]),
            Call::Validate(time) => record(time_to_u64(&time, false), 9, [0; 3]),
            Call::FromSeconds(seconds) => record(seconds, 10, [0; 3]),
            Call::Seconds(time) => record(time_to_u64(&time, false), 11, [0; 3]),
            Call::Weekday(time) => record(time_to_u64(&time, false), 12, [0; 3]),
        }
    }

    /// The call of a record.
    ///
    /// # Errors
    /// What is wrong with the record.
    pub fn from_record(bytes: &[u8; RECORD]) -> Result<Call, String> {
        let [first @ .., _, _, _, _, _, _, _, _] = *bytes;
        let at = u64::from_le_bytes(first);
        let (time, stopped) = time_of_bytes(first);
        let value = bytes[9];
        let call = match bytes[8] {
            0 => Call::Start { address: value, read: bytes[10] != 0, at },
            1 => Call::Write { byte: value, at },
            2 => Call::Read { acknowledge: value != 0, at },
            3 => Call::Stop { at },
            4 => {
                let quarters = i16::from_le_bytes([bytes[10], bytes[11]]);
                Call::Power { start: time, stopped, quarters }
            }
            5 => Call::Register { register: value, at },
            6 => Call::Now { at },
            7 => Call::Dropped,
            8 => Call::Take,
            9 => Call::Validate(time),
            10 => Call::FromSeconds(at),
            11 => Call::Seconds(time),
            12 => Call::Weekday(time),
            kind => return Err(format!("a record of kind {kind}")),
        };
        if call.to_record() == *bytes {
            Ok(call)
        } else {
            Err(format!("a record with other bytes than its kind {} has", bytes[8]))
        }
    }
}

fn record(first: u64, kind: u8, values: [u8; 3]) -> [u8; RECORD] {
    let mut bytes = [0; RECORD];
    bytes[..8].copy_from_slice(&first.to_le_bytes());
    bytes[8] = kind;
    bytes[9..12].copy_from_slice(&values);
    bytes
}

fn time_to_u64(time: &DateTime, stopped: bool) -> u64 {
    let [low, high] = time.year.to_le_bytes();
    let stopped = u8::from(stopped);
    u64::from_le_bytes([low, high, time.month, time.day, time.hour, time.minute, time.second, stopped])
}

fn time_of_bytes(bytes: [u8; 8]) -> (DateTime, bool) {
    let [low, high, month, day, hour, minute, second, stopped] = bytes;
    let year = u16::from_le_bytes([low, high]);
    (DateTime { year, month, day, hour, minute, second }, stopped != 0)
}

/// The six numbers of a time, as the line protocol writes them.
struct Six<'a>(&'a DateTime);

impl fmt::Display for Six<'_> {
    fn fmt(&self, f: &mut fmt::Formatter<'_>) -> fmt::Result {
        let t = self.0;
        write!(f, "{} {} {} {} {} {}", t.year, t.month, t.day, t.hour, t.minute, t.second)
    }
}

/// The line of the call, without a line feed.
impl fmt::Display for Call {
    fn fmt(&self, f: &mut fmt::Formatter<'_>) -> fmt::Result {
        match self {
            Call::Start { address, read, at } => write!(f, "start {address:02X} {} {at}", u8::from(*read)),
            Call::Write { byte, at } => write!(f, "write {byte:02X} {at}"),
            Call::Read { acknowledge, at } => write!(f, "read {} {at}", u8::from(*acknowledge)),
            Call::Stop { at } => write!(f, "stop {at}"),
            Call::Power { start, stopped, quarters } => {
                write!(f, "power {} {} {quarters}", Six(start), u8::from(*stopped))
            }
            Call::Register { register, at } => write!(f, "register {register:02X} {at}"),
            Call::Now { at } => write!(f, "now {at}"),
            Call::Dropped => write!(f, "dropped"),
            Call::Take => write!(f, "take"),
            Call::Validate(time) => write!(f, "validate {}", Six(time)),
            Call::FromSeconds(seconds) => write!(f, "from_seconds {seconds}"),
            Call::Seconds(time) => write!(f, "seconds {}", Six(time)),
            Call::Weekday(time) => write!(f, "weekday {}", Six(time)),
        }
    }
}

impl FromStr for Call {
    type Err = String;

    fn from_str(line: &str) -> Result<Call, String> {
        let mut words = Words { line, words: line.split_whitespace() };
        let call = match words.word()? {
            "start" => Call::Start { address: words.hex()?, read: words.flag()?, at: words.number()? },
            "write" => Call::Write { byte: words.hex()?, at: words.number()? },
            "read" => Call::Read { acknowledge: words.flag()?, at: words.number()? },
            "stop" => Call::Stop { at: words.number()? },
            "power" => Call::Power { start: words.time()?, stopped: words.flag()?, quarters: words.number()? },
            "register" => Call::Register { register: words.hex()?, at: words.number()? },
            "now" => Call::Now { at: words.number()? },
            "dropped" => Call::Dropped,
            "take" => Call::Take,
            "validate" => Call::Validate(words.time()?),
            "from_seconds" => Call::FromSeconds(words.number()?),
            "seconds" => Call::Seconds(words.time()?),
            "weekday" => Call::Weekday(words.time()?),
            word => return Err(format!("no call is named {word}")),
        };
        match words.words.next() {
            None => Ok(call),
            Some(word) => Err(format!("{word} is one word too many in: {line}")),
        }
    }
}

/// The words of a line, taken one by one.
struct Words<'a> {
    line: &'a str,
    words: SplitWhitespace<'a>,
}

impl<'a> Words<'a> {
    fn word(&mut self) -> Result<&'a str, String> {
        self.words.next().ok_or_else(|| format!("a word is missing in: {}", self.line))
    }

    fn number<T: FromStr>(&mut self) -> Result<T, String> {
        let word = self.word()?;
        word.parse().map_err(|_| format!("{word} is no number for its place in: {}", self.line))
    }

    fn hex(&mut self) -> Result<u8, String> {
        let word = self.word()?;
        u8::from_str_radix(word, 16).map_err(|_| format!("{word} is no byte in: {}", self.line))
    }

    fn flag(&mut self) -> Result<bool, String> {
        match self.word()? {
            "0" => Ok(false),
            "1" => Ok(true),
            word => Err(format!("{word} is neither 0 nor 1 in: {}", self.line)),
        }
    }

    fn time(&mut self) -> Result<DateTime, String> {
        Ok(DateTime {
            year: self.number()?,
            month: self.number()?,
            day: self.number()?,
            hour: self.number()?,
            minute: self.number()?,
            second: self.number()?,
        })
    }
}

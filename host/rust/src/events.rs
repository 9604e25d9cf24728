//! Events of the bus, and scripts made of them.
use crate::{check, record, run, Refusal, RECORD};
use std::fmt;

/// An address of the bus: seven bits. An address above 0x7F is none, and [`Address::new`] refuses it, so that every
/// [`Event`] has a record.
#[derive(Clone, Copy, Debug, PartialEq, Eq, Hash)]
pub struct Address(u8);

/// What [`Address::new`] answers of a number above 0x7F.
#[derive(Clone, Copy, Debug, PartialEq, Eq, Hash)]
pub struct AddressError {
    /// The number.
    pub address: u8,
}

impl fmt::Display for AddressError {
    fn fmt(&self, to: &mut fmt::Formatter<'_>) -> fmt::Result {
        write!(to, "address 0x{:02X}: above 0x7F", self.address)
    }
}

impl std::error::Error for AddressError {}

impl Address {
    /// The clock's own address, 0x68.
    pub const DS3231: Address = Address(0x68);

    /// An address, without the read bit.
    ///
    /// ```
    /// use clock_script::{Address, AddressError};
    ///
    /// assert_eq!(Address::new(0x68), Ok(Address::DS3231));
    /// assert_eq!(Address::new(0xD0), Err(AddressError { address: 0xD0 }));
    /// ```
    pub const fn new(address: u8) -> Result<Address, AddressError> {
        if address > 0x7F {
            return Err(AddressError { address });
        }
        Ok(Address(address))
    }

    /// The address as a number, 0 to 0x7F.
    pub const fn number(self) -> u8 {
        self.0
    }
}

impl TryFrom<u8> for Address {
    type Error = AddressError;

    fn try_from(address: u8) -> Result<Address, AddressError> {
        Address::new(address)
    }
}

/// An event of the bus, with its instant in nanoseconds since power-on.
#[derive(Clone, Copy, Debug, PartialEq, Eq, Hash)]
pub enum Event {
    /// A START that names an address, for reading or for writing.
    Start {
        /// The instant.
        at: u64,
        /// Who is addressed.
        address: Address,
        /// The read bit: for reading.
        read: bool,
    },
    /// A byte from the master.
    Write {
        /// The instant.
        at: u64,
        /// The byte.
        byte: u8,
    },
    /// A byte to the master.
    Read {
        /// The instant.
        at: u64,
        /// Whether the master acknowledges it.
        acknowledge: bool,
    },
    /// A STOP.
    Stop {
        /// The instant.
        at: u64,
    },
}

impl Event {
    /// A START at an instant that names `address`, for reading or else for writing.
    ///
    /// ```
    /// use clock_script::{Address, Event};
    ///
    /// assert_eq!(Event::start(5, Address::DS3231, true).record()[8..10], [0, 0xD1]);
    /// ```
    pub const fn start(at: u64, address: Address, read: bool) -> Event {
        Event::Start { at, address, read }
    }

    /// A WRITE of a byte at an instant.
    pub const fn write(at: u64, byte: u8) -> Event {
        Event::Write { at, byte }
    }

    /// A READ at an instant, whose byte the master acknowledges or does not.
    pub const fn read(at: u64, acknowledge: bool) -> Event {
        Event::Read { at, acknowledge }
    }

    /// A STOP at an instant.
    pub const fn stop(at: u64) -> Event {
        Event::Stop { at }
    }

    /// The event's record.
    pub fn record(self) -> [u8; RECORD] {
        match self {
            Event::Start { at, address, read } => record(at, 0, address.number() * 2 + u8::from(read)),
            Event::Write { at, byte } => record(at, 1, byte),
            Event::Read { at, acknowledge } => record(at, 2, u8::from(acknowledge)),
            Event::Stop { at } => record(at, 3, 0),
        }
    }
}

/// A script: the records of its events, in their order.
///
/// It is collected from events, or extended by them. Two refusals are left that its check and its run can give: 14, of more
/// than 2,048 events, and 19, of an instant below the one before it.
///
/// ```
/// use clock_script::{Address, Event, Script};
///
/// let mut script = Script::new();
/// script.push(Event::start(7, Address::DS3231, false));
/// script.push(Event::stop(6));
/// let refusal = script.run().unwrap_err();
/// assert_eq!(refusal.to_string(), "refusal 19 at record 1: instant below the previous record's");
/// ```
#[derive(Clone, Debug, Default, PartialEq, Eq, Hash)]
pub struct Script {
    bytes: Vec<u8>,
}

impl Script {
    /// A script of no event.
    pub const fn new() -> Script {
        Script { bytes: Vec::new() }
    }

    /// Appends an event.
    pub fn push(&mut self, event: Event) {
        self.bytes.extend_from_slice(&event.record());
    }

    /// How many events it has.
    pub fn len(&self) -> usize {
        self.bytes.len() / RECORD
    }

    /// Whether it has no event.
    pub fn is_empty(&self) -> bool {
        self.bytes.is_empty()
    }

    /// Its bytes, as a file of a script has them.
    pub fn as_bytes(&self) -> &[u8] {
        &self.bytes
    }

    /// Checks it.
    pub fn check(&self) -> Result<(), Refusal> {
        check(&self.bytes)
    }

    /// Runs it from power-on and gives its answers, one byte an event.
    pub fn run(&self) -> Result<Vec<u8>, Refusal> {
        run(&self.bytes)
    }
}

impl Extend<Event> for Script {
    fn extend<Events: IntoIterator<Item = Event>>(&mut self, events: Events) {
        for event in events {
            self.push(event);
        }
    }
}

impl FromIterator<Event> for Script {
    fn from_iter<Events: IntoIterator<Item = Event>>(events: Events) -> Script {
        let mut script = Script::new();
        script.extend(events);
        script
    }
}

impl AsRef<[u8]> for Script {
    fn as_ref(&self) -> &[u8] {
        self.as_bytes()
    }
}

//! A bus on which calls are made one after the other, each a little later than the one before.

use chips::i2c::ds3231::DateTime;

use crate::call::Call;
use crate::random::Random;
use crate::script;

/// The clock's address.
pub const ADDRESS: u8 = 0x68;
/// The nanoseconds of a second.
pub const SECOND: u64 = 1_000_000_000;
/// The nanoseconds between an event and the next.
pub const STEP: u64 = 100_000;

/// Waits between transactions, from a nanosecond to a year.
const WAITS: [u64; 10] = [
    1,
    SECOND / 2,
    SECOND - 1,
    SECOND,
    3 * SECOND / 2,
    2 * SECOND,
    60 * SECOND,
    3_600 * SECOND,
    86_400 * SECOND,
    366 * 86_400 * SECOND,
];

/// The calls made so far and the instant of the last event.
pub struct Bus {
    pub random: Random,
    /// The power-on of a list; a script has `clockrun`'s.
    pub power: Call,
    /// Whether `register` and `now` are called between the events.
    pub looking: bool,
    pub calls: Vec<Call>,
    at: u64,
    exact: bool,
}

impl Bus {
    #[must_use]
    pub fn new(random: Random) -> Bus {
        Bus { random, power: script::power_on(), looking: false, calls: Vec::new(), at: SECOND, exact: false }
    }

    /// The list: the power-on, then the calls.
    #[must_use]
    pub fn list(self) -> Vec<Call> {
        let mut list = vec![self.power];
        list.extend(self.calls);
        list
    }

    /// The power-on at `start`, its oscillator not stopped, 100 quarters.
    pub fn power_at(&mut self, start: DateTime) {
        self.power = Call::Power { start, stopped: false, quarters: 100 };
    }

    /// The instant of the last event.
    #[must_use]
    pub fn last(&self) -> u64 {
        self.at
    }

    /// The next event comes at exactly `at`.
    pub fn go(&mut self, at: u64) {
        self.at = at;
        self.exact = true;
    }

    /// Lets `nanos` pass, to instant 2^64 - 1 at most.
    pub fn wait(&mut self, nanos: u64) {
        self.at = self.at.saturating_add(nanos);
    }

    /// Lets one of the usual waits pass.
    pub fn wait_some(&mut self) {
        let nanos = self.random.pick(&WAITS);
        self.wait(nanos);
    }

    fn next(&mut self) -> u64 {
        if !self.exact {
            self.at = self.at.saturating_add(STEP);
        }
        self.exact = false;
        self.at
    }

    fn event(&mut self, call: Call) {
        self.calls.push(call);
        if self.looking && self.random.once_in(4) {
            self.look();
        }
    }

    /// `now`, or `register` of one of the registers or of a number past them.
    pub fn look(&mut self) {
        let at = self.at.saturating_add(self.random.pick(&[0, 0, 1, SECOND]));
        let register = self.random.below(0x14) as u8;
        let call = match self.random.below(8) {
            0 | 1 => Call::Now { at },
            2 => Call::Register { register: self.random.pick(&[0x13, 0x7F, 0xFF]), at },
            _ => Call::Register { register, at },
        };
        self.calls.push(call);
    }

    /// `register` of every register, of 0x13 and of 0xFF.
    pub fn look_at_all(&mut self) {
        let at = self.at;
        let registers = (0..=0x13).chain([0xFF]);
        self.calls.extend(registers.map(|register| Call::Register { register, at }));
    }

    pub fn register(&mut self, register: u8, at: u64) {
        self.calls.push(Call::Register { register, at });
    }

    pub fn now(&mut self, at: u64) {
        self.calls.push(Call::Now { at });
    }

    pub fn start(&mut self, address: u8, read: bool) {
        let at = self.next();
        self.event(Call::Start { address, read, at });
    }

    pub fn write(&mut self, byte: u8) {
        let at = self.next();
        self.event(Call::Write { byte, at });
    }

    pub fn read(&mut self, acknowledge: bool) {
        let at = self.next();
        self.event(Call::Read { acknowledge, at });
    }

    pub fn stop(&mut self) {
        let at = self.next();
        self.event(Call::Stop { at });
    }

    /// `count` reads, the last not acknowledged.
    pub fn reads(&mut self, count: u64) {
        for left in (0..count).rev() {
            self.read(left > 0);
        }
    }

    /// START for writing, the pointer byte, the bytes; no STOP.
    pub fn begin(&mut self, pointer: u8, bytes: &[u8]) {
        self.start(ADDRESS, false);
        self.write(pointer);
        for byte in bytes {
            self.write(*byte);
        }
    }

    /// A whole transaction that writes `bytes` from the register `pointer`.
    pub fn set(&mut self, pointer: u8, bytes: &[u8]) {
        self.begin(pointer, bytes);
        self.stop();
    }

    /// A transaction that reads `count` bytes from the register `pointer`, by a repeated START.
    pub fn get(&mut self, pointer: u8, count: u64) {
        self.begin(pointer, &[]);
        self.start(ADDRESS, true);
        self.reads(count);
        self.stop();
    }
}

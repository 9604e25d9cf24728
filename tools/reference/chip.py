"""A model of the DS3231 of document 01, event by event, with orders 2 and 7 of document 02 and no other order: the
answers to lists of calls and to scripts. The tools beside it load it; vectors/README.md has the form of its records.
Needs python3, 3.8 or later.
"""
# Where the documents leave an answer open, the model answers as the published Rust does:
# - a day past the month's end: its diagnostic has the instant of the event that ends the transaction;
# - NOTMODELLED has the byte as written, with its bit 5;
# - below the instant from which the clock counts, no time has passed: it shows the second that began there. A time byte
#   that is accepted at such an instant finds that second beginning anew, so a commit makes the clock count from there.
#
# Read by the letter: refusals 1, 2 and 4 to 6 have the value that is out of range, 3 has year, month and day, 7 the
# quarters. A conversion runs at every instant below its end, also at one below its start and also where a later instant
# found it over. A NOTMODELLED that a full store drops has been reported. A call of the chip that has no power-on
# before it, or that follows one that is refused, finds no sound chip.

import datetime
import os
import struct

LAST_INSTANT = 2 ** 64 - 1
SECOND = 10 ** 9
DAY = 86400  # seconds
RANGE = 6311433600  # the seconds of the years 2000 to 2199
EPOCH = datetime.datetime(2000, 1, 1)
SHORTEST, LONGEST = 125000000, 200000000  # conversion times

CHIP = 0x68
CONTROL, STATUS, AGING, LAST_REGISTER = 0x0E, 0x0F, 0x10, 0x12
REGISTERS = LAST_REGISTER + 1
STORE = 256  # records of the diagnostics store

(START, WRITE, READ, STOP, POWER_ON, REGISTER, NOW, DROPPED, TAKING, VALIDATE, FROM_SECONDS, SECONDS,
 WEEKDAY) = range(13)

# What the next byte of a transaction is.
NOTHING, POINTER_BYTE, REGISTER_BYTE, DROPPED_BYTE, READ_BYTE = range(5)

# The power-on of a script.
DATE = (2026, 1, 1, 0, 0, 0)
QUARTERS = 100

HEX = ["%02X" % byte for byte in range(256)]


# ---- the bytes of the time registers ----

def digits(number):
    assert 0 <= number <= 99
    return number // 10 * 16 + number % 10


def number_within(byte, least, most):
    """The number that two decimal digits give, or None where a digit exceeds 9 or the number is out of range."""
    high, low = byte >> 4, byte & 15
    number = high * 10 + low
    return number if high <= 9 and low <= 9 and least <= number <= most else None


def hour_of(byte):
    if byte & 0x80:
        return None
    if not byte & 0x40:
        return number_within(byte, 0, 23)
    dial = number_within(byte & 0x1F, 1, 12)
    return None if dial is None else dial % 12 + (12 if byte & 0x20 else 0)


FIELD_RANGES = {0: (0, 59), 1: (0, 59), 3: (1, 7), 4: (1, 31), 6: (0, 99)}


def field_of(register, byte):
    """The field that a byte written to register 0x00 to 0x06 gives, or None where the byte is undefined."""
    if register == 2:
        return hour_of(byte)
    if register == 5:
        return number_within(byte & 0x7F, 1, 12)
    least, most = FIELD_RANGES[register]
    return number_within(byte, least, most)


def hour_byte(hour, twelve_hour):
    if not twelve_hour:
        return digits(hour)
    return 0x40 | (0x20 if hour >= 12 else 0) | digits(hour % 12 or 12)


# ---- dates ----

def seconds_of(date):
    past = datetime.datetime(*date) - EPOCH
    return past.days * DAY + past.seconds


def date_at(second):
    """The date that the clock shows at a second; after the end of 2199 comes the beginning of 2000."""
    return EPOCH + datetime.timedelta(seconds=second % RANGE)


def weekday_of(date):
    """Monday 1 to Sunday 7."""
    return datetime.date(*date[:3]).isoweekday()


def last_day(year, month):
    following = datetime.date(year + month // 12, month % 12 + 1, 1)
    return (following - datetime.timedelta(days=1)).day


# ---- the clock ----

class Clock:
    """The second and the weekday that it was set to, the instant at which that second began, and the hour mode.

    Seconds go on past the end of 2199 here: one past it is RANGE, and the clock shows 2000 again.
    """

    def __init__(self, date):
        self.twelve_hour = False
        self.set(seconds_of(date), weekday_of(date), 0)

    def set(self, second, weekday, began_at):
        self.set_second, self.set_weekday, self.began_at = second, weekday, began_at

    def second(self, at):
        past = at - self.began_at
        return self.set_second + past // SECOND if past > 0 else self.set_second

    def shown(self, at):
        return date_at(self.second(at))

    def weekday_in(self, second):
        """A counter that has made a step at each midnight since it was set."""
        midnights = second // DAY - self.set_second // DAY
        return (self.set_weekday - 1 + midnights) % 7 + 1

    def weekday(self, at):
        return self.weekday_in(self.second(at))

    def second_start(self, at):
        """The instant at which the second that is shown at an instant began."""
        return at - max(0, at - self.began_at) % SECOND

    def registers(self, at):
        """The bytes of 0x00 to 0x06."""
        second = self.second(at)
        time = date_at(second)
        century = 0x80 if time.year >= 2100 else 0
        return (digits(time.second), digits(time.minute), hour_byte(time.hour, self.twelve_hour),
                self.weekday_in(second), digits(time.day), digits(time.month) | century, digits(time.year % 100))


class Setting:
    """The time that the accepted bytes of a transaction make, from the first of them."""

    def __init__(self, clock, at):
        self.year, self.month, self.day, self.hour, self.minute, self.second = clock.shown(at).timetuple()[:6]
        self.weekday = clock.weekday(at)
        self.began_at = clock.second_start(at)

    def accept(self, at, register, byte):
        field = field_of(register, byte)
        if register == 0:
            self.second, self.began_at = field, at
        elif register == 5:
            self.month = field
            self.year = (2100 if byte & 0x80 else 2000) + self.year % 100
        elif register == 6:
            self.year = self.year // 100 * 100 + field
        else:
            setattr(self, {1: "minute", 2: "hour", 3: "weekday", 4: "day"}[register], field)

    def date(self):
        return self.year, self.month, self.day, self.hour, self.minute, self.second


# ---- the chip ----

class Chip:
    def __init__(self, date, stopped, quarters, conversion_time):
        self.clock = Clock(date)
        self.conversion_time = conversion_time
        self.conversion_end = None
        self.phase, self.pointer = NOTHING, 0
        self.latched, self.setting = None, None
        self.alarms, self.aging = [0] * 7, 0
        self.control, self.status = 0x1C, 0x88 if stopped else 0x08
        self.temperature = ((quarters >> 2) & 0xFF, (quarters & 3) << 6)
        self.not_modelled_reported = False
        self.waiting, self.dropped = [], 0

    # The four bus events.

    def start(self, at, address, read):
        self.close(at)
        self.latch(at)
        if address != CHIP:
            self.phase = NOTHING
        else:
            self.phase = READ_BYTE if read else POINTER_BYTE
        return address == CHIP

    def write(self, at, byte):
        if self.phase == POINTER_BYTE:
            if byte > LAST_REGISTER:
                self.report(at, "NOREGISTER", byte, None)
                self.phase = DROPPED_BYTE
            else:
                self.pointer = byte
                self.phase = REGISTER_BYTE
        elif self.phase == REGISTER_BYTE:
            self.store(at, self.pointer, byte)
            self.pointer = (self.pointer + 1) % REGISTERS
        return self.phase in (REGISTER_BYTE, DROPPED_BYTE)

    def read(self, at):
        if self.phase != READ_BYTE:
            return 0xFF
        byte = self.latched[self.pointer] if self.pointer <= 6 else self.byte(at, self.pointer)
        self.pointer = (self.pointer + 1) % REGISTERS
        if self.pointer == 0:
            self.latch(at)
        return byte

    def stop(self, at):
        self.close(at)
        self.phase = NOTHING

    # What no event is.

    def register(self, at, register):
        return self.clock.registers(at)[register] if register <= 6 else self.byte(at, register)

    def now(self, at):
        return self.clock.shown(at).isoformat()

    def take(self):
        taken, self.waiting = self.waiting, []
        return taken

    # Parts of these.

    def latch(self, at):
        self.latched = self.clock.registers(at)

    def close(self, at):
        if self.setting is not None:
            self.commit(at, self.setting)
            self.setting = None

    def commit(self, at, setting):
        last = last_day(setting.year, setting.month)
        if setting.day > last:
            self.report(at, "UNDEFINED", 0x04, digits(setting.day))
            setting.day = last
        self.clock.set(seconds_of(setting.date()), setting.weekday, setting.began_at)

    def converting(self, at):
        return self.conversion_end is not None and at < self.conversion_end

    def byte(self, at, register):
        """The byte of a register from 0x07."""
        if register == CONTROL:
            return self.control | (0x20 if self.converting(at) else 0)
        if register == STATUS:
            return self.status | (0x04 if self.converting(at) else 0)
        if register == AGING:
            return self.aging
        return self.temperature[register - 0x11] if register > AGING else self.alarms[register - 0x07]

    def store(self, at, register, byte):
        if register <= 6:
            self.store_time(at, register, byte)
        elif register < CONTROL:
            self.alarms[register - 0x07] = byte
        elif register == CONTROL:
            self.store_control(at, byte)
        elif register == STATUS:
            self.status = (self.status & byte & 0x83) | (byte & 0x08)
        elif register == AGING:
            self.aging = byte
        else:
            self.report(at, "READONLY", register, None)

    def store_time(self, at, register, byte):
        if field_of(register, byte) is None:
            self.report(at, "UNDEFINED", register, byte)
            return
        if self.setting is None:
            self.setting = Setting(self.clock, at)
        self.setting.accept(at, register, byte)
        if register == 2:
            self.clock.twelve_hour = bool(byte & 0x40)

    def store_control(self, at, byte):
        if byte & 0x20 and not self.converting(at):
            self.conversion_end = min(at + self.conversion_time, LAST_INSTANT)
        self.control = byte & 0xDF
        modelled = byte & 0x07 == 0x04
        if not modelled and not self.not_modelled_reported:
            self.not_modelled_reported = True
            self.report(at, "NOTMODELLED", CONTROL, byte)

    def report(self, at, kind, register, byte):
        if len(self.waiting) == STORE:
            self.dropped += 1
        else:
            text = "--" if byte is None else HEX[byte]
            self.waiting.append("DS3231,%d,%s,%s,%s" % (at, kind, HEX[register], text))


# ---- refusals ----

def real_date(year, month, day):
    try:
        datetime.date(year, month, day)
        return True
    except ValueError:
        return False


def date_refusal(date):
    """The first refusal of a date and its values, or None."""
    year, month, day, hour, minute, second = date
    if not 2000 <= year <= 2199:
        return 1, year
    if not 1 <= month <= 12:
        return 2, month
    if not real_date(year, month, day):
        return 3, year, month, day
    if hour > 23:
        return 4, hour
    if minute > 59:
        return 5, minute
    return (6, second) if second > 59 else None


def refusal(date, quarters, time):
    """The first refusal of a power-on and its values, or None."""
    refused_date = date_refusal(date)
    if refused_date is not None:
        return refused_date
    if not -512 <= quarters <= 511:
        return 7, quarters
    return None if SHORTEST <= time <= LONGEST else (22,)


def refused(values):
    return "refused," + ",".join("%d" % value for value in values)


# ---- the answers to a list ----

CALL = struct.Struct("<QBBB5x")
POWER_ON_RECORD = struct.Struct("<H6BBBhI")


def power_on_of(record):
    """The date, whether the oscillator had stopped, the quarters and the conversion time."""
    year, month, day, hour, minute, second, stopped, kind, _, quarters, time = POWER_ON_RECORD.unpack(record)
    assert kind == POWER_ON and stopped <= 1
    return (year, month, day, hour, minute, second), stopped == 1, quarters, time or LONGEST


def power_on_answer(record):
    """The chip, or None, and the line."""
    date, stopped, quarters, time = power_on_of(record)
    values = refusal(date, quarters, time)
    return (Chip(date, stopped, quarters, time), "ok") if values is None else (None, refused(values))


def call_of(record):
    """The instant, the kind, the value and the read bit."""
    return CALL.unpack(record)


def bus_byte(chip, at, kind, value, read):
    """The answer to a bus event, as a byte."""
    if kind == READ:
        return chip.read(at)
    if kind == WRITE:
        return int(chip.write(at, value))
    if kind == START:
        return int(chip.start(at, value, read == 1))
    chip.stop(at)
    return 0


def lines_of(chip, record):
    """The answer to a call of a sound chip."""
    at, kind, value, read = CALL.unpack(record)
    if kind <= STOP:
        return [HEX[bus_byte(chip, at, kind, value, read)]]
    if kind == REGISTER:
        return [HEX[chip.register(at, value)] if value <= LAST_REGISTER else refused((9,))]
    if kind == NOW:
        return [chip.now(at)]
    if kind == DROPPED:
        return ["%d" % chip.dropped]
    assert kind == TAKING
    taken = chip.take()
    return ["%d" % len(taken)] + taken


def from_seconds_line(seconds):
    return date_at(seconds).isoformat() if seconds < RANGE else refused((8,))


def date_line(record):
    """The answer to a call that has no chip."""
    at, kind, _, _ = CALL.unpack(record)
    if kind == FROM_SECONDS:
        return from_seconds_line(at)
    date = struct.unpack("<H5B9x", record)
    values = date_refusal(date)
    if values is not None:
        return refused(values)
    if kind == VALIDATE:
        return "ok"
    assert kind in (SECONDS, WEEKDAY)
    return "%d" % (seconds_of(date) if kind == SECONDS else weekday_of(date))


def answers_to(records):
    """For each record the lines of its answer."""
    chip, answers = None, []
    for record in records:
        kind = record[8]
        if kind == POWER_ON:
            chip, line = power_on_answer(record)
            answers.append([line])
        elif kind >= VALIDATE:
            answers.append([date_line(record)])
        else:
            answers.append([refused((10,))] if chip is None else lines_of(chip, record))
    return answers


# ---- the answers to a script ----

SCRIPT_RECORD = struct.Struct("<QBB6s")
LONGEST_SCRIPT = 32768
EVENTS = ("START", "WRITE", "READ", "STOP")
SCRIPT_HEADER = "at,event,value,answer"


def record_refusal(record, before):
    """The refusal of a record of a script, or None; before is the instant of the record before it."""
    at, kind, value, rest = record
    if kind > STOP:
        return 16
    if (kind == READ and value > 1) or (kind == STOP and value):
        return 17
    if any(rest):
        return 18
    return 19 if at < before else None


def script_refusal(script):
    """The line of a script that is refused, or None."""
    if len(script) > LONGEST_SCRIPT:
        return "refused,14,-"
    if len(script) % SCRIPT_RECORD.size:
        return "refused,13,-"
    before = 0
    for place, record in enumerate(SCRIPT_RECORD.iter_unpack(script)):
        number = record_refusal(record, before)
        if number is not None:
            return refused((number, place))
        before = record[0]
    return None


def script_lines(script):
    """What clockrun prints."""
    line = script_refusal(script)
    if line is not None:
        return [line]
    chip = Chip(DATE, False, QUARTERS, LONGEST)
    lines = [SCRIPT_HEADER]
    for at, kind, value, _ in SCRIPT_RECORD.iter_unpack(script):
        # The value of a START is its address times 2 plus the read bit.
        named, read = (value >> 1, value & 1) if kind == START else (value, 0)
        answer = bus_byte(chip, at, kind, named, read)
        lines.append("%d,%s,%s,%s" % (at, EVENTS[kind], HEX[value], HEX[answer]))
    return lines + chip.take() + ["dropped,%d" % chip.dropped]


# ---- lists of calls ----

def power_on(time, quarters=QUARTERS, stopped=False, date=DATE):
    return POWER_ON_RECORD.pack(*date, stopped, POWER_ON, 0, quarters, time)


class Calls:
    """A list of calls, its power-on first."""

    def __init__(self, time, quarters=QUARTERS, stopped=False, date=DATE):
        self.records = [power_on(time, quarters, stopped, date)]
        self.time = time or LONGEST

    def add(self, kind, at=0, value=0, read=0):
        at = max(0, min(at, LAST_INSTANT))
        self.records.append(CALL.pack(at, kind, value, read))

    def start(self, at, read=0, address=CHIP):
        self.add(START, at, address, read)

    def write(self, at, byte):
        self.add(WRITE, at, byte)

    def read(self, at, acknowledge=1):
        self.add(READ, at, acknowledge)

    def stop(self, at):
        self.add(STOP, at)

    def register(self, at, *registers):
        for register in registers:
            self.add(REGISTER, at, register)

    def now(self, at):
        self.add(NOW, at)

    def reports(self):
        """The dropped count, and the diagnostics taken."""
        self.add(DROPPED)
        self.add(TAKING)

    def send(self, at, pointer, *data, step=0, stop=True):
        """A transaction that writes; the first byte after the pointer is at the instant given."""
        self.start(at - 2 * step)
        self.write(at - step, pointer)
        for place, byte in enumerate(data):
            self.write(at + place * step, byte)
        if stop:
            self.stop(at + len(data) * step)

    def fetch(self, at, pointer, count, step=0, stop=True):
        """A transaction that sets the pointer and reads; the first READ is at the instant given."""
        self.start(at - 3 * step)
        self.write(at - 2 * step, pointer)
        self.start(at - step, read=1)
        for place in range(count):
            self.read(at + place * step, acknowledge=int(place + 1 < count))
        if stop:
            self.stop(at + count * step)


def packed(lists):
    """A file of lists."""
    return b"".join(struct.pack("<I", len(records)) + b"".join(records) for records in lists)


class Draw:
    """Numbers from a fixed seed, the same in every version of Python."""

    def __init__(self, seed):
        self.state = seed

    def below(self, number):
        self.state = (self.state + 0x9E3779B97F4A7C15) % 2 ** 64
        mixed = (self.state ^ self.state >> 30) * 0xBF58476D1CE4E5B9 % 2 ** 64
        mixed = (mixed ^ mixed >> 27) * 0x94D049BB133111EB % 2 ** 64
        return (mixed ^ mixed >> 31) % number

    def of(self, *choices):
        return choices[self.below(len(choices))]


# ---- files ----

def text_of(lines):
    return "".join(line + "\n" for line in lines).encode("ascii")


def stored(path):
    try:
        with open(path, "rb") as f:
            return f.read()
    except FileNotFoundError:
        return None


def differing(top, files):
    """The names of files below crates whose stored content is another, or is missing; files has names and contents."""
    names = [name for name, content in files if stored(os.path.join(top, "crates", name)) != content]
    for name in names:
        print("different or missing: %s" % name)
    return names


def write_files(top, files):
    for name, content in files:
        path = os.path.join(top, "crates", name)
        os.makedirs(os.path.dirname(path), exist_ok=True)
        with open(path, "wb") as f:
            f.write(content)
        print("%s: %d bytes" % (name, len(content)))

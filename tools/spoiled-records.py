#!/usr/bin/env python3
"""Writes the table of crates/qz_record_tests/src/records/each_byte.rt: for each record a sum over the places at which it is wrong
with each byte set to 00, 01, 02, 7f, 80 and ff in turn, and cut at each length. The reader here was written from
docs/specification/records.md alone, and shares nothing with the crate.

With --places it prints the places themselves, a line a byte: the six, and that of the cut."""
import calendar
import struct
import sys

LONGEST = 1 << 53
VALUES = (0x00, 0x01, 0x02, 0x7F, 0x80, 0xFF)

# of each version: the last moment, the last year, and how many commands there are
LAST, LAST_YEAR, COMMANDS = (None, 4102444799999, 7258118399999), (None, 2099, 2199), (None, 22, 26)


class Wrong(Exception):
    pass


class Reader:
    def __init__(self, data):
        self.data, self.at, self.version = data, 0, 1

    def take(self, size):
        if len(self.data) - self.at < size:
            raise Wrong(self.at)
        self.at += size
        return self.data[self.at - size : self.at]

    def number(self, form, is_right=lambda n: True):
        at = self.at
        (n,) = struct.unpack(">" + form, self.take(struct.calcsize(">" + form)))
        if not is_right(n):
            raise Wrong(at)
        return n

    def place(self, count):
        return self.number("B", lambda n: n < count)

    def flag(self):
        return self.place(2)

    def text(self, least, most):
        size = self.number("H", lambda n: least <= n <= most)
        at = self.at
        try:
            return self.take(size).decode("utf-8")
        except UnicodeDecodeError:
            raise Wrong(at)

    def name(self):
        return self.text(1, 200)

    def node(self):
        return self.text(1, 120)

    def optional(self, read):
        return read() if self.flag() else None

    def span(self):
        return self.number("q", lambda n: 0 <= n <= LONGEST)

    def interval(self):
        return self.number("q", lambda n: 1 <= n <= 86400000)

    def key(self):
        self.name()
        self.name()

    def set(self, form, size):
        return self.number(form, lambda n: 0 < n < 1 << size)

    def cron_fields(self):
        self.set("Q", 60), self.set("Q", 60), self.set("I", 24)
        day = self.place(5)
        if day == 1:
            self.set("I", 31)
        elif day == 2:
            self.number("B", lambda n: n <= 30)
        elif day == 4:
            self.number("B", lambda n: 1 <= n <= 31)
        self.set("H", 12)
        week = self.number("B", lambda n: 1 <= n <= 3 if day == 0 else n == 0)
        if week == 1:
            self.set("B", 7)
        elif week == 2:
            self.number("B", lambda n: 1 <= n <= 7)
        elif week == 3:
            self.number("B", lambda n: 1 <= n <= 7), self.number("B", lambda n: 1 <= n <= 5)
        years = 0
        for at in (0, 64, 128):
            years |= self.number("Q", lambda n: n << at < 1 << LAST_YEAR[self.version] - 1969) << at
        self.number("Q", lambda n: n << 192 < 1 << LAST_YEAR[self.version] - 1969 and years | n)

    def kind(self):
        kind = self.place(4)
        if kind == 0:
            interval = self.span()
            self.number("q", lambda n: n == 0 if interval == 0 else -1 <= n <= 2147483647)
            return kind
        if kind == 1:
            self.cron_fields()
        elif kind == 2:
            self.place(7)
            self.number("I", lambda n: 1 <= n <= 2147483647)
            self.name()
            if self.version == 2:
                self.flag(), self.flag()
            return kind
        else:
            unit = (1, 60, 3600)[self.place(3)]
            self.number("I", lambda n: 1 <= n * unit <= 86400)
            start = self.number("I", lambda n: n <= 86399)
            self.number("I", lambda n: start <= n <= 86399)
            self.number("B", lambda n: 0 < n < 128)
        self.name()
        return kind

    def trigger(self):
        self.key(), self.key(), self.number("i"), self.optional(self.name)
        most = 5 if self.kind() == 0 else 2
        self.number("b", lambda n: -1 <= n <= most), self.span(), self.optional(self.span)

    def job(self):
        self.key(), self.name(), self.flag(), self.flag(), self.flag(), self.text(0, 4096)

    def items(self, form, most, is_right):
        before = -1
        for _ in range(self.number("H", lambda n: n <= most)):
            before = self.number(form, lambda n: n > before and is_right(n))

    def zone(self):
        self.name()
        before = -172800000
        for _ in range(self.number("H", lambda n: 1 <= n <= 512)):
            before = self.number("q", lambda n: max(0, before + 172800000) <= n <= LAST[self.version])
            self.number("i", lambda n: -64800 <= n <= 64800)

    def calendar(self):
        self.name(), self.optional(self.name), self.name()
        kind = self.place(6)
        if kind == 0:
            self.items("H", 366, lambda n: 1 <= n // 100 <= 12 and 1 <= n % 100 <= 31)
        elif kind == 1:
            self.items("I", 4096, lambda n: is_date(n, LAST_YEAR[self.version]))
        elif kind == 2:
            self.number("B", lambda n: n < 128)
        elif kind == 3:
            self.number("I", lambda n: n < 1 << 31)
        elif kind == 4:
            start = self.number("I", lambda n: n <= 86399999)
            self.number("I", lambda n: start <= n <= 86399999)
            self.flag()
        else:
            self.cron_fields()

    def command(self, is_node):
        place = self.number("B", lambda n: n < COMMANDS[self.version] and (n in (15, 16, 17, 18, 19, 20, 21)) == bool(is_node))
        if place == 0:
            self.job(), self.flag()
        elif place == 2:
            self.trigger(), self.flag()
        elif place in (1, 3, 4, 5, 12, 23):
            self.key()
        elif place in (6, 7, 9, 11, 24, 25):
            self.name()
        elif place == 8:
            self.calendar(), self.flag()
        elif place == 10:
            self.zone()
        elif place == 13:
            self.interval()
        elif place in (14, 21):
            self.node()
        elif place == 16:
            self.span(), self.span(), self.number("I", lambda n: 1 <= n <= 64)
        elif place in (17, 18):
            self.number("Q")
        elif place == 19:
            self.number("Q"), self.place(7)

    def entry(self):
        self.number("q")
        is_node = self.flag()
        if is_node:
            self.node(), self.number("Q")
        self.number("I"), self.command(is_node)

    def state_entry(self):
        self.number("q"), self.number("I")
        (self.node_and_last if self.place(2) else self.node_and_interval)()

    def node_and_interval(self):
        self.node(), self.interval()

    def node_and_last(self):
        self.node(), self.number("q")

    def trigger_row(self):
        self.trigger(), self.optional(lambda: self.number("q")), self.optional(lambda: self.number("q"))
        self.number("Q", lambda n: n <= 1 << 63), self.place(7)

    def fired_row(self):
        self.number("Q"), self.node(), self.number("Q"), self.key(), self.key(), self.number("i"), self.place(2)
        self.number("q"), self.optional(lambda: self.number("q")), self.flag(), self.flag()


def is_date(n, last):
    year, month, day = n // 10000, n // 100 % 100, n % 100
    return 1970 <= year <= last and 1 <= month <= 12 and 1 <= day <= calendar.monthrange(year, month)[1]


def place_of(of, data):
    """The place at which the bytes are wrong, or 255 where they are a record."""
    reader = Reader(data)
    try:
        reader.version = reader.number("B", lambda n: n in (1, 2))
        getattr(reader, of)()
        return 255 if reader.at == len(data) else reader.at
    except Wrong as wrong:
        return wrong.args[0]


def places_of(of, record):
    for at in range(len(record)):
        for value in VALUES:
            yield place_of(of, record[:at] + bytes([value]) + record[at + 1 :])
        yield place_of(of, record[:at])


def text(s):
    data = s.encode()
    return struct.pack(">H", len(data)) + data


AT, SEAT = bytes.fromhex("0000018cc251f400"), bytes(4)
CLIENT = AT + b"\x00" + SEAT
NODE = AT + b"\x01" + text("A") + struct.pack(">Q", 1) + SEAT
KEYS = text("g") + text("t") + text("g") + text("n")
FIELDS = struct.pack(">QQI", 1 << 59, 1, 1 << 23) + b"\x00" + struct.pack(">H", 1 << 11) + b"\x03\x07\x05"
YEARS = struct.pack(">QQQQ", 1, 0, 2, 0)
TRIGGER = KEYS + struct.pack(">i", -1) + b"\x01" + text("h") + b"\x00" + struct.pack(">qqbq", 1000, -1, 5, 1704067200000) + b"\x01" + struct.pack(">q", LONGEST)
CRON = b"\x01" + FIELDS + YEARS + text("UTC") + struct.pack(">bq", 2, 0) + b"\x00"
DAILY = b"\x03\x01" + struct.pack(">IIIB", 1440, 86398, 86399, 127) + text("UTC") + struct.pack(">bq", -1, 0) + b"\x00"
ZONE = text("z") + b"\x00\x02" + struct.pack(">qiqi", 0, 3600, 172800000, -64800)
ANNUAL = text("c") + b"\x01" + text("b") + text("UTC") + b"\x00\x00\x02" + struct.pack(">HH", 229, 1231)
HOLIDAY = text("c") + b"\x00" + text("UTC") + b"\x01\x00\x02" + struct.pack(">II", 20240229, 20991231)
LATE_YEARS = struct.pack(">QQQQ", 0, 0, 0, 1 << 37)
INTERVAL = KEYS + bytes(4) + b"\x00\x02\x03" + struct.pack(">I", 1) + text("UTC")
RECORDS = [
    ("entry", "Fire", NODE + b"\x12" + struct.pack(">Q", 1)),
    ("entry", "Acquire", NODE + b"\x10" + struct.pack(">qqI", LONGEST, 0, 64)),
    ("entry", "Complete", NODE + b"\x13" + struct.pack(">Q", 1) + b"\x06"),
    ("entry", "AddJob", CLIENT + b"\x00" + text("g") + text("n") + text("c") + b"\x01\x00\x01" + text("\u00e9") + b"\x00"),
    ("entry", "AddTrigger, simple", CLIENT + b"\x02" + TRIGGER + b"\x01"),
    ("entry", "AddTrigger, cron", CLIENT + b"\x02" + KEYS + bytes(4) + b"\x00" + CRON + b"\x00"),
    ("entry", "AddTrigger, daily", CLIENT + b"\x02" + KEYS + bytes(4) + b"\x00" + DAILY + b"\x00"),
    ("entry", "AddCalendar, annual", CLIENT + b"\x08" + ANNUAL + b"\x00"),
    ("entry", "AddZone", CLIENT + b"\x0a" + ZONE),
    ("entry", "Threshold", CLIENT + b"\x0d" + struct.pack(">q", 86400000)),
    ("state_entry", "CheckIn", AT + SEAT + b"\x00" + text("A") + struct.pack(">q", 15000)),
    ("trigger_row", "a trigger", TRIGGER + b"\x01" + struct.pack(">q", -2) + b"\x00" + struct.pack(">Q", 1 << 63) + b"\x06"),
    ("fired_row", "a fired row", struct.pack(">Q", 7) + text("A") + struct.pack(">Q", 1) + KEYS + struct.pack(">iBq", -1, 1, -2) + b"\x01" + struct.pack(">q", 3) + b"\x01\x00"),
    ("calendar", "a holiday calendar", HOLIDAY),
    ("zone", "a zone", ZONE),
]
OF = {"entry": "Entry", "state_entry": "StateEntry", "trigger_row": "TriggerRow", "fired_row": "FiredRow", "calendar": "CalendarRow", "zone": "ZoneRow"}


def literal(record):
    digits = "".join(f"\\x{it:02x}" for it in record)
    lines = [digits[at : at + 64] for at in range(0, len(digits), 64)]
    return 'b"' + "\\\n            ".join(lines) + '"'


# Those that version two alone has, and an interval, which has other bytes in each version.
AFTER = struct.pack(">bq", -1, 0) + b"\x00\x00"
LATER = [
    (2, "entry", "AddTrigger, interval", CLIENT + b"\x02" + INTERVAL + b"\x00\x01" + AFTER),
    (2, "entry", "AddTrigger, 2199", CLIENT + b"\x02" + KEYS + bytes(4) + b"\x00\x01" + FIELDS + LATE_YEARS + text("UTC") + AFTER),
    (2, "entry", "Upgrade", CLIENT + b"\x16"),
    (2, "entry", "ResetTrigger", CLIENT + b"\x17" + text("g") + text("t")),
    (2, "entry", "PauseJobGroup", CLIENT + b"\x18" + text("g")),
    (2, "entry", "ResumeJobGroup", CLIENT + b"\x19" + text("g")),
    (2, "calendar", "a holiday calendar of 2199", text("c") + b"\x00" + text("UTC") + b"\x01\x00\x01" + struct.pack(">I", 21991231)),
    (2, "zone", "a zone to 2199", text("z") + b"\x00\x01" + struct.pack(">qi", 7258118399999, 0)),
    (1, "entry", "AddTrigger, interval of version one", CLIENT + b"\x02" + INTERVAL + AFTER),
]
ALL = [(2, of, name, record) for of, name, record in RECORDS] + LATER
ALL += [(1, of, name + " of version one", record) for of, name, record in RECORDS]

for version, of, name, rest in ALL:
    record = bytes([version]) + rest
    assert place_of(of, record) == 255, name
    places = list(places_of(of, record))
    if "--places" in sys.argv[1:]:
        print(f"{name}: {record.hex()}")
        for at in range(len(record)):
            print(f"  {at:3}", *places[7 * at : 7 * at + 7])
        continue
    total = 2166136261
    for place in places:
        total = (total ^ place) * 16777619 % (1 << 32)
    print(f"    Row {{\n        name: \"{name}\",\n        of: Of::{OF[of]},\n        record: {literal(record)},\n        right: {places.count(255)},\n        places: {total},\n    }},")

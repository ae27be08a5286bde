"""Records of both stores and heads of snapshots, by docs/specification/records.md: what a transaction was, read as far as the tools look at it."""
import dataclasses
import struct

WORDS = ["add_job", "delete_job", "add_trigger", "delete_trigger", "pause_trigger", "resume_trigger", "pause_group", "resume_group", "add_calendar",
         "delete_calendar", "add_zone", "delete_zone", "trigger_now", "threshold", "join", "leave", "acquire", "release", "fire", "complete", "misfires",
         "recover", "migrate", "reset_trigger", "pause_job_group", "resume_job_group"]
CODES = ["NOOP", "RE_EXECUTE_JOB", "SET_TRIGGER_COMPLETE", "DELETE_TRIGGER", "SET_ALL_JOB_TRIGGERS_COMPLETE", "SET_TRIGGER_ERROR",
         "SET_ALL_JOB_TRIGGERS_ERROR"]
FIRST_OF_A_NODE, LAST_OF_A_NODE = WORDS.index("leave"), WORDS.index("recover")


class BadRecord(Exception):
    """The payload is no record, as far as it is read here."""


@dataclasses.dataclass
class Record:
    """A transaction: its reading, the node and the epoch that gave it (None and None: a client), its word, and what the line of that word names."""

    at: int
    node: str | None
    epoch: int | None
    word: str
    named: dict


class Reader:
    def __init__(self, payload):
        self.payload, self.place = payload, 0

    def number(self, form):
        size = struct.calcsize(">" + form)
        if len(self.payload) < self.place + size:
            raise BadRecord(f"cut at {self.place}")
        (found,) = struct.unpack_from(">" + form, self.payload, self.place)
        self.place += size
        return found

    def text(self):
        size = self.number("H")
        start, self.place = self.place, self.place + size
        if len(self.payload) < self.place:
            raise BadRecord(f"cut at {start}")
        try:
            return self.payload[start : self.place].decode()
        except UnicodeDecodeError:
            raise BadRecord(f"no UTF-8 at {start}") from None

    def flag(self):
        found = self.number("B")
        if found > 1:
            raise BadRecord(f"no flag before {self.place}")
        return bool(found)

    def key(self):
        return {"group": self.text(), "name": self.text()}

    def end(self):
        if self.place != len(self.payload):
            raise BadRecord(f"more bytes at {self.place}")

    def named(self, word):
        """What the command names. Of a trigger, a calendar and a zone the rest isn't looked at."""
        if word == "add_job":
            found = {**self.key(), "class": self.text(), "durable": self.flag(), "no_concurrent": self.flag(), "requests_recovery": self.flag(), "data": self.text()}
            found["replace"] = self.flag()
        elif word == "add_trigger":
            found = {**self.key(), "job_group": self.text(), "job": self.text(), "priority": self.number("i")}
            self.place = len(self.payload)
        elif word in ("add_calendar", "add_zone"):
            found = {"name": self.text()}
            self.place = len(self.payload)
        elif word in ("delete_job", "delete_trigger", "pause_trigger", "resume_trigger", "trigger_now", "reset_trigger"):
            found = self.key()
        elif word.endswith("group"):
            found = {"group": self.text()}
        elif word in ("delete_calendar", "delete_zone"):
            found = {"name": self.text()}
        elif word in ("join", "recover"):
            found = {"node" if word == "join" else "failed": self.text()}
        elif word == "threshold":
            found = {"ms": self.number("q")}
        elif word == "acquire":
            found = {"no_later": self.number("q"), "window": self.number("q"), "max": self.number("I")}
        elif word in ("release", "fire", "complete"):
            found = {"entry": self.number("Q")}
            if word == "complete":
                found["code"] = CODES[self.place_of(CODES)]
        else:
            found = {}
        return found

    def place_of(self, words):
        found = self.number("B")
        if found >= len(words):
            raise BadRecord(f"no such word at {self.place - 1}")
        return found


def begin(payload):
    reader = Reader(payload)
    if reader.number("B") not in (1, 2):
        raise BadRecord("no version at 0")
    return reader, reader.number("q")


def of_triggers(payload):
    """The transaction of a payload of the trigger store."""
    reader, at = begin(payload)
    node, epoch = (reader.text(), reader.number("Q")) if reader.flag() else (None, None)
    reader.number("I")
    place = reader.place_of(WORDS)
    if (FIRST_OF_A_NODE <= place <= LAST_OF_A_NODE) != (node is not None):
        raise BadRecord(f"{WORDS[place]} by another than it is for")
    named = reader.named(WORDS[place])
    reader.end()
    return Record(at, node, epoch, WORDS[place], named)


def of_states(payload):
    """The transaction of a payload of the state store: a check_in or a forget."""
    reader, at = begin(payload)
    reader.number("I")
    removes = reader.flag()
    named = {"failed" if removes else "node": reader.text(), "last" if removes else "interval": reader.number("q")}
    reader.end()
    return Record(at, None, None, "forget" if removes else "check_in", named)


@dataclasses.dataclass
class Head:
    """The head of a snapshot: how many payloads and entries come before it, how many pieces follow, and the tables' numbers."""

    payloads: int
    entries: int
    pieces: int
    next_entry: int
    next_epoch: int
    threshold: int
    last_moment: int
    horizon: int


def head_of(payload):
    """The head of a payload that begins with F0."""
    reader = Reader(payload)
    reader.number("B")
    found = Head(*map(reader.number, "IIIQQqqq"))
    reader.end()
    return found

"""Rows of the stores, as `list` and the lines that ask write them."""
from __future__ import annotations

from dataclasses import dataclass

from .names import Key, unescape


def number_or_none(word: str) -> int | None:
    return None if word == "none" else int(word)


def name_or_none(word: str) -> str | None:
    """A name that may be none. (A calendar that is called `none` is printed so, too.)"""
    return None if word == "none" else unescape(word)


@dataclass(frozen=True)
class JobRow:
    key: Key
    klass: str
    durable: bool
    no_concurrent: bool
    requests_recovery: bool
    data: str | None = None  # only a line that asks has it


@dataclass(frozen=True)
class TriggerRow:
    key: Key
    job: Key
    state: str
    next: int | None
    prev: int | None
    times: int
    priority: int
    start: int
    kind: str
    count: int | None = None  # of a simple trigger
    misfire: int | None = None  # the last three: only a line that asks has them
    calendar: str | None = None
    zone: str | None = None


@dataclass(frozen=True)
class EntryRow:
    """What a member has acquired or executes. Without `klass` its job isn't stored any more, or `list` wrote the row."""

    entry: int
    node: str
    epoch: int
    trigger: Key
    state: str
    scheduled: int
    at: int | None
    job: Key | None = None
    klass: str | None = None
    data: str = ""

    @property
    def executes(self) -> bool:
        return self.state == "EXECUTING"


@dataclass(frozen=True)
class MemberRow:
    node: str
    epoch: int


@dataclass(frozen=True)
class CheckInRow:
    node: str
    last: int
    interval: int


@dataclass(frozen=True)
class OtherRow:
    """A threshold, zone, calendar or paused group: its word and the rest of its line."""

    word: str
    rest: tuple[str, ...]


Row = JobRow | TriggerRow | EntryRow | MemberRow | CheckInRow | OtherRow


def job_of(words: list[str]) -> JobRow:
    """`KEY CLASS durable B no_concurrent B requests_recovery B`, and maybe `data DATA`."""
    durable, no_concurrent, requests_recovery = (words[place] == "1" for place in (3, 5, 7))
    data = unescape(words[9]) if len(words) > 9 else None
    return JobRow(Key.of_word(words[0]), unescape(words[1]), durable, no_concurrent, requests_recovery, data)


def trigger_of(words: list[str]) -> TriggerRow:
    """`KEY job KEY STATE next N prev N times N priority N start N KIND`, and maybe `misfire N calendar NAME zone NAME`."""
    key, job, state = Key.of_word(words[0]), Key.of_word(words[2]), words[3]
    kind, rest = words[14], words[15:]
    count = int(rest.pop(0)) if kind == "simple" else None
    more = (int(rest[1]), name_or_none(rest[3]), name_or_none(rest[5])) if rest else (None, None, None)
    return TriggerRow(key, job, state, number_or_none(words[5]), number_or_none(words[7]), int(words[9]), int(words[11]),
                      int(words[13]), kind, count, *more)


def entry_of(words: list[str]) -> EntryRow:
    """`N NODE EPOCH KEY STATE scheduled N at N`, and maybe `job KEY CLASS data DATA` or `job KEY none`."""
    row = EntryRow(int(words[0]), unescape(words[1]), int(words[2]), Key.of_word(words[3]), words[4], int(words[6]),
                   number_or_none(words[8]))
    if len(words) < 11:
        return row
    job = Key.of_word(words[10])
    stored = len(words) > 13
    klass, data = (unescape(words[11]), unescape(words[13])) if stored else (None, "")
    return EntryRow(row.entry, row.node, row.epoch, row.trigger, row.state, row.scheduled, row.at, job, klass, data)


def row_of(line: str) -> Row:
    """The row of a line of `list`."""
    word, *words = line.split()
    if word == "job":
        return job_of(words)
    if word == "trigger":
        return trigger_of(words)
    if word == "fired":
        return entry_of(words)
    if word == "member":
        return MemberRow(unescape(words[0]), int(words[1]))
    if word == "state":
        return CheckInRow(unescape(words[0]), int(words[2]), int(words[4]))
    return OtherRow(word, tuple(words))

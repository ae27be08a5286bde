"""Replies of the scheduler as small classes, and those that aren't what was asked as exceptions."""
from __future__ import annotations

from collections.abc import Callable
from dataclasses import dataclass

from . import rows
from .errors import BadReply, HubRefused, NotJoined, Refused, StoreClosed, StoreFault, Unanswered
from .names import Key


@dataclass(frozen=True)
class Done:
    """The step was done. `next` is a new trigger's next fire time, in ms."""

    next: int | None = None


@dataclass(frozen=True)
class Deleted:
    triggers: int


@dataclass(frozen=True)
class Triggered:
    trigger: Key
    at: int


@dataclass(frozen=True)
class Joined:
    epoch: int
    executions: int
    triggers: int


@dataclass(frozen=True)
class AcquiredTrigger:
    entry: int
    trigger: Key
    time: int


@dataclass(frozen=True)
class Acquired:
    triggers: tuple[AcquiredTrigger, ...]


@dataclass(frozen=True)
class Fired:
    entry: int
    scheduled: int
    at: int
    next: int | None


@dataclass(frozen=True)
class Completed:
    entry: int


@dataclass(frozen=True)
class Again:
    """The node executes the job once more, under the same entry number."""

    entry: int


@dataclass(frozen=True)
class Misfired:
    triggers: tuple[tuple[Key, int | None], ...]


@dataclass(frozen=True)
class Recovered:
    executions: int
    triggers: int


@dataclass(frozen=True)
class Restarted:
    pass


@dataclass(frozen=True)
class Next:
    """When something will be due, in ms; None where nothing waits."""

    time: int | None


@dataclass(frozen=True)
class Checkpointed:
    """What came of a checkpoint; False where the journal has no room for a snapshot."""

    made: bool


@dataclass(frozen=True)
class Room:
    """What both stores have, in bytes and payloads, and how many transactions came after the last snapshot."""

    triggers: tuple[int, int]
    states: tuple[int, int]
    behind: int


@dataclass(frozen=True)
class Nothing:
    """What was asked for isn't there."""

    what: str


Shown = rows.JobRow | rows.TriggerRow | rows.EntryRow | Next | Nothing
Reply = Done | Deleted | Triggered | Joined | Acquired | Fired | Completed | Again | Misfired | Recovered | Restarted | Checkpointed | Room | Shown


def _acquired(words: list[str]) -> Acquired:
    if words == ["none"]:
        return Acquired(())
    threes = zip(words[0::3], words[1::3], words[2::3])
    return Acquired(tuple(AcquiredTrigger(int(entry), Key.of_word(key), int(time)) for entry, key, time in threes))


def _misfired(words: list[str]) -> Misfired:
    if words == ["none"]:
        return Misfired(())
    return Misfired(tuple((Key.of_word(key), rows.number_or_none(time)) for key, time in zip(words[0::2], words[1::2])))


def _checkpointed(words: list[str]) -> Checkpointed:
    if words not in (["made"], ["no", "room"]):
        raise ValueError
    return Checkpointed(words == ["made"])


def _room(words: list[str]) -> Room:
    if [words[0], words[3], words[5]] != ["triggers", "behind", "states"]:
        raise ValueError
    return Room((int(words[1]), int(words[2])), (int(words[6]), int(words[7])), int(words[4]))


def _shown(word: str, words: list[str]) -> Shown:
    if word == "next":
        return Next(rows.number_or_none(words[0]))
    if words == ["none"]:
        return Nothing(word)
    if word == "job":
        return rows.job_of(words)
    return rows.trigger_of(words) if word == "trigger" else rows.entry_of(words)


_READERS: dict[str, Callable[[list[str]], Reply]] = {
    "ok": lambda words: Done(int(words[1]) if words[:1] == ["next"] else None),
    "deleted": lambda words: Deleted(int(words[0])),
    "triggered": lambda words: Triggered(Key.of_word(words[0]), int(words[1])),
    "joined": lambda words: Joined(int(words[0]), int(words[2]), int(words[4])),
    "acquired": _acquired,
    "fired": lambda words: Fired(int(words[0]), int(words[2]), int(words[4]), rows.number_or_none(words[6])),
    "completed": lambda words: Completed(int(words[0])),
    "again": lambda words: Again(int(words[0])),
    "misfired": _misfired,
    "recovered": lambda words: Recovered(int(words[1]), int(words[3])),
    "restarted": lambda words: Restarted(),
    "checkpoint": _checkpointed,
    "room": _room,
}


def read(text: str) -> Reply:
    """The reply of this line. Raises Refused, NotJoined, StoreFault, StoreClosed, HubRefused or Unanswered where it says so, and BadReply
    where it is none."""
    word, *words = text.split() or [""]
    try:
        return _read(word, words)
    except (ValueError, IndexError, KeyError):
        raise BadReply(f"no reply: {text[:200]!r}") from None


def _read(word: str, words: list[str]) -> Reply:
    if word == "refused":
        raise Refused(int(words[0]), words[1:])
    if word == "stopped":
        raise NotJoined()
    if word == "fault":
        raise StoreFault()
    if word == "closed":
        raise StoreClosed()
    if word == "hub":
        if words[0] == "unanswered":
            raise Unanswered(" ".join(words[1:]))
        raise HubRefused(words[0], " ".join(words[1:]))
    if word in ("job", "trigger", "entry", "next"):
        return _shown(word, words)
    return _READERS[word](words)

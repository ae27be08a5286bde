"""What may be answered other than what was asked, and what to do about it."""
from __future__ import annotations

from collections.abc import Sequence

REFUSALS: dict[int, tuple[str, str]] = {
    1: ("the node isn't a member under its epoch: another one recovered it, or joined under its name", "join again"),
    2: ("the scheduler itself stores triggers in this group", "use another group"),
    3: ("the job isn't stored", "add the job first; one that isn't durable goes with its last trigger"),
    4: ("the trigger isn't stored", "one that fired for the last time is gone when its execution was completed"),
    5: ("the calendar isn't stored, or the base of a new one isn't", "add it before"),
    6: ("the zone isn't stored, or `UTC` was to be deleted", "add it before: kemtrua add zone NAME"),
    7: ("a job of that key is stored", "use another key, or --replace"),
    8: ("a trigger of that key is stored", "use another key, or --replace"),
    9: ("a calendar of that name is stored", "use another name, or --replace"),
    10: ("a zone of that name is stored", "use another name: a zone is never replaced"),
    11: ("triggers and calendars name it, or executions of the node that leaves go on", "delete or complete those first"),
    12: ("the calendar would be below itself", "choose another base"),
    13: ("an execution of that job goes on under another `no_concurrent`", "let it end first"),
    14: ("the trigger has no fire time", "look at start, end and calendar; qz_sched times shows fire times"),
    15: ("nothing has that entry number", "it was completed, released or recovered"),
    16: ("the entry is another node's", "take the number from this node's own `acquired`"),
    17: ("the execution has begun already", "complete it"),
    18: ("the execution hasn't begun", "fire it first"),
    19: ("it is too early: the trigger's time lies ahead", "fire it at that time or later"),
    20: ("the node to be recovered isn't a member", "it was recovered already"),
    21: ("the node to be recovered may still live", "ask again after that moment"),
    22: ("a limit of the store would be passed", "delete what isn't needed"),
    23: ("the node has no check-in", "nothing to recover or forget"),
    24: ("256 nodes have checked in", "forget those that are gone"),
    25: ("the node to be forgotten is a member", "recover it first, or let it leave"),
    26: ("the node has checked in since", "it lives"),
    27: ("the store is of format version 1", "upgrade it: qz_sched migrate"),
    28: ("the store is of format version 2 already", "nothing to do"),
    29: ("the trigger isn't in the state ERROR", "look at its state: kemtrua show trigger"),
}

STATUSES: dict[int, tuple[str, str]] = {
    1: ("the words are none that the program has", "the program is of another version than this client"),
    2: ("a line is bad", "correct the line"),
    3: ("standard input failed", "open the store again"),
    4: ("standard output failed", "open the store again; the last step may have been done"),
    5: (
        "the system refused a call on a store file: no right to read or write it or its folder, a full disk, a device that "
        "failed, or another program that works on the store",
        "remove the cause and start again; if a sync failed, restart the machine or mount the file system anew before",
    ),
    6: ("a store file isn't there, isn't a store, or is damaged", "see the page on errors: a damaged store"),
    7: ("the journal is full", "see the page on stores that fill"),
    9: ("memory ran out", "give the program more memory; the last step may have been done"),
    10: ("both stores are there", "nothing to do"),
    12: ("the store is of format version 1", "upgrade it: qz_sched migrate"),
    13: ("the input isn't the bytes of a trigger store", "send them from the first one on"),
}


LOCKED = 75  # the exit status of a hub that finds the store locked: it may be tried again


class KemtruaError(Exception):
    """Whatever this package raises."""


class BadLine(KemtruaError):
    """A line that is no step. It wasn't sent, and nothing was done."""

    def __init__(self, problems: Sequence[object]):
        super().__init__("; ".join(str(problem) for problem in problems))
        self.problems = list(problems)


class Refused(KemtruaError):
    """The step was refused, and nothing has changed. `fields` are the words after the number."""

    def __init__(self, number: int, fields: Sequence[str] = ()):
        self.number, self.fields = number, list(fields)
        why, remedy = REFUSALS.get(number, ("the step was refused", "see the page on replies"))
        super().__init__(f"refused {' '.join([str(number), *fields])}: {why}; {remedy}")


class NotJoined(KemtruaError):
    """The node holds no epoch: it didn't join in this call, it left, or it stopped."""

    def __init__(self) -> None:
        super().__init__("stopped: the node holds no epoch; let it join")


class StoreFault(KemtruaError):
    """A disk failed in this step. Its store is closed, and has the step's transaction or not."""

    def __init__(self) -> None:
        super().__init__("fault: a disk failed in this step, and its store is closed until it is opened again; " + STATUSES[5][1])


class StoreClosed(KemtruaError):
    """A store that the step needs is closed since a fault. Nothing was done."""

    def __init__(self) -> None:
        super().__init__("closed: a store is closed since a disk failed; nothing was done")


class ProgramEnded(KemtruaError):
    """The program that holds the store ended, and opening it again doesn't help. The step wasn't done."""

    def __init__(self, status: int, said: str = ""):
        self.status, self.said = status, said
        why, remedy = STATUSES.get(status, ("the program ended", "look at its standard error"))
        super().__init__(f"qz_sched ended with status {status} ({said or 'it said nothing'}): {why}; {remedy}")


class CannotRun(KemtruaError):
    """The program that holds a store can't be run, or the folder isn't there."""


class StoreLocked(ProgramEnded):
    """Another program works on the store, maybe one that is about to end. Its status isn't the program's, so that a disk that failed looks different."""

    def __init__(self, folder: str):
        super().__init__(LOCKED, f"the store in {folder} is locked")
        self.args = (f"another program works on the store in {folder}: one hub or one qz_sched at a time does",)


class Unanswered(KemtruaError):
    """The one who was asked ended, or the way to it broke, before the answer came: the step was done, or it wasn't."""


class Unreachable(KemtruaError):
    """Nobody answers at the hub's address."""


class NotTrusted(Unreachable):
    """One of the two sides of a TLS connection doesn't trust the other's certificate."""


class BadReply(KemtruaError):
    """Something was answered that the line can't be answered with."""


class HubRefused(KemtruaError):
    """The hub didn't hand the line on. `word` says why: see the words of a hub."""

    def __init__(self, word: str, text: str):
        super().__init__(text)
        self.word = word

    @property
    def passes(self) -> bool:
        """Whether the same line may be sent again later: the hub ends, stands by, or waits for etcd or for somebody to look at its clock."""
        return self.word in ("ended", "clock", "etcd", "standby")


class ClockWrong(KemtruaError):
    """This machine's clock parts from the hub's by more than what is allowed."""


class NotBegun(KemtruaError):
    """An execution couldn't begin for a reason that may pass, as want of descriptors, memory or processes. Nothing of it has run."""


class BadFolder(KemtruaError):
    """A hub's folder, or a backup, isn't as it has to be. `status` is the exit status: 6, or 5 where the system refused a call."""

    def __init__(self, text: str, status: int = 6):
        super().__init__(text)
        self.status = status

    @classmethod
    def of(cls, error: OSError, path: str) -> BadFolder:
        """What the system refused."""
        where = error.filename if isinstance(error.filename, str) else path
        return cls(f"{where}: {error.strerror}: nothing was changed that counts; remove the cause and start again", 5)


class NotFitting(KemtruaError):
    """A program, hub or client is too old or too new for the other one."""


class BadSettings(KemtruaError):
    """A settings file or a word of the command line says what can't be."""

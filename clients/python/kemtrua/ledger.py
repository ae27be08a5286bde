"""What is known from the replies of a store so far: who is a member, who holds an epoch, and what nodes have in their hands."""
from __future__ import annotations

from collections.abc import Iterable

from . import rows
from .checking import Line

DEFAULT_INTERVAL = 15000  # ms
DEFAULT_THRESHOLD = 60000  # ms


class Ledger:
    """Begins with the lines of `list`, and learns from each reply. So it is exact as long as it sees every one.

    Only of acquired triggers it may have too many: a node's own fire, pause or deletion can free them.
    """

    def __init__(self, listed: Iterable[str] = ()):
        self.members: dict[str, int] = {}  # the epoch of each
        self.held: dict[str, int] = {}  # the epochs that nodes hold in this call
        self.intervals: dict[str, int] = {}  # of each node that has checked in, in ms
        self.owners: dict[int, str] = {}  # the node of each entry number
        self.threshold = DEFAULT_THRESHOLD  # ms past its moment at which a trigger is misfired
        self._entries: dict[str, set[int]] = {}  # those of each node
        for line in listed:
            row = rows.row_of(line)
            if isinstance(row, rows.MemberRow):
                self.members[row.node] = row.epoch
            elif isinstance(row, rows.CheckInRow):
                self.intervals[row.node] = row.interval
            elif isinstance(row, rows.EntryRow):
                self._own(row.entry, row.node)
            elif isinstance(row, rows.OtherRow) and row.word == "threshold":
                self.threshold = int(row.rest[0])

    def entries_of(self, node: str) -> list[int]:
        return sorted(self._entries.get(node, ()))

    def count_of(self, node: str) -> int:
        return len(self._entries.get(node, ()))

    def peers(self) -> list[str]:
        return sorted({*self.members, *self.intervals})

    def learn(self, line: Line, reply: str) -> None:
        learner = self._LEARNERS.get(str(line["do"]))
        if learner is not None:
            word, *words = reply.split()
            learner(self, line, word, words)

    def _own(self, entry: int, node: str) -> None:
        self.owners[entry] = node
        self._entries.setdefault(node, set()).add(entry)

    def _free(self, line: Line) -> None:
        entry = int(line["entry"])  # type: ignore[call-overload]
        node = self.owners.pop(entry, None)
        if node is not None:
            self._entries[node].discard(entry)

    def _drop(self, node: str) -> None:
        self.members.pop(node, None)
        for entry in self._entries.pop(node, set()):
            del self.owners[entry]

    def _check_in(self, line: Line, word: str, words: list[str]) -> None:
        if word in ("ok", "joined"):
            self.intervals[str(line["node"])] = int(line.get("interval", DEFAULT_INTERVAL))  # type: ignore[call-overload]

    def _join(self, line: Line, word: str, words: list[str]) -> None:
        self._check_in(line, word, words)
        if word == "joined":
            node = str(line["node"])
            self._drop(node)
            self.members[node] = self.held[node] = int(words[0])

    def _resume(self, line: Line, word: str, words: list[str]) -> None:
        if word == "ok":
            self.held[str(line["node"])] = int(line["epoch"])  # type: ignore[call-overload]

    def _leave(self, line: Line, word: str, words: list[str]) -> None:
        if word == "ok":
            self._drop(str(line["node"]))
            self.held.pop(str(line["node"]), None)

    def _stop(self, line: Line, word: str, words: list[str]) -> None:
        if word == "ok":
            self.held.pop(str(line["node"]), None)

    def _acquire(self, line: Line, word: str, words: list[str]) -> None:
        if word == "acquired" and words != ["none"]:
            for entry in words[0::3]:
                self._own(int(entry), str(line["node"]))

    def _release(self, line: Line, word: str, words: list[str]) -> None:
        if word == "ok":
            self._free(line)

    def _fire(self, line: Line, word: str, words: list[str]) -> None:
        if word == "refused" and words[0] == "15":
            self._free(line)

    def _complete(self, line: Line, word: str, words: list[str]) -> None:
        if word == "completed" or word == "refused" and words[0] == "15":
            self._free(line)

    def _recover(self, line: Line, word: str, words: list[str]) -> None:
        if word == "recovered":
            self._drop(str(line["failed"]))

    def _forget(self, line: Line, word: str, words: list[str]) -> None:
        if word == "ok" or word == "refused" and words[0] == "23":
            self.intervals.pop(str(line["failed"]), None)

    def _threshold(self, line: Line, word: str, words: list[str]) -> None:
        if word == "ok":
            self.threshold = int(line["ms"])  # type: ignore[call-overload]

    def _restart(self, line: Line, word: str, words: list[str]) -> None:
        self.held.clear()

    _LEARNERS = {"check_in": _check_in, "join": _join, "resume": _resume, "leave": _leave, "stop": _stop, "acquire": _acquire, "release": _release,
                 "fire": _fire, "complete": _complete, "recover": _recover, "forget": _forget, "threshold": _threshold, "restart": _restart}

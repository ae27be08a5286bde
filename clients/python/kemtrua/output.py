"""What an execution writes, in the node's log: its beginning as it comes, and its end."""
from __future__ import annotations

from collections import deque
from collections.abc import Callable

LINE = 4096  # bytes of output that are logged as one line at most
OF_A_LINE = 64  # bytes that a line costs beside its own: what stands before it in the log


class Output:
    """Logs the first half of so many bytes line by line, and keeps what comes then. At the end it logs the last half, if more came.

    Each line costs its bytes and some more, so that empty lines fill no log.
    """

    def __init__(self, say: Callable[[str], None], budget: int):
        self._say = say
        self._left = budget - budget // 2
        self._half = budget // 2
        self._room = max(self._half, LINE + OF_A_LINE) if budget else 0  # (the last line is always shown)
        self._begun = b""  # a line that hasn't ended
        self._tail: deque[bytes] = deque()
        self._kept = self._dropped = 0

    def feed(self, data: bytes) -> None:
        if self._left > 0:
            data = self._head(self._begun + data)
        if data and self._left <= 0:
            self._keep(data)

    def end(self) -> None:
        if self._begun and self._left > 0:
            self._line(self._begun)
        self._begun = b""
        kept = b"".join(self._tail)
        lines = list(_lines_of(kept))
        cost, first = 0, len(lines)
        while first > 0 and cost + len(lines[first - 1]) + OF_A_LINE <= self._room:
            first -= 1
            cost += len(lines[first]) + OF_A_LINE
        dropped = self._dropped + sum(map(len, lines[:first]))
        if dropped:
            self._say(f".. {dropped} further bytes of output were dropped here")
        for line in lines[first:]:
            self._line(line)
        self._tail.clear()

    def _head(self, data: bytes) -> bytes:
        """Logs whole lines as long as there is room, and gives what is left."""
        at = 0
        for line in _lines_of(data):
            if not line.endswith(b"\n") and len(line) < LINE:
                break
            if self._left <= 0:
                break
            self._line(line)
            self._left -= len(line) + OF_A_LINE
            at += len(line)
        rest = data[at:]
        self._begun = rest if self._left > 0 else b""
        return rest

    def _keep(self, data: bytes) -> None:
        self._tail.append(data)
        self._kept += len(data)
        while self._kept - len(self._tail[0]) >= max(self._half, LINE):
            self._dropped += len(self._tail[0])
            self._kept -= len(self._tail.popleft())

    def _line(self, line: bytes) -> None:
        self._say(line.rstrip(b"\n").decode(errors="backslashreplace"))


def _lines_of(data: bytes) -> list[bytes]:
    """The lines with their line feeds, none longer than LINE."""
    parts = data.split(b"\n")
    whole = [part + b"\n" for part in parts[:-1]] + ([parts[-1]] if parts[-1] else [])
    return [line[at : at + LINE] for line in whole for at in range(0, len(line), LINE)]

"""What the program has added to its two files since they were looked at last."""
from __future__ import annotations

import os

from ..journal import HEADER, OPEN
from ..program import STORE_FILES
from .layout import LARGEST, STATES, TRIGGERS, Write

GATE = 5  # bytes of an open gate and a length
AT_ONCE = 16  # reads of a file, each of half a block at most
CLOSED = b"\0"


class Tail:
    """Only payloads behind open gates are given, with a closed gate at their end: so what was given is a whole file at each moment.

    Of both files the triggers' is read first and given last, as the program writes it last: where it has a transaction, the other one has
    what goes with it. A header that has changed comes after all that it leads to.
    """

    def __init__(self, stores: str, ends: tuple[int, int] = (HEADER, HEADER), headers: tuple[bytes, bytes] = (b"", b"")):
        self._files = [open(os.path.join(stores, name), "rb") for name in STORE_FILES]
        self.ends, self.headers = list(ends), list(headers)

    def close(self) -> None:
        for file in self._files:
            file.close()

    def read(self) -> tuple[list[list[Write]], bool]:
        """What is new, in lists of at most so many bytes as a block may have, and whether that is all. What isn't taken comes again."""
        headers = self._headers()
        triggers, has_triggers = self._new(TRIGGERS)
        states, has_states = self._new(STATES)
        is_all = has_triggers and has_states
        # (a header that changes at this moment comes the next time)
        again = self._headers()
        changed = [Write(file, 0, headers[file]) for file in (STATES, TRIGGERS) if self.headers[file] != headers[file] == again[file]]
        parts: list[list[Write]] = []
        size = LARGEST
        for write in [*states, *triggers, *(changed if is_all else ())]:
            if size + len(write.data) > LARGEST:
                parts.append([])
                size = 0
            parts[-1].append(write)
            size += len(write.data)
        return parts, is_all

    def _headers(self) -> list[bytes]:
        return [os.pread(file.fileno(), HEADER, 0) for file in self._files]

    def took(self, writes: list[Write]) -> None:
        """These needn't come again."""
        for write in writes:
            if write.offset == 0:
                self.headers[write.file] = write.data
            else:
                self.ends[write.file] = write.offset + len(write.data) - len(CLOSED)

    def _new(self, file: int) -> tuple[list[Write], bool]:
        """The writes of what stands behind the last known gate, and whether there is no more."""
        at, writes = self.ends[file], []
        if not self.headers[file]:
            writes.append(Write(file, at, CLOSED))  # (of an empty store nothing else would tell where it ends)
        for _ in range(AT_ONCE):
            data = os.pread(self._files[file].fileno(), LARGEST // 2, at)
            length = whole_in(data)
            if not length:
                return writes, True
            writes.append(Write(file, at, data[:length] + CLOSED))
            at += length
        return writes, False


def whole_in(data: bytes) -> int:
    """How many of these bytes, which begin at a gate, are open gates with their whole payloads."""
    at = 0
    while at + GATE <= len(data) and data[at] == OPEN:
        end = at + GATE + int.from_bytes(data[at + 1 : at + GATE], "big")
        if end > len(data):
            break
        at = end
    return at

"""What is known of an execution on its node, beside its code: how its command ended, what it used, and the end of its output."""
from __future__ import annotations

import threading

KEPT = 65536  # bytes of output


class Tail:
    """The last bytes of an execution's output. Safe for threads."""

    def __init__(self) -> None:
        self._lock = threading.Lock()
        self._kept = bytearray()
        self._end = 0  # bytes that were written

    def feed(self, data: bytes) -> None:
        with self._lock:
            self._end += len(data)
            self._kept += data[-KEPT:]
            if len(self._kept) > 2 * KEPT:
                del self._kept[:-KEPT]

    def behind(self, offset: int) -> tuple[int, bytes]:
        """What is kept of what was written behind an offset, and at which one that begins."""
        with self._lock:
            kept = bytes(self._kept[-KEPT:])
            begin = max(min(offset, self._end), self._end - len(kept))
            return begin, kept[len(kept) - (self._end - begin) :]


class Record:
    """Written by the thread of the execution. `ok` says whether it ended as its class expects; None while it runs."""

    def __init__(self) -> None:
        self.tail = Tail()
        self.ok: bool | None = None
        self.status: int | None = None
        self.signal: int | None = None
        self.ms: int | None = None  # from its beginning to its end
        self.cpu: int | None = None  # ms of processor time
        self.peak: int | None = None  # KiB of the largest process
        self.why: str | None = None
        self.most: int | None = None  # ms that its class lets it take

    def begin(self) -> None:
        """It is executed, maybe once more: what it wrote before stays."""
        self.ok = self.status = self.signal = self.ms = self.cpu = self.peak = self.why = None

    def ended(self, status: int) -> None:
        """The status as a shell gives it."""
        self.status, self.signal = (None, status - 128) if status > 128 else (status, None)

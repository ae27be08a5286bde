"""A connection: what it sends is cut into lines, and what is answered goes back in order, within bounds."""
from __future__ import annotations

import asyncio
import socket
import struct
from collections import deque
from collections.abc import Callable
from typing import Protocol

from ..address import keep_alive
from ..checking import LINE_LIMIT
from .asking import Turn
from .rights import Door, Identity

OUTSTANDING = 32  # lines of one connection that aren't answered yet; then it is read no further
AT_ONCE = 1 << 16  # bytes of lines of one connection that are looked at before others have their turn
OF_A_LINE = 64  # that each counts beside its own, so that empty ones end, too
BUFFERED = 1 << 18  # bytes of answers that wait for their reader; then the connection is read no further


class Slot:
    """The place of an answer among those of its connection."""

    __slots__ = ("answer",)

    def __init__(self) -> None:
        self.answer: bytes | None = None


class Host(Protocol):
    """Who is told what a connection does."""

    def met(self, visitor: Visitor) -> bool:
        """A connection is there. Whether it may stay."""

    def said(self, visitor: Visitor, data: bytes) -> None:
        """It said a line."""

    def gone(self, visitor: Visitor) -> None:
        """It broke, or was closed."""


class Visitor(asyncio.Protocol):
    """One connection, the node that it speaks for, and what it knows of the next time."""

    def __init__(self, host: Host, door: Door, sock: socket.socket):
        self._host, self.door, self._socket = host, door, sock
        self._transport: asyncio.Transport | None = None
        self._buffer = b""
        self._lines: deque[bytes] = deque()
        self._slots: deque[Slot] = deque()
        self._ready: list[bytes] = []
        self._is_full = self._reads_no_more = False
        self.is_busy = False  # a line is looked at after which the next one depends on its answer
        self.turn = Turn()
        self.who = Identity(door, "")
        self.ends: float | None = None  # when its certificate does, in seconds since 1970
        self.certificate: dict[str, object] = {}
        self.node: str | None = None
        self.speaks_for: str | None = None  # for whom an operator's connection says what it says, as the page in the browser does
        self.watches = self.asleep = False
        self.takes_turns, self.ahead = False, 0
        self.next_known: int | None = None
        self.acquiring = 0  # entries that lines ask for which aren't answered
        self._when_alone: Callable[[], None] | None = None

    def __str__(self) -> str:
        return f"{self.node} ({self.who})" if self.node else str(self.who)

    def in_full(self) -> str:
        """Who it is, as it is kept beside what it said."""
        return self.who.in_full() if self.speaks_for is None else f"certificate {self.speaks_for}, through {self.who.in_full()}"

    @property
    def outstanding(self) -> int:
        return len(self._slots)

    @property
    def is_gone(self) -> bool:
        return self._transport is None or self._transport.is_closing()

    # -- what asyncio calls

    def connection_made(self, transport: asyncio.BaseTransport) -> None:
        assert isinstance(transport, asyncio.Transport)
        self._transport = transport
        transport.set_write_buffer_limits(high=BUFFERED)
        certificate = transport.get_extra_info("peercert")
        if certificate:
            self.certificate = certificate
        keep_alive(self._socket)
        if not self._host.met(self):
            transport.abort()

    def data_received(self, data: bytes) -> None:
        *lines, self._buffer = (self._buffer + data).split(b"\n") if self._buffer else data.split(b"\n")
        self._lines.extend(lines)
        if len(self._buffer) > LINE_LIMIT:
            self._buffer = b""
            self._lines.append(b" " * (LINE_LIMIT + 1))  # (it is answered as what it is, and then the connection closes)
        self.pump()

    def eof_received(self) -> bool:
        self._reads_no_more = True
        self._close_when_done()
        return self.door is not Door.TLS  # (what was asked is answered first; a line without its line feed is no line. TLS has no half of an end)

    def pause_writing(self) -> None:
        self._is_full = True
        self._see_to_reading()

    def resume_writing(self) -> None:
        self._is_full = False
        self.pump()

    def connection_lost(self, error: Exception | None) -> None:
        self._lines.clear()
        self._host.gone(self)

    # -- lines in, answers out

    def pump(self) -> None:
        """Has the lines looked at that came, as far as the bounds let it."""
        looked = 0
        while self._lines and not self.is_busy and not self._is_full and len(self._slots) < OUTSTANDING and not self.is_gone:
            if looked > AT_ONCE:
                asyncio.get_running_loop().call_soon(self.pump)
                break
            line = self._lines.popleft()
            looked += len(line) + OF_A_LINE
            if len(line) > LINE_LIMIT:
                self.answer(self.slot(), f"hub bad-line the line has more than {LINE_LIMIT} bytes; this connection is closed")
                self._lines.clear()
                self._reads_no_more = True
                self._close_when_done()
            elif line.strip(b" \t\r"):
                self._host.said(self, line)
        self.flush()
        self._see_to_reading()

    def slot(self) -> Slot:
        slot = Slot()
        self._slots.append(slot)
        return slot

    def alone(self, call: Callable[[], None]) -> None:
        """Calls this once all lines before the last one are answered. No further line is looked at until then."""
        if len(self._slots) == 1:
            call()
        else:
            self.is_busy, self._when_alone = True, call

    def answer(self, slot: Slot, text: str | bytes) -> None:
        """Gives an answer, which goes out once all before it did."""
        slot.answer = (text.encode() if isinstance(text, str) else text) + b"\n"
        while self._slots and (data := self._slots[0].answer) is not None:
            self._ready.append(data)
            self._slots.popleft()
        if self._when_alone is not None and len(self._slots) == 1:
            call, self._when_alone, self.is_busy = self._when_alone, None, False
            call()

    def wake(self, time: int) -> None:
        """Says that something is due then, where that is sooner than the connection knows."""
        if self.watches and self.asleep and (self.next_known is None or time < self.next_known):
            self.asleep = False
            self._ready.append(b"wake\n")
            self.flush()

    def give_turn(self, moment: int, is_late: bool) -> None:
        """Says that it is the connection's turn to acquire what is due then."""
        self._ready.append(b"wake %d%s\n" % (moment, b" late" if is_late else b""))
        self.flush()

    def flush(self) -> None:
        """Sends what is ready, and reads on."""
        if self._ready and self._transport is not None and not self._transport.is_closing():
            self._transport.write(b"".join(self._ready))
        self._ready.clear()
        self._close_when_done()

    @property
    def has_ready(self) -> bool:
        return bool(self._ready)

    def close(self) -> None:
        if self._transport is not None:
            self._transport.close()

    def abort(self) -> None:
        """Closes it at once, whatever waits for its reader."""
        if self._transport is not None:
            self._transport.abort()

    def _close_when_done(self) -> None:
        if self._reads_no_more and not self._slots and not self._lines and not self._ready and not self.is_busy:
            self.close()

    def _see_to_reading(self) -> None:
        if self._transport is None or self._transport.is_closing():
            return
        wants = not self._is_full and len(self._lines) < OUTSTANDING and len(self._slots) < OUTSTANDING
        if wants and not self._transport.is_reading() and not self._reads_no_more:
            self._transport.resume_reading()
        elif not wants and self._transport.is_reading():
            self._transport.pause_reading()

    def peer_user(self) -> str:
        """The number of the user at the other side of a Unix socket."""
        size = struct.calcsize("3i")
        return str(struct.unpack("3i", self._socket.getsockopt(socket.SOL_SOCKET, socket.SO_PEERCRED, size))[1])

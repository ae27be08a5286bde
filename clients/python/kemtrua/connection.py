"""A connection to a hub."""
from __future__ import annotations

import asyncio
import json
import ssl
import threading
from collections import deque
from collections.abc import Callable
from concurrent import futures

from . import __version__
from .address import Address, Tls, keep_alive
from .checking import LINE_LIMIT, Line, bytes_of, check_line
from .errors import BadReply, BadSettings, HubRefused, KemtruaError, NotTrusted, Unanswered, Unreachable
from .names import unescape
from .replies import read
from .scheduler import Scheduler
from .team import Team
from .waking import Turn

CONNECT_WITHIN = 5.0  # seconds
ANSWER_WITHIN = 20.0  # seconds for a line, if nothing else is said
LIST_WITHIN = 300.0  # seconds for a list
COMPACT_WITHIN = 600.0  # seconds for a compaction
PROTOCOL = 1  # of the hub's own lines
OWN_ANSWERS = ("members", "held", "list", "clock", "hello", "ok", "rows", "stored", "vacuumed", "where", "compacted")
LONGEST_REPLY = 16 * LINE_LIMIT  # bytes

Answered = futures.Future[list[str]]


class Connection(Scheduler):
    """Asks a hub. Safe for threads. A connection that broke stays so: each further question raises Unreachable.

    A hub that doesn't answer within so many seconds counts as gone: the connection breaks, since nobody could tell later which reply
    belongs to which line.
    """

    def __init__(self, address: Address, tls: Tls | None = None, answer_within: float = ANSWER_WITHIN):
        self.address, self.answer_within = address, answer_within
        if not address.path and tls is None:
            raise BadSettings(f"{address} wants TLS: name a certificate, a key and an authority")
        self._context = tls.context(server=False) if tls and not address.path else None
        self._waiting: deque[tuple[Answered, list[str]]] = deque()
        self._watchers: list[Callable[[], None]] = []
        self._given: Callable[[Turn], None] = lambda turn: None
        self._why: Unreachable | None = None
        self._heard = False
        self._writer: asyncio.StreamWriter | None = None
        try:
            self._loop = asyncio.new_event_loop()
            self._thread = threading.Thread(target=self._run, name="hub", daemon=True)
            self._thread.start()
        except (OSError, RuntimeError) as error:  # (no descriptor, or no thread)
            raise Unreachable(f"no connection to {address} can be made: {error}") from None
        self._open()

    def __enter__(self) -> Connection:
        return self

    def __exit__(self, *_: object) -> None:
        self.close()

    @property
    def is_broken(self) -> bool:  # type: ignore[override]
        return self._why is not None

    def answer(self, line: Line) -> str:
        return self._ask(check_line(line), self.answer_within)[0]

    def peers(self) -> list[str]:
        return [unescape(word) for word in self._own({"do": "members"})[0].split()[1:]]

    def entries_of(self, node: str) -> list[int]:
        return [int(word) for word in self._own({"do": "held", "node": node})[0].split()[1:]]

    def listed(self) -> list[str]:
        """The lines of `list`."""
        return self._own({"do": "list"}, LIST_WITHIN)[1:]

    def rows(self, do: str, **members: object) -> list[dict[str, object]]:
        """The objects that a line about what ran is answered with."""
        return [json.loads(line) for line in self._own({"do": do, **members}, LIST_WITHIN)[1:]]

    def stored(self, do: str, **members: object) -> int:
        """How many of the reports of a line, or whether its piece of output, the hub has on its disk now."""
        return int(self._own({"do": do, **members})[0].split()[1])

    def load(self, node: str, workers: int, runs: int, skew: int) -> None:
        """Says how much a node can take, how much it runs, and by how many ms its clock is ahead of the hub's."""
        self._own({"do": "load", "node": node, "workers": workers, "runs": runs, "skew": skew})

    def vacuum(self) -> tuple[int, int]:
        """Has the hub delete what is too old of its history. Gives the bytes before and after."""
        before, after = self._own({"do": "vacuum"}, LIST_WITHIN)[0].split()[1:3]
        return int(before), int(after)

    def clock(self) -> int:
        return self._clock({"do": "clock"})

    def accept_clock(self) -> int:
        """Has the hub go on by its clock as it is, and gives what that shows."""
        return self._clock({"do": "clock", "accept": True})

    def hello(self) -> str:
        """The version of the hub. Raises HubRefused where it or this client is too old for the other."""
        return self._hello()[2]

    def team(self) -> Team | None:
        try:
            words = self._hello()
        except HubRefused as refused:
            if refused.word not in ("bad-line", "not-here"):
                raise
            return None  # (a hub of before, which says no hello, or has none of these members)
        return Team(words[3], int(words[4])) if len(words) >= 5 else None

    def speak_for(self, name: str) -> None:
        """Has the hub keep what this connection says as said for this one, and through it. That is for operators."""
        self._own({"do": "for", "name": name})

    def where(self) -> str:
        """The hub's folder, on its machine."""
        return unescape(self._own({"do": "where"})[0].split()[1])

    def compact(self) -> tuple[int, int, int]:
        """Has the hub compact its stores. Gives the bytes before and after, and the ms in which nothing was answered."""
        before, after, pause = self._own({"do": "compact"}, COMPACT_WITHIN)[0].split()[1:4]
        return int(before), int(after), int(pause)

    def answer_raw(self, data: bytes) -> str:
        """The reply to bytes that may be no line."""
        return self._ask(data + b"\n", self.answer_within)[0]

    def watch(self, call: Callable[[], None]) -> None:
        self._watchers.append(call)
        self._own({"do": "watch"})

    def watch_in_turn(self, call: Callable[[], None], given: Callable[[Turn], None], ahead: int) -> bool:
        self._watchers.append(call)
        self._given = given
        try:
            self._own({"do": "watch", "ahead": ahead})
            return True
        except HubRefused as refused:
            if refused.word != "bad-line":
                raise
            self._own({"do": "watch"})  # (a hub of before)
            return False

    def cut(self) -> None:
        self._in_loop(lambda: self._break(Unreachable(f"the connection to {self.address} was given up")))

    def close(self) -> None:
        self._in_loop(lambda: self._break(Unreachable(f"the connection to {self.address} was closed")))
        self._in_loop(self._loop.stop)
        if threading.current_thread() is not self._thread:
            self._thread.join()

    def _hello(self) -> list[str]:
        return self._own({"do": "hello", "protocol": PROTOCOL, "version": __version__})[0].split()

    # -- the questions, in the threads of those who ask

    def _own(self, line: Line, within: float | None = None) -> list[str]:
        """The reply to a line of the hub's own. Raises HubRefused."""
        said = self._ask(bytes_of(line), within or self.answer_within)
        if said[0].split(" ", 1)[0] not in OWN_ANSWERS:
            read(said[0])
            raise BadReply(f"{said[0][:200]!r} was answered to {line['do']}")
        return said

    def _clock(self, line: Line) -> int:
        return int(self._own(line)[0].split()[1])

    def _ask(self, data: bytes, within: float) -> list[str]:
        answered: Answered = futures.Future()
        if not self._in_loop(lambda: self._send(data, answered)):
            raise self._why or Unreachable(f"the connection to {self.address} is closed")
        try:
            return answered.result(within)
        except futures.TimeoutError:
            why = f"no answer from the hub at {self.address} within {within:g} seconds"
            self._in_loop(lambda: self._break(Unreachable(why)))
            raise Unanswered(why) from None

    def _in_loop(self, call: Callable[[], None]) -> bool:
        """Has the connection's own thread do this. False where that has ended."""
        try:
            self._loop.call_soon_threadsafe(call)
        except RuntimeError:
            return False
        return self._thread.is_alive()

    def _open(self) -> None:
        opened = asyncio.run_coroutine_threadsafe(self._connect(), self._loop)
        try:
            opened.result(CONNECT_WITHIN + 5)
        except BaseException as error:
            opened.cancel()
            self.close()
            if isinstance(error, (KemtruaError, KeyboardInterrupt)):
                raise
            raise Unreachable(f"no connection to {self.address} can be made: {error or type(error).__name__}") from None

    # -- in the connection's own thread

    def _run(self) -> None:
        try:
            self._loop.run_forever()
            left = asyncio.all_tasks(self._loop)
            for task in left:
                task.cancel()
            if left:
                self._loop.run_until_complete(asyncio.wait(left))
        finally:
            self._loop.close()
            self._break(Unreachable(f"the connection to {self.address} is closed"))

    async def _connect(self) -> None:
        try:
            if self.address.path:
                opening = asyncio.open_unix_connection(self.address.path, limit=LONGEST_REPLY)
            else:
                opening = asyncio.open_connection(self.address.host, self.address.port, ssl=self._context, limit=LONGEST_REPLY)
            reader, writer = await asyncio.wait_for(opening, CONNECT_WITHIN)
        except ssl.SSLCertVerificationError as error:
            raise NotTrusted(f"the certificate of the hub at {self.address} isn't trusted: {error.verify_message}") from None
        except ssl.SSLError as error:
            raise NotTrusted(f"no TLS with {self.address}: {error.reason or error}") from None
        except TimeoutError:
            raise Unreachable(f"no answer from {self.address} within {CONNECT_WITHIN:.0f} seconds") from None
        except OSError as error:
            raise Unreachable(f"no hub answers at {self.address}: {error.strerror or error}") from None
        self._writer = writer
        self._reading = self._loop.create_task(self._read(reader))
        keep_alive(writer.get_extra_info("socket"))

    def _send(self, data: bytes, answered: Answered) -> None:
        if self._why is not None or self._writer is None:
            answered.set_exception(self._why or Unreachable(f"the connection to {self.address} isn't open"))
            return
        self._waiting.append((answered, []))
        self._writer.write(data)

    async def _read(self, reader: asyncio.StreamReader) -> None:
        why = "the hub closed it"
        try:
            while data := await reader.readuntil(b"\n"):
                await self._take(data[:-1].decode(), reader)
        except asyncio.IncompleteReadError:
            pass
        except asyncio.LimitOverrunError:
            why = f"a reply has more than {LONGEST_REPLY} bytes"
        except (OSError, ValueError, IndexError) as error:
            why = getattr(error, "reason", None) or getattr(error, "strerror", None) or str(error)
        if self._context is not None and not self._heard:
            # (a TLS 1.3 server refuses a certificate only once the client has begun to talk)
            self._break(NotTrusted(f"{self.address} broke the connection before it answered ({why}): it doesn't trust this side's certificate, or it ended"))
        else:
            self._break(Unreachable(f"the connection to {self.address} broke: {why}"))

    async def _take(self, reply: str, reader: asyncio.StreamReader) -> None:
        self._heard = True
        if reply == "wake":
            for watcher in self._watchers:
                watcher()
            return
        if reply.startswith("wake "):
            self._given(Turn.of_words(reply.split()))
            return
        answered, more = self._waiting[0]
        if reply.startswith(("list ", "rows ")):
            for _ in range(int(reply.split()[1])):
                more.append((await reader.readuntil(b"\n"))[:-1].decode())
        self._waiting.popleft()  # (not before all of it is there: where the connection breaks in its midst, whoever asked hears of that)
        if not answered.done():
            answered.set_result([reply, *more])

    def _break(self, why: Unreachable) -> None:
        if self._why is None:
            self._why = why
            for watcher in self._watchers:
                watcher()
        while self._waiting:
            answered, _ = self._waiting.popleft()
            if not answered.done():
                answered.set_exception(self._why if isinstance(self._why, NotTrusted) else Unanswered(str(self._why)))
        if self._writer is not None and not self._writer.transport.is_closing():
            self._writer.transport.abort()

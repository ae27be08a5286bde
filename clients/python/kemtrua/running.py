"""One execution of a command, seen from the node: its keeper, its data, its output and its time-out, in one thread."""
from __future__ import annotations

import errno
import json
import logging
import os
import select
import signal
import socket
import subprocess
import sys
import time
from collections.abc import Mapping, Sequence
from dataclasses import dataclass

from . import keeper, logs
from .errors import KemtruaError, NotBegun
from .guard import VARIABLE, with_token
from .jobs import Context
from .output import Output

log = logs.logger("kemtrua.job")

GRACE = 10.0  # seconds from SIGTERM to SIGKILL
READY_WITHIN = 30.0  # seconds that a keeper has for its start, on a machine under load
LOOKS, BETWEEN = 10, 0.05  # so many looks in a row, so many seconds apart, that find nothing, where a keeper was killed
# What says of a command itself that it isn't there or can't be run. Every other error may pass.
NOT_THERE = (errno.ENOENT, errno.ENOTDIR, errno.ELOOP, errno.ENAMETOOLONG)
NOT_RUN = (errno.EACCES, errno.EPERM, errno.ENOEXEC, errno.EISDIR, errno.E2BIG, errno.EINVAL)


class NotThere(KemtruaError):
    """The command isn't there, or can't be run. `status` is what a shell says of it."""

    def __init__(self, status: int, text: str):
        super().__init__(text)
        self.status = status


@dataclass(frozen=True)
class Order:
    """What is to be run: with a time-out in seconds, and so many bytes of its output logged."""

    words: Sequence[str]
    directory: str
    environment: Mapping[str, str]
    timeout: float | None
    output: int

    def line(self) -> bytes:
        return json.dumps({"words": list(self.words), "directory": self.directory, "environment": dict(self.environment)}).encode() + b"\n"


def groups() -> str:
    """The folder of this process's own control group, where groups below it can be made; else the empty text."""
    try:
        with open("/proc/self/cgroup") as file:
            own = next(line.rstrip("\n")[3:] for line in file if line.startswith("0::"))
        with open("/proc/self/mountinfo") as file:
            mounted = next(fields[4] for fields in map(str.split, file) if "cgroup2" in fields[fields.index("-") + 1 :])
    except (OSError, StopIteration):
        return ""
    folder = os.path.join(mounted, own.lstrip("/"))
    return folder if os.access(folder, os.W_OK) and os.path.exists(f"{folder}/cgroup.procs") else ""


class Place:
    """A keeper that was started and waits for a command, with the pipes of its data and output. Whoever has one can begin an execution."""

    def __init__(self) -> None:
        """Raises NotBegun where the machine has no room for it. It doesn't wait until the keeper is ready."""
        opened: list[int] = []
        try:
            self.control, theirs = socket.socketpair()
            opened += [theirs.detach()]
            data, self.data = os.pipe()
            opened += [data]
            self.out, out = os.pipe()
            opened += [out]
            words = [sys.executable, "-I", "-S", os.path.abspath(keeper.__file__), str(opened[0]), str(GRACE), groups()]
            self.process = subprocess.Popen(words, stdin=data, stdout=out, stderr=out, pass_fds=opened[:1], start_new_session=True)
        except (OSError, MemoryError) as error:
            self.close()
            raise NotBegun(f"no execution can begin: {error.strerror if isinstance(error, OSError) else 'no memory'}") from None
        finally:
            for descriptor in opened:
                os.close(descriptor)
        self.heard, self.is_ready = b"", False
        self.control.settimeout(READY_WITHIN)

    def wait(self) -> None:
        """Waits until the keeper is ready. Raises NotBegun where it ended before, or takes too long."""
        try:
            self.is_ready = self.is_ready or self.read_line() == b"ready"
            if self.is_ready:
                return
        except OSError:
            pass
        said = os.read(self.out, 4096).decode(errors="replace") if select.select([self.out], [], [], 0)[0] else ""
        self.close()
        raise NotBegun(f"the keeper of an execution didn't begin {said[-300:]}")

    def read_line(self) -> bytes:
        """The next line that the keeper says; nothing where it is gone."""
        while b"\n" not in self.heard:
            more = self.control.recv(4096)
            if not more:
                return b""
            self.heard += more
        line, _, self.heard = self.heard.partition(b"\n")
        return line

    def close(self) -> None:
        """Ends the keeper, and what it still has. May be called twice."""
        for name in ("data", "out"):
            self.close_one(name)
        if hasattr(self, "control"):
            self.control.close()
        if hasattr(self, "process"):
            try:
                self.process.wait(GRACE)
            except subprocess.TimeoutExpired:
                log.error("the keeper %d doesn't end", self.process.pid)

    def close_one(self, name: str) -> None:
        descriptor = self.__dict__.pop(name, None)
        if descriptor is not None:
            os.close(descriptor)


class Run:
    """One command in its place, from its start until nothing of it is left."""

    def __init__(self, place: Place, context: Context, order: Order):
        self._place, self._context, self._order = place, context, order
        self._output = Output(lambda text: self._say(logging.INFO, f"| {text}"), order.output)
        self._status: int | None = None
        self._over = self._ending = False

    def to_the_end(self) -> int:
        """Its exit status, as a shell gives it: 128 and the signal's number where a signal ended it. Raises NotBegun or NotThere."""
        place = self._place
        place.wait()
        try:
            place.control.settimeout(None)
            place.control.sendall(self._order.line())
            self._take(place.read_line())
            self._until_it_is_over()
        except OSError as error:
            log.error("entry %d: its keeper: %s", self._context.entry, error)
        finally:
            self._output.end()
            place.close()
        if not self._over:
            self._end_without_keeper()
        status = -signal.SIGKILL if self._status is None else self._status
        return status if status >= 0 else 128 - status

    def _say(self, level: int, text: str) -> None:
        log.log(level, "entry %d %s%s%s", self._context.entry, self._context.job, " " if text.startswith("|") else ": ", text)

    def _take(self, said: bytes) -> None:
        """What the keeper says."""
        word, *rest = said.decode().split() or [""]
        if word == "failed":
            self._over = True
            raise self._failed(rest[0], int(rest[1]))
        if word == "ended":
            self._status = int(rest[0])
        elif word == "stuck":
            self._say(logging.ERROR, f"the processes {' '.join(rest) or 'of its control group'} can't be ended; it stays open at the store until they are")
        elif word == "empty":
            self._over = True
            if len(rest) == 2:
                self._context.record.cpu, self._context.record.peak = map(int, rest)

    def _failed(self, what: str, number: int) -> KemtruaError:
        text = os.strerror(number)
        if what == "command" and number in (*NOT_THERE, *NOT_RUN):
            return NotThere(127 if number in NOT_THERE else 126, f"{self._order.words[0]} can't be run: {text}")
        return NotBegun(f"{self._order.directory if what == 'directory' else 'a new process' if what == 'process' else self._order.words[0]}: {text}")

    def _until_it_is_over(self) -> None:
        place, data = self._place, self._context.data.encode()
        self._context.stop.call(lambda: self._end("it is to end"))
        poll = select.poll()
        poll.register(place.control, select.POLLIN)
        poll.register(place.out, select.POLLIN)
        os.set_blocking(place.data, False)
        poll.register(place.data, select.POLLOUT)
        begun = time.monotonic()
        while b"\n" in place.heard:
            self._take(place.read_line())
        while not self._over:
            left = None if self._order.timeout is None or self._ending else begun + self._order.timeout - time.monotonic()
            if left is not None and left <= 0:
                self._end(f"it ran for {self._order.timeout:g} seconds")
                continue
            for descriptor, _ in poll.poll(None if left is None else left * 1000):
                if descriptor == place.out:
                    self._read(poll)
                elif descriptor == place.control.fileno():
                    if not self._hear():
                        return
                else:
                    data = self._give(poll, data)
        self._read_the_rest()

    def _give(self, poll: select.poll, data: bytes) -> bytes:
        """Writes of the data what there is room for, and gives what is left of it."""
        try:
            data = data[os.write(self._place.data, data) :] if data else b""
        except BlockingIOError:
            return data
        except OSError:
            data = b""  # (a command needn't read it)
        if not data:
            poll.unregister(self._place.data)
            self._place.close_one("data")
        return data

    def _read(self, poll: select.poll) -> None:
        data = os.read(self._place.out, 65536)
        self._feed(data)
        if not data:
            poll.unregister(self._place.out)

    def _feed(self, data: bytes) -> None:
        self._output.feed(data)
        self._context.record.tail.feed(data)

    def _read_the_rest(self) -> None:
        """What the execution wrote before its end, and nothing of what somebody else may write who has its pipe."""
        os.set_blocking(self._place.out, False)
        try:
            while data := os.read(self._place.out, 65536):
                self._feed(data)
        except BlockingIOError:
            pass

    def _hear(self) -> bool:
        """Takes what the keeper says. False where it is gone."""
        while True:
            line = self._place.read_line()
            if not line:
                return False
            self._take(line)
            if b"\n" not in self._place.heard:
                return True

    def _end(self, why: str) -> None:
        """Has the command end. It is called by any thread."""
        if not self._over and not self._ending:
            self._ending = True
            self._context.record.why = why
            self._say(logging.WARNING, f"{why}: SIGTERM, and SIGKILL in {GRACE:g} seconds")
            try:
                self._place.control.sendall(b"end\n")
            except OSError:
                pass  # (it has just ended)

    def _end_without_keeper(self) -> None:
        """Somebody killed the keeper: what is in its control group, or has the marks of this execution in its environment, is killed."""
        self._say(logging.ERROR, "its keeper was killed; what is left of it is killed, too")
        group = keeper.Group.of(groups(), self._place.process.pid)
        while not group.is_empty():
            group.kill()
            time.sleep(BETWEEN)
        group.remove()
        token = self._order.environment.get(VARIABLE)
        empty = 0 if token else LOOKS
        while empty < LOOKS:
            found = with_token(token or "", f"KEMTRUA_ENTRY={self._context.entry}")
            keeper.send(found, signal.SIGKILL)
            empty = 0 if found else empty + 1
            time.sleep(BETWEEN)

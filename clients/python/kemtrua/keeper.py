"""Keeps one execution: starts its command, and sees to it that nothing of it is left when it has ended.

A node starts a keeper for each execution, as a process of its own, and talks with it over a socket. The keeper is a subreaper: a
process that the command started and left behind, by a second fork or in a session of its own, becomes the keeper's child. So the
keeper knows of each, and the execution is over when it has no child any more. Where it is given a folder of control groups (cgroup
v2), the command has one of its own, too, which is killed and emptied.

The node sends one line of JSON with the command, and `end` where it is to end. The keeper says `ready`, `failed WHAT ERRNO` or
`begun`, then `ended STATUS` for the command itself, `stuck PID ..` where something can't be ended, and at last `empty CPU PEAK`: the ms
of processor time and the KiB of the largest process. Where the node dies, the socket ends, and the keeper kills all at once.
"""
from __future__ import annotations

import ctypes
import json
import os
import select
import signal
import socket
import sys
import time
from typing import Any

SET_CHILD_SUBREAPER = 36  # of prctl
LEFT = (signal.SIGTERM, signal.SIGINT, signal.SIGHUP)  # what ends the node in good order isn't for its keepers
LOOK_AGAIN = (0.02, 1.0)  # seconds between two looks while processes are killed: at first, and at most
STUCK_AFTER, SAY_AGAIN = 5.0, 60.0  # seconds of killing without an end; then it is said, and again each minute
PASSES = 20  # looks for new processes before they are killed, since a process may fork while it is looked for


def become_subreaper() -> None:
    libc = ctypes.CDLL(None, use_errno=True)
    if libc.prctl(SET_CHILD_SUBREAPER, 1, 0, 0, 0):
        raise OSError(ctypes.get_errno(), "prctl")


def descendants() -> list[int]:
    """The processes below this one, as far as /proc shows them."""
    children: dict[int, list[int]] = {}
    for name in os.listdir("/proc"):
        if name.isdigit():
            try:
                with open(f"/proc/{name}/stat", "rb") as file:
                    state, parent = file.read().rpartition(b")")[2].split()[:2]
            except (OSError, ValueError):
                continue  # (it has just ended)
            if state not in b"ZX":
                children.setdefault(int(parent), []).append(int(name))
    found, look = [], [os.getpid()]
    while look:
        below = children.get(look.pop(), [])
        found += below
        look += below
    return found


def send(processes: list[int], number: int) -> None:
    for process in processes:
        try:
            os.kill(process, number)
        except OSError:
            pass  # (it has just ended, or is another user's)


def heard(control: socket.socket) -> bytes:
    """What the node says next; nothing where it is gone. (A socket whose other side ended with something unread says so by an error.)"""
    try:
        return control.recv(1 << 20)
    except ConnectionResetError:
        return b""


class StartFailed(Exception):
    """The command couldn't be begun: what failed, and the number of the error."""


class Group:
    """A control group for one execution. Without a path there is none, and each call does nothing."""

    def __init__(self, path: str = ""):
        self.path = path

    @classmethod
    def of(cls, folder: str, keeper: int) -> Group:
        """The group of a keeper, if it is there."""
        path = os.path.join(folder, f"kemtrua-{keeper}") if folder else ""
        return cls(path if path and os.path.exists(f"{path}/cgroup.kill") else "")

    @classmethod
    def made(cls, folder: str) -> Group:
        """One of this process's own, where it may make it in this folder."""
        try:
            if folder:
                os.mkdir(os.path.join(folder, f"kemtrua-{os.getpid()}"))
        except OSError:
            return cls()  # (it isn't this user's to make)
        return cls.of(folder, os.getpid())

    def enter(self) -> None:
        self._write("cgroup.procs", "0")

    def kill(self) -> None:
        self._write("cgroup.kill", "1")

    def is_empty(self) -> bool:
        if not self.path:
            return True
        with open(f"{self.path}/cgroup.events") as file:
            return "populated 0" in file.read()

    def remove(self) -> None:
        if self.path:
            try:
                os.rmdir(self.path)
            except OSError:
                pass

    def _write(self, name: str, text: str) -> None:
        if self.path:
            with open(f"{self.path}/{name}", "w") as file:
                file.write(text)


def start(order: dict[str, Any], group: Group) -> int:
    """The process of the command. Raises StartFailed."""
    read, write = os.pipe()
    try:
        process = os.fork()
    except OSError as error:
        raise StartFailed("process", error.errno) from None
    if process == 0:
        what = "group"
        try:
            group.enter()
            os.setsid()
            for number in (*LEFT, signal.SIGCHLD, signal.SIGPIPE, signal.SIGXFSZ):
                signal.signal(number, signal.SIG_DFL)
            what = "directory"
            os.chdir(order["directory"])
            what = "command"
            os.execvpe(order["words"][0], order["words"], order["environment"])
        except OSError as error:
            os.write(write, f"{what} {error.errno}".encode())
        finally:
            os._exit(127)
    os.close(write)
    with os.fdopen(read, "rb") as file:
        failed = file.read().split()
    if failed:
        os.waitpid(process, 0)
        raise StartFailed(failed[0].decode(), int(failed[1]))
    return process


class Keeper:
    """One command, from its start until nothing of it is left."""

    def __init__(self, control: socket.socket, grace: float, group: Group):
        self._control, self._grace, self._group = control, grace, group
        self._leader = 0
        self._status: int | None = None
        self._kill_at: float | None = None  # then all is killed, and again until nothing is left
        self._rest, self._killing_since = LOOK_AGAIN[0], 0.0
        self._said = -SAY_AGAIN
        self._cpu, self._peak = 0.0, 0  # seconds of a processor and KiB, of all that ended so far

    def say(self, text: str) -> None:
        try:
            self._control.sendall(text.encode() + b"\n")
        except OSError:
            pass  # (the node is gone)

    def run(self, order: dict[str, Any]) -> None:
        woken, wakes = os.pipe()
        os.set_blocking(wakes, False)
        signal.signal(signal.SIGCHLD, lambda *_: None)
        signal.set_wakeup_fd(wakes, warn_on_full_buffer=False)
        try:
            self._leader = start(order, self._group)
        except StartFailed as failed:
            self.say(f"failed {failed.args[0]} {failed.args[1]}")
            self._group.remove()
            return
        for standard in (0, 1, 2):
            os.close(standard)  # (they are the command's; its output ends with it)
        self.say("begun")
        poll = select.poll()
        poll.register(woken, select.POLLIN)
        poll.register(self._control, select.POLLIN)
        while not self._is_over():
            for descriptor, _ in poll.poll(self._wait()):
                if descriptor == woken:
                    os.read(woken, 4096)
                elif not self._hear():
                    poll.unregister(self._control)
        self._group.remove()
        self.say(f"empty {round(self._cpu * 1000)} {self._peak}")

    def _wait(self) -> float | None:
        return None if self._kill_at is None else max(0.0, self._kill_at - time.monotonic()) * 1000

    def _hear(self) -> bool:
        """Does what the node says. False where it is gone."""
        said = heard(self._control)
        if not said:
            self._kill_at = time.monotonic()
        elif self._kill_at is None:
            self._terminate()
        return bool(said)

    def _terminate(self) -> None:
        send(descendants(), signal.SIGTERM)
        self._kill_at = time.monotonic() + self._grace

    def _is_over(self) -> bool:
        """Takes note of those that ended, and kills what is due to be. Says whether nothing is left."""
        if not self._has_children() and self._group.is_empty():
            return True
        if self._kill_at is not None and time.monotonic() >= self._kill_at:
            self._kill()
            self._kill_at = time.monotonic() + self._rest
            self._rest = min(2 * self._rest, LOOK_AGAIN[1])
        return False

    def _has_children(self) -> bool:
        while True:
            try:
                process, status, used = os.wait4(-1, os.WNOHANG)
            except ChildProcessError:
                return False
            if process == 0:
                return True
            self._cpu, self._peak = self._cpu + used.ru_utime + used.ru_stime, max(self._peak, used.ru_maxrss)
            if process == self._leader and self._status is None:
                self._status = os.waitstatus_to_exitcode(status)
                self.say(f"ended {self._status}")
                if self._kill_at is None:
                    self._terminate()

    def _kill(self) -> None:
        self._killing_since = self._killing_since or time.monotonic()
        self._group.kill()
        stopped: set[int] = set()
        for _ in range(PASSES):
            new = [process for process in descendants() if process not in stopped]
            if not new:
                break
            send(new, signal.SIGSTOP)
            stopped.update(new)
        send(list(stopped), signal.SIGKILL)
        present = time.monotonic()
        if present - self._killing_since > STUCK_AFTER and present - self._said > SAY_AGAIN:
            self._said = present
            self.say(" ".join(["stuck", *map(str, descendants())]))


def main(words: list[str]) -> None:
    """`keeper.py DESCRIPTOR GRACE [FOLDER]`: the socket, the seconds from SIGTERM to SIGKILL, and a folder of control groups."""
    for number in LEFT:
        signal.signal(number, signal.SIG_IGN)
    control = socket.socket(fileno=int(words[0]))
    control.set_inheritable(False)  # (the command has no part in it, so that it ends with the keeper)
    become_subreaper()
    keeper = Keeper(control, float(words[1]), Group.made(words[2] if len(words) > 2 else ""))
    keeper.say("ready")
    order = b""
    while not order.endswith(b"\n"):
        more = heard(control)
        if not more:
            keeper._group.remove()
            return  # (it isn't needed, or the node is gone)
        order += more
    keeper.run(json.loads(order))


if __name__ == "__main__":
    main(sys.argv[1:])

"""Ends the commands of a node that was killed.

A node starts one guard, which reads a pipe that the node alone can write. When the node dies, however it dies, the pipe ends. Then the
guard kills each process whose environment has the node's token, until none is left. A node that ends in good order writes a byte before.
"""
from __future__ import annotations

import os
import secrets
import signal
import subprocess
import sys
import time
from typing import IO

VARIABLE = "KEMTRUA_TOKEN"
LOOKS = 10  # so many looks in a row without a find, and the guard ends: a process may just be about to begin
BETWEEN = 0.05  # seconds


class Guard:
    """A node's end of its guard."""

    def __init__(self) -> None:
        self.token = secrets.token_hex(16)
        # (in a session of its own, so that what ends the node doesn't end the guard)
        self._process = subprocess.Popen([sys.executable, "-I", os.path.abspath(__file__), self.token], stdin=subprocess.PIPE, bufsize=0,
                                         stdout=subprocess.DEVNULL, start_new_session=True)

    def end(self) -> None:
        """Says that the node ends in good order."""
        pipe: IO[bytes] | None = self._process.stdin
        assert pipe is not None
        try:
            pipe.write(b".")
            pipe.close()
        except OSError:
            pass
        self._process.wait()


def with_token(token: str, *more: str) -> list[int]:
    """The processes whose environment has this token, and these further variables."""
    wanted, found = {it.encode() for it in (f"{VARIABLE}={token}", *more)}, []
    for name in os.listdir("/proc"):
        if name.isdigit() and int(name) != os.getpid():
            try:
                with open(f"/proc/{name}/environ", "rb") as file:
                    if wanted <= set(file.read().split(b"\0")):
                        found.append(int(name))
            except OSError:
                continue  # (it has just ended, or is another user's)
    return found


def watch(token: str) -> None:
    if sys.stdin.buffer.read(1):
        return
    empty = 0
    while empty < LOOKS:
        found = with_token(token)
        for process in found:
            try:
                os.kill(process, signal.SIGKILL)
            except OSError:
                pass
        empty = 0 if found else empty + 1
        time.sleep(BETWEEN)


if __name__ == "__main__":
    for number in (signal.SIGTERM, signal.SIGINT, signal.SIGHUP):
        signal.signal(number, signal.SIG_IGN)
    watch(sys.argv[1])

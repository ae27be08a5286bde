"""What several tests use: the stand-in of the program, and hubs as processes."""
from __future__ import annotations

import os
import shutil
import signal
import subprocess
import sys
import tempfile
import time
import unittest
from collections.abc import Callable

from kemtrua import Address, Connection, Store, Tls
from kemtrua.errors import KemtruaError

ROOT = os.path.dirname(os.path.dirname(os.path.abspath(__file__)))
PROGRAM = os.environ.get("KEMTRUA_PROGRAM") or os.path.join(ROOT, "tests", "stand_in.py")
IS_STAND_IN = "KEMTRUA_PROGRAM" not in os.environ
ENVIRONMENT = {**os.environ, "PYTHONPATH": ROOT}


def job(name: str = "j", klass: str = "ok", **more: object) -> dict[str, object]:
    return {"name": name, "class": klass, **more}


def once(name: str = "t", of: str = "j", start: int | None = None, **more: object) -> dict[str, object]:
    """A trigger that fires once, now or at a moment, and is never misfired."""
    return {"name": name, "job": of, "kind": "simple", "start": now() if start is None else start, "misfire": -1, **more}


def now() -> int:
    return time.time_ns() // 1_000_000


def wait_until(holds: Callable[[], object], seconds: float = 60.0) -> None:
    until = time.monotonic() + seconds
    while not holds():
        if time.monotonic() > until:
            raise AssertionError(f"it didn't come within {seconds} seconds")
        time.sleep(0.02)


def remove(folder: str) -> None:
    """Removes a folder, where a program whose hub was killed may still write its last lines."""

    def gone() -> bool:
        shutil.rmtree(folder, ignore_errors=True)
        return not os.path.exists(folder)

    wait_until(gone)


class WithFolder(unittest.TestCase):
    """A test with a folder of its own."""

    def setUp(self) -> None:
        self.folder = tempfile.mkdtemp(prefix="kemtrua-")
        self.addCleanup(remove, self.folder)

    def store(self, fault: str = "") -> Store:
        """A new store in the folder. `fault` is one that the stand-in is to make."""
        os.environ["STAND_IN"] = fault
        self.addCleanup(os.environ.pop, "STAND_IN", None)
        store = Store(self.folder, PROGRAM, make=True)
        self.addCleanup(store.close)
        return store

    def hub(self, *words: str, make: bool = True, listen: str = "", fault: str = "", ahead: str = "") -> HubProcess:
        hub = HubProcess(self.folder, listen or f"unix:{self.folder}/hub.sock", *(["--make"] if make else []), *words, fault=fault, ahead=ahead)
        self.addCleanup(hub.kill)
        return hub


# A command whose clock is ahead of the machine's by the ms that a file has at each moment.
WITH_A_CLOCK = """
import sys
from kemtrua import clock
real, path = clock.now, sys.argv.pop(1)
def ahead():
    with open(path) as file:
        return real() + int(file.read() or 0)
clock.now = ahead
from kemtrua.cli import {module}
sys.exit({module}.main())
"""


def command(module: str, ahead: str = "") -> list[str]:
    """The words that run a command of the client, maybe by a clock of its own."""
    return [sys.executable, "-c", WITH_A_CLOCK.format(module=module), ahead] if ahead else [sys.executable, "-m", f"kemtrua.cli.{module}"]


class HubProcess:
    """A hub as a process of its own."""

    def __init__(self, folder: str, listen: str, *words: str, tls: Tls | None = None, fault: str = "", ahead: str = ""):
        self.listen, self.tls, self.folder = listen, tls, folder
        self.log = tempfile.NamedTemporaryFile("r", prefix="kemtrua-log-")
        with open(self.log.name, "w") as log:
            self.process = subprocess.Popen([*command("hub", ahead), folder, "--program", PROGRAM, "--listen", listen, *words],
                                            env={**os.environ, "PYTHONPATH": ROOT, "STAND_IN": fault}, stderr=log)

    def said(self) -> str:
        """Its log so far."""
        with open(self.log.name) as file:
            return file.read()

    @property
    def program(self) -> int:
        """The process that holds the store."""
        return int(subprocess.run(["pgrep", "-P", str(self.process.pid), "-f", " script$"], capture_output=True, text=True).stdout.split()[0])

    @property
    def address(self) -> Address:
        return Address.parse(self.listen)

    def connect_at(self, listen: str) -> Connection:
        """A connection to another address of the hub."""
        return self.connect(address=Address.parse(listen))

    def connect(self, tls: Tls | None = None, address: Address | None = None) -> Connection:
        """A connection, once the hub listens."""
        until = time.monotonic() + 60
        while True:
            try:
                return Connection(address or self.address, tls or self.tls)
            except KemtruaError:
                if time.monotonic() > until or self.process.poll() is not None:
                    raise
                time.sleep(0.05)

    def kill(self) -> None:
        if self.process.poll() is None:
            self.process.kill()
        self.process.wait()

    def ended(self, number: int | None = signal.SIGTERM) -> tuple[int, str]:
        """Its exit status and its log, once it ended, after a signal if one is given."""
        if number is not None:
            self.process.send_signal(number)
        return self.process.wait(60), self.said()

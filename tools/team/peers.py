"""Peers that do the team no good: one that hoards, and many that connect and say nothing."""
import contextlib
import os
import socket
import subprocess
import threading
import time

from kemtrua import Address, Connection
from kemtrua.errors import HubRefused, KemtruaError
from team import plan

WAITS = 0.5  # seconds between two tries of the hoarder


class Hoarder:
    """Joins as a node, takes all that it gets, whenever that is due, and fires nothing."""

    def __init__(self, listen: str):
        self._listen, self._ends = listen, threading.Event()
        self.most = self.refused = 0  # entries in its hands at once, and acquires that the hub refused
        self._thread = threading.Thread(target=self._run, daemon=True)
        self._thread.start()

    def end(self) -> None:
        """Ends it once the hub refused it something, or after a minute."""
        until = time.monotonic() + 60
        while not self.refused and self._thread.is_alive() and time.monotonic() < until:
            time.sleep(WAITS)
        self._ends.set()
        self._thread.join(120)

    def _run(self) -> None:
        while not self._ends.wait(WAITS):  # (the hub may be killed meanwhile)
            with contextlib.suppress(KemtruaError), Connection(Address.parse(self._listen)) as hub:
                hub.join(plan.HOARDER, 1000)
                while not self._ends.wait(WAITS):
                    self._take(hub)

    def _take(self, hub: Connection) -> None:
        try:
            hub.check_in(plan.HOARDER, 1000)
            hub.acquire(plan.HOARDER, 2**53, most=64)
        except HubRefused as error:
            self.refused += error.word == "too-many"
        self.most = max(self.most, len(hub.entries_of(plan.HOARDER)))


class Flood:
    """Many connections over TCP that never begin TLS."""

    def __init__(self, port: int, count: int):
        self._sockets: list[socket.socket] = []
        until = time.monotonic() + 120
        while len(self._sockets) < count and time.monotonic() < until:
            try:
                self._sockets.append(socket.create_connection(("127.0.0.1", port), 30))
            except OSError:
                time.sleep(0.1)  # (the hub may be killed meanwhile)

    def __len__(self) -> int:
        return len(self._sockets)

    def end(self) -> None:
        for sock in self._sockets:
            sock.close()


def make_certificates(folder: str) -> list[str]:
    """An authority and a certificate of the hub's, and the hub's words that name them."""
    curve = ["-newkey", "ec", "-pkeyopt", "ec_paramgen_curve:prime256v1", "-nodes"]
    made = ["openssl", "req", "-x509", *curve, "-days", "2", "-subj", "/CN=hub", "-keyout", "hub.key", "-out", "hub.pem"]
    subprocess.run(made, cwd=folder, check=True, capture_output=True)
    path = os.path.join(folder, "hub")
    return ["--certificate", f"{path}.pem", "--key", f"{path}.key", "--authority", f"{path}.pem"]


def free_port() -> int:
    with socket.socket() as sock:
        sock.bind(("127.0.0.1", 0))
        return sock.getsockname()[1]


def gone_within(mark: str, seconds: float, *more: str) -> list[int]:
    """Waits until no process has these texts in its environment. Gives those that are left after so many seconds."""
    until = time.monotonic() + seconds
    while (left := with_marks(mark, *more)) and time.monotonic() < until:
        time.sleep(0.2)
    return left


def with_marks(*marks: str) -> list[int]:
    wanted, found = {mark.encode() for mark in marks}, []
    for name in filter(str.isdigit, os.listdir("/proc")):
        with contextlib.suppress(OSError), open(f"/proc/{name}/environ", "rb") as file:
            if wanted <= set(file.read().split(b"\0")):
                found.append(int(name))
    return found

"""Real etcds for tests, one or a cluster of them, as processes of this machine."""
from __future__ import annotations

import os
import shutil
import signal
import socket
import subprocess
import sys
import time
import urllib.request
from collections.abc import Sequence

ETCD = shutil.which("etcd")
BEGINS_WITHIN = 60.0  # seconds

if ETCD is None:
    print("the tests over a real etcd are left out, since this machine has none", file=sys.stderr)


def free_ports(count: int) -> list[int]:
    """So many ports at which nobody listens."""
    probes = [socket.socket() for _ in range(count)]
    for probe in probes:
        probe.bind(("127.0.0.1", 0))
    ports = [int(probe.getsockname()[1]) for probe in probes]
    for probe in probes:
        probe.close()
    return ports


class Etcds:
    """A cluster below a folder. With `tls`, a certificate, a key and an authority, clients need one of that authority's."""

    def __init__(self, folder: str, count: int = 1, more: Sequence[str] = (), tls: tuple[str, str, str] | None = None):
        self.folder, self.count, self._more, self._tls = folder, count, list(more), tls
        ports = free_ports(2 * count)
        self.ports, self._peers = ports[:count], ports[count:]
        self.running: list[subprocess.Popen[bytes] | None] = [None] * count
        for number in range(count):
            self.start(number)

    @property
    def endpoints(self) -> str:
        return ",".join(f"{'https' if self._tls else 'http'}://127.0.0.1:{port}" for port in self.ports)

    def start(self, number: int) -> None:
        """Starts one, anew where it ran before."""
        scheme = "https" if self._tls else "http"
        own, peer = f"{scheme}://127.0.0.1:{self.ports[number]}", f"http://127.0.0.1:{self._peers[number]}"
        data = os.path.join(self.folder, f"etcd-{number}")
        cluster = ",".join(f"e{it}=http://127.0.0.1:{port}" for it, port in enumerate(self._peers))
        words = [ETCD or "etcd", "--name", f"e{number}", "--data-dir", data, "--listen-client-urls", own, "--advertise-client-urls", own,
                 "--listen-peer-urls", peer, "--initial-advertise-peer-urls", peer, "--initial-cluster", cluster, "--log-level", "error",
                 *self._more]
        if self._tls:
            certificate, key, authority = self._tls
            words += ["--cert-file", certificate, "--key-file", key, "--trusted-ca-file", authority, "--client-cert-auth"]
        with open(os.path.join(self.folder, f"etcd-{number}.log"), "ab") as log:
            self.running[number] = subprocess.Popen(words, stdin=subprocess.DEVNULL, stdout=log, stderr=log, start_new_session=True)

    def wait(self) -> Etcds:
        """Waits until all of them answer."""
        until = time.monotonic() + BEGINS_WITHIN
        for port in self.ports:
            while not self._answers(port):
                if time.monotonic() > until:
                    raise AssertionError(f"etcd didn't begin; its log is in {self.folder}")
                time.sleep(0.05)
        return self

    def _answers(self, port: int) -> bool:
        if self._tls:
            with socket.socket() as probe:
                return probe.connect_ex(("127.0.0.1", port)) == 0
        try:
            with urllib.request.urlopen(f"http://127.0.0.1:{port}/health", timeout=2) as answer:
                return b'"true"' in answer.read()
        except OSError:
            return False

    def signal(self, number: int, what: signal.Signals) -> None:
        process = self.running[number]
        if process is not None:
            process.send_signal(what)

    def kill(self, number: int) -> None:
        process = self.running[number]
        if process is not None:
            process.kill()
            process.wait()

    def end(self) -> None:
        for number in range(self.count):
            self.kill(number)

"""Who gets in: sockets are accepted here, so that no flood of connections takes the place of those that work."""
from __future__ import annotations

import asyncio
import errno
import os
import resource
import socket
import ssl
from collections.abc import Callable
from dataclasses import dataclass
from typing import IO

from .. import clock, logs
from ..address import Address, listen_at
from ..errors import BadSettings
from .rights import Door
from .visitor import Visitor

log = logs.logger("kemtrua.hub")

HANDSHAKE_WITHIN = 10.0  # seconds
PENDING, PENDING_OF_ONE = 128, 32  # connections that haven't shown a certificate yet: in all, and of one address
OF_ONE = 64  # connections of one certificate
OWN_FILES = 64  # descriptors for the hub itself: the store, the log, a list
RESERVE = 128  # descriptors that only Unix sockets take
MOST_FILES = 65536
ACCEPTED_AT_ONCE = 32
REST = 0.2  # seconds without accepting, where there is no descriptor
SAY_AGAIN = 60.0


@dataclass(eq=False)
class Guest:
    """A connection over TLS that hasn't shown its certificate."""

    host: str
    task: asyncio.Task[None] | None = None


class Entrance:
    """Listens, and limits how many come in. Of connections without a certificate the oldest gives way, first of the same address."""

    def __init__(self, make: Callable[[Door, socket.socket], Visitor], context: Callable[[], ssl.SSLContext]):
        self._make, self._context = make, context
        self._sockets: list[socket.socket] = []
        self._locks: list[tuple[str, IO[str]]] = []
        self._pending: dict[Guest, None] = {}
        self._said: dict[str, float] = {}
        self._room = raise_limit() - OWN_FILES
        self.count = {door: 0 for door in Door}
        self.listening: list[Address] = []

    def listen(self, address: Address, door: Door, group: str | None = None) -> None:
        if address.path:
            sock, lock = listen_at(address.path, group)
            self._locks.append((address.path, lock))
            self.listening.append(address)
            self._add(sock, door)
            return
        sockets = tcp_sockets(address)
        self.listening.append(Address(host=address.host, port=sockets[0].getsockname()[1]))
        for sock in sockets:
            self._add(sock, Door.TLS)

    def _add(self, sock: socket.socket, door: Door) -> None:
        sock.listen(512)
        sock.setblocking(False)
        self._sockets.append(sock)
        asyncio.get_running_loop().add_reader(sock, self._accept, sock, door)

    def close(self) -> None:
        """Listens no more."""
        loop = asyncio.get_running_loop()
        for sock in self._sockets:
            loop.remove_reader(sock)
            sock.close()
        for guest in list(self._pending):
            if guest.task is not None:
                guest.task.cancel()

    def remove(self) -> None:
        """Takes away the sockets' files, and lets others listen there."""
        for path, lock in self._locks:
            try:
                os.unlink(path)
            except FileNotFoundError:
                pass
            lock.close()

    def _accept(self, listening: socket.socket, door: Door) -> None:
        for _ in range(ACCEPTED_AT_ONCE):
            try:
                sock, _ = listening.accept()
            except (BlockingIOError, InterruptedError, ConnectionAbortedError):
                return
            except OSError as error:
                self._say("accept", f"no connection can be accepted: {error.strerror}")
                loop = asyncio.get_running_loop()
                loop.remove_reader(listening)
                loop.call_later(REST, self._listen_again, listening, door)
                return
            sock.setblocking(False)
            self._take(sock, door)

    def _listen_again(self, listening: socket.socket, door: Door) -> None:
        if listening.fileno() >= 0:
            asyncio.get_running_loop().add_reader(listening, self._accept, listening, door)

    def _take(self, sock: socket.socket, door: Door) -> None:
        taken = sum(self.count.values()) + len(self._pending)
        if taken >= self._room - (RESERVE if door is Door.TLS else 0):
            self._say("room", f"there are {taken} connections, and no room for more over {door.value}")
            sock.close()
            return
        guest = Guest(host_of(sock))
        if door is Door.TLS:
            self._make_room(guest.host)
            self._pending[guest] = None
        guest.task = asyncio.get_running_loop().create_task(self._welcome(guest, sock, door))

    def _make_room(self, host: str) -> None:
        """The oldest without a certificate gives way: of the same address, where that has its part, or of all."""
        same = [guest for guest in self._pending if guest.host == host]
        oldest = same[0] if len(same) >= PENDING_OF_ONE else next(iter(self._pending)) if len(self._pending) >= PENDING else None
        if oldest is not None:
            self._say("certificate", f"{len(self._pending)} connections, {len(same)} of them of {host}, show no certificate; the oldest give way")
            self._pending.pop(oldest, None)
            if oldest.task is not None:
                oldest.task.cancel()

    async def _welcome(self, guest: Guest, sock: socket.socket, door: Door) -> None:
        loop = asyncio.get_running_loop()
        try:
            if door is Door.TLS:
                await loop.connect_accepted_socket(lambda: self._make(door, sock), sock, ssl=self._context(), ssl_handshake_timeout=HANDSHAKE_WITHIN)
            else:
                await loop.connect_accepted_socket(lambda: self._make(door, sock), sock)
        except (OSError, asyncio.CancelledError):
            sock.close()
        finally:
            self._pending.pop(guest, None)

    def _say(self, matter: str, text: str) -> None:
        """Logs a warning, and one of the same matter not again for a minute."""
        present = clock.uptime()
        if present - self._said.get(matter, -SAY_AGAIN) >= SAY_AGAIN:
            self._said[matter] = present
            log.warning("%s", text)


def tcp_sockets(address: Address) -> list[socket.socket]:
    """Sockets at all addresses of a host, with one port."""
    bound: list[socket.socket] = []
    try:
        found = dict.fromkeys(socket.getaddrinfo(address.host, address.port, type=socket.SOCK_STREAM, flags=socket.AI_PASSIVE))
    except OSError as error:
        raise BadSettings(f"nothing can listen at {address}: {error.strerror or error}") from None
    failed: OSError | None = None
    for family, kind, number, _, where in found:
        sock = socket.socket(family, kind, number)
        sock.setsockopt(socket.SOL_SOCKET, socket.SO_REUSEADDR, 1)
        if family == socket.AF_INET6:
            sock.setsockopt(socket.IPPROTO_IPV6, socket.IPV6_V6ONLY, 1)
        try:
            sock.bind((where[0], bound[0].getsockname()[1] if bound else where[1], *where[2:]))
            bound.append(sock)
        except OSError as error:
            sock.close()
            if error.errno != errno.EADDRNOTAVAIL or not bound:  # (a machine without IPv6 has names for it all the same)
                failed = error
    if failed is not None and not (bound and failed.errno == errno.EADDRNOTAVAIL):
        for sock in bound:
            sock.close()
        raise BadSettings(f"nothing can listen at {address}: {failed.strerror}")
    return bound


def host_of(sock: socket.socket) -> str:
    try:
        peer = sock.getpeername()
    except OSError:
        return "somebody"
    return str(peer[0]) if isinstance(peer, tuple) else "this machine"


def raise_limit() -> int:
    """Takes as many descriptors as this process may have, and says how many."""
    soft, hard = resource.getrlimit(resource.RLIMIT_NOFILE)
    most = MOST_FILES if hard == resource.RLIM_INFINITY else min(hard, MOST_FILES)
    if most > soft:
        resource.setrlimit(resource.RLIMIT_NOFILE, (most, hard))
    return max(most, soft)

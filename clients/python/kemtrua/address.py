"""Where a hub listens: `unix:/run/kemtrua/hub.sock`, or `tls:HOST:PORT` with client certificates alone."""
from __future__ import annotations

import errno
import fcntl
import os
import shutil
import socket
import ssl
import stat
from collections.abc import Callable, Mapping
from dataclasses import dataclass
from typing import IO, Any

from .errors import BadSettings

DEFAULT = "unix:/run/kemtrua/hub.sock"
LONGEST_PATH = 107  # bytes: Linux's own limit
TCP_USER_TIMEOUT = 18  # Linux's number of that option


@dataclass(frozen=True)
class Address:
    """A Unix socket's path, or a host and a port."""

    path: str = ""
    host: str = ""
    port: int = 0

    @classmethod
    def parse(cls, text: str) -> Address:
        kind, _, rest = text.partition(":")
        if text.startswith("/"):
            kind, rest = "unix", text
        if kind == "unix" and rest:
            if len(os.fsencode(rest)) > LONGEST_PATH:
                raise BadSettings(f"{text}: the path of a socket has at most {LONGEST_PATH} bytes")
            return cls(path=rest)
        host, _, port = rest.rpartition(":")
        if kind == "tls" and host and port.isdecimal() and 0 <= int(port) <= 65535:
            return cls(host=host.strip("[]"), port=int(port))
        raise BadSettings(f"{text!r} is no address: write unix:/PATH, or tls:HOST:PORT")

    def __str__(self) -> str:
        return f"unix:{self.path}" if self.path else f"tls:{self.host}:{self.port}"


@dataclass(frozen=True)
class Tls:
    """Files in PEM: one's own certificate and key, the authority whose certificates are trusted, and maybe a list of those that it revoked."""

    certificate: str
    key: str
    authority: str
    revoked: str | None = None

    def context(self, *, server: bool) -> ssl.SSLContext:
        """What these files say at this moment."""
        context = ssl.SSLContext(ssl.PROTOCOL_TLS_SERVER if server else ssl.PROTOCOL_TLS_CLIENT)
        context.minimum_version = ssl.TLSVersion.TLSv1_2
        context.verify_mode = ssl.CERT_REQUIRED
        _load("authority", self.authority, lambda: context.load_verify_locations(self.authority))
        _load("certificate", f"{self.certificate} or {self.key}", lambda: context.load_cert_chain(self.certificate, self.key))
        if self.revoked is not None:
            revoked = self.revoked
            _load("revocation list", revoked, lambda: context.load_verify_locations(revoked))
            context.verify_flags |= ssl.VerifyFlags.VERIFY_CRL_CHECK_LEAF
        return context


def _load(what: str, files: str, load: Callable[[], None]) -> None:
    try:
        load()
    except (OSError, ssl.SSLError) as error:
        raise BadSettings(f"the {what} can't be read ({files}): {error}") from None


def common_name(certificate: Mapping[str, Any]) -> str:
    """The common name of a peer's certificate, or the empty text."""
    for part in certificate.get("subject", ()):
        for name, value in part:
            if name == "commonName":
                return str(value)
    return ""


def listen_at(path: str, group: str | None = None) -> tuple[socket.socket, IO[str]]:
    """A Unix socket at this path, for the owner and the group (its own, or this one), and the lock that keeps others off it while it is open.

    A socket that a killed hub left is removed. One that somebody listens at isn't, nor is a file of another kind.
    """
    try:
        lock = open(f"{path}.lock", "w")
    except OSError as error:
        raise BadSettings(f"{path}.lock can't be made: {error.strerror}") from None
    try:
        fcntl.flock(lock, fcntl.LOCK_EX | fcntl.LOCK_NB)
        _remove_stale(path)
        made = socket.socket(socket.AF_UNIX, socket.SOCK_STREAM)
        before = os.umask(0o117)
        try:
            made.bind(path)
        finally:
            os.umask(before)
        if group is not None:
            shutil.chown(path, group=group)
    except BlockingIOError:
        lock.close()
        raise BadSettings(f"another hub listens at {path}: end it first, or choose another address") from None
    except OSError as error:
        lock.close()
        raise BadSettings(f"no socket can be made at {path}: {error.strerror}") from None
    except LookupError:
        lock.close()
        raise BadSettings(f"there is no group {group!r} for the socket at {path}") from None
    except BadSettings:
        lock.close()
        raise
    return made, lock


def _remove_stale(path: str) -> None:
    try:
        mode = os.lstat(path).st_mode
    except FileNotFoundError:
        return
    if not stat.S_ISSOCK(mode):
        raise BadSettings(f"{path} is there already, and is no socket: remove it, or choose another address")
    with socket.socket(socket.AF_UNIX, socket.SOCK_STREAM) as probe:
        probe.settimeout(2)
        try:
            probe.connect(path)
        except OSError as error:
            if error.errno not in (errno.ECONNREFUSED, errno.ENOENT):
                raise
            os.unlink(path)
            return
    raise BadSettings(f"somebody listens at {path} already: end that first, or choose another address")


def keep_alive(sock: socket.socket | None) -> None:
    """Lets a TCP connection whose other side is gone without a word break within about 30 seconds. None is one that broke already."""
    if sock is None or sock.family not in (socket.AF_INET, socket.AF_INET6):
        return
    for level, option, value in ((socket.SOL_SOCKET, socket.SO_KEEPALIVE, 1), (socket.IPPROTO_TCP, socket.TCP_KEEPIDLE, 15),
                                 (socket.IPPROTO_TCP, socket.TCP_KEEPINTVL, 5), (socket.IPPROTO_TCP, socket.TCP_KEEPCNT, 3),
                                 (socket.IPPROTO_TCP, TCP_USER_TIMEOUT, 30000), (socket.IPPROTO_TCP, socket.TCP_NODELAY, 1)):
        try:
            sock.setsockopt(level, option, value)
        except OSError:
            return  # (it broke already, and whoever reads it will see so)

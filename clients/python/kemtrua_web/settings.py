"""What `kemtrua-web` is told: where it listens, whose history it reads, and who operates."""
from __future__ import annotations

from collections.abc import Sequence
from dataclasses import dataclass, field
from datetime import tzinfo
from zoneinfo import ZoneInfo

from kemtrua.address import LONGEST_PATH, Address, Tls
from kemtrua.errors import BadSettings

from .safety import Origins

DEFAULT_LISTEN = "127.0.0.1:7412"
LOOPBACK = ("127.0.0.1", "localhost", "::1")


@dataclass(frozen=True)
class Listening:
    """Where browsers connect: a Unix socket behind a proxy, a port of this machine, or TLS with client certificates."""

    path: str = ""
    host: str = ""
    port: int = 0
    over_tls: bool = False

    @classmethod
    def parse(cls, text: str) -> Listening:
        if text.startswith(("unix:", "/")):
            path = text.removeprefix("unix:")
            if not path or len(path.encode()) > LONGEST_PATH:
                raise BadSettings(f"--listen {text}: the path of a socket has 1 to {LONGEST_PATH} bytes")
            return cls(path=path)
        over_tls = text.startswith("tls:")
        host, colon, port = text.removeprefix("tls:").rpartition(":")
        if not colon or not host or not port.isdecimal() or int(port) > 65535:
            raise BadSettings(f"--listen {text}: write 127.0.0.1:7412, unix:/run/kemtrua-web/page.sock, or tls:HOST:PORT")
        if not over_tls and host.strip("[]") not in LOOPBACK:
            raise BadSettings(f"--listen {text}: without TLS these pages are for this machine alone, as 127.0.0.1:7412; "
                              f"write tls:{host}:{port}")
        return cls(host=host.strip("[]"), port=int(port), over_tls=over_tls)

    def __str__(self) -> str:
        return f"unix:{self.path}" if self.path else f"{'tls:' if self.over_tls else ''}{self.host}:{self.port}"

    def origins(self) -> list[str]:
        """How browsers name it, where nobody says otherwise."""
        if self.path:
            return []
        host = f"[{self.host}]" if ":" in self.host else self.host
        hosts = {host, "localhost"} if not self.over_tls else {host}
        return [f"{'https' if self.over_tls else 'http'}://{one}:{self.port}" for one in hosts]


@dataclass(frozen=True)
class WebSettings:
    folder: str
    hub: Address
    listen: Sequence[Listening]
    origins: Origins
    hub_tls: Tls | None = None
    tls: Tls | None = None
    operators: frozenset[str] = frozenset()
    zone: tzinfo = field(default_factory=lambda: ZoneInfo("UTC"))
    zone_name: str = "UTC"
    program: str = "qz_sched"
    team: str = ""


def zone_of(name: str) -> ZoneInfo:
    try:
        return ZoneInfo(name)
    except (OSError, ValueError, KeyError):
        raise BadSettings(f"--zone {name}: this machine knows no such zone") from None

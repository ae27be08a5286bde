"""Who may do what in a browser: hosts and origins that are known, tokens that work once, and how often somebody may ask."""
from __future__ import annotations

import secrets
import threading
import time
from collections import OrderedDict
from collections.abc import Iterable, Mapping
from dataclasses import dataclass
from urllib.parse import urlsplit

from kemtrua.errors import BadSettings

POLICY = ("default-src 'none'; script-src 'self'; style-src 'self'; img-src 'self'; connect-src 'self'; form-action 'self'; "
          "base-uri 'none'; frame-ancestors 'none'")
HEADERS = {"Content-Security-Policy": POLICY, "X-Content-Type-Options": "nosniff", "Referrer-Policy": "same-origin",
           "Cross-Origin-Opener-Policy": "same-origin", "Cross-Origin-Resource-Policy": "same-origin", "Cache-Control": "no-store",
           "Permissions-Policy": "camera=(), geolocation=(), microphone=()"}
LONGEST_QUERY, LONGEST_BODY = 2048, 4096  # bytes
TOKEN_LIVES, MOST_TOKENS = 120.0, 1000  # seconds, and tokens that wait
A_SECOND, AT_ONCE = 20.0, 80.0  # requests of one address, for good and in a burst
MOST_ADDRESSES = 10_000


class Refused(Exception):
    """A request that isn't answered as it was meant: a status, and words for a page."""

    def __init__(self, status: int, title: str, *text: str):
        super().__init__(title)
        self.status, self.title, self.text = status, title, text


@dataclass(frozen=True)
class Origins:
    """Where browsers see these pages, as `https://jobs.example.org`."""

    known: frozenset[str]

    @classmethod
    def of(cls, texts: Iterable[str]) -> Origins:
        found = set()
        for text in texts:
            try:
                parts = urlsplit(text)
            except ValueError:  # (as of http://[)
                parts = urlsplit("")
            if parts.scheme not in ("http", "https") or not parts.netloc or parts.path not in ("", "/") or parts.query or parts.fragment:
                raise BadSettings(f"--origin {text}: write it as https://jobs.example.org, or http://127.0.0.1:7412")
            found.add(f"{parts.scheme}://{parts.netloc.lower()}")
        return cls(frozenset(found))

    @property
    def hosts(self) -> frozenset[str]:
        return frozenset(origin.partition("://")[2] for origin in self.known)

    def look_at_host(self, host: str | None) -> None:
        """Raises where the request is for a host that isn't this one: a name of somebody else's that leads here."""
        if host is None or host.lower() not in self.hosts:
            raise Refused(421, "This address isn't known here",
                          "These pages answer only under the addresses that they were given by --origin.")

    def look_at_action(self, headers: Mapping[str, str]) -> None:
        """Raises where an action doesn't come from one of these pages."""
        site, origin = headers.get("Sec-Fetch-Site"), headers.get("Origin")
        is_known = origin is not None and origin.lower() in self.known
        if not (site == "same-origin" and (is_known or origin in (None, "null")) or site is None and is_known):
            raise Refused(403, "This didn't come from here", "An action is asked for on these pages alone. Nothing was done.")


@dataclass(frozen=True)
class Action:
    """What a token lets somebody do: once, to one job."""

    viewer: str
    do: str
    group: str
    name: str


class Tokens:
    """Tokens that work once, for two minutes."""

    def __init__(self) -> None:
        self._lock = threading.Lock()
        self._waiting: OrderedDict[str, tuple[Action, float]] = OrderedDict()

    def make(self, action: Action) -> str:
        token = secrets.token_urlsafe(32)
        with self._lock:
            while len(self._waiting) >= MOST_TOKENS:
                self._waiting.popitem(last=False)
            self._waiting[token] = (action, time.monotonic() + TOKEN_LIVES)
        return token

    def use(self, token: str, action: Action) -> None:
        """Uses a token up. Raises where it isn't for this, was used, or is too old."""
        with self._lock:
            found = self._waiting.pop(token, None)
        if found is None or found[0] != action or found[1] < time.monotonic():
            raise Refused(403, "This button was used, or is too old",
                          "Each works once, within two minutes. Nothing was done now: go back and ask again.")


class Pace:
    """How often each address may ask: a bucket that fills by the second."""

    def __init__(self, a_second: float = A_SECOND, at_once: float = AT_ONCE):
        self._a_second, self._at_once = a_second, at_once
        self._left: OrderedDict[str, tuple[float, float]] = OrderedDict()

    def may(self, address: str, present: float | None = None) -> bool:
        present = time.monotonic() if present is None else present
        left, since = self._left.pop(address, (self._at_once, present))
        left = min(self._at_once, left + (present - since) * self._a_second)
        while len(self._left) >= MOST_ADDRESSES:
            self._left.popitem(last=False)
        self._left[address] = (left - 1 if left >= 1 else left, present)
        return left >= 1

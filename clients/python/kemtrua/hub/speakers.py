"""Which connection speaks for which node, and since when each has checked in."""
from __future__ import annotations

from typing import TYPE_CHECKING

from .. import clock
from ..errors import HubRefused

if TYPE_CHECKING:
    from .visitor import Visitor

KNOWN, LONGEST = 1024, 86400 / 4  # check-ins that are kept, and for how many seconds one counts at most
LEAST_INTERVAL = 1000  # ms that count, where a node names a shorter interval


class Speakers:
    """One connection at a time speaks for a node."""

    def __init__(self) -> None:
        self._speakers: dict[str, Visitor] = {}
        self._checked: dict[str, float] = {}  # the uptime of each node's last check-in

    def has(self, node: str) -> bool:
        return node in self._speakers

    def of(self, node: str) -> Visitor | None:
        return self._speakers.get(node)

    def take(self, node: str, visitor: Visitor) -> None:
        """Lets this connection speak for the node. Raises where another one does."""
        if self._speakers.setdefault(node, visitor) is not visitor:
            raise HubRefused("name-taken", f"another connection speaks for {node!r}: end that node first, or choose another name")

    def drop(self, node: str, visitor: Visitor) -> None:
        if self._speakers.get(node) is visitor:
            del self._speakers[node]

    def drop_all(self, visitor: Visitor) -> None:
        """The connection speaks for nobody any more."""
        for node in [node for node, speaker in self._speakers.items() if speaker is visitor]:
            del self._speakers[node]

    def may_check_in(self, node: str, interval: int) -> None:
        """Raises where the last check-in was less than a quarter of the interval ago."""
        present = clock.uptime()
        least = max(interval, LEAST_INTERVAL) / 4000
        if present - self._checked.get(node, -least) < least:
            raise HubRefused("too-often", f"{node!r} checked in less than a quarter of its interval ago; that one counts")
        if len(self._checked) >= KNOWN:
            self._checked = {known: at for known, at in self._checked.items() if present - at < LONGEST}
        self._checked[node] = present

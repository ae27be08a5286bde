"""Who may do what: operators, nodes, and how much a node may take."""
from __future__ import annotations

import pwd
from collections.abc import Iterable
from dataclasses import dataclass
from enum import Enum

from ..errors import BadSettings, HubRefused

OPERATORS_NODE = "kemtrua.operator"  # as which an operator recovers and forgets nodes
WORKERS = 256  # entries in the hands of a node for which no number is given


class Door(Enum):
    """By which way somebody came in."""

    OPERATORS = "the operators' socket"
    NODES = "the nodes' socket"
    TLS = "TLS"


@dataclass(frozen=True)
class Identity:
    """Who is at the other side: a certificate's common name, or a user of this machine."""

    door: Door
    name: str

    def __str__(self) -> str:
        return self.name if self.door is Door.TLS else f"user {self.name}"

    def in_full(self) -> str:
        """`certificate NAME`, or `user NAME` with the name that this machine has for the user's number."""
        if self.door is Door.TLS:
            return f"certificate {self.name}"
        try:
            return f"user {pwd.getpwuid(int(self.name)).pw_name}"
        except (KeyError, ValueError):
            return f"user {self.name}"


@dataclass(frozen=True)
class Grant:
    """That a certificate may be the node of its name, or all those below it (`C.*`: C and each C.x), with so many entries in each one's hands."""

    name: str
    below: bool = False
    workers: int | None = None

    @classmethod
    def parse(cls, text: str) -> Grant:
        """Reads `NAME`, `NAME:WORKERS`, `NAME.*` or `NAME.*:WORKERS`."""
        name, colon, number = text.rpartition(":")
        if not colon:
            name, number = text, ""
        if colon and not (number.isdecimal() and int(number) > 0) or not name.removesuffix(".*"):
            raise BadSettings(f"--node {text}: write NAME, NAME:WORKERS, or 'NAME.*' for all nodes below NAME")
        return cls(name.removesuffix(".*"), name.endswith(".*"), int(number) if number else None)

    def covers(self, node: str) -> bool:
        return node == self.name or self.below and node.startswith(f"{self.name}.")


class Rights:
    """`operators` are the common names whose certificates may do what clients do. Without `grants` each certificate is the node of its name."""

    def __init__(self, operators: Iterable[str] = (), grants: Iterable[Grant] = ()):
        self.operators, self.grants = frozenset(operators), tuple(grants)

    def is_operator(self, who: Identity) -> bool:
        return who.door is Door.OPERATORS or who.door is Door.TLS and who.name in self.operators

    def may_operate(self, who: Identity) -> None:
        if not self.is_operator(who):
            raise HubRefused("no-right", f"{who} is no operator: that is for those whom the hub knows by --operator, or over {Door.OPERATORS.value}")

    def may_be(self, who: Identity, node: str) -> None:
        """Raises where this one can't be that node."""
        if who.door is not Door.TLS or node == OPERATORS_NODE and self.is_operator(who):
            return
        if not self.grants:
            if node != who.name:
                raise HubRefused("no-right", f"the certificate is for {who.name!r}, so this node can't be {node!r}")
        elif not any(grant.name == who.name and grant.covers(node) for grant in self.grants):
            raise HubRefused("no-right", f"the certificate of {who.name!r} isn't one for the node {node!r}: the hub knows those of --node")

    def most(self, who: Identity, node: str) -> int | None:
        """How many entries may be in a node's hands; None for as many as it likes."""
        granted = [grant.workers for grant in self.grants if grant.covers(node) and grant.workers is not None]
        if granted:
            return max(granted)
        return None if self.is_operator(who) else WORKERS

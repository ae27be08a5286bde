"""Whom nodes and clients ask where a team has several hubs: the one that leads."""
from __future__ import annotations

from collections.abc import Sequence

from .address import Address, Tls
from .connection import ANSWER_WITHIN, Connection
from .errors import BadSettings, HubRefused, KemtruaError, NotTrusted, Unanswered, Unreachable

LEADS_WITHIN = 2.0  # seconds that a hub of several has to say whether it leads
ANSWER_OF_SEVERAL = 8.0  # seconds that one has for an answer, before it is asked who leads now: its lease has ended then


def addresses_of(text: str) -> list[Address]:
    """Reads one address, or several with commas between them."""
    return [Address.parse(part.strip()) for part in text.split(",") if part.strip()] or [Address.parse(text)]


class Hubs:
    """The hubs of a team. `connect` gives a connection to the one that leads, and begins with the one that did before."""

    def __init__(self, addresses: Sequence[Address], tls: Tls | None = None, answer_within: float = ANSWER_WITHIN):
        if not addresses:
            raise BadSettings("a hub's address is wanted")
        self.addresses, self._tls = list(addresses), tls
        self._within = min(answer_within, ANSWER_OF_SEVERAL) if len(addresses) > 1 else answer_within
        self._first = self.addresses[0]

    def connect(self) -> Connection:
        """Raises Unreachable where none of them leads at this moment, and what the only one raises."""
        if len(self.addresses) == 1:
            return Connection(self.addresses[0], self._tls, self._within)
        left = [self._first, *(it for it in self.addresses if it != self._first)]
        why: list[KemtruaError] = []
        while left:
            address = left.pop(0)
            try:
                return self._leading(address)
            except HubRefused as error:
                if not error.passes:
                    raise
                why.append(error)
                if (named := self._named_by(error)) in left:
                    left.remove(named)
                    left.insert(0, named)
            except (Unreachable, Unanswered) as error:
                why.append(error)
        untrusted = [error for error in why if isinstance(error, NotTrusted)]
        if len(untrusted) == len(self.addresses):
            raise untrusted[0]
        if any(isinstance(error, HubRefused) for error in why):
            # (the same words each time, so that whoever logs it does so once)
            raise Unreachable(f"none of {len(self.addresses)} hubs leads at this moment")
        raise Unreachable(f"none of {len(self.addresses)} hubs answers: {'; '.join(map(str, why))}")

    def connect_to_any(self) -> Connection:
        """To the one that leads, or where none does to the first that answers. Raises Unreachable."""
        try:
            return self.connect()
        except Unreachable as error:
            for address in self.addresses:
                try:
                    return Connection(address, self._tls, self._within)
                except (Unreachable, Unanswered):
                    continue
            raise error

    def _leading(self, address: Address) -> Connection:
        """A connection to this hub, where it leads. Raises HubRefused where it doesn't."""
        made = Connection(address, self._tls, LEADS_WITHIN)
        try:
            made.hello()
        except BaseException:
            made.close()
            raise
        made.answer_within, self._first = self._within, address
        return made

    @staticmethod
    def _named_by(error: HubRefused) -> Address | None:
        """The address that a hub names that stands by."""
        word = str(error).split(" ", 1)[0]
        try:
            return Address.parse(word) if error.word == "standby" else None
        except BadSettings:
            return None

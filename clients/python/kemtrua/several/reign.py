"""Who leads: a key in etcd with a lease. The revision at which it was made is the term, which each put compares."""
from __future__ import annotations

import asyncio
import secrets
from dataclasses import dataclass

from .. import __version__, clock, hooks, logs
from ..errors import KemtruaError
from ..etcd import Etcd, EtcdError, NoEtcd, NoSpace, end_of, get, has_value, is_created, put
from ..versions import are_far, oldest_of
from .layout import BadShared, HubRow, Keys, LeaderRow

log = logs.logger("kemtrua.hub")

LEASE = 5  # seconds
GIVES_UP = 2.0  # seconds past that moment, after which a hub that doesn't reach etcd closes its connections and stands by
EARLIER = 1.0  # seconds before the lease's end, by the boot clock, from which on nothing is answered
REST, FULL_REST = 0.2, 1.0  # seconds until etcd is asked again, and until it is where its quota is met
SAY_AGAIN = 30.0  # seconds between two lines of the log that say that it doesn't answer


class Deposed(KemtruaError):
    """This hub doesn't lead any more. What it did and etcd doesn't have is dropped."""


@dataclass(frozen=True)
class Leader:
    """The leader's key: the term, and who that is."""

    term: int
    row: LeaderRow


class Reign:
    """The time in which this hub leads. `keep` has the lease go on; `is_valid` says by the boot clock that it surely does."""

    def __init__(self, etcd: Etcd, keys: Keys, term: int, lease: int, granted: float):
        self.etcd, self.keys, self.term, self.lease = etcd, keys, term, lease
        self._until = granted + LEASE - EARLIER
        self._kept = asyncio.Event()
        self._said = -SAY_AGAIN

    @property
    def is_valid(self) -> bool:
        return clock.uptime() < self._until or bool(hooks.asked("no_term"))

    @property
    def compares(self) -> list[dict[str, object]]:
        """What each transaction of this term compares."""
        return [] if hooks.asked("no_term") else [is_created(self.keys.leader, self.term)]

    async def keep(self) -> None:
        """Keeps the lease, to the end of the reign. Raises Deposed.

        It does so, too, where etcd is away for so long that whoever waits for an answer should look for another hub.
        """
        while True:
            begun = clock.uptime()
            try:
                seconds = await self.etcd.keep_alive(self.lease)
                if seconds <= 0:
                    await self.confirm()  # (which raises, since the key went with the lease)
                self._until = max(self._until, begun + min(seconds, LEASE) - EARLIER)
                self._kept.set()
            except EtcdError as error:
                self.say(error)
                if clock.uptime() > self._until + GIVES_UP:
                    raise Deposed("this hub gives up the lead: its lease has ended by its own clock, and etcd doesn't answer") from None
                await asyncio.sleep(REST)
                continue
            await asyncio.sleep(LEASE / 4)

    async def kept(self) -> None:
        """Waits until the lease was kept once more."""
        self._kept.clear()
        await self._kept.wait()

    async def confirm(self) -> None:
        """Asks a quorum whether this term goes on, as often as it takes. Raises Deposed."""
        while True:
            try:
                done = await self.etcd.transact(self.compares, [], [get(self.keys.leader)])
            except NoEtcd as error:
                self.say(error)
                await asyncio.sleep(REST)
                continue
            if not done.held:
                raise self.deposed(done.found[0][0].value if done.found[0] else None)
            return

    async def put(self, key: bytes, value: bytes, before: bytes | None = None) -> int:
        """Puts a value, which only this hub may put, as often as it takes until it is known to be there.

        The key has to have the value `before`, or not to be there, so that a try whose answer was lost does no harm when it is done late.
        Raises Deposed. Gives etcd's revision; 0 where the answer was lost.
        """
        place = is_created(key, 0) if before is None else has_value(key, before)
        while True:
            try:
                done = await self.etcd.transact([*self.compares, place], [put(key, value)], [])
                if done.held:
                    return done.revision
            except NoEtcd as error:
                self.say(error)
                await asyncio.sleep(FULL_REST if isinstance(error, NoSpace) else REST)
            try:
                if await self._has_put(key, value, before):
                    return 0
            except NoEtcd as error:
                self.say(error)

    async def _has_put(self, key: bytes, value: bytes, before: bytes | None) -> bool:
        """Whether a put was done whose answer was lost, under a term that goes on. Raises Deposed."""
        done = await self.etcd.transact(self.compares, [get(key)], [get(self.keys.leader)])
        there = done.found[0][0] if done.found[0] else None
        if not done.held:
            raise self.deposed(None if there is None else there.value)
        found = None if there is None else there.value
        if found not in (value, before):
            raise BadShared("somebody else wrote in etcd what this hub alone may write: it ends")
        return found == value

    async def end(self) -> None:
        """Lets another hub lead at once."""
        try:
            await self.etcd.revoke(self.lease)
        except EtcdError as error:
            log.debug("the lease ends by itself, or has ended: %s", error)

    @staticmethod
    def deposed(leader: bytes | None) -> Deposed:
        who = "nobody yet" if leader is None else LeaderRow.of(leader).hub
        return Deposed(f"this hub doesn't lead any more: its lease ended, and {who} leads")

    def say(self, error: KemtruaError) -> None:
        """Logs a warning, and no other one for a while."""
        if clock.uptime() - self._said >= SAY_AGAIN:
            self._said = clock.uptime()
            log.warning("%s; nothing is answered until etcd does", error)


async def campaign(etcd: Etcd, keys: Keys, hub: str, address: str) -> Reign | None:
    """Leads from now on, unless another hub does. Raises EtcdError."""
    granted = clock.uptime()
    lease = await etcd.grant(LEASE)
    row = LeaderRow(hub, address, secrets.token_hex(8), __version__, await oldest_among(etcd, keys, hub))
    try:
        await etcd.transact([is_created(keys.leader, 0)], [put(keys.leader, row.data(), lease)], [])
    except NoEtcd:
        pass  # (it may have been done: the key tells)
    found = await leader_of(etcd, keys)
    if found is None or found.row.nonce != row.nonce:
        try:
            await etcd.revoke(lease)
        except EtcdError:
            pass  # (it ends by itself)
        return None
    return Reign(etcd, keys, found.term, lease, granted)


async def oldest_among(etcd: Etcd, keys: Keys, hub: str) -> str:
    """The oldest version of the hubs that are there and may stand by beside this one."""
    rows = [HubRow.of(pair.value) async for page in etcd.pages(keys.hubs, end_of(keys.hubs)) for pair in page.pairs]
    return oldest_of([__version__, *(it.version for it in rows if it.hub != hub and not are_far(it.version, __version__))])


async def leader_of(etcd: Etcd, keys: Keys) -> Leader | None:
    pair = await etcd.get(keys.leader)
    return None if pair is None else Leader(pair.created, LeaderRow.of(pair.value))

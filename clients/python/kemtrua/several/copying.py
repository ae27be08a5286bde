"""A hub that stands by keeps its folder up to date: it reads what it doesn't have, and watches for more."""
from __future__ import annotations

import asyncio
import os
from dataclasses import dataclass

from .. import clock, durable, logs
from ..errors import KemtruaError
from ..etcd import Compacted, Etcd, Event, NoEtcd, end_of, get
from ..folder import Folder
from .layout import BadShared, Block, HubRow, Keys, LeaderRow, TeamRow
from .mirror import FILE, Known, Mirror
from .reign import REST, SAY_AGAIN

log = logs.logger("kemtrua.hub")

SILENCE = 3.0  # seconds without a word of etcd, after which another one is asked: each hub says every two seconds that it is there
SAVE_AGAIN = 2.0  # seconds between two notes of how far the folder is
RESTORED = ("was restored, and what was acknowledged since may be gone. Look at it, and start one hub with --etcd-restored: "
            "the team goes on as its next generation")


@dataclass
class Seen:
    """What was seen last: the leader, the team, and by how many ms the leader's clock is ahead."""

    leader: LeaderRow | None = None
    team: TeamRow | None = None
    skew: int = 0
    revision: int = 0


class Copying:
    """Follows the team into a folder. Raises NotFitting where hubs of a version lead that is too far from this one's. With `accepts`, an
    etcd that was restored is taken as it is."""

    def __init__(self, etcd: Etcd, keys: Keys, folder: Folder, accepts: bool = False):
        self._etcd, self._keys, self._folder, self._accepts = etcd, keys, folder, accepts
        self.seen = Seen()
        self.mirror: Mirror | None = None
        self._restored: int | None = None  # the generation of which etcd was found to be restored, and is taken as it is
        self._saved, self._said = clock.uptime(), -SAY_AGAIN

    @property
    def path(self) -> str:
        """The folder."""
        return self._folder.path

    @property
    def was_restored(self) -> bool:
        """Whether etcd was restored, and nobody has begun the next generation yet."""
        return self._restored is not None and self.seen.team is not None and self.seen.team.generation <= self._restored

    def close(self) -> None:
        if self.mirror is not None:
            self.mirror.save()
            self.mirror.close()
            self.mirror = None

    # -- until nobody leads

    async def until_vacant(self) -> None:
        """Returns once there is no leader, and the folder has all that etcd had then. Raises what another version or folder has to mend."""
        while True:
            try:
                await self.read()
                if self.seen.leader is None:
                    return
                await self._watch()
            except (NoEtcd, Compacted) as error:
                self._say(error)
                await asyncio.sleep(REST)

    async def read(self) -> None:
        """Reads the leader, the team, and what the folder doesn't have yet, as a quorum has them. Raises NoEtcd and Compacted."""
        keys = self._keys
        done = await self._etcd.transact([], [get(keys.leader), get(keys.team)], [])
        leader, team = (found[0].value if found else None for found in done.found)
        self._set_leader(None if leader is None else LeaderRow.of(leader))
        self.seen.team, self.seen.revision = None if team is None else TeamRow.of(team), done.revision
        if self.seen.team is not None:
            self.look_at(self.seen.team, done.revision)
            await self._read_blocks(self.seen.team, done.revision)

    def look_at(self, row: TeamRow, revision: int) -> None:
        """Raises BadShared where etcd was restored: then what was acknowledged may be gone."""
        row.look()
        known, own = Known.read(self._folder.path), f"{self._etcd.cluster or 0:x}"
        if self.was_restored:
            return
        if row.cluster != own:
            self._find_restored(f"etcd's cluster {own} has the team {self._keys.name} of the cluster {row.cluster}: it {RESTORED}")
        if known is not None and known.cluster == own and known.is_later_than(row, revision):
            self._find_restored(f"etcd is at revision {revision}, and {self._folder.path} knows {known.revision}: it {RESTORED}")

    def _find_restored(self, why: str) -> None:
        """Raises BadShared, unless somebody said that this etcd is to be taken as it is. Then the folder takes all of it anew."""
        if not self._accepts:
            raise BadShared(why)
        log.warning("%s", why)
        self._restored = self.seen.team.generation if self.seen.team is not None else 0
        self.close()
        durable.remove(os.path.join(self._folder.path, FILE))

    async def _read_blocks(self, row: TeamRow, revision: int) -> None:
        if self.mirror is None or not self.mirror.known.fits(row):
            self.close()
            self.mirror = await asyncio.to_thread(Mirror.begun, self._folder, row, self._accepts)
        mirror, keys = self.mirror, self._keys
        begin, end = keys.rest_of(row.stores, mirror.known.place)
        first = await self._etcd.range(begin, end, revision, 1)
        if mirror.known.place and (not first.pairs or keys.place_of(row.stores, first.pairs[0].key) != mirror.known.place):
            await self._look_before(row, mirror, revision)
            begin, end = keys.rest_of(row.stores, mirror.known.place)
        async for page in self._etcd.pages(begin, end, revision):
            for pair in page.pairs:
                self._apply(row, pair.key, pair.value, revision)
        mirror.finish()

    async def _look_before(self, row: TeamRow, mirror: Mirror, revision: int) -> None:
        """No block begins at the known place: it comes next, or was merged into an earlier block. Raises BadShared where it is neither."""
        keys, known = self._keys, mirror.known
        before = await self._etcd.last(keys.blocks(row.stores), keys.block(row.stores, known.place), revision)
        if before is not None:
            place, block = keys.place_of(row.stores, before.key) or 0, Block.of(before.value)
            if place + block.covers > known.place or place + block.covers == known.place and block.after == known.sum:
                self._apply(row, before.key, before.value, revision)
                return
        self._find_restored(f"etcd's blocks don't lead to the place {known.place} that {self._folder.path} knows: "
                            f"its history is another one. It {RESTORED}")
        raise Compacted("the folder is to be read anew")

    def _apply(self, row: TeamRow, key: bytes, value: bytes, revision: int) -> None:
        place, mirror = self._keys.place_of(row.stores, key), self.mirror
        if place is None or mirror is None:
            return
        block = Block.of(value)
        if place + block.covers > mirror.known.place:
            mirror.apply(place, block, revision)

    # -- while somebody leads

    async def _watch(self) -> None:
        """Takes what comes, until nobody leads or it has to be read anew."""
        begin, end = self._keys.all, end_of(self._keys.all)
        try:
            async for events in self._etcd.watch(begin, end, self.seen.revision + 1, SILENCE):
                for event in events:
                    if not self._take(event):
                        return
                self._save()
        finally:
            self._save()

    def _take(self, event: Event) -> bool:
        """Whether there is no need to read anew."""
        keys, row, pair = self._keys, self.seen.team, event.pair
        if pair.key == keys.leader:
            self._set_leader(None if event.is_gone else LeaderRow.of(pair.value))
            return not event.is_gone
        if pair.key == keys.team:
            return False
        if pair.key.startswith(keys.hubs):
            if not event.is_gone:
                self._compare_clock(HubRow.of(pair.value))
        elif row is not None and not event.is_gone and (place := keys.place_of(row.stores, pair.key)) is not None:
            if self.mirror is None or place > self.mirror.known.place:
                return False
            self._apply(row, pair.key, pair.value, pair.changed)
        return True

    def _compare_clock(self, row: HubRow) -> None:
        if row.leads:
            self.seen.skew = row.at - clock.now()

    def _set_leader(self, leader: LeaderRow | None) -> None:
        if leader is not None:
            leader.look()
        before, self.seen.leader = self.seen.leader, leader
        if leader is not None and (before is None or before.nonce != leader.nonce):
            log.info("%s leads, at %s; this hub stands by", leader.hub, leader.address)

    def _save(self) -> None:
        if self.mirror is not None and clock.uptime() - self._saved >= SAVE_AGAIN:
            self._saved = clock.uptime()
            self.mirror.save()

    def _say(self, error: KemtruaError) -> None:
        """Logs why etcd isn't heard, and not again for a while. Silence alone isn't worth a line."""
        if "in time" not in str(error) and clock.uptime() - self._said >= SAY_AGAIN:
            self._said = clock.uptime()
            log.warning("%s", error)


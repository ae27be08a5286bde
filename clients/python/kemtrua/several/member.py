"""A hub of several, from its start to its end: it stands by, leads, and stands by again."""
from __future__ import annotations

import asyncio
import os
import signal
import socket
import sys
from contextlib import suppress
from dataclasses import dataclass, replace

from .. import __version__, clock, logs
from ..address import Tls
from ..errors import BadSettings, KemtruaError
from ..etcd import Compacted, Etcd, EtcdError, NoEtcd, put
from ..etcdlink import Endpoint
from ..folder import Folder, is_team_folder
from ..hub.rights import Door, Rights
from ..hub.server import SWITCH, Hub, HubSettings
from ..notify import notify
from ..program import STORE_FILES, check_version
from ..team import Team
from . import telling
from .copying import Copying
from .door import StandbyDoor
from .founding import found, take_restored
from .layout import HubRow, Keys
from .merging import merge_at_times
from .putting import Putting
from .reign import REST, Deposed, Reign, campaign
from .taking import Taking

log = logs.logger("kemtrua.hub")

HUB_LEASE = 10  # seconds that a hub counts as there after it said so last
SAY_AGAIN = 2.0  # seconds between two words of a hub that it is there
SKEW = 2000  # ms by which a clock may part from the leader's
FINISH_WITHIN = 20.0  # seconds that etcd has to take what the program does at its end
LET_OTHERS = 3.0  # seconds that another hub has to lead, where this one's clock parts from the last leader's


@dataclass(frozen=True)
class Several:
    """Where etcd is, the team's name there, and this hub's name among the others."""

    endpoints: tuple[Endpoint, ...]
    team: str
    name: str = ""
    tls: Tls | None = None
    accepts_restored: bool = False


class Member:
    """Serves until SIGTERM or SIGINT, in either part."""

    def __init__(self, settings: HubSettings, several: Several):
        listened = [*settings.addresses, *settings.node_addresses]
        if not listened:
            raise BadSettings("a hub of several listens somewhere")
        self._settings, self._several = settings, several
        self._keys = Keys(several.team)
        self._name = several.name or socket.gethostname()
        self._address = str(next((it for it in listened if not it.path), listened[0]))
        self._folder = Folder(settings.folder, settings.keep)
        self._etcd = Etcd(several.endpoints, several.tls)
        self._copying = Copying(self._etcd, self._keys, self._folder, several.accepts_restored)
        self._hub: Hub | None = None
        self._door: StandbyDoor | None = None
        self._putting: Putting | None = None
        self._lease = 0

    def run(self) -> None:
        sys.setswitchinterval(SWITCH)
        asyncio.run(self._run())

    async def _run(self) -> None:
        self._ended = asyncio.Event()
        check_version(self._settings.program)
        self._folder.hold()
        self._set_signals()
        saying = asyncio.create_task(self._say_at_times())
        try:
            while not self._ended.is_set():
                reign = await self._stand_by()
                if reign is not None:
                    await self._lead(reign)
        finally:
            saying.cancel()
            self._copying.close()
            with suppress(EtcdError):
                await self._etcd.revoke(self._lease)
            self._etcd.close()
            self._folder.let_go()

    def _set_signals(self) -> None:
        loop = asyncio.get_running_loop()
        for number in (signal.SIGTERM, signal.SIGINT):
            loop.add_signal_handler(number, self._end)
        loop.add_signal_handler(signal.SIGHUP, self._read_certificates)

    def _end(self) -> None:
        notify("STOPPING=1")
        self._ended.set()
        if self._hub is not None:
            self._hub.end()

    def _read_certificates(self) -> None:
        try:
            self._etcd.read_certificates()
        except BadSettings as error:
            log.error("the former certificates for etcd go on: %s", error)
        if self._hub is not None:
            self._hub.read_certificates()
        elif self._door is not None:
            self._door.read_certificates()

    # -- standing by

    async def _stand_by(self) -> Reign | None:
        """Copies until this hub leads, or ends."""
        settings = self._settings
        self._door = StandbyDoor(settings.tls, Rights(settings.operators, settings.nodes), self._leader, self._told)
        self._door.open([(Door.OPERATORS, settings.addresses, None), (Door.NODES, settings.node_addresses, settings.nodes_group)])
        log.info("%s stands by in %s; it listens at %s", self._name, self._folder.path, ", ".join(map(str, settings.addresses)))
        notify("READY=1\nSTATUS=stands by")
        taking = Taking(self._folder.path, settings.tls, self._leader)
        waiting, ending = asyncio.create_task(self._until_leads()), asyncio.create_task(self._ended.wait())
        tasks = [waiting, ending, asyncio.create_task(taking.run())]
        try:
            await asyncio.wait([waiting, ending], return_when=asyncio.FIRST_COMPLETED)
            return waiting.result() if waiting.done() else None
        finally:
            for task in tasks:
                task.cancel()
            await asyncio.gather(*tasks, return_exceptions=True)
            await taking.end()
            self._door.close()
            self._door = None

    async def _until_leads(self) -> Reign:
        copying = self._copying
        while True:
            await copying.until_vacant()
            if not self._may_lead():
                await asyncio.sleep(REST)
                continue
            if abs(copying.seen.skew) > SKEW:
                log.warning("this hub's clock parts by %d ms from the last leader's: another hub may lead first", copying.seen.skew)
                await asyncio.sleep(LET_OTHERS)
            try:
                await copying.read()
                if copying.seen.leader is None and (reign := await campaign(self._etcd, self._keys, self._name, self._address)) is not None:
                    return reign
            except EtcdError as error:
                log.debug("no term was begun: %s", error)
                await asyncio.sleep(REST)

    def _may_lead(self) -> bool:
        """Where there is no team yet, only a hub that has stores, or may make some, begins one."""
        if self._copying.seen.team is not None or self._settings.make or is_team_folder(self._folder.path):
            return True
        return any(os.path.lexists(os.path.join(self._folder.path, name)) for name in STORE_FILES)

    def _leader(self) -> str | None:
        leader = self._copying.seen.leader
        return None if leader is None else leader.address

    async def _told(self) -> bytes:
        return telling.encoded(await telling.rows_of(self._etcd, self._keys))

    # -- leading

    async def _lead(self, reign: Reign) -> None:
        """Leads until the reign ends. Raises what the hub of one machine ends by, too."""
        begun, keeping = clock.uptime(), asyncio.create_task(reign.keep())
        try:
            putting, team = await self._begun(reign)
            self._putting = putting
            hub = self._hub = Hub(replace(self._settings, make=False), putting, self._told)
            putting.stalled = lambda seconds: hub.stalled(seconds, "etcd")
            if self._ended.is_set():
                hub.end()
            log.info("this hub leads in term %d, %s; %.2f s after its key", reign.term, team, clock.uptime() - begun)
            await self._serve(hub, putting, team, keeping)
            if hub.failure is not None:
                raise hub.failure
        except (Deposed, NoEtcd, Compacted, TimeoutError) as error:
            log.warning("this hub leads no more: %s", str(error) or "etcd didn't answer in time")
        finally:
            self._hub = self._putting = None
            keeping.cancel()
            await asyncio.gather(keeping, return_exceptions=True)
            with suppress(EtcdError):
                await reign.end()

    async def _begun(self, reign: Reign) -> tuple[Putting, Team]:
        """The folder has all that etcd has, from this moment on by nobody else's doing."""
        copying = self._copying
        while True:
            try:
                await copying.read()
                break
            except NoEtcd as error:
                reign.say(error)
                await asyncio.sleep(REST)
        await reign.confirm()
        if copying.seen.team is None:
            return await found(reign, self._folder, self._settings.program, self._settings.make)
        if copying.was_restored:
            await take_restored(reign, copying)
        assert copying.mirror is not None
        mirror, copying.mirror = copying.mirror, None
        team, tail, known = mirror.finish(), mirror.tail(), mirror.known
        mirror.close()
        putting = Putting(reign, self._folder.path, known, tail)
        await putting.forget_others()
        return putting, team

    async def _serve(self, hub: Hub, putting: Putting, team: Team, keeping: asyncio.Task[None]) -> None:
        """Has the hub work until it ends, and puts what it does to its end."""
        tasks = [asyncio.create_task(putting.run()), keeping, asyncio.create_task(merge_at_times(putting))]

        def watch(task: asyncio.Task[None]) -> None:
            if not task.cancelled() and (error := task.exception()) is not None:
                hub.fail(error if isinstance(error, KemtruaError) else KemtruaError(f"{type(error).__name__}: {error}"))

        for task in tasks:
            task.add_done_callback(watch)
        try:
            await hub.serve(team)
            if hub.failure is None and putting.doubt() is None:
                await asyncio.wait_for(putting.finish(), FINISH_WITHIN)
        finally:
            putting.save()
            for task in (tasks[0], tasks[2]):
                task.cancel()
            await asyncio.gather(tasks[0], tasks[2], return_exceptions=True)

    # -- that this hub is there

    async def _say_at_times(self) -> None:
        while True:
            try:
                await self._say()
            except EtcdError as error:
                log.debug("the other hubs don't hear of this one: %s", error)
            except Exception:
                log.exception("the other hubs don't hear of this one")
            await asyncio.sleep(SAY_AGAIN)

    async def _say(self) -> None:
        if not self._lease or not await self._etcd.keep_alive(self._lease):
            self._lease = await self._etcd.grant(HUB_LEASE)
        putting, mirror = self._putting, self._copying.mirror
        known = putting.known if putting is not None else mirror.known if mirror is not None else None
        stores, place = ("", 0) if known is None else (known.stores, known.place)
        row = HubRow(self._name, self._address, __version__, putting is not None, stores, place, clock.now())
        await self._etcd.transact([], [put(self._keys.hub(self._name), row.data(), self._lease)], [])

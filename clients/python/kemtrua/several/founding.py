"""How a team begins in etcd, and how it goes on in an etcd that was restored."""
from __future__ import annotations

import asyncio
import os
from dataclasses import replace

from .. import logs
from ..folder import Folder
from ..team import Team
from .copying import Copying
from .layout import FORMAT, TeamRow
from .mirror import Known
from .putting import Putting
from .reign import Reign
from .tail import Tail

log = logs.logger("kemtrua.hub")


async def found(reign: Reign, folder: Folder, program: str, make: bool) -> tuple[Putting, Team]:
    """Puts the stores of this hub's folder in etcd, and then the team, which counts from that moment on."""
    team = await asyncio.to_thread(folder.open, program, make)
    stores = folder.current
    row = TeamRow(FORMAT, team.id, team.generation, os.path.basename(stores), f"{reign.etcd.cluster or 0:x}")
    putting = Putting(reign, folder.path, Known(row.cluster, row.id, row.generation, row.stores), Tail(stores))
    await putting.found(row)
    log.info("%s is in etcd from now on, under the name %s", team, reign.keys.name)
    return putting, team


async def take_restored(reign: Reign, copying: Copying) -> None:
    """Has the team go on as etcd has it, as its next generation, where etcd isn't the one that the team knows."""
    row = copying.seen.team
    assert row is not None
    cluster, own = f"{reign.etcd.cluster or 0:x}", Team.read(copying.path)
    generation = max(row.generation, own.generation if own is not None else 0) + 1
    log.warning("etcd was restored: the team goes on as generation %d, and what was acknowledged after the backup is gone", generation)
    await reign.put(reign.keys.team, replace(row, cluster=cluster, generation=generation).data(), row.data())
    await copying.read()

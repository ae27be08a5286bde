"""Who leads, how far each hub is, and how much etcd has: the answer to the line `team`."""
from __future__ import annotations

import json
from typing import Any

from ..etcd import Etcd, EtcdError, end_of
from .layout import Block, HubRow, Keys, TeamRow
from .reign import Leader, leader_of

Object = dict[str, Any]


async def rows_of(etcd: Etcd, keys: Keys) -> list[Object]:
    """An object for the team, and one for each hub, the leader's first. Raises EtcdError."""
    leader, team = await leader_of(etcd, keys), await etcd.get(keys.team)
    row = None if team is None else TeamRow.of(team.value)
    hubs = [HubRow.of(pair.value) async for page in etcd.pages(keys.hubs, end_of(keys.hubs)) for pair in page.pairs]
    places = 0 if row is None else await places_of(etcd, keys, row.stores)
    told = await _of_team(etcd, keys, leader, row, places)
    return [told, *sorted((_of_hub(it, leader, row, places) for it in hubs), key=lambda it: (not it["leads"], it["hub"]))]


async def _of_team(etcd: Etcd, keys: Keys, leader: Leader | None, row: TeamRow | None, places: int) -> Object:
    size, used = await etcd.size()
    try:
        alarms = await etcd.alarms()
    except EtcdError:
        alarms = []
    found: Object = {"team": keys.name, "places": places, "etcd_bytes": size, "etcd_used": used, "alarms": alarms}
    if row is not None:
        found |= {"id": row.id, "generation": row.generation, "stores": row.stores, "cluster": row.cluster}
    if leader is not None:
        found |= {"leader": leader.row.hub, "address": leader.row.address, "term": leader.term, "oldest": leader.row.oldest}
    return found


def _of_hub(it: HubRow, leader: Leader | None, row: TeamRow | None, places: int) -> Object:
    has_stores = row is not None and it.stores == row.stores
    return {"hub": it.hub, "address": it.address, "version": it.version, "leads": leader is not None and leader.row.hub == it.hub,
            "behind": max(0, places - it.place) if has_stores else places, "said": it.at}


async def places_of(etcd: Etcd, keys: Keys, stores: str) -> int:
    """How many places the blocks of these stores have."""
    begin = keys.blocks(stores)
    last = await etcd.last(begin, end_of(begin))
    if last is None:
        return 0
    return (keys.place_of(stores, last.key) or 0) + Block.of(last.value).covers


def encoded(rows: list[Object]) -> bytes:
    return b"\n".join([b"rows %d" % len(rows), *(json.dumps(row, separators=(",", ":")).encode() for row in rows)])

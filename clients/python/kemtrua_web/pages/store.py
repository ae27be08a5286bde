"""The store and the team: how full it is, who is there, and who did what."""
from __future__ import annotations

import os
import shutil
from typing import Any

from kemtrua.errors import KemtruaError
from kemtrua.hub.room import BYTES_LIMIT, COUNT_LIMIT, FULL

from ..moments import size
from ..site import Looked
from ..standing import look_jobs
from .now import nodes_of

AUDIT, STORES = 30, 6
TABLES = (("jobs", "jobs", 262_144), ("triggers", "triggers", 1_048_576), ("members", "members", 256),
          ("fired", "acquired or executing", 65_536))
OTHERS = (("calendar", "calendars", 4096), ("zone", "zones", 4096), ("paused", "paused groups of triggers", 4096),
          ("paused_jobs", "paused groups of jobs", 4096))


def page(looked: Looked) -> tuple[str, dict[str, Any]]:
    loads = looked.history.loads()
    nodes = [one | {"load": loads.get(one["node"])} for one in nodes_of(looked.store, looked.clock)]
    before = looked.get("before")
    last = int(before) if before.isascii() and before.isdigit() and len(before) < 19 else None
    audit = looked.history.audit(last, AUDIT + 1)
    room, team = looked.site.room(), _team(looked)
    standing = looked.site.standing(looked, looked.clock.last_night(), "night")
    return "store", {
        "tab": "store", "live": last is None, "room": _room(looked, room), "full": _full(room), "tables": _tables(looked), "nodes": nodes,
        "audit": audit[:AUDIT],
        "older": audit[AUDIT - 1]["id"] if len(audit) > AUDIT else None, "stores": looked.history.stores()[:STORES], "team_words": team,
        "figures": _figures(looked),
        "oldest": looked.history.oldest(), "count_open": len(look_jobs(standing)), "hub_at": str(looked.site.hub.address),
        "answered": looked.site.hub.answered,
        "behind": room.behind if room is not None else None}


def _team(looked: Looked) -> tuple[str, str] | None:
    try:
        return looked.site.hub.team()
    except KemtruaError:
        return None


def _figures(looked: Looked) -> dict[str, Any] | None:
    """What the hub counts of itself: connections, and how long the store takes."""
    try:
        found: Any = looked.site.hub.figures()
    except KemtruaError:
        return None
    if not found:
        return None
    counts = found["within"]
    total = sum(counts)
    return {"connections": found["connections"], "answered": total, "mean": 1000 * found["seconds"] / total if total else None,
            "most": _within(found["bounds"], counts, 0.99) if total else None}


def _within(bounds: list[float], counts: list[int], share: float) -> float | None:
    """The bound in ms within which so much of it was; None where it is above all of them."""
    wanted, seen = share * sum(counts), 0
    for bound, count in zip(bounds, counts):
        seen += count
        if seen >= wanted:
            return 1000 * bound
    return None


def _full(room: Any | None) -> float | None:
    """How much of a limit is used, in per cent, of that of which most is."""
    if room is None:
        return None
    sizes, counts = zip(room.triggers, room.states)
    return 100 * max(max(sizes) / BYTES_LIMIT, max(counts) / COUNT_LIMIT)


def _room(looked: Looked, room: Any | None) -> list[dict[str, Any]]:
    found = []
    if room is not None:
        for name, (used, count) in (("Trigger store", room.triggers), ("State store, check-ins", room.states)):
            found.append(_bar(f"{name}: payloads", f"{count:,}".replace(",", "\u202f"), f"{COUNT_LIMIT:,}".replace(",", "\u202f"),
                              100 * count / COUNT_LIMIT, 100 * FULL))
            found.append(_bar(f"{name}: bytes", size(used), size(BYTES_LIMIT), 100 * used / BYTES_LIMIT, 100 * FULL))
    found.append(_bar("History", size(looked.history.bytes_used()), "", None, None))
    try:
        disk = shutil.disk_usage(looked.site.settings.folder)
        found.append(_bar(f"Disk of {os.path.abspath(looked.site.settings.folder)}", size(disk.used), size(disk.total),
                          100 * disk.used / disk.total, None))
    except OSError:
        pass
    return found


def _bar(name: str, used: str, most: str, part: float | None, mark: float | None) -> dict[str, Any]:
    return {"name": name, "used": used, "most": most, "part": None if part is None else round(part, 2), "mark": mark}


def _tables(looked: Looked) -> list[tuple[str, int, int]]:
    found = [(word, looked.store.count(table), most) for table, word, most in TABLES]
    return found + [(word, looked.store.count_others(table), most) for table, word, most in OTHERS]

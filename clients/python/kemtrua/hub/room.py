"""How full the stores are, and what is to be done about it."""
from __future__ import annotations

from dataclasses import dataclass

from ..replies import Room

BYTES_LIMIT, COUNT_LIMIT = 2**29, 2**23
FULL = 0.5  # of a limit, at which the stores are compacted
GAIN = 0.1  # of what is used, that a compaction has to free
CROWDED, LITTLE = 0.8, 0.01  # of a limit, at which somebody has to be told, and what a compaction has to free then
TRANSACTIONS = 4096  # that come after a snapshot at least, before the next one is made


@dataclass(frozen=True)
class Snapshot:
    """Where the trigger store's last snapshot ends, and how many bytes it has."""

    end: int
    size: int


def share(room: Room, payloads: float = COUNT_LIMIT) -> float:
    """How much of a limit is used, from 0 to 1: of that of which most is."""
    return max(*(used / BYTES_LIMIT for used, _ in (room.triggers, room.states)), *(count / payloads for _, count in (room.triggers, room.states)))


def snapshot_is_due(room: Room, last: Snapshot | None) -> bool:
    """Whether enough came after the last snapshot: so all of them never take more than half of a store."""
    return room.behind >= TRANSACTIONS and (last is None or room.triggers[0] - last.end >= last.size)


def would_free(room: Room, last: Snapshot | None) -> float:
    """How much of what is used a compaction would free, from 0 to 1. The new trigger store has about as many bytes as the last snapshot."""
    left = last.size if last is not None else room.triggers[0]
    return max(0.0, 1 - left / (room.triggers[0] + room.states[0]))


def compaction_is_due(room: Room, last: Snapshot | None, is_old: bool, payloads: float) -> bool:
    """Whether the stores are to be compacted: where one is half full, or after a week; each time only where that frees something.

    A test's number of payloads is of stores so small that it always does.
    """
    used = share(room, payloads)
    return (used >= FULL or is_old) and (payloads < COUNT_LIMIT or would_free(room, last) >= (LITTLE if used >= CROWDED else GAIN))

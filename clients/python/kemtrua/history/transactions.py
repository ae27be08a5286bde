"""Transactions of a trigger store, as the hub sees them go by, or as `qz_sched history` tells them."""
from __future__ import annotations

import json
from dataclasses import dataclass

from ..checking import Line
from ..errors import KemtruaError

# Steps that the trigger store has as transactions, where they aren't refused.
OF_CLIENTS = frozenset("""add_job delete_job add_trigger delete_trigger pause_trigger resume_trigger pause_group resume_group add_calendar delete_calendar
add_zone delete_zone trigger_now threshold migrate reset_trigger pause_job_group resume_job_group""".split())
OF_NODES = frozenset("join leave acquire release fire complete misfires recover".split())
STEPS = OF_CLIENTS | OF_NODES
NOT_DONE = ("refused", "stopped", "closed", "fault")


class NotTold(KemtruaError):
    """The program's history couldn't be read."""


@dataclass(slots=True)
class Transaction:
    """A step that was done: its number in the store, if that is known, and its moment, which is the hub's clock's where it isn't exact.

    One is made of each answer, so it isn't frozen: that would take three times as long.
    """

    number: int | None
    at: int
    line: Line
    reply: str
    epoch: int | None = None
    exact: bool = False

    @property
    def do(self) -> str:
        return str(self.line["do"])


def learns(reply: str) -> bool:
    """Whether anything is learnt of a transaction that was answered so, beside that it was done."""
    return reply not in ("acquired none", "misfired none")


def told(data: bytes) -> Transaction:
    """The transaction of a line of `qz_sched history`. Raises NotTold where it is none."""
    try:
        found = json.loads(data)
        line = dict(found["line"])
        at = int(line.pop("at"))
        return Transaction(int(found["number"]), at, line, str(found["reply"]), found.get("epoch"), exact=True)
    except (ValueError, KeyError, TypeError):
        raise NotTold(f"qz_sched history wrote {data[:200]!r}") from None

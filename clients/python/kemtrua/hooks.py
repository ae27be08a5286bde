"""For tests alone: where a hub is to die, and from which share of a store on it compacts. Without the variable KEMTRUA_TEST nothing of this is looked at.

KEMTRUA_TEST names a JSON file: `compact_at` is a number of payloads, `look` the seconds between two looks at the stores, and `die_at` a step of a compaction.
Of several hubs, `merge_look` and `merge_after` are seconds and a number of blocks, and `answers_first`, `no_term`, `own_tail` and
`shows_first` have a hub break a rule, which a test has to find.
"""
from __future__ import annotations

import json
import os
import signal

VARIABLE = "KEMTRUA_TEST"


def asked(name: str) -> object:
    """What the file says under this name; None where it says nothing."""
    path = os.environ.get(VARIABLE)
    if path is None:
        return None
    try:
        with open(path, encoding="utf-8") as file:
            found: object = json.load(file).get(name)
            return found
    except (OSError, ValueError):
        return None


def number(name: str, usual: float) -> float:
    found = asked(name)
    return float(found) if isinstance(found, (int, float)) else usual


def reached(step: str) -> None:
    """A step was reached, at which this process may have to die."""
    if VARIABLE in os.environ and asked("die_at") == step:
        os.kill(os.getpid(), signal.SIGKILL)

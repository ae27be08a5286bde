"""The settings file of a hub, in TOML: how long its history is kept, what jobs are expected to do, and who is alerted."""
from __future__ import annotations

import re
import tomllib
from collections.abc import Mapping
from dataclasses import dataclass, field
from datetime import time, timezone, tzinfo
from typing import Any
from zoneinfo import ZoneInfo

from ..errors import BadSettings
from ..names import Key
from ..settings import FORMAT, Table

GIB = 2**30
KINDS = ("failure", "error", "late", "expect", "lost", "room")
DAYS = ("MON", "TUE", "WED", "THU", "FRI", "SAT", "SUN")


@dataclass(frozen=True)
class Expectation:
    """A job must have ended by a local time of these days (0 is Monday), or take at most so many seconds."""

    job: str
    by: time | None
    zone: tzinfo
    days: frozenset[int]
    within: float | None


@dataclass(frozen=True)
class Alert:
    """A command for events of a kind: at most one in so many seconds, with so many seconds for its end, and tried so many times more where it fails."""

    kind: str
    command: tuple[str, ...]
    every: float = 60.0
    timeout: float = 60.0
    retries: int = 5


@dataclass(frozen=True)
class HistorySettings:
    days: float = 90.0
    bytes: int = 10 * GIB
    expects: tuple[Expectation, ...] = ()
    alerts: Mapping[str, Alert] = field(default_factory=dict)


def read_hub(path: str) -> HistorySettings:
    """What a hub's settings file says. Raises BadSettings."""
    try:
        with open(path, "rb") as file:
            values = tomllib.load(file)
    except OSError as error:
        raise BadSettings(f"{path} can't be read: {error.strerror}") from None
    except (tomllib.TOMLDecodeError, UnicodeDecodeError) as error:
        raise BadSettings(f"{path}: {error}") from None
    top = Table(path, values)
    form = top.take("format", int, FORMAT)
    if form != FORMAT:
        raise BadSettings(f"{path}: format = {form}; this hub knows {FORMAT}")
    history = Table(f"{path}: [history]", top.take("history", dict, {}))
    expects = tuple(_expectation(f'{path}: [expect."{job}"]', job, one) for job, one in top.take("expect", dict, {}).items())
    given = Table(f"{path}: [on]", top.take("on", dict, {}))
    alerts = {kind: _alert(f"{path}: [on.{kind}]", kind, one) for kind in KINDS if (one := given.take(kind, dict)) is not None}
    given.end()
    top.end()
    found = HistorySettings(history.take("days", (int, float), 90.0, 0.01), round(history.take("gigabytes", (int, float), 10.0, 0.01) * GIB), expects, alerts)
    history.end()
    return found


def _expectation(where: str, job: str, values: Any) -> Expectation:
    table = Table(where, values)
    by, zone, within = table.take("by", str), table.take("zone", str), table.take("within", (int, float), None, 0)
    days = table.take("days", list, list(DAYS))
    table.end()
    if by is None and within is None:
        raise BadSettings(f'{where}: write by = "06:00", within = 7200, or both')
    if by is not None and not re.fullmatch(r"([01][0-9]|2[0-3]):[0-5][0-9]", by):
        raise BadSettings(f"{where}: by = {by!r}; allowed is a time of day from 00:00 to 23:59")
    if not days or not all(day in DAYS for day in days):
        raise BadSettings(f"{where}: days has some of {', '.join(DAYS)}")
    if by is not None and zone is None:
        raise BadSettings(f'{where}: by wants a zone, as zone = "Europe/Berlin"')
    return Expectation(str(Key.of_user(job)), None if by is None else time.fromisoformat(by), timezone.utc if zone is None else zone_of(where, zone),
                       frozenset(map(DAYS.index, days)), within)


def zone_of(where: str, name: str) -> ZoneInfo:
    try:
        return ZoneInfo(name)
    except (OSError, ValueError, KeyError):
        raise BadSettings(f"{where}: zone = {name!r}: this machine knows no such zone") from None


def _alert(where: str, kind: str, values: Any) -> Alert:
    table = Table(where, values)
    words = table.take("command", list)
    if not words or not all(isinstance(word, str) and "\0" not in word for word in words):
        raise BadSettings(f'{where}: command is missing or no list of texts, as command = ["/usr/local/bin/tell"]')
    found = Alert(kind, tuple(words), table.take("every", (int, float), 60.0, 1), table.take("timeout", (int, float), 60.0, 1), table.take("retries", int, 5, 0))
    table.end()
    return found

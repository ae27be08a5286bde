"""What ran: the commands `history`, `log`, `last` and `audit`, over a hub, or over the database of a hub's folder."""
from __future__ import annotations

import argparse
import base64
import json
import re
import sys
import time
from collections.abc import Iterator
from contextlib import contextmanager
from typing import Protocol

from .. import clock, rows
from ..errors import BadLine, BadSettings, KemtruaError
from ..folder import stores_in
from ..history.questions import Object
from ..history.recorder import vacuum_in
from ..hub.telling import answers_in
from ..names import Key
from ..program import call
from . import screen, work
from .printing import local_of, plain

Words = argparse.Namespace
PAGE = 1000  # rows of one question
BESIDE = 5  # of what didn't run, below a screen of what did
LOOK_AGAIN = 2.0  # seconds between two looks of --follow
DAY = 86_400_000  # ms
OVERDUE = 60_000  # ms that a trigger may be past its time


class Source(Protocol):
    """Who is asked what ran."""

    def rows(self, do: str, **members: object) -> list[Object]:
        """The objects of the answer."""

    def listed(self) -> list[str]:
        """The lines of `list`."""


class Folder:
    """The database in a hub's folder, whether the hub lives or not."""

    def __init__(self, folder: str, program: str):
        self._folder, self._program = folder, program

    def rows(self, do: str, **members: object) -> list[Object]:
        return answers_in(self._folder, {"do": do, **members})

    def listed(self) -> list[str]:
        return call(self._program, stores_in(self._folder), "list").splitlines()


@contextmanager
def source_of(given: Words) -> Iterator[Source]:
    if given.folder is not None:
        yield Folder(given.folder, given.program)
    else:
        with work.hub_of(given) as hub:
            yield hub


# -- history


def history(given: Words) -> int:
    if given.vacuum:
        return _vacuum(given)
    asked = {name: value for name, value in (("job", _key(given.job)), ("node", given.node), ("since", _past(given.since)), ("until", _past(given.until)),
                                             ("failed", given.failed)) if value is not None}
    limit = _limit(given.limit) or (None if given.json or given.all else screen.height())
    with source_of(given) as source:
        found = _pages(source, asked, limit)
        beside = [] if given.node is not None else _beside(source, asked, limit)
    if given.json:
        print(_json(found + beside))
        return 0
    print(screen.table(["ENTRY", "JOB", "STATE", "BEGAN", "TOOK", "NODE", "HOW"], map(_line, found), coloured=2) if found else "nothing ran")
    if limit is not None and len(found) == limit and not given.limit:
        print(f"the latest {limit}; all of them with --all")
    for event in beside:
        print(f"{local_of(event['at'])}: {screen.harmless(str(event['text']))}")
    return 0


def _beside(source: Source, asked: Object, limit: int | None) -> list[Object]:
    """What didn't run: firings that were misfired, those of operators that were refused, and what is missing of the history. The latest comes last."""
    job: Object = {"job": asked["job"]} if "job" in asked else {}
    found = source.rows("events", since=asked.get("since", 0), kinds=["misfired", "refused", "gap"], limit=PAGE if limit is None else BESIDE, **job)
    return [event for event in reversed(found) if "until" not in asked or int(str(event["at"])) < int(str(asked["until"]))]


def _vacuum(given: Words) -> int:
    if given.folder is not None:
        before, after = vacuum_in(given.folder)
    else:
        with work.hub_of(given) as hub:
            before, after = hub.vacuum()
    print(f"the history had {before} bytes and has {after}")
    return 0


def _pages(source: Source, asked: Object, limit: int | None) -> list[Object]:
    """The rows of as many questions as it takes."""
    found: list[Object] = []
    while limit is None or len(found) < limit:
        wanted = PAGE if limit is None else min(PAGE, limit - len(found))
        more: Object = {"before": [found[-1][name] for name in ("fired", "generation", "entry")]} if found else {}
        page = source.rows("history", **asked, **more, limit=wanted)
        found += page
        if len(page) < wanted:
            break
    return found


def _line(one: Object) -> list[object]:
    return [one["entry"], plain(one["job"] or one["trigger"] or "-"), one["state"], local_of(one["fired"]), _took(one), one["node"], how(one)]


def _took(one: Object) -> str:
    fired, ended = one["fired"], one["ended"] if one["ended"] is not None else clock.now() if one["state"] == "runs" else None
    return screen.span(ended - fired) if isinstance(fired, int) and isinstance(ended, int) else "-"


def how(one: Object) -> str:
    """How an execution ended, in words."""
    words = []
    if one["state"] == "ended":
        words.append("its node didn't tell how")
    elif one["state"] == "missing":
        words.append("its end isn't known")
    elif one["state"] == "lost":
        words.append("lost with its node")
    if "why" in one:
        words.append(str(one["why"]))
    if "signal" in one:
        words.append(f"signal {one['signal']}")
    elif "status" in one:
        words.append(f"exit status {one['status']}")
    if one["state"] != "runs" and "code" in one and one["code"] != "NOOP":
        words.append(str(one["code"]))
    if isinstance(one["refires"], int) and one["refires"] > 0:
        words.append(f"executed {one['refires'] + 1} times")
    if "recovers" in one:
        words.append(f"makes up for {one['recovers']}")
    return ", ".join(words)


# -- log


def log(given: Words) -> int:
    if not given.entry.isdecimal():
        raise BadSettings(f"{given.entry!r} is no entry number")
    asked: Object = {"entry": int(given.entry), **({} if given.generation is None else {"generation": given.generation})}
    with source_of(given) as source:
        found = source.rows("log", **asked)
        if not found:
            print(f"no entry {given.entry} is known", file=sys.stderr)
            return 1
        if given.json:
            print(_json(found))
            return 0
        one = found[0]
        _show(one, given.raw, 0)
        while given.follow and one["state"] == "runs":
            time.sleep(LOOK_AGAIN)
            end = one["end"]
            (one,) = source.rows("log", **asked, **{"from": end})
            _show(one, given.raw, end)
    if given.follow or not given.raw:
        print(f"-- {_summary(one)}", file=sys.stderr)
    return 0


def _show(one: Object, raw: bool, after: object) -> None:
    """What was written behind an offset."""
    data = base64.b64decode(str(one["data"]))
    if isinstance(after, int) and isinstance(one["from"], int) and one["from"] > after:
        print(f"-- {one['from'] - after} bytes before this aren't kept", file=sys.stderr)
    if raw:
        sys.stdout.buffer.write(data)
    else:
        sys.stdout.write(screen.output(data))
    sys.stdout.flush()


def _summary(one: Object) -> str:
    words = [f"entry {one['entry']}, {plain(one['job'] or '-')} on {screen.harmless(str(one['node']))}: {one['state']}", how(one), f"began {local_of(one['fired'])}",
             f"took {_took(one)}"]
    if isinstance(one.get("most"), int):
        words.append(f"limit {screen.span(one['most'])}")
    if "cpu" in one:
        words.append(f"{screen.span(one['cpu'])} of a processor")
    if isinstance(one.get("peak"), int):
        words.append(f"{int(str(one['peak'])) // 1024} MiB at most")
    return screen.harmless(", ".join(word for word in words if word))


# -- last


def last(given: Words) -> int:
    with source_of(given) as source:
        found = {str(one["job"]): one for one in source.rows("last")}
        missed = source.rows("events", since=clock.now() - DAY, kinds=["expect"])
        try:
            listed = [rows.row_of(line) for line in source.listed()]
        except KemtruaError as error:
            print(f"kemtrua: no next times: {error}", file=sys.stderr)
            listed = []
    jobs = [_job(job, found.get(job), listed, missed) for job in sorted({*found, *(str(row.key) for row in listed if isinstance(row, rows.JobRow))})]
    if given.json:
        print(_json(jobs))
        return 0
    lines = [[plain(one["job"]), *_last_words(one["last"]), local_of(one["next"]), "; ".join(map(str, _list(one["notes"])))] for one in jobs]
    print(screen.table(["JOB", "STATE", "BEGAN", "TOOK", "HOW", "NEXT", "BUT"], lines, coloured=1))
    return 0


def _last_words(one: object) -> list[object]:
    return [one["state"], local_of(one["fired"]), _took(one), how(one)] if isinstance(one, dict) else ["-", "-", "-", "never ran, as far as is known"]


def _job(job: str, latest: Object | None, listed: list[rows.Row], missed: list[Object]) -> Object:
    """A job's last execution, its next time, and what should have been and wasn't."""
    triggers = [row for row in listed if isinstance(row, rows.TriggerRow) and str(row.job) == job]
    times = [row.next for row in triggers if row.next is not None and row.state in ("WAITING", "ACQUIRED", "BLOCKED")]
    notes = [f"{plain(row.key)} has been due since {clock.local(row.next)}" for row in triggers
             if row.state == "WAITING" and row.next is not None and row.next < clock.now() - OVERDUE]
    notes += [f"{plain(row.key)} is in {row.state}" for row in triggers if row.state in ("ERROR", "PAUSED", "PAUSED_BLOCKED")]
    notes += [str(event["text"]) for event in missed if event["job"] == job]
    return {"job": job, "last": latest, "next": min(times, default=None), "notes": notes}


def _list(value: object) -> list[object]:
    return value if isinstance(value, list) else []


# -- audit


def audit(given: Words) -> int:
    asked = {name: value for name, value in (("since", _past(given.since)), ("by", given.by)) if value is not None}
    limit = _limit(given.limit) or (PAGE if given.json else screen.height() or PAGE)
    with source_of(given) as source:
        found = source.rows("audit", **asked, limit=min(limit, PAGE))
    if given.json:
        print(_json(found))
        return 0
    lines = [[local_of(one["at"]), one["who"] or "(only the store knows)", *(screen.short(str(one[name])) for name in ("line", "reply"))] for one in found]
    print(screen.table(["WHEN", "WHO", "LINE", "REPLY"], lines) if found else "nobody did anything")
    return 0


# -- words


def _key(text: str | None) -> str | None:
    return None if text is None else str(Key.of_user(text))


def _limit(given: int | None) -> int | None:
    if given is not None and given < 1:
        raise BadSettings(f"--limit {given}: allowed is 1 or more")
    return given


def _past(text: str | None) -> int | None:
    """A moment, or a span before now."""
    if text is None:
        return None
    try:
        return clock.now() - clock.span_of(text) if re.fullmatch(r"(\d+(ms|s|m|h|d))+", text) else clock.moment_of(text)
    except ValueError as error:
        raise BadLine([error]) from None


def _json(found: list[Object]) -> str:
    return "[" + ",\n ".join(json.dumps(one) for one in found) + "]"

"""What triggers, calendars and zones were defined as: from the lines that the history keeps, since the store tells rows and no definitions.

The lines go to `qz_sched times`, which answers when a trigger fires. So each fire time on a page is the program's own.
"""
from __future__ import annotations

import json
import sqlite3
import subprocess
import threading
from collections.abc import Iterable, Sequence
from typing import TypeVar

from kemtrua import logs
from kemtrua.history.schema import NoHistory
from kemtrua.names import Key

from .queries import History

log = logs.logger("kemtrua.web")

AT_ONCE = 5000  # rows of the history that are read at once
TIMES_WITHIN = 10.0  # seconds
MOST_TIMES = 1000  # that the program tells of a trigger
MOST, MOST_OTHERS = 100_000, 4096  # triggers and jobs, and calendars and zones, that are known: the oldest go first
Definition = dict[str, object]
Known = TypeVar("Known")


def _key(part: Definition) -> str:
    return str(Key(str(part.get("group", "DEFAULT")), str(part["name"])))


def _put(known: dict[str, Known], key: str, value: Known, most: int) -> None:
    """Puts one, and takes the oldest away where there are too many. One that is put again keeps its place: others may name it."""
    known[key] = value
    if len(known) > most:
        del known[next(iter(known))]


class Definitions:
    """What is known of them. Safe for threads."""

    def __init__(self, folder: str, program: str):
        self._folder, self._program = folder, program
        self._lock = threading.Lock()
        self._last, self._problem = 0, ""
        self._triggers: dict[str, Definition] = {}
        self._jobs: dict[str, Definition] = {}
        self._calendars: dict[str, str] = {}  # the lines, in the order in which they came
        self._zones: dict[str, str] = {}
        self.why: str | None = None  # why no times are told

    def learn(self) -> None:
        """Reads what the history got since the last time."""
        with self._lock:
            try:
                with History(self._folder) as history:
                    if history.last_audit() < self._last:
                        self._last = 0  # (the database was made anew, or all were too old: numbers begin anew)
                    while rows := history.audit_after(self._last, AT_ONCE):
                        for row in rows:
                            self._last = row["id"]
                            if not row["reply"].startswith(("refused", "hub", "stopped", "fault", "closed")):
                                self._take(row["line"])
                self._problem = ""
            except (NoHistory, sqlite3.Error) as error:
                if str(error) != self._problem:  # (once, and not at each page)
                    self._problem = str(error)
                    log.warning("no definitions are learnt meanwhile: %s", error)

    def _take(self, text: str) -> None:
        try:
            line = json.loads(text)
            do = line["do"]
            if do == "add_trigger":
                _put(self._triggers, _key(line["trigger"]), line["trigger"], MOST)
            elif do == "delete_trigger":
                self._triggers.pop(_key(line), None)
            elif do == "add_job":
                _put(self._jobs, _key(line["job"]), line["job"], MOST)
            elif do == "add_calendar":
                _put(self._calendars, line["calendar"]["name"], json.dumps({"do": do, "calendar": line["calendar"], "replace": True}), MOST_OTHERS)
            elif do == "add_zone":
                zone = json.dumps({name: line[name] for name in ("do", "name", "stretches", "rule") if name in line})
                _put(self._zones, line["name"], zone, MOST_OTHERS)
        except (ValueError, KeyError, TypeError, AttributeError):
            return  # (a line that was cut, or that isn't one of these)

    def trigger(self, key: str) -> Definition | None:
        return self._triggers.get(key)

    def times(self, keys: Iterable[str], after: int, count: int) -> dict[str, list[int]]:
        """The next fire times of triggers behind a moment, by the program's own calculation. Those that it can't tell are left out."""
        wanted = [(key, trigger) for key in keys if (trigger := self._triggers.get(key)) is not None]
        if not wanted:
            return {}
        lines = [*self._zones.values(), *self._calendars.values()]
        lines += [json.dumps({"do": "add_trigger", "trigger": {**trigger, "priority": 5}}) for _, trigger in wanted]
        found: dict[str, list[int]] = {}
        for reply in self._asked(lines, max(after, 0), min(count, MOST_TIMES)):
            words = reply.split()
            if words[:1] == ["times"] and len(words) > 2:
                found[words[1]] = [int(word) for word in words[2:]] if words[2] != "none" else []
        return found

    def _asked(self, lines: Sequence[str], after: int, count: int) -> list[str]:
        try:
            done = subprocess.run([self._program, "times", str(after), str(count)], input="\n".join(lines) + "\n", capture_output=True,
                                  text=True,
                                  timeout=TIMES_WITHIN)
        except (OSError, subprocess.TimeoutExpired) as error:
            self.why = f"the program can't be asked: {error}"
            return []
        self.why = None if done.returncode == 0 else f"the program can't be asked: {done.stderr.strip()[:200]}"
        return done.stdout.splitlines()

"""Commands that tell people of events: at most one of a kind in so long, with the number of those that it stands for."""
from __future__ import annotations

import os
import signal
import sqlite3
import subprocess
import tempfile
import threading
from collections.abc import Mapping

from .. import clock, logs
from ..errors import KemtruaError
from ..names import Key
from .questions import RINGS, Object, Questions
from .recorder import Recorder
from .schema import NoHistory
from .settings import Alert

log = logs.logger("kemtrua.alert")

LOOK_AGAIN = 1.0  # seconds
FIRST_REST, LONGEST_REST = 10.0, 600.0  # seconds until a command that failed is tried again
SAID = 2000  # bytes of a command's own output that are logged


class Alerts:
    """A thread for each kind of event that has a command, so that one that hangs keeps no other one waiting."""

    def __init__(self, recorder: Recorder, alerts: Mapping[str, Alert]):
        self._ending = threading.Event()
        self._threads = [threading.Thread(target=Bell(recorder, alert, self._ending).run, name=f"alert-{alert.kind}", daemon=True) for alert in alerts.values()]

    def start(self) -> None:
        for thread in self._threads:
            thread.start()

    def end(self) -> None:
        """Ends what runs. What wasn't told is told after the next start."""
        self._ending.set()
        for thread in self._threads:
            if thread.ident is not None:
                thread.join(5.0)


class Bell:
    """The command of one kind of event."""

    def __init__(self, recorder: Recorder, alert: Alert, ending: threading.Event):
        self._recorder, self._alert, self._ending = recorder, alert, ending
        self._failures = 0

    def run(self) -> None:
        rest = LOOK_AGAIN
        while not self._ending.wait(rest):
            try:
                rest = self._look()
            except (sqlite3.Error, NoHistory, OSError, KemtruaError) as error:
                log.warning("alerts of the kind %s: %s", self._alert.kind, error)
                rest = FIRST_REST

    def _look(self) -> float:
        """Tells what waits, and gives the seconds until the next look."""
        with Questions(self._recorder.folder) as asked:
            found = asked.waiting(self._alert.kind)
            if found is None:
                return LOOK_AGAIN
            count, event = found
            facts, output = facts_of(event, count, asked)
        if run_command(self._alert, facts, output, self._ending):
            self._failures = 0
            self._done(int(str(event["id"])))
            return self._alert.every
        if self._ending.is_set():
            return LOOK_AGAIN
        self._failures += 1
        if self._failures > self._alert.retries:
            log.error("the command for %s failed %d times: %d events are told to nobody", self._alert.kind, self._failures, count)
            self._failures = 0
            self._done(int(str(event["id"])))
            return self._alert.every
        return min(FIRST_REST * 2.0 ** (self._failures - 1), LONGEST_REST)

    def _done(self, last: int) -> None:
        """No event up to this one waits any more."""
        kinds = RINGS.get(self._alert.kind, (self._alert.kind,))
        statement = f"UPDATE events SET waits = 0 WHERE kind IN ({', '.join('?' * len(kinds))}) AND waits = 1 AND id <= ?"
        self._recorder.do(lambda it: it.connection.execute(statement, (*kinds, last)).rowcount).result()


def facts_of(event: Object, count: int, asked: Questions) -> tuple[dict[str, str], bytes]:
    """What a command finds in its environment, and the end of the execution's output."""
    output = b""
    facts: dict[str, object] = {"EVENT": event["kind"], "COUNT": count, "AT": clock.local(int(str(event["at"]))), "TEXT": logs.one_line(str(event["text"]))}
    if event["entry"] is not None and event["generation"] is not None:
        generation, entry = int(str(event["generation"])), int(str(event["entry"]))
        facts |= asked.execution(entry, generation) or {}
        output = asked.output(generation, entry)[1]
    facts |= {name: event[name] for name in ("trigger", "job", "node") if event[name] is not None}
    for name in ("job", "trigger"):
        if facts.get(name) is not None:
            key = Key.of_word(str(facts[name]))
            facts |= {name: key.name, f"{name}_group": key.group}
    found = {f"KEMTRUA_{name.upper()}": "" if value is None else str(value) for name, value in facts.items()}
    return {name: value for name, value in found.items() if "\0" not in value}, output


def run_command(alert: Alert, facts: Mapping[str, str], output: bytes, ending: threading.Event) -> bool:
    """Runs the command to its end, or to its time-out. Whether its exit status was 0."""
    environment = {name: value for name, value in os.environ.items() if not name.startswith("KEMTRUA_") and name != "NOTIFY_SOCKET"} | facts
    with tempfile.TemporaryFile() as given, tempfile.TemporaryFile() as said:
        given.write(output)
        given.seek(0)
        try:
            process = subprocess.Popen(alert.command, stdin=given, stdout=said, stderr=said, env=environment, cwd="/", start_new_session=True)
        except OSError as error:
            log.error("the command for %s can't be run: %s", alert.kind, error)
            return False
        status = _wait(process, alert.timeout, ending)
        if status == 0:
            log.info("told of %s: %s", alert.kind, facts.get("KEMTRUA_TEXT", ""))
            return True
        said.seek(0)
        log.error("the command for %s ended with status %s: %s", alert.kind, "none, at its time-out" if status is None else status,
                  said.read(SAID).decode(errors="backslashreplace"))
        return False


def _wait(process: subprocess.Popen[bytes], seconds: float, ending: threading.Event) -> int | None:
    """Its exit status; None where it was killed since it took too long, or the hub ends."""
    until = clock.uptime() + seconds
    while process.poll() is None:
        if clock.uptime() >= until or ending.wait(0.05):
            try:
                os.killpg(process.pid, signal.SIGKILL)
            except OSError:
                pass  # (it has just ended)
            process.wait()
            return None
    return process.returncode

"""A storm of failures: how many commands are begun, and how long others wait for answers meanwhile."""
import contextlib
import json
import os
import socket
import statistics
import threading
import time

from .processes import Processes

TRIGGERS, AT_ONCE, REPORTS = 20, 20, 64
EVERY = 2  # seconds between two commands of a kind
LONGEST = 1.0  # seconds that an answer may take
SETTINGS = """\
format = 1
[on.failure]
command = ["/bin/sh", "-c", 'echo "$KEMTRUA_COUNT" >> {folder}/told']
every = {every}
[on.error]
command = ["/bin/sh", "-c", "echo > {folder}/hangs; exec sleep 1000"]
timeout = 600
"""


class Wire:
    """A connection to a hub, at the level of lines."""

    def __init__(self, path):
        self._sock = socket.socket(socket.AF_UNIX)
        self._sock.connect(path)
        self._lines = self._sock.makefile("rb")

    def ask(self, *lines):
        """The answers to these lines, which are sent at once."""
        self._sock.sendall(b"".join(json.dumps(line).encode() + b"\n" for line in lines))
        return [self._lines.readline().decode().rstrip("\n") for _ in lines]

    def close(self):
        self._sock.close()


class Waiting(threading.Thread):
    """Somebody who asks a hub all the time, and knows how long each answer took."""

    def __init__(self, path):
        super().__init__(daemon=True)
        self._wire, self._ends, self.took = Wire(path), threading.Event(), []

    def run(self):
        while not self._ends.wait(0.005):
            begun = time.monotonic()
            self._wire.ask({"do": "show_next"})
            self.took.append(time.monotonic() - begun)

    def end(self):
        self._ends.set()
        self.join(60)
        self._wire.close()
        return sorted(self.took)


class Worker:
    """A node at the level of lines, whose executions end as they are told to."""

    def __init__(self, path):
        self._wire, self._told = Wire(path), Wire(path)
        self._epoch = int(self._wire.ask({"do": "join", "node": "storm"})[0].split()[1])
        self._reports = []

    def executions(self, count, ok):
        """Makes so many, and tells of each."""
        done = 0
        while done < count:
            words = self._wire.ask({"do": "acquire", "node": "storm", "no_later": 2**53, "max": AT_ONCE})[0].split()[1:]
            if words == ["none"]:
                continue
            entries = [(int(entry), trigger) for entry, trigger in zip(words[0::3], words[1::3])]
            fired = self._wire.ask(*({"do": "fire", "node": "storm", "entry": entry} for entry, _ in entries))
            self._wire.ask(*({"do": "complete", "node": "storm", "entry": entry} for entry, _ in entries))
            for (entry, trigger), reply in zip(entries, fired):
                self._tell(entry, trigger, reply.split(), ok)
            done += len(entries)
        self._flush()
        return done

    def error(self):
        """One execution that puts its trigger in the state ERROR."""
        entry = int(self._wire.ask({"do": "acquire", "node": "storm", "no_later": 2**53})[0].split()[1])
        named = {"node": "storm", "entry": entry}
        self._wire.ask({"do": "fire", **named}, {"do": "complete", **named, "code": "SET_TRIGGER_ERROR"})

    def _tell(self, entry, trigger, fired, ok):
        at = int(fired[5])
        report = {"generation": 1, "entry": entry, "epoch": self._epoch, "trigger": trigger, "job": "DEFAULT/j", "klass": "c"}
        report |= {"refires": 0, "code": "NOOP"}
        report |= {"scheduled": int(fired[3]), "fired": at, "ended": at, "ok": int(ok), "status": int(not ok)}
        self._reports.append({"report": report})
        if len(self._reports) == REPORTS:
            self._flush()

    def _flush(self):
        if self._reports:
            (reply,) = self._told.ask({"do": "report", "node": "storm", "told": self._reports})
            if reply != f"stored {len(self._reports)}":
                raise SystemExit(f"reports were answered {reply}")
            self._reports = []


def told(folder):
    """The numbers of events of the commands that ran."""
    with contextlib.suppress(FileNotFoundError), open(os.path.join(folder, "told")) as file:
        return [int(line) for line in file]
    return []


def tried(folder, program, tally, failures):
    team = Processes(folder, program)
    path = os.path.join(folder, "hub.toml")
    with open(path, "w") as file:
        file.write(SETTINGS.format(folder=folder, every=EVERY))
    team.hub_words = ["--settings", path]
    try:
        team.start("hub")
        team.wait_for_hub()
        present = time.time_ns() // 1_000_000
        trigger = {"job": "j", "kind": "simple", "start": present, "interval": 1, "count": -1, "misfire": -1}
        team.add({"jobs": [{"name": "j", "class": "c", "durable": True}],
                  "triggers": [{"name": f"t{number}", **trigger} for number in range(TRIGGERS)]})
        _storm(team, tally, failures)
        team.stop("hub")
    finally:
        team.end()


def _storm(team, tally, failures):
    worker, took = Worker(team.socket), {}
    worker.error()
    for name, ok in (("calm", True), ("storm", False)):
        waiting, begun = Waiting(team.socket), time.monotonic()
        waiting.start()
        done = worker.executions(failures, ok)
        if name == "storm":
            until = time.monotonic() + 60
            while sum(told(team.folder)) < done and time.monotonic() < until:
                time.sleep(0.2)
        took[name], seconds = waiting.end(), time.monotonic() - begun
        middle, most = statistics.median(took[name]), took[name][-1]
        print(f"    {done} executions that {'end well' if ok else 'fail'} in {seconds:.1f} s: an answer took {1000 * middle:.1f} ms in the middle, "
              f"{1000 * took[name][int(0.99 * len(took[name]))]:.1f} at most in 99 of a hundred, and {1000 * most:.1f} at most")
    commands = told(team.folder)
    tally.that(sum(commands) == done, f"{done} failures are told", f"{commands}")
    what = f"by {len(commands)} commands in {seconds:.1f} s, one each {EVERY} seconds at most"
    tally.that(len(commands) <= seconds / EVERY + 2, what, f"{commands}")
    tally.that(os.path.exists(os.path.join(team.folder, "hangs")), "while the command of another kind hangs")
    tally.that(took["storm"][-1] <= LONGEST, f"and no answer of the hub takes longer than {LONGEST:g} s", f"{took['storm'][-5:]}")

"""The hub and the nodes as processes, and what a client asks of the hub."""
import contextlib
import json
import os
import re
import signal
import subprocess
import sys
import threading
import time

from compacting import CLIENT, TOOLS
from kemtrua import Address, Connection, backups
from kemtrua.errors import KemtruaError
from kemtrua.names import Key

NODES = {"north": 2000, "east": 2000, "west": 3000, "slow": 3_600_000}  # with their check-in intervals, in ms
BEGINS_WITHIN = DIES_WITHIN = 600.0  # seconds: what takes longer hangs
EXCLUSIVE = 4  # each so manieth job has one execution at a time


class Crew:
    """One hub and four nodes. `keep` is more than all compactions of a run, so that the checks see every store."""

    def __init__(self, program, folder, compact_at):
        self.program, self.folder, self.compact_at = program, folder, compact_at
        self.home, self.listen = os.path.join(folder, "hub"), f"unix:{folder}/hub.sock"
        self.running, self.starts = {}, 0
        os.mkdir(self.home)
        self.hook()
        self.environment = {**os.environ, "PYTHONPATH": CLIENT, "KEMTRUA_HUB": self.listen, "KEMTRUA_TEST": os.path.join(folder, "hook.json")}

    def hook(self, **more):
        """What the hub is to do in place of what it does without a test."""
        path = os.path.join(self.folder, "hook.json")
        with open(f"{path}.new", "w") as file:
            json.dump({"compact_at": self.compact_at, "look": 0.5, **more}, file)
        os.replace(f"{path}.new", path)

    def start_hub(self):
        words = ["-m", "kemtrua.cli.hub", self.home, "--make", "--keep", "1000000", "--program", self.program, "--listen", self.listen]
        self._start("hub", words)
        self.starts += 1

    def start_node(self, name):
        words = [os.path.join(TOOLS, "compacting", "worker.py"), self.listen, name, str(NODES[name]), os.path.join(self.folder, f"{name}.jobs")]
        self._start(name, words)

    def _start(self, who, words):
        with open(os.path.join(self.folder, f"{who}.log"), "a") as log:
            self.running[who] = subprocess.Popen([sys.executable, *words], env=self.environment, stdin=subprocess.DEVNULL, stdout=log, stderr=subprocess.STDOUT,
                                                 start_new_session=True)

    def connect(self, seconds=BEGINS_WITHIN):
        """A connection, once the hub answers."""
        until = time.monotonic() + seconds
        while True:
            try:
                hub = Connection(Address.parse(self.listen), None, 30.0)
                hub.show_next()
                return hub
            except KemtruaError:
                if time.monotonic() > until or self.running["hub"].poll() is not None:
                    raise SystemExit("compaction-test: the hub isn't there; its log says\n" + self.log_of("hub")[-3000:]) from None
                time.sleep(0.1)

    def wait_for_nodes(self):
        until = time.monotonic() + BEGINS_WITHIN
        while not all("joined under epoch" in self.log_of(node) for node in NODES):
            if time.monotonic() > until:
                raise SystemExit("compaction-test: not all nodes have joined; their logs are in " + self.folder)
            time.sleep(0.1)

    def log_of(self, who):
        with open(os.path.join(self.folder, f"{who}.log"), errors="replace") as file:
            return file.read()

    def kill_hub(self):
        self.running["hub"].send_signal(signal.SIGKILL)
        self.running["hub"].wait()

    def dies_at(self, step, seconds=DIES_WITHIN):
        """Has the hub be compacting, and die at this step of it. Says whether it did."""
        self.hook(die_at=step)
        until = time.monotonic() + seconds
        while self.running["hub"].poll() is None and time.monotonic() < until:
            with contextlib.suppress(KemtruaError), Connection(Address.parse(self.listen), None, 30.0) as hub:
                hub.compact()
            time.sleep(0.05)
        self.hook()
        return self.running["hub"].poll() is not None

    def stop(self, who, is_stopped):
        self.running[who].send_signal(signal.SIGSTOP if is_stopped else signal.SIGCONT)

    def end(self, who, seconds):
        self.running[who].send_signal(signal.SIGTERM)
        try:
            return self.running[who].wait(seconds)
        except subprocess.TimeoutExpired:
            return None

    def end_all(self):
        for process in self.running.values():
            if process.poll() is None:
                process.send_signal(signal.SIGCONT)
                process.kill()
                process.wait()


def document_of(triggers, start):
    """Jobs and triggers of which something is always due, and nothing is ever misfired."""
    jobs = [{"name": f"j{number}", "class": "work", "durable": True, "no_concurrent": number % EXCLUSIVE == 0, "requests_recovery": True}
            for number in range(triggers // 3)]
    return jobs, [{"name": f"t{number}", "job": f"j{number % len(jobs)}", "kind": "simple", "start": start + number, "interval": 1000, "count": -1, "misfire": -1}
                  for number in range(triggers)]


class Adder(threading.Thread):
    """A client that adds a job after the other, and knows which of them were acknowledged."""

    def __init__(self, crew):
        super().__init__(daemon=True)
        self._crew, self._ends = crew, threading.Event()
        self.acknowledged, self.at = [], {}

    def run(self):
        number = 0
        while not self._ends.wait(0.05):
            with contextlib.suppress(KemtruaError), Connection(Address.parse(self._crew.listen), None, 30.0) as hub:
                while not self._ends.wait(0.05):
                    name = f"added-{number}"
                    number += 1
                    hub.add_job({"name": name, "class": "none", "durable": True})
                    self.acknowledged.append(name)

    def end(self):
        self._ends.set()
        self.join(60)


class Heard:
    """What the nodes were answered, by their own logs. A look goes on where the one before ended."""

    def __init__(self, folder):
        self._places = {os.path.join(folder, f"{node}.log"): 0 for node in NODES}
        self.acquired = {}  # by entry number: (trigger, time)
        self.fired, self.completed = set(), set()

    def look(self):
        for path, place in self._places.items():
            with open(path, "rb") as file:
                file.seek(place)
                data = file.read()
            whole = data[: data.rfind(b"\n") + 1]
            self._places[path] = place + len(whole)
            for line in whole.decode(errors="replace").split("\n"):
                self._take(line)

    def _take(self, line):
        if said := re.search(r" entry (\d+) (?:acquired|fired) (\S+) (?:of job \S+ class \S+ )?for (\d+)", line):
            self.acquired[int(said[1])] = (Key.of_word(said[2]), int(said[3]))
        if said := re.search(r" entry (\d+) fired ", line):
            self.fired.add(int(said[1]))
        elif said := re.search(r" entry (\d+) completed with (\w+): Completed", line):
            self.completed.add(int(said[1]))


class BackingUp(threading.Thread):
    """Makes backups under work, each restored beside, and compared with what the client and the nodes were answered before it began."""

    def __init__(self, crew, adder, count, every):
        super().__init__(daemon=True)
        self._crew, self._adder, self._count, self._every = crew, adder, count, every
        self._heard = Heard(crew.folder)
        self.made, self.wrong, self.folders = 0, [], []
        self.gone = []  # (number, entries that executed before the backup and don't in it, when it was there)

    def run(self):
        for number in range(self._count):
            begun = time.monotonic()
            acknowledged = set(self._adder.acknowledged)
            self._heard.look()
            to = os.path.join(self._crew.folder, f"backup-{number}")
            try:
                backups.make(self._crew.home, to, self._crew.program)
                made_at = time.time_ns() // 1_000_000
                self._compare(number, self._listed(number, to), acknowledged, made_at)
                self.made += 1
                self.folders.append(to)
            except (KemtruaError, OSError) as error:
                self.wrong.append(f"backup {number}: {error}")
            time.sleep(max(0.0, self._every - (time.monotonic() - begun)))

    def _listed(self, number, to):
        """The rows of a backup that was restored beside."""
        beside = os.path.join(self._crew.folder, f"beside-{number}")
        os.mkdir(beside)
        _, stores = backups.restore(to, beside, self._crew.program)
        said = subprocess.run([self._crew.program, "list"], cwd=stores, capture_output=True, text=True)
        return [line.split() for line in said.stdout.splitlines()]

    def _compare(self, number, listed, acknowledged, made_at):
        jobs = {words[1].removeprefix("DEFAULT/") for words in listed if words[0] == "job"}
        if lost := acknowledged - jobs:
            self.wrong.append(f"backup {number} lacks {len(lost)} jobs that were acknowledged before it, as {min(lost)}")
        executing = {int(words[1]) for words in listed if words[0] == "fired" and words[5] == "EXECUTING"}
        if ended := executing & self._heard.completed:
            self.wrong.append(f"in backup {number} {len(ended)} executions go on whose end was acknowledged before it, as entry {min(ended)}")
        self.gone.append((number, self._heard.fired - self._heard.completed - executing, made_at))

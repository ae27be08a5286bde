"""A hub and two nodes as processes, and what is done to them."""
import json
import os
import shutil
import signal
import socket
import subprocess
import sys
import threading
import time

from . import CLIENT, ROOT

HANGS_AFTER = 600  # seconds
AHEAD = os.path.join(ROOT, "tools", "serving", "ahead.c")
STATUSES = {"fine": 0, "bad": 3, "long": 0, "worse": 7}  # the exit status of each job's command
NODE = """\
format = 1
[node]
name = "{name}"
hub = "unix:{hub}"
check_in = 1000
workers = 6
ahead = 200
spool = "{folder}/spool-{name}"
[class.work]
command = ["/bin/sh", "-c", 'echo "$KEMTRUA_ENTRY $KEMTRUA_DATA" >> {folder}/evidence; echo "entry $KEMTRUA_ENTRY"; [ "$KEMTRUA_JOB" = long ] && sleep 2; exit "$KEMTRUA_DATA"']
directory = "{folder}"
output = 100
"""


class Clock:
    """The clock of all processes of a team, which can go ahead as if that much time had passed. Where nothing compiles the library for it, it can't."""

    def __init__(self, folder):
        self._path, library, self._ahead, self.environment = os.path.join(folder, "ahead"), os.path.join(folder, "ahead.so"), 0, {}
        self._write()
        if shutil.which("cc") and subprocess.run(["cc", "-shared", "-fPIC", "-o", library, AHEAD, "-ldl"]).returncode == 0:
            self.environment = {"LD_PRELOAD": library, "CLOCK_AHEAD": self._path, "CLOCK_SLEPT": "1"}

    def _write(self):
        with open(self._path, "r+b" if os.path.exists(self._path) else "wb") as file:
            file.write(self._ahead.to_bytes(8, "little"))

    def go_ahead(self, seconds):
        """Whether that much time seems to have passed."""
        if self.environment:
            self._ahead += 1000 * seconds
            self._write()
        return bool(self.environment)

    def now(self):
        return time.time_ns() // 1_000_000 + self._ahead


class Proxy:
    """Between a node and its hub. While it is cut, nobody gets through."""

    def __init__(self, path, to):
        self._to, self._pairs, self._is_cut = to, [], False
        self._listening = socket.socket(socket.AF_UNIX)
        self._listening.bind(path)
        self._listening.listen(50)
        threading.Thread(target=self._accept, daemon=True).start()

    def cut(self):
        self._is_cut = True
        for sock in self._pairs:
            self._close(sock)
        self._pairs.clear()

    def mend(self):
        self._is_cut = False

    def _accept(self):
        while True:
            sock, _ = self._listening.accept()
            other = socket.socket(socket.AF_UNIX)
            try:
                if self._is_cut:
                    raise OSError
                other.connect(self._to)
            except OSError:
                sock.close()
                other.close()
                continue
            self._pairs += [sock, other]
            for one, two in ((sock, other), (other, sock)):
                threading.Thread(target=self._copy, args=(one, two), daemon=True).start()

    def _copy(self, one, two):
        try:
            while data := one.recv(65536):
                two.sendall(data)
        except OSError:
            pass
        self._close(one)
        self._close(two)

    @staticmethod
    def _close(sock):
        try:
            sock.shutdown(socket.SHUT_RDWR)
        except OSError:
            pass


class Processes:
    """A hub in a folder of its own, nodes by their settings files, and clients. What they log is beside them."""

    def __init__(self, folder, program):
        self.folder, self.program, self.store = folder, program, os.path.join(folder, "hub")
        self.socket, self._logs, self.running = os.path.join(folder, "hub.sock"), {}, {}
        self.begun = {}  # when each was started last, in ms
        self.hub_words = []  # further words of the hub's
        self.environment = {**os.environ, "PYTHONPATH": CLIENT}
        self.clock = None
        os.makedirs(self.store)

    def now(self):
        """The moment by the processes' clock, in ms."""
        return self.clock.now() if self.clock else time.time_ns() // 1_000_000

    def words(self, who):
        if who == "hub":
            return ["hub", self.store, "--make", "--program", self.program, "--listen", f"unix:{self.socket}", *self.hub_words]
        return ["node", os.path.join(self.folder, f"{who}.toml")]

    def start(self, who):
        self.begun[who] = self.now()
        self._logs.setdefault(who, open(os.path.join(self.folder, f"{who}.log"), "ab"))
        module, *words = self.words(who)
        self.running[who] = subprocess.Popen([sys.executable, "-m", f"kemtrua.cli.{module}", *words], env=self.environment, stderr=self._logs[who])

    def command(self, *words):
        return [sys.executable, "-m", "kemtrua.cli.client", "--hub", f"unix:{self.socket}", *words]

    def client(self, *words):
        return subprocess.run(self.command(*words), env=self.environment, capture_output=True, text=True)

    def wait_for_hub(self):
        until = time.monotonic() + HANGS_AFTER
        while time.monotonic() < until:
            with socket.socket(socket.AF_UNIX) as sock:
                try:
                    sock.connect(self.socket)
                    sock.settimeout(60)
                    sock.sendall(b'{"do":"show_next"}\n')
                    if sock.recv(100).startswith(b"next"):
                        return
                except OSError:
                    pass
            time.sleep(0.1)
        raise SystemExit(f"the hub doesn't come; see {self.folder}/hub.log")

    def kill(self, who):
        self.running[who].kill()
        self.running[who].wait()

    def stop(self, who, seconds=HANGS_AFTER):
        """Ends one in good order."""
        self.running[who].send_signal(signal.SIGTERM)
        try:
            return self.running[who].wait(seconds)
        except subprocess.TimeoutExpired:
            raise SystemExit(f"{who} doesn't end; see {self.folder}/{who}.log") from None

    def log_of(self, who):
        with open(os.path.join(self.folder, f"{who}.log"), errors="replace") as file:
            return file.read()

    def add(self, document):
        """Adds the rows of a document."""
        path = os.path.join(self.folder, "document.json")
        with open(path, "w") as file:
            json.dump(document, file)
        added = self.client("add", path)
        if added.returncode:
            raise SystemExit(f"nothing was added: {added.stderr}")

    def end(self):
        for process in self.running.values():
            if process.poll() is None:
                process.kill()
                process.wait()


class Team(Processes):
    """One hub, a node, and a node behind a proxy."""

    def __init__(self, folder, program):
        super().__init__(folder, program)
        self.deleted = 0  # when the database was deleted last, in ms
        self.clock = Clock(folder)
        self.environment.update(self.clock.environment)
        self.proxy = Proxy(os.path.join(folder, "east.sock"), self.socket)
        for name, hub in (("north", self.socket), ("east", os.path.join(folder, "east.sock"))):
            with open(os.path.join(folder, f"{name}.toml"), "w") as file:
                file.write(NODE.format(name=name, hub=hub, folder=folder))

    def tells(self):
        """Whether the program has the word `history`."""
        trial = os.path.join(self.folder, "trial")
        os.mkdir(trial)
        subprocess.run([self.program, "init"], cwd=trial, stdout=subprocess.DEVNULL, check=True)
        return subprocess.run([self.program, "history", "0"], cwd=trial, stderr=subprocess.DEVNULL).returncode == 0

    def kill_history(self):
        """Kills the process that keeps the hub's history."""
        found = subprocess.run(["pgrep", "-P", str(self.running["hub"].pid), "-f", "history"], capture_output=True, text=True).stdout.split()
        for number in found:
            os.kill(int(number), signal.SIGKILL)

    def delete_database(self):
        self.deleted = self.now()
        for ending in ("", "-wal", "-shm"):
            try:
                os.remove(os.path.join(self.store, f"history.db{ending}"))
            except FileNotFoundError:
                pass

    def begin(self):
        """Starts all, and adds the jobs."""
        self.start("hub")
        self.wait_for_hub()
        present = time.time_ns() // 1_000_000
        self.add({"jobs": [{"name": name, "class": "work", "data": str(status), "durable": True, "requests_recovery": True} for name, status in STATUSES.items()],
                  "triggers": [{"name": name, "job": name, "kind": "simple", "start": present, "interval": 700, "count": -1} for name in STATUSES]})
        for node in ("north", "east"):
            self.start(node)

    def finish(self):
        """Lets what runs end, and ends all in good order."""
        for name in STATUSES:
            self.client("delete", "trigger", name)
        time.sleep(12)  # (for spools: a node tries again after 30 seconds at most)
        until = time.monotonic() + 60
        while time.monotonic() < until and any(os.listdir(os.path.join(self.folder, f"spool-{node}")) for node in ("north", "east")):
            time.sleep(1)
        for who in ("north", "east", "hub"):
            self.stop(who)

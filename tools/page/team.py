"""A hub, three nodes and kemtrua-web as processes, with jobs that are done, fail, are tried again, hang and are lost."""
import json
import os
import socket
import subprocess
import sys
import time

from . import CLIENT

NODES = ("north", "east", "west")
SCRIPT = "<script>document.title='taken'</script>"
PRINTED = "<script>document.title=777</script><b>bold</b>"  # what each job writes
HOSTILE = f"{SCRIPT}\"'><img src=x onerror=document.title='taken'>"
NODE = """\
format = 1
[node]
name = "{name}"
hub = "unix:{folder}/nodes.sock"
check_in = 1000
workers = 6
ahead = 200
spool = "{folder}/spool-{name}"
[class.work]
command = ["/bin/sh", "{folder}/job"]
directory = "{folder}"
timeout = 3600
codes = {{ 0 = "NOOP", 75 = "RE_EXECUTE_JOB", 70 = "SET_TRIGGER_ERROR" }}
retries = 2
then = "NOOP"
"""
JOB = """\
echo "entry $KEMTRUA_ENTRY of $KEMTRUA_JOB"
printf '%s\\n' '{hostile}'
printf '\\033[31mred\\033[0m \\033]0;title\\007 \\001 end\\n'
case "$KEMTRUA_DATA" in
    hang) echo "waiting for the lock of /srv/data"; while [ ! -e {folder}/let-go ]; do sleep 0.2; done; echo "got it" ;;
    again) [ "$KEMTRUA_REFIRES" -ge 1 ] || exit 75 ;;
    slow) sleep 2 ;;
    *) exit "$KEMTRUA_DATA" ;;
esac
"""
JOBS = (("ops/poll", "0"), ("report/daily-sales", "3"), ("etl/orders", "again"), ("backup/files", "hang"), ("ops/cert-renew", "70"), ("search/warm-cache", "slow"))
TRIGGERS = {"ops/poll": 4, "report/daily-sales": 2, "etl/orders": 2, "ops/cert-renew": 1, "search/warm-cache": 1}  # how often each fires again
EACH = {"ops/cert-renew": 3_600_000}  # ms between two firings, where it isn't 1500


def free_port():
    with socket.socket() as sock:
        sock.bind(("127.0.0.1", 0))
        return sock.getsockname()[1]


def parts(key):
    group, _, name = key.partition("/")
    return {"name": name, "group": group}


class Team:
    """All of them in one folder."""

    def __init__(self, folder, program, python="/usr/bin/python3"):
        self.folder, self.program, self.python = folder, program, python
        self.home, self.hub = os.path.join(folder, "hub"), f"unix:{folder}/hub.sock"
        self.running = {}
        os.mkdir(self.home)
        for name in NODES:
            self._write(f"{name}.toml", NODE.format(name=name, folder=folder))
        self._write("job", JOB.format(hostile=PRINTED, folder=folder))

    def _write(self, name, text):
        with open(os.path.join(self.folder, name), "w") as file:
            file.write(text)

    # -- processes

    def start(self, who, words, python=sys.executable):
        log = open(os.path.join(self.folder, f"{who}.log"), "ab")
        environment = {**os.environ, "PYTHONPATH": CLIENT, "PYTHONDONTWRITEBYTECODE": "1"}
        self.running[who] = subprocess.Popen([python, *words], env=environment, stdin=subprocess.DEVNULL, stdout=log, stderr=log)
        log.close()

    def start_hub(self):
        self.start("hub", ["-m", "kemtrua.cli.hub", self.home, "--make", "--program", self.program, "--listen", self.hub, "--listen-nodes",
                           f"unix:{self.folder}/nodes.sock"])
        self.wait(lambda: self.client("show", "next").returncode == 0, "the hub")

    def start_node(self, name):
        self.start(name, ["-m", "kemtrua.cli.node", os.path.join(self.folder, f"{name}.toml")])

    def start_web(self, *words, name="web"):
        """A process of pages, without words at a port of this machine; its address."""
        port = free_port()
        given = words or ("--listen", f"127.0.0.1:{port}")
        given = [word.replace("PORT", str(port)) for word in given]
        self.start(name, ["-m", "kemtrua_web.command", self.home, "--hub", self.hub, "--program", self.program, "--zone", "Europe/Berlin", "--team", "trial", *given],
                   self.python)
        self.wait(lambda: _listens(port), name)
        return port

    def log_of(self, who):
        with open(os.path.join(self.folder, f"{who}.log"), errors="replace") as file:
            return file.read()

    def kill(self, who):
        self.running[who].kill()
        self.running[who].wait()

    def end(self):
        with open(os.path.join(self.folder, "let-go"), "w"):
            pass
        for process in self.running.values():
            if process.poll() is None:
                process.terminate()
        for process in self.running.values():
            try:
                process.wait(30)
            except subprocess.TimeoutExpired:
                process.kill()
                process.wait()

    # -- what is asked

    def client(self, *words):
        command = [sys.executable, "-m", "kemtrua.cli.client", "--hub", self.hub, *words]
        return subprocess.run(command, env={**os.environ, "PYTHONPATH": CLIENT}, capture_output=True, text=True)

    def told(self, *words):
        """What a command says as JSON."""
        done = self.client(*words, "--json")
        return json.loads(done.stdout) if done.returncode == 0 else []

    def history(self):
        return [one for one in self.told("history", "--since", "7d") if "entry" in one and "state" in one]

    def wait(self, holds, what, seconds=900):
        until = time.monotonic() + seconds
        while not holds():
            if time.monotonic() > until:
                raise SystemExit(f"page-test: {what} doesn't come; the logs are in {self.folder}")
            time.sleep(0.2)

    # -- the work

    def begin(self):
        """A team at work: executions that are done, failed, tried again, hang, and one that was lost and run again."""
        self.start_hub()
        present = time.time_ns() // 1_000_000
        jobs = [{**parts(key), "class": "work", "data": data, "durable": True, "requests_recovery": True} for key, data in JOBS]
        jobs.append({"name": HOSTILE, "group": "x&y", "class": "work", "data": "0", "durable": True})
        triggers = [{**parts(key), "job": parts(key)["name"], "job_group": parts(key)["group"], "kind": "simple", "start": present, "interval": EACH.get(key, 1500),
                     "count": count, "misfire": -1} for key, count in TRIGGERS.items()]
        triggers.append({"name": "cron", "group": "ops", "job": "poll", "job_group": "ops", "kind": "cron", "cron": "0 30 2 * * ?", "zone": "Europe/Berlin", "start": present})
        triggers.append({"name": HOSTILE[:100], "group": "x&y", "job": HOSTILE, "job_group": "x&y", "kind": "simple", "start": present, "misfire": -1})
        self._write("document.json", json.dumps({"jobs": jobs, "triggers": triggers}))
        for words in (("add-zone", "Europe/Berlin"), ("add", os.path.join(self.folder, "document.json"))):
            added = self.client(*words)
            if added.returncode:
                raise SystemExit(f"page-test: {added.stderr}{added.stdout}")
        self.start_node("west")
        self.client("now", "backup/files")
        self.wait(lambda: any(one["job"] == "backup/files" and one["state"] == "runs" for one in self.history()), "the job that hangs")
        self.wait(lambda: b"lock" in self.output_of("backup/files"), "its output")
        self.kill("west")
        for name in NODES:
            self.start_node(name)
        self.wait(self.is_settled, "all that is to be done")

    def output_of(self, job):
        found = next((one for one in self.history() if one["job"] == job), None)
        return self.client("log", str(found["entry"]), "--raw").stdout.encode() if found else b""

    def is_settled(self):
        """Whether all fired that was to fire, and each node told how it went."""
        found = self.history()
        ended = [one for one in found if one["state"] not in ("runs", "acquired")]
        return (len(found) >= sum(count + 1 for count in TRIGGERS.values()) + 2 and all(one["state"] != "ended" for one in ended)
                and any(one["state"] == "lost" for one in found) and sum(one["state"] == "runs" for one in found) == 1)


def _listens(port):
    with socket.socket() as sock:
        return sock.connect_ex(("127.0.0.1", port)) == 0

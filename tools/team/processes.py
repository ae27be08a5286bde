"""The hub and the nodes as processes."""
import os
import signal
import subprocess
import sys
import time

from team import CLIENT, peers, plan
from team.proxy import Proxy

# Each job is this command. It says when it begins and ends, and where it finds another execution of an exclusive job at work.
COMMAND = r"""#!/bin/bash
say() {
    printf '%s %s %s %s/%s %s %s %s %s %s\n' "${EPOCHREALTIME/./}" "$1" "$KEMTRUA_ENTRY" "$KEMTRUA_TRIGGER_GROUP" "$KEMTRUA_TRIGGER" \
        "$KEMTRUA_JOB" "$KEMTRUA_SCHEDULED" "$KEMTRUA_NODE" "$KEMTRUA_REFIRES" "$2" >> "$TEAM/$KEMTRUA_NODE.jobs"
}
if [ "$KEMTRUA_CLASS" = exclusive ] || [ "$KEMTRUA_CLASS" = stubborn ]; then
    exec 9>> "$TEAM/$KEMTRUA_JOB.lock"
    flock -n 9 || say overlap "$(tail -n 1 "$TEAM/$KEMTRUA_JOB.lock")"
    echo "$KEMTRUA_ENTRY" >&9
fi
say begin -
if [ "$KEMTRUA_CLASS" = stubborn ]; then
    # a worker in a session of its own and one of the same group, which hold the job's lock, ignore SIGTERM and never end
    setsid bash -c 'trap "" TERM; while :; do sleep 0.2; done' & (trap '' TERM; while :; do sleep 0.2; done) &
    trap 'say end -; exit 0' TERM
    while :; do sleep 0.1 9>&-; done
fi
read -r seconds || true
sleep "$seconds" 9>&-
say end -
if [ "$KEMTRUA_CLASS" = flaky ] && [ $((KEMTRUA_ENTRY % 4)) = 0 ] && [ "$KEMTRUA_REFIRES" = 0 ]; then exit 75; fi
"""

SETTINGS = """
format = 1

[node]
hub = "unix:{folder}/{socket}"
check_in = {check_in}
clock_limit = {clock_limit}
workers = 10

[class.exclusive]
command = ["{folder}/job"]
environment = {{ TEAM = "{folder}" }}

[class.free]
command = ["{folder}/job"]
environment = {{ TEAM = "{folder}" }}

[class.stubborn]
command = ["{folder}/job"]
environment = {{ TEAM = "{folder}" }}
timeout = {timeout}

[class.flaky]
command = ["{folder}/job"]
environment = {{ TEAM = "{folder}" }}
retry_after = 0.2
"""


# A command of the client whose clock is ahead by the ms that a file has at each moment.
WITH_A_CLOCK = """
import sys
from kemtrua import clock
real, path = clock.now, sys.argv.pop(1)
def ahead():
    with open(path) as file:
        return real() + int(file.read() or 0)
clock.now = ahead
from kemtrua.cli import {module}
sys.exit({module}.main())
"""


class Team:
    """One hub and its nodes, each a process that can be killed, stopped and started again."""

    def __init__(self, program: str, folder: str, size: plan.Size):
        self.program, self.folder, self.size = program, folder, size
        self.home = os.path.join(folder, "hub")
        self.running: dict[str, subprocess.Popen] = {}
        os.mkdir(self.home)
        with open(os.path.join(folder, "job"), "w") as file:
            file.write(COMMAND)
        os.chmod(os.path.join(folder, "job"), 0o755)
        for node in (*plan.NODES, plan.OUTSIDE):
            with open(os.path.join(folder, f"{node}.toml"), "w") as file:
                file.write(SETTINGS.format(folder=folder, check_in=round(1000 * size.check_in), socket="proxy.sock" if node == plan.PROXIED else "nodes.sock",
                                           clock_limit=plan.CLOCK_LIMITS.get(node, 5), timeout=plan.TIMEOUT))
        for who in (plan.HUB, *plan.NODES, plan.OUTSIDE):
            self.set_clock(who, plan.AHEAD.get(who, 0))
        self.environment = {**os.environ, "PYTHONPATH": CLIENT, "KEMTRUA_HUB": f"unix:{folder}/hub.sock"}
        self.port = peers.free_port()
        self.tls = peers.make_certificates(folder)
        self.proxy = Proxy(os.path.join(folder, "proxy.sock"), os.path.join(folder, "nodes.sock"))

    @property
    def store(self) -> str:
        """The folder of the stores."""
        return os.path.join(self.home, "current")

    def set_clock(self, who: str, ahead: int) -> None:
        """Sets by how many ms somebody's clock is ahead."""
        path = os.path.join(self.folder, f"{who}.ahead")
        with open(f"{path}.new", "w") as file:
            file.write(str(ahead))
        os.replace(f"{path}.new", path)

    def words(self, who: str) -> list[str]:
        module = "hub" if who == plan.HUB else "node"
        words = ["-c", WITH_A_CLOCK.format(module=module), os.path.join(self.folder, f"{who}.ahead")]
        if who == plan.HUB:
            return [*words, self.home, "--make", "--program", self.program, "--listen", f"unix:{self.folder}/hub.sock", "--listen-nodes",
                    f"unix:{self.folder}/nodes.sock", "--listen", f"tls:localhost:{self.port}", *self.tls, "--node", f"{plan.HOARDER}:{plan.HOARDS}"]
        return [*words, os.path.join(self.folder, f"{who}.toml"), "--name", who, "--log", "debug"]

    def start(self, who: str) -> None:
        with open(os.path.join(self.folder, f"{who}.log"), "a") as log:
            self.running[who] = subprocess.Popen([sys.executable, *self.words(who)], env=self.environment, stdin=subprocess.DEVNULL, stdout=log,
                                                 stderr=subprocess.STDOUT, start_new_session=True)

    def signal(self, who: str, number: int) -> None:
        self.running[who].send_signal(number)

    def kill(self, who: str) -> None:
        self.signal(who, signal.SIGKILL)
        self.running[who].wait()

    def end(self, who: str, seconds: float) -> int | None:
        """Ends a process in good order, and gives its exit status; None where it doesn't end in time."""
        self.signal(who, signal.SIGTERM)
        try:
            return self.running[who].wait(seconds)
        except subprocess.TimeoutExpired:
            return None

    def end_all(self) -> None:
        """Ends whatever still runs."""
        for process in self.running.values():
            if process.poll() is None:
                process.send_signal(signal.SIGCONT)
                process.kill()
                process.wait()

    def client(self, *words: str) -> subprocess.CompletedProcess:
        """A call of `kemtrua`. One that takes too long counts as one that failed."""
        words = (sys.executable, "-m", "kemtrua.cli.client", *words)
        try:
            return subprocess.run(words, env=self.environment, capture_output=True, text=True, timeout=60)
        except subprocess.TimeoutExpired:
            return subprocess.CompletedProcess(words, 1, "", "it took longer than a minute")

    def wait_for_hub(self, seconds: float) -> None:
        until = time.monotonic() + seconds
        while self.client("show", "next").returncode:
            if time.monotonic() > until or self.running[plan.HUB].poll() is not None:
                raise SystemExit("team-test: the hub didn't begin; its log says\n" + open(os.path.join(self.folder, "hub.log")).read()[-2000:])
            time.sleep(0.2)

    def wait_for_nodes(self, seconds: float) -> None:
        """Waits until all nodes have joined that may."""
        until = time.monotonic() + seconds
        while not all(f'"node": "{node}"' in self.client("nodes", "--json").stdout for node in plan.NODES):
            if time.monotonic() > until:
                raise SystemExit("team-test: not all nodes have joined; their logs are in " + self.folder)
            time.sleep(0.2)

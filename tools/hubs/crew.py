"""The etcds, the hubs and the nodes, each a process."""
import json
import os
import shutil
import signal
import subprocess
import sys
import time

from hubs import CLIENT, filling, plan
from hubs.links import Links
from kemtrua import __version__
from kemtrua.address import Address
from kemtrua.errors import KemtruaError
from kemtrua.hubs import Hubs
from tests.etcds import Etcds

# Each job is this command. It says when it begins and ends, and where it finds another execution of an exclusive job at work.
COMMAND = r"""#!/bin/bash
say() {
    printf '%s %s %s %s %s %s\n' "${EPOCHREALTIME/./}" "$1" "$KEMTRUA_ENTRY" "$KEMTRUA_JOB" "$KEMTRUA_NODE" "$2" >> "$TEAM/$KEMTRUA_NODE.jobs"
}
if [ "$KEMTRUA_CLASS" = exclusive ]; then
    exec 9>> "$TEAM/$KEMTRUA_JOB.lock"
    flock -n 9 || say overlap "$(tail -n 1 "$TEAM/$KEMTRUA_JOB.lock")"
    echo "$KEMTRUA_ENTRY" >&9
fi
say begin -
read -r seconds || true
sleep "$seconds" 9>&-
say end -
"""

SETTINGS = """
format = 1

[node]
hub = [{hubs}]
check_in = {check_in}
workers = 10

[class.exclusive]
command = ["{folder}/job"]
environment = {{ TEAM = "{folder}" }}

[class.free]
command = ["{folder}/job"]
environment = {{ TEAM = "{folder}" }}
"""
BEGINS_WITHIN = 180.0  # seconds


def next_version() -> str:
    """A later version, which works with the same program."""
    first, second, third = __version__.split(".")
    return f"{first}.{second}.{int(third) + 1}"


class Crew:
    """All processes of a run. With `planted`, hubs do wrong on purpose."""

    def __init__(self, program: str, folder: str, planted: str | None):
        self.program, self.folder = program, folder
        self.etcds = Etcds(folder, plan.ETCDS, ("--quota-backend-bytes", str(filling.QUOTA))).wait()
        self.links = Links(plan.HUBS, self.etcds.ports)
        self.running: dict[str, subprocess.Popen] = {}
        self.is_newer, self.version, self._newer = False, __version__, os.path.join(folder, "newer")
        self.environment = {**os.environ, "PYTHONPATH": CLIENT}
        if planted is not None:
            with open(os.path.join(folder, "planted.json"), "w") as file:
                json.dump({planted: True}, file)
        self._planted = planted
        with open(os.path.join(folder, "job"), "w") as file:
            file.write(COMMAND)
        os.chmod(os.path.join(folder, "job"), 0o755)
        hubs = ", ".join(f'"unix:{self.socket(hub)}"' for hub in plan.HUBS)
        for node in plan.NODES:
            with open(os.path.join(folder, f"{node}.toml"), "w") as file:
                file.write(SETTINGS.format(folder=folder, check_in=round(1000 * plan.CHECK_IN), hubs=hubs))

    def socket(self, hub: str) -> str:
        return os.path.join(self.folder, f"{hub}.sock")

    def home(self, hub: str) -> str:
        return os.path.join(self.folder, hub)

    def hubs(self) -> Hubs:
        return Hubs([Address.parse(f"unix:{self.socket(hub)}") for hub in plan.HUBS])

    # -- processes

    def _tree(self) -> str:
        """The client of the version that hubs have at this moment."""
        self.version = next_version() if self.is_newer else __version__
        if self.is_newer and not os.path.exists(self._newer):
            shutil.copytree(os.path.join(CLIENT, "kemtrua"), os.path.join(self._newer, "kemtrua"))
            path = os.path.join(self._newer, "kemtrua", "__init__.py")
            with open(path) as file:
                text = file.read()
            with open(path, "w") as file:
                file.write(text.replace(f'"{__version__}"', f'"{next_version()}"'))
        return self._newer if self.is_newer else CLIENT

    def start(self, who: str) -> None:
        environment = dict(self.environment)
        if who in plan.HUBS:
            environment["PYTHONPATH"] = self._tree()
            os.makedirs(self.home(who), exist_ok=True)
            words = ["-m", "kemtrua.cli.hub", self.home(who), "--make", "--program", self.program, "--listen", f"unix:{self.socket(who)}",
                     "--keep", "1000", "--etcd", self.links.endpoints_of(who), "--team", "hubs-test", "--name", who]
            if self._planted is not None:
                environment["KEMTRUA_TEST"] = os.path.join(self.folder, "planted.json")
        else:
            words = ["-m", "kemtrua.cli.node", os.path.join(self.folder, f"{who}.toml"), "--name", who, "--log", "debug"]
        with open(os.path.join(self.folder, f"{who}.log"), "a") as log:
            self.running[who] = subprocess.Popen([sys.executable, *words], env=environment, stdin=subprocess.DEVNULL, stdout=log,
                                                 stderr=subprocess.STDOUT, start_new_session=True)

    def kill(self, who: str) -> None:
        self.running[who].kill()
        self.running[who].wait()

    def signal(self, who: str, number: signal.Signals) -> None:
        self.running[who].send_signal(number)

    def end(self, who: str, seconds: float) -> int | None:
        """Ends a process in good order, and gives its status; None where it doesn't end in time."""
        self.signal(who, signal.SIGTERM)
        try:
            return self.running[who].wait(seconds)
        except subprocess.TimeoutExpired:
            return None

    def end_all(self) -> None:
        for process in self.running.values():
            if process.poll() is None:
                process.send_signal(signal.SIGCONT)
                process.kill()
                process.wait()
        for number in range(self.etcds.count):
            self.etcds.signal(number, signal.SIGCONT)
        self.etcds.end()

    # -- what is known

    def leader(self, within: float = BEGINS_WITHIN) -> str:
        """Who leads, once somebody does."""
        until = time.monotonic() + within
        while True:
            try:
                with self.hubs().connect() as hub:
                    return os.path.basename(hub.address.path).removesuffix(".sock")
            except KemtruaError as error:
                if time.monotonic() > until:
                    raise SystemExit(f"hubs-test: no hub leads: {error}; the logs are in {self.folder}") from None
                time.sleep(0.2)

    def wait_for_nodes(self) -> None:
        until = time.monotonic() + BEGINS_WITHIN
        while True:
            try:
                with self.hubs().connect() as hub:
                    if set(plan.NODES) <= set(hub.peers()):
                        return
            except KemtruaError:
                pass
            if time.monotonic() > until:
                raise SystemExit(f"hubs-test: not all nodes have joined; the logs are in {self.folder}")
            time.sleep(0.3)

    def log_of(self, who: str) -> str:
        with open(os.path.join(self.folder, f"{who}.log"), errors="replace") as file:
            return file.read()

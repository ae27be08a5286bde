"""A team that is restored while its nodes know more than the backup has, and folders in which no hub can work."""
import contextlib
import json
import os
import re
import shutil
import subprocess
import sys
import time
from datetime import datetime, timezone

from compacting import CLIENT, crew
from kemtrua import backups, journal
from kemtrua.errors import KemtruaError
from kemtrua.folder import Folder
from kemtrua.team import Team

WITHIN = 600.0  # seconds: what takes longer hangs
COUNT = 2  # checks of this part, beside those of CHECKS


def moment_of(name):
    """The moment, in ms, that the name of a folder of stores says."""
    found = datetime.strptime(name.rstrip("+"), "%Y-%m-%dT%H%M%S.%fZ").replace(tzinfo=timezone.utc)
    return round(found.timestamp() * 1000)


def tell(wrong, text):
    print(f"{'FAILED' if wrong else 'ok'}: {text}")
    for line in wrong[:10]:
        print(f"    {line}")
    return int(bool(wrong))


def failures_of(team, found):
    """Restores the last backup while the nodes wait for their hub, and lets them work on. Each has to join anew, and nothing of before may be taken."""
    return tell(list(stale(team, found)), "after a backup was restored each node joined anew, and nothing that it had begun before was taken for something of the restored store")


def stale(team, found):
    if not found.backups.folders:
        yield "there is no backup"
        return
    before = {node: len(team.log_of(node)) for node in crew.NODES}
    _, stores = backups.restore(found.backups.folders[-1], team.home, team.program)
    team.start_hub()
    team.connect().close()
    until = time.monotonic() + WITHIN
    while time.monotonic() < until and not all("joined under epoch" in team.log_of(node)[before[node] :] for node in crew.NODES):
        time.sleep(0.5)
    time.sleep(3.0)
    statuses = {who: team.end(who, WITHIN) for who in (*crew.NODES, "hub")}
    for node in crew.NODES:
        log = team.log_of(node)[before[node] :]
        if "joined under epoch" not in log or "generation 2" not in log:
            yield f"{node} didn't say that the store is another one, or didn't join anew"
        if re.search(r"back, under epoch", log.partition("joined under epoch")[0]):
            yield f"{node} resumed an epoch of before"
    yield from (f"{who} ended with the status {status}" for who, status in statuses.items() if status != 0)
    yield from unjoined(stores)


def unjoined(stores):
    """What nodes did in the restored stores without having joined there."""
    joined, done, copied = set(), 0, backups_of(stores)
    for number, entry in enumerate(journal.entries_of(os.path.join(stores, "qz-triggers.store")), 1):
        if number <= copied:
            continue
        if entry.word == "join":
            joined.add(entry.node)
        elif entry.node is not None and entry.word != "recover":
            done += 1
            if entry.node not in joined:
                yield f"{entry.node} did {entry.word} {entry.entry or ''} in the restored store before it joined"
    if not done:
        yield "nothing was done in the restored store"


def backups_of(stores):
    """How many transactions the restored stores began with: those before the first one of their own."""
    made = moment_of(os.path.basename(stores))
    return sum(entry.at < made for entry in journal.entries_of(os.path.join(stores, "qz-triggers.store")))


# -- folders in which no hub can work


class Bad:
    """Tries a hub in a folder, which has to say why it can't work there, and change nothing."""

    def __init__(self, program, folder):
        self.program, self.folder, self.wrong, self.left_out = os.path.abspath(program), os.path.join(folder, "bad"), [], []
        os.mkdir(self.folder)
        self.environment = {**os.environ, "PYTHONPATH": CLIENT}

    def home(self, name):
        """A hub's folder with a job in its store."""
        home = os.path.join(self.folder, name)
        os.mkdir(home)
        with self.hub(home, "--make") as hub:
            subprocess.run([sys.executable, "-m", "kemtrua.cli.client", "--hub", f"unix:{self.folder}/bad.sock", "add-job", "kept", "none", "--durable"],
                           env=self.environment, check=True, stdout=subprocess.DEVNULL)
            hub.terminate()
        return home

    @contextlib.contextmanager
    def hub(self, home, *words):
        hub = subprocess.Popen([sys.executable, "-m", "kemtrua.cli.hub", home, "--program", self.program, "--listen", f"unix:{self.folder}/bad.sock", *words],
                               env=self.environment, stderr=subprocess.PIPE, text=True)
        try:
            until = time.monotonic() + WITHIN
            while not os.path.exists(f"{self.folder}/bad.sock") and hub.poll() is None and time.monotonic() < until:
                time.sleep(0.05)
            yield hub
            hub.wait(WITHIN)
        finally:
            hub.kill()
            hub.communicate()

    def refused(self, name, home, status, text, *words):
        """A hub has to end with this status, and say this."""
        with self.hub(home, *words) as hub:
            said = hub.communicate(timeout=WITHIN)[1]
            if hub.returncode != status or not re.search(text, said):
                self.wrong.append(f"{name}: status {hub.returncode} in place of {status}, and it said {said.strip()[-300:]}")

    def keeps(self, name, home):
        """The stores of the folder have their job still."""
        listed = subprocess.run([self.program, "list"], cwd=Folder(home).current, capture_output=True, text=True)
        if "job DEFAULT/kept " not in listed.stdout:
            self.wrong.append(f"{name}: the job is gone: {listed.stdout} {listed.stderr}")


def bad_states(program, folder):
    bad = Bad(program, folder)
    for part in (two_hubs, links, teams, full_disk, read_only):
        part(bad)
    if bad.left_out:
        print(f"left out, since this user may not mount: {', '.join(bad.left_out)}")
    shutil.rmtree(bad.folder, ignore_errors=not bad.wrong)
    return tell(bad.wrong, "on a full disk, in a read-only folder, beside another hub, with a link to nowhere or stores of another team a hub says so, and loses nothing")


def two_hubs(bad):
    home = bad.home("two")
    with bad.hub(home) as first:
        second = subprocess.run([sys.executable, "-m", "kemtrua.cli.hub", home, "--program", bad.program, "--listen", f"unix:{bad.folder}/other.sock"],
                                env=bad.environment, capture_output=True, text=True, timeout=WITHIN)
        if second.returncode != 75 or "another program works" not in second.stderr:
            bad.wrong.append(f"two hubs: status {second.returncode}, and the second said {second.stderr[-300:]}")
        with contextlib.suppress(KemtruaError):
            backups.restore(first_backup(bad, home), home, bad.program)
            bad.wrong.append("a backup was restored beside a hub that works")
        first.terminate()
    bad.keeps("two hubs", home)


def first_backup(bad, home):
    to = os.path.join(bad.folder, "backup")
    backups.make(home, to, bad.program)
    return to


def links(bad):
    home = bad.home("links")
    link, right = os.path.join(home, "current"), os.readlink(os.path.join(home, "current"))
    os.unlink(link)
    os.symlink("stores/nowhere", link)
    bad.refused("a link to nowhere", home, 6, "isn't there", "--make")
    os.unlink(link)
    bad.refused("no link", home, 6, "no current", "--make")
    os.symlink(right, link)
    bad.keeps("links", home)


def teams(bad):
    home, other = bad.home("ours"), bad.home("theirs")
    at = os.path.join(home, "team.json")
    with open(at) as file:
        ours = file.read()
    shutil.copy(os.path.join(other, "team.json"), at)
    bad.refused("another team's team.json", home, 6, "isn't|aren't its team's")
    for text in ('{"format": 2, "id": "x", "generation": 1}', "{", json.dumps({**json.loads(ours), "generation": 0})):
        with open(at, "w") as file:
            file.write(text)
        bad.refused(f"team.json with {text}", home, 6, "team.json")
    with open(at, "w") as file:
        file.write(ours)
    to = os.path.join(bad.folder, "theirs-backup")
    backups.make(other, to, bad.program)
    with contextlib.suppress(KemtruaError):
        backups.restore(to, home, bad.program)
        bad.wrong.append("the backup of another team was restored")
    bad.keeps("teams", home)
    if Team.read(home).generation != 1:
        bad.wrong.append("a restore that was refused raised the generation")


def mounted(bad, name, *words):
    """Mounts something at a folder. False where this user may not."""
    at = os.path.join(bad.folder, name)
    os.makedirs(at, exist_ok=True)
    done = subprocess.run(["mount", *words, at], capture_output=True).returncode == 0
    if not done:
        bad.left_out.append(name)
    return at if done else None


def fill(at):
    """Leaves no room on a disk."""
    with contextlib.suppress(OSError), open(os.path.join(at, "filler"), "ab", buffering=0) as file:
        while True:
            file.write(bytes(4096))


def full_disk(bad):
    at = mounted(bad, "full", "-t", "tmpfs", "-o", "size=3m", "tmpfs")
    if at is None:
        return
    try:
        home = bad.home("full/hub")
        with bad.hub(home) as hub:
            fill(at)
            asked = subprocess.run([sys.executable, "-m", "kemtrua.cli.client", "--hub", f"unix:{bad.folder}/bad.sock", "compact"], env=bad.environment,
                                   capture_output=True, text=True)
            if asked.returncode == 0 or "free it" not in asked.stderr:
                bad.wrong.append(f"a compaction on a full disk: {asked.stdout} {asked.stderr}")
            hub.terminate()
        bad.keeps("a full disk", home)
        with contextlib.suppress(KemtruaError):
            backups.make(home, f"{at}/backup", bad.program)
            bad.wrong.append("a backup was made on a full disk")
        fill(at)  # (the hub's end gave room back)
        bad.refused("a new folder on a full disk", bad_new(f"{at}/new"), 5, "No space left", "--make")
        os.unlink(f"{at}/filler")
        with bad.hub(home) as hub:
            hub.terminate()
        bad.keeps("a disk that was full", home)
    finally:
        subprocess.run(["umount", at], check=False)


def bad_new(path):
    os.makedirs(path, exist_ok=True)
    return path


def read_only(bad):
    at = mounted(bad, "read-only", "-t", "tmpfs", "-o", "size=3m", "tmpfs")
    if at is None:
        return
    try:
        home = bad.home("read-only/hub")
        subprocess.run(["mount", "-o", "remount,ro", at], check=True)
        bad.refused("a read-only folder", home, 5, "Read-only file system")
        subprocess.run(["mount", "-o", "remount,rw", at], check=True)
        bad.keeps("a read-only folder", home)
    finally:
        subprocess.run(["umount", at], check=False)

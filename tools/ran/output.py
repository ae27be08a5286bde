"""Much output, and a spool whose disk is full."""
import base64
import json
import os
import re
import shutil
import subprocess
import time

from kemtrua import Address, Connection

from .processes import Processes

KEPT = 65536  # bytes of output that are kept of an execution
MEMORY = 300  # MiB that a node may take
LOGGED = 4 * 2**20  # bytes that one execution may add to a node's log
WITH_OUTPUT = 100  # reports that stay in memory with their output
LINE = "a line of an output that has no end"
NODE = """\
format = 1
[node]
name = "north"
hub = "unix:{folder}/hub.sock"
check_in = 2000
workers = 20
ahead = 200
spool = "{spool}"
[class.flood]
command = ["/bin/sh", "-c", 'yes "{line}" | head -c "$KEMTRUA_DATA"; echo; echo the end']
[class.part]
command = ["/bin/sh", "-c", 'head -c 20000 /dev/zero | tr "\\\\0" x; echo "entry $KEMTRUA_ENTRY"']
output = 100
"""


def team_of(folder, program, spool):
    team = Processes(folder, program)
    with open(os.path.join(folder, "north.toml"), "w") as file:
        file.write(NODE.format(folder=folder, spool=spool, line=LINE))
    return team


def executions(team):
    """What `kemtrua history` says, by entry number."""
    answer = team.client("history", "--json")
    found = json.loads(answer.stdout) if answer.returncode == 0 else []
    return {one["entry"]: one for one in found if "state" in one}


def wait_until(holds, seconds):
    until = time.monotonic() + seconds
    while time.monotonic() < until:
        if found := holds():
            return found
        time.sleep(0.5)
    return None


def memory_of(process):
    """The most memory that a process had so far, in MiB."""
    with open(f"/proc/{process.pid}/status") as file:
        return int(re.search(r"VmHWM:\s+(\d+)", file.read())[1]) / 1024


# -- much output


def flood(folder, program, tally, size):
    team = team_of(folder, program, os.path.join(folder, "spool"))
    try:
        team.start("hub")
        team.wait_for_hub()
        team.add({"jobs": [{"name": "flood", "class": "flood", "data": str(size), "durable": True}], "triggers": []})
        team.start("north")
        begun = time.monotonic()
        team.client("now", "flood")
        one = wait_until(lambda: next((it for it in executions(team).values() if it["state"] != "runs"), None), 3600)
        print(f"    {size} bytes of output in {time.monotonic() - begun:.0f} s; the node had {memory_of(team.running['north']):.0f} MiB at most, "
              f"the hub {memory_of(team.running['hub']):.0f}")
        _look_at_flood(team, tally, size, one)
        for who in ("north", "hub"):
            team.stop(who)
    finally:
        team.end()


def _look_at_flood(team, tally, size, one):
    wanted = (LINE + "\n").encode()
    end = (wanted * (KEPT // len(wanted) + 2))[: size % len(wanted) or len(wanted)] + b"\nthe end\n"
    tail = (wanted * (KEPT // len(wanted) + 2) + end)[-KEPT:]
    is_done = one is not None and one["state"] == "done" and one["status"] == 0
    tally.that(is_done, f"a command that writes {size / 10**9:g} GB ends as it should", f"{one}")
    shown = json.loads(team.client("log", str(one["entry"]), "--json").stdout)[0]
    tally.that(shown["end"] == size + len(b"\nthe end\n"), "the hub knows how much it wrote", f"{shown['end']}")
    raw = subprocess.run(team.command("log", str(one["entry"]), "--raw"), env=team.environment, capture_output=True).stdout
    tally.that(raw == tail, f"and has its last {KEPT} bytes", f"{len(raw)} bytes, {raw[-60:]}")
    tally.that(memory_of(team.running["north"]) < MEMORY, f"its node takes less than {MEMORY} MiB")
    logged = os.path.getsize(os.path.join(team.folder, "north.log"))
    tally.that(logged < LOGGED, "and logs its beginning and its end", f"{logged} bytes")
    tally.that("was taken for failed" not in team.log_of("north"), "and is taken for failed by nobody")


# -- a spool on a full disk


def full_spool(folder, program, tally, count):
    """While the hub keeps no history, reports wait on a disk that is full after some of them, and then in memory."""
    at = os.path.join(folder, "small")
    os.makedirs(at)
    if subprocess.run(["mount", "-t", "tmpfs", "-o", "size=2m", "tmpfs", at], capture_output=True).returncode:
        print("left out, since this user may not mount: a spool on a full disk")
        return
    team = team_of(folder, program, os.path.join(at, "spool"))
    try:
        os.mkdir(os.path.join(team.store, "history.db"))  # (so the hub can't open its database)
        team.start("hub")
        team.wait_for_hub()
        present = time.time_ns() // 1_000_000
        trigger = {"job": "part", "kind": "simple", "start": present, "interval": 0, "count": 0}
        team.add({"jobs": [{"name": "part", "class": "part", "durable": True}],
                  "triggers": [{"name": f"t{number}", **trigger} for number in range(count)]})
        team.start("north")
        done = wait_until(lambda: (found := completed(team)) and len(found) == count and found, 600) or completed(team)
        tally.that(len(done) == count, f"{count} executions complete while their reports have nowhere to go", f"{len(done)}")
        spooled = len(os.listdir(os.path.join(at, "spool")))
        where = f"{spooled} of their reports are on a disk that is full then, and {count - spooled} in memory"
        tally.that(0 < spooled < count - WITH_OUTPUT, where)
        said, minutes = team.log_of("north").count("can't be kept in"), (time.time() - team.begun["north"] / 1000) / 60
        tally.that(1 <= said <= 1 + minutes / 10, "the node's log says so, once in ten minutes", f"{said} times in {minutes:.0f} minutes")
        _come_back(team, tally, count, spooled)
        for who in ("north", "hub"):
            team.stop(who)
    finally:
        team.end()
        subprocess.run(["umount", at], check=False)


def completed(team):
    return set(re.findall(r" entry (\d+) completed with NOOP", team.log_of("north")))


def _come_back(team, tally, count, spooled):
    """A hub comes that keeps a history, and gets what there is."""
    team.stop("hub")
    shutil.rmtree(os.path.join(team.store, "history.db"))
    team.start("hub")
    team.wait_for_hub()
    wait_until(lambda: sum(one["state"] == "done" for one in executions(team).values()) == count, 180)
    found = executions(team)
    bare = [entry for entry, one in found.items() if one["state"] != "done" or one.get("status") != 0]
    tally.that(len(found) == count and not bare, f"a hub that comes then gets all {count} reports", f"{len(found)}, {bare[:5]}")
    with Connection(Address.parse(f"unix:{team.socket}"), None, 60.0) as hub:
        with_output = [entry for entry in found if base64.b64decode(hub.rows("log", entry=entry)[0]["data"]).endswith(b"entry %d\n" % entry)]
    what = f"{len(with_output)} of them with their output: those of the disk, and the latest {WITH_OUTPUT} of memory"
    tally.that(len(with_output) >= spooled + WITH_OUTPUT, what)
    spool = os.path.join(team.folder, "small", "spool")
    tally.that(wait_until(lambda: not os.listdir(spool), 60) is not None, "and the spool is empty")

"""What has to hold of a run, each as one check with its own line: over all stores that were kept, and the nodes' own logs."""
import os
import re
from collections import Counter, defaultdict
from contextlib import closing
from dataclasses import dataclass, field

from compacting.crew import EXCLUSIVE, NODES, Heard
from kemtrua import journal
from kemtrua.history.schema import opened

RE_EXECUTE = 1  # the place of RE_EXECUTE_JOB in the list of codes


@dataclass
class Found:
    """All that is known of a run."""

    fired: dict = field(default_factory=dict)  # by entry number: (node, epoch, when)
    completed: dict = field(default_factory=dict)  # by entry number: when
    twice: list = field(default_factory=list)
    losses: list = field(default_factory=list)  # (when, node, by whom)
    lost: dict = field(default_factory=dict)  # executions that were lost with their node, by entry number: when
    epochs: list = field(default_factory=list)  # the number of each join
    count: int = 0
    stores: int = 0
    heard: object = None  # what the nodes' logs say
    recorded: dict = field(default_factory=dict)  # by the hub's database, by entry number: (node, fired, ended, state)
    begun: list = field(default_factory=list)  # lines of the jobs' own logs: (when, word, entry, job)
    logs: dict = field(default_factory=dict)
    left: list = field(default_factory=list)  # the lines of `list` at the end
    acknowledged: list = field(default_factory=list)  # jobs that were added
    backups: object = None
    kills: Counter = field(default_factory=Counter)
    stopped: list = field(default_factory=list)  # (from, to): when the slow node was stopped
    wanted: object = None


def read_stores(found, stores):
    """The history of all kept stores, one after the other."""
    members, epoch, executing = {}, 0, defaultdict(set)
    for store in stores:
        found.stores += 1
        for entry in journal.entries_of(os.path.join(store, "qz-triggers.store")):
            found.count += 1
            if entry.word in ("join", "recover"):
                gone = entry.node if entry.word == "join" else entry.failed
                if gone in members:
                    found.losses.append((entry.at, gone, entry.node))
                    members.pop(gone)
                    found.lost.update(dict.fromkeys(executing.pop(gone, ()), entry.at))
            if entry.word == "join":
                epoch += 1
                members[entry.node] = epoch
            elif entry.word == "leave":
                members.pop(entry.node, None)
            elif entry.word == "fire":
                if entry.entry in found.fired:
                    found.twice.append(f"entry {entry.entry} was fired twice")
                found.fired[entry.entry] = (entry.node, entry.epoch, entry.at)
                executing[entry.node].add(entry.entry)
            elif entry.word == "complete" and entry.code != RE_EXECUTE:
                if entry.entry in found.completed or entry.entry not in found.fired:
                    found.twice.append(f"entry {entry.entry} was completed twice, or before it was fired")
                found.completed[entry.entry] = entry.at
                executing[entry.node].discard(entry.entry)


def read_nodes(found, folder):
    found.heard = Heard(folder)
    found.heard.look()
    for node in NODES:
        with open(os.path.join(folder, f"{node}.log"), errors="replace") as file:
            found.logs[node] = file.read()
        with open(os.path.join(folder, f"{node}.jobs")) as file:
            for line in file:
                at, word, entry, job, *_ = line.split()
                found.begun.append((int(at), word, int(entry), job))
    with open(os.path.join(folder, "hub.log"), errors="replace") as file:
        found.logs["hub"] = file.read()


def read_database(found, home):
    """What the hub's database says of each execution that began."""
    with closing(opened(home, make=False)) as connection:
        rows = connection.execute("SELECT entry, node, fired, ended, state FROM executions WHERE fired IS NOT NULL")
        found.recorded = {entry: tuple(more) for entry, *more in rows}


def compactions_in(log):
    """How many compactions came to their end by a hub's log, by why they were made, and how long nothing was answered in each."""
    whys, pauses, why = Counter(), [], None
    for line in log.splitlines():
        if said := re.search(r"the stores are compacted: (.*)", line):
            why = "by itself" if "are used" in said[1] else "asked for"
        elif said := re.search(r" compacted: .* the pause was ([0-9.]+) s;", line):
            whys[why] += 1
            pauses.append(float(said[1]))
    return whys, pauses


def enough_was_done(found):
    """there were as many compactions, kills and kills in each step of a compaction as were wanted"""
    whys, _ = compactions_in(found.logs["hub"])
    if whys["by itself"] < found.wanted.compactions:
        yield f"only {whys['by itself']} compactions were made by the hub itself, and {found.wanted.compactions} were wanted"
    for step in found.wanted.steps:
        if not found.kills[step]:
            yield f"the hub wasn't killed in the step {step} of a compaction"
    if sum(found.kills.values()) < found.wanted.kills:
        yield f"the hub was killed {sum(found.kills.values())} times, and {found.wanted.kills} were wanted"


def nothing_lost(found):
    """what the store acknowledged to nodes and to a client is in the stores"""
    for entry in sorted(found.heard.fired - set(found.fired)):
        yield f"the firing of entry {entry} was acknowledged, and isn't there"
    for entry in sorted(found.heard.completed - set(found.completed)):
        yield f"the completion of entry {entry} was acknowledged, and isn't there"
    jobs = {line.split()[1].removeprefix("DEFAULT/") for line in found.left if line.startswith("job ")}
    for name in sorted(set(found.acknowledged) - jobs):
        yield f"{name} was added and acknowledged, and isn't there"
    if not found.heard.completed or not found.acknowledged:
        yield "nothing was acknowledged"


def nothing_twice(found):
    """nothing fired or was completed twice, and each trigger fired at each of its times, in turn"""
    yield from found.twice
    times = defaultdict(list)
    for entry in found.fired:
        if entry in found.heard.acquired:
            key, time = found.heard.acquired[entry]
            times[key].append(time)
    for key, fired in times.items():
        fired.sort()
        if any(later - sooner != 1000 for sooner, later in zip(fired, fired[1:])):
            yield f"{key} didn't fire at each of its times once"
    for entry, count in Counter(entry for _, word, entry, _ in found.begun if word == "begin").items():
        if count != 1:
            yield f"entry {entry} ran {count} times"
    for entry in found.heard.fired:
        if entry in found.fired and entry not in found.heard.acquired:
            yield f"entry {entry} fired, and nobody knows for what"


def exclusive(found):
    """no exclusive job ran twice at once"""
    running = {}
    for at, word, entry, job in sorted(found.begun):
        if not job[1:].isdigit() or int(job[1:]) % EXCLUSIVE:
            continue
        if word == "begin":
            if job in running:
                yield f"entry {entry} of {job} ran beside entry {running[job]}"
            running[job] = entry
        else:
            running.pop(job, None)


def the_living_stay(found):
    """no node was recovered or joined anew: all lived all the time, also the one with an interval of an hour that was stopped over compactions"""
    for at, node, by in found.losses:
        yield f"{node} was taken for failed at {at}, by {by or 'itself'}"
    if len(NODES) != sum(bool(re.search(r"joined under epoch", log)) for node, log in found.logs.items() if node != "hub"):
        yield "not all nodes joined"
    made = [int(name) for name in found.wanted.made_at]
    if found.wanted.stops and not any(begun < at < ended for begun, ended in found.stopped for at in made):
        yield "no compaction was made while the node with an interval of an hour was stopped"


def backups_hold(found):
    """each backup under work could be restored beside, and has what was acknowledged before it began"""
    yield from found.backups.wrong
    for number, gone, at in found.backups.gone:
        for entry in gone:
            ended = found.completed.get(entry, found.lost.get(entry))
            if ended is None or ended > at:
                yield f"backup {number} lacks entry {entry}, whose firing was acknowledged before it and which hadn't ended"
    if found.backups.made < found.wanted.backups:
        yield f"only {found.backups.made} backups were made, and {found.wanted.backups} were wanted"


def history_agrees(found):
    """the database of what ran has each execution of all stores, with its node, its moments and how it ended, and no other"""
    for entry, (node, _, at) in found.fired.items():
        ended = found.completed.get(entry, found.lost.get(entry))
        mine = found.recorded.get(entry)
        if mine is None:
            yield f"entry {entry} isn't in the database"
        elif mine[:3] != (node, at, ended) or (mine[3] == "lost") != (entry in found.lost) or mine[3] == "missing":
            yield f"entry {entry} was fired on {node} at {at} and ended at {ended}, and the database has {mine}"
    yield from (f"entry {entry} is in the database, and nobody fired it" for entry in set(found.recorded) - set(found.fired))


def nothing_failed(found):
    """no compaction failed, no store was damaged, and no node ended"""
    for line in found.logs["hub"].splitlines():
        if " ERROR " in line:
            yield f"the hub said: {line}"
    for node in NODES:
        for line in found.logs[node].splitlines():
            if "Traceback" in line or " ERROR " in line:
                yield f"{node} said: {line}"


CHECKS = (enough_was_done, nothing_lost, nothing_twice, exclusive, the_living_stay, backups_hold, history_agrees, nothing_failed)


def failures_of(found, checks=CHECKS):
    """Prints a line for each check, and gives how many failed."""
    failed = 0
    for check in checks:
        wrong = list(check(found))
        failed += bool(wrong)
        print(f"{'FAILED' if wrong else 'ok'}: {check.__doc__}")
        for line in wrong[:10]:
            print(f"    {line}")
        if len(wrong) > 10:
            print(f"    and {len(wrong) - 10} more")
    return failed

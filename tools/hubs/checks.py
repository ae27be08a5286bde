"""What has to hold of a run, each as one check with its own line."""
import asyncio
import os
import re
import tempfile
from collections import Counter
from collections.abc import Callable, Iterator
from dataclasses import dataclass, field
from datetime import datetime

from hubs import plan
from hubs.clients import Adder, Shown
from hubs.crew import Crew
from hubs.trouble import Done
from kemtrua import journal
from kemtrua.etcd import Etcd, end_of
from kemtrua.etcdlink import Endpoint
from kemtrua.folder import Folder
from kemtrua.names import RECOVERIES, Key
from kemtrua.program import STORE_FILES
from kemtrua.several.layout import BadShared, Block, Keys, TeamRow
from kemtrua.several.mirror import Mirror

RE_EXECUTE = 1  # the place of RE_EXECUTE_JOB in the list of codes
SLACK = 1500  # ms that an answer may lie unread with this process, on a machine that has much to do


@dataclass
class Execution:
    node: str
    fired: int
    completed: int | None = None
    lost: int | None = None


@dataclass
class Run:
    """All that is known of a run."""

    document: dict
    troubles: list[Done]
    lost_nodes: set[str]
    adder: Adder
    shown: list[Shown]
    statuses: dict[str, int | None]
    executions: dict[int, Execution] = field(default_factory=dict)
    twice: list[str] = field(default_factory=list)
    losses: list[tuple[int, str]] = field(default_factory=list)  # when, and of which node, by another
    acquired: dict[int, tuple[Key, int]] = field(default_factory=dict)
    fired: set[int] = field(default_factory=set)
    completed: set[int] = field(default_factory=set)
    commands: list[list[str]] = field(default_factory=list)
    terms: list[tuple[int, int, str]] = field(default_factory=list)  # when each began, its number, and who led
    left: list[str] = field(default_factory=list)
    etcd: dict[str, bytes] = field(default_factory=dict)  # both files as etcd's blocks have them
    broken: str | None = None  # why the blocks make no files
    files: dict[str, dict[str, bytes]] = field(default_factory=dict)  # the same of each hub

    def key_of(self, entry: int) -> Key | None:
        """The trigger of an entry number, by the nodes' logs."""
        return self.acquired[entry][0] if entry in self.acquired else None

    @property
    def jobs(self) -> set[str]:
        return {line.split()[1].removeprefix("DEFAULT/") for line in self.left if line.startswith("job ")}


# -- what there is to read


def read(run: Run, crew: Crew) -> None:
    """Reads all once everything has ended but etcd."""
    try:
        asyncio.run(_read_etcd(run, crew))
    except BadShared as error:
        run.broken = str(error)
    for hub in plan.HUBS:
        current = Folder(crew.home(hub)).current
        run.files[hub] = {name: _bytes(os.path.join(current, name)) for name in STORE_FILES}
        for line in crew.log_of(hub).splitlines():
            if said := re.search(r" this hub leads in term (\d+), ", line):
                run.terms.append((_moment_of(line), int(said[1]), hub))
    run.terms.sort(key=lambda term: term[1])
    for path in histories_of(crew):
        _read_history(run, path)
    for node in plan.NODES:
        _read_node(run, crew, node)
    run.commands.sort(key=lambda words: int(words[0]))


def histories_of(crew: Crew) -> list[str]:
    """The trigger store of each name that was current once, of the hub that has most of it, by date."""
    found: dict[str, str] = {}
    for hub in plan.HUBS:
        for stores in Folder(crew.home(hub)).all_stores():
            name, path = os.path.basename(stores), os.path.join(stores, STORE_FILES[0])
            if "dropped" in name or not os.path.exists(path):
                continue
            if name not in found or os.path.getsize(path) > os.path.getsize(found[name]):
                found[name] = path
    return [found[name] for name in sorted(found)]


async def _read_etcd(run: Run, crew: Crew) -> None:
    """Builds both files of etcd's blocks, as a hub does that has nothing yet."""
    etcd, keys = Etcd(Endpoint.all_of(crew.etcds.endpoints), within=10.0), Keys("hubs-test")
    row = await etcd.get(keys.team)
    assert row is not None
    team = TeamRow.of(row.value)
    with tempfile.TemporaryDirectory() as folder:
        mirror = Mirror.begun(Folder(folder), team)
        async for page in etcd.pages(keys.blocks(team.stores), end_of(keys.blocks(team.stores))):
            for pair in page.pairs:
                mirror.apply(keys.place_of(team.stores, pair.key) or 0, Block.of(pair.value), page.revision)
        run.etcd = {name: _bytes(os.path.join(mirror.stores, name)) for name in STORE_FILES}
        mirror.close()
    etcd.close()


def _bytes(path: str) -> bytes:
    with open(path, "rb") as file:
        return file.read()


def _moment_of(line: str) -> int:
    return round(datetime.strptime(line[:23], "%Y-%m-%d %H:%M:%S,%f").timestamp() * 1000)


def _read_history(run: Run, path: str) -> None:
    for entry in journal.entries_of(path):
        if entry.word == "recover" and entry.failed is not None:
            run.losses.append((entry.at, entry.failed))
        if entry.word in ("join", "recover"):
            gone = entry.node if entry.word == "join" else entry.failed
            for execution in run.executions.values():
                if execution.node == gone and execution.completed is None and execution.lost is None:
                    execution.lost = entry.at
        elif entry.word == "fire":
            if entry.entry in run.executions:
                run.twice.append(f"entry {entry.entry} was fired twice")
            run.executions[entry.entry] = Execution(entry.node, entry.at)
        elif entry.word == "complete" and entry.code != RE_EXECUTE:
            run.executions[entry.entry].completed = entry.at


def _read_node(run: Run, crew: Crew, node: str) -> None:
    for line in crew.log_of(node).splitlines():
        if said := re.search(r" entry (\d+) acquired (\S+) for (\d+)", line):
            run.acquired[int(said[1])] = (Key.of_word(said[2]), int(said[3]))
        elif said := re.search(r" entry (\d+) fired (\S+) of job \S+ class \S+ for (\d+)", line):
            run.acquired[int(said[1])] = (Key.of_word(said[2]), int(said[3]))
            run.fired.add(int(said[1]))
        elif said := re.search(r" entry (\d+) completed with (\w+): Completed", line):
            run.completed.add(int(said[1]))
    path = os.path.join(crew.folder, f"{node}.jobs")
    for line in open(path) if os.path.exists(path) else ():
        run.commands.append(line.split())


# -- the checks


def folders_are_etcds(run: Run) -> Iterator[str]:
    """each hub's folder has what etcd has, byte for byte"""
    if run.broken is not None:
        yield f"etcd's blocks make no files: {run.broken}"
        return
    for hub, files in run.files.items():
        for name in STORE_FILES:
            if files[name] != run.etcd[name]:
                same = len(os.path.commonprefix([files[name], run.etcd[name]]))
                yield f"{hub}: {name} has {len(files[name])} bytes and etcd's {len(run.etcd[name])}; they part at {same}"


def replies_are_in_etcd(run: Run) -> Iterator[str]:
    """whatever a client or a node was answered is in etcd"""
    jobs = run.jobs
    for job in run.adder.acknowledged:
        if job not in jobs:
            yield f"{job} was acknowledged, and isn't there"
    for entry in sorted(run.fired - set(run.executions)):
        yield f"the firing of entry {entry} was acknowledged, and isn't there"
    for entry in sorted(run.completed):
        execution = run.executions.get(entry)
        if execution is None or execution.completed is None:
            yield f"the completion of entry {entry} was acknowledged, and isn't there"


def shown_state_is_in_etcd(run: Run) -> Iterator[str]:
    """whatever a hub showed is in etcd"""
    jobs = run.jobs
    for shown in run.shown:
        if shown.job is not None and shown.job not in jobs:
            yield f"{shown.hub} showed {shown.job}, and it isn't there"


def terms_follow(run: Run) -> Iterator[str]:
    """no hub answered anything once another one had answered in a later term"""
    first: dict[int, int] = {}  # of each term the moment of its first answer
    placed = [(shown, run_term(run, shown)) for shown in run.shown]
    for shown, term in placed:
        first[term] = min(first.get(term, shown.at), shown.at)
    for shown, term in placed:
        later = [at for other, at in first.items() if other > term]
        if later and shown.at > min(later) + SLACK:
            yield f"{shown.hub} answered in term {term}, {shown.at - min(later)} ms after the first answer of a later one"


def run_term(run: Run, shown: Shown) -> int:
    """The term in which an answer was given: the last one of that hub that had begun."""
    return max((term for at, term, hub in run.terms if hub == shown.hub and at <= shown.at), default=0)


def all_fired(run: Run) -> Iterator[str]:
    """each trigger fired at each of its times, once"""
    yield from run.twice
    fired = Counter(run.acquired[entry] for entry in run.executions if entry in run.acquired)
    for trigger in run.document["triggers"]:
        for number in range(trigger["count"] + 1):
            time = trigger["start"] + number * trigger["interval"]
            if (count := fired[Key("DEFAULT", trigger["name"]), time]) != 1:
                yield f"{trigger['name']} fired {count} times for {time}"


def exclusive(run: Run) -> Iterator[str]:
    """no exclusive job ran twice at once"""
    for _, word, entry, job, node, holder in run.commands:
        if word == "overlap":
            yield f"entry {entry} of {job} ran on {node} beside entry {holder}"


def commands_follow(run: Run) -> Iterator[str]:
    """each command began once, for an execution that the store knows"""
    for entry, count in Counter(int(words[2]) for words in run.commands if words[1] == "begin").items():
        if entry not in run.executions or count != 1:
            yield f"entry {entry} began {count} times, and the store {'knows it' if entry in run.executions else 'never heard of it'}"


def recovered_once(run: Run) -> Iterator[str]:
    """each lost execution that asks for it ran once more, and no other did"""
    asks = {job["name"]: job["requests_recovery"] for job in run.document["jobs"]}
    job_of = {trigger["name"]: trigger["job"] for trigger in run.document["triggers"]}
    again = Counter(key.name for entry in run.executions if (key := run.key_of(entry)) is not None and key.group == RECOVERIES)
    for entry, execution in run.executions.items():
        key = run.key_of(entry)
        if execution.lost is None or execution.completed is not None or key is None or key.group == RECOVERIES:
            continue
        if again.pop(name := f"recover_{execution.node}_{entry}", 0) != int(asks[job_of[key.name]]):
            yield f"entry {entry} was lost with {execution.node}, and {name} ran otherwise than asked"
    for name in again:
        if not any(name == f"recover_{it.node}_{entry}" for entry, it in run.executions.items() if it.lost is not None):
            yield f"{name} ran, and nothing was lost"


def the_living_stay(run: Run) -> Iterator[str]:
    """no node was taken for failed that wasn't killed"""
    for at, node in run.losses:
        if node not in run.lost_nodes:
            yield f"{node} was taken for failed at {at}, and lived"


def all_is_done(run: Run) -> Iterator[str]:
    """at the end nothing is left to do, and all ended in good order"""
    for line in run.left:
        if line.startswith(("trigger ", "fired ", "member ")):
            yield f"left: {line}"
    for who, status in run.statuses.items():
        if status != 0:
            yield f"{who} ended with status {status}"


def something_was_tried(run: Run) -> Iterator[str]:
    """the run tried what it is for: hubs led in turn, and replies were dropped or lost"""
    if len(run.terms) < 3 or len({hub for _, _, hub in run.terms}) < 2:
        yield f"there were only {len(run.terms)} terms, of {len({hub for _, _, hub in run.terms})} hubs"
    if len(run.adder.acknowledged) < 20:
        yield f"only {len(run.adder.acknowledged)} jobs were added"
    if not run.adder.unanswered:
        yield "no answer was lost"


CHECKS: list[Callable[[Run], Iterator[str]]] = [
    folders_are_etcds, replies_are_in_etcd, shown_state_is_in_etcd, terms_follow, all_fired, exclusive, commands_follow, recovered_once,
    the_living_stay, all_is_done, something_was_tried]


def failures_of(run: Run) -> list[str]:
    """Makes all checks, says what came of each, and gives those that failed."""
    failed = []
    for check in CHECKS:
        wrong = list(check(run))
        if wrong:
            failed.append(check.__name__)
        print(f"{'FAILED' if wrong else 'passed'}: {check.__doc__}")
        for text in wrong[:10]:
            print(f"    {text}")
        if len(wrong) > 10:
            print(f"    and {len(wrong) - 10} more")
    return failed


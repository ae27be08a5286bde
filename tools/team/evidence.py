"""What is known of a run afterwards: the store's own history, the commands' own logs, and those of the nodes."""
import os
import re
from dataclasses import dataclass, field
from datetime import datetime

from kemtrua import journal
from kemtrua.names import Key
from team import plan

RE_EXECUTE = 1  # the place of RE_EXECUTE_JOB in the list of codes


@dataclass
class Execution:
    """What the history says of an entry number that was fired. Moments are in ms; `lost` is when its node was recovered or joined anew."""

    entry: int
    node: str
    epoch: int
    fired: int
    completed: int | None = None
    lost: int | None = None

    @property
    def end(self) -> int | None:
        return self.completed if self.completed is not None else self.lost


@dataclass
class History:
    """The executions by entry number, and the losses: when, of which node, and whether it was a recovery by another."""

    executions: dict[int, Execution] = field(default_factory=dict)
    losses: list[tuple[int, str, bool]] = field(default_factory=list)
    moments: list[int] = field(default_factory=list)
    nodes: set[str] = field(default_factory=set)  # that ever joined
    count: int = 0


def history_of(store: str) -> History:
    """Reads the history of a trigger store."""
    found, members, moment, epoch = History(), {}, 0, 0
    for entry in journal.entries_of(os.path.join(store, "qz-triggers.store")):
        moment = max(moment, entry.at)
        found.count += 1
        found.moments.append(entry.at)
        if entry.word in ("join", "recover"):
            gone = entry.node if entry.word == "join" else entry.failed
            if gone in members:
                lose(found, gone, moment, entry.word == "recover")
                members.pop(gone)
        if entry.word == "join":
            epoch += 1
            found.nodes.add(entry.node)
            members[entry.node] = epoch
        elif entry.word == "leave":
            members.pop(entry.node, None)
        elif entry.word == "fire":
            found.executions[entry.entry] = Execution(entry.entry, entry.node, entry.epoch, moment)
        elif entry.word == "complete" and entry.code != RE_EXECUTE:
            found.executions[entry.entry].completed = moment
    return found


def lose(history: History, node: str, moment: int, by_another: bool) -> None:
    history.losses.append((moment, node, by_another))
    for execution in history.executions.values():
        if execution.node == node and execution.end is None:
            execution.lost = moment


@dataclass(frozen=True)
class Said:
    """A line of a command's own log. `at` is in ms."""

    at: int
    word: str
    entry: int
    trigger: Key
    job: str
    scheduled: int
    node: str
    refires: int
    holder: str


def commands_of(folder: str) -> list[Said]:
    """What the commands said, in order of time."""
    found = []
    for node in plan.NODES:
        path = os.path.join(folder, f"{node}.jobs")
        for line in open(path) if os.path.exists(path) else ():
            at, word, entry, key, job, scheduled, by, refires, holder = line.split()
            group, _, name = key.partition("/")
            found.append(Said(int(at) // 1000, word, int(entry), Key(group, name), job, int(scheduled), by, int(refires), holder))
    return sorted(found, key=lambda said: said.at)


@dataclass(frozen=True)
class CheckIn:
    """A check-in of a node, when it was sent and when it was answered, in ms."""

    begun: int
    answered: int


@dataclass
class Heard:
    """What the store acknowledged to nodes, by their logs: the trigger and time of each entry number, and what began and ended."""

    acquired: dict[int, tuple[Key, int]] = field(default_factory=dict)
    fired: set[int] = field(default_factory=set)
    completed: set[int] = field(default_factory=set)
    check_ins: dict[str, list[CheckIn]] = field(default_factory=dict)
    texts: dict[str, str] = field(default_factory=dict)  # the log of each, as it is


def nodes_of(folder: str) -> Heard:
    found = Heard()
    for who in (*plan.NODES, plan.OUTSIDE, plan.HUB):
        with open(os.path.join(folder, f"{who}.log"), errors="replace") as file:
            found.texts[who] = file.read()
    for node in plan.NODES:
        begun = None
        for line in found.texts[node].splitlines():
            if said := re.search(r" entry (\d+) acquired (\S+) for (\d+)", line):
                found.acquired[int(said[1])] = (Key.of_word(said[2]), int(said[3]))
            elif said := re.search(r" entry (\d+) fired (\S+) of job \S+ class \S+ for (\d+)", line):
                found.acquired[int(said[1])] = (Key.of_word(said[2]), int(said[3]))
                found.fired.add(int(said[1]))
            elif said := re.search(r" entry (\d+) completed with (\w+): Completed", line):
                found.completed.add(int(said[1]))
            elif line.endswith(" DEBUG checking in"):
                begun = moment_of(line)
            elif line.endswith(" DEBUG checked in") and begun is not None:
                found.check_ins.setdefault(node, []).append(CheckIn(begun, moment_of(line)))
                begun = None
    return found


def moment_of(line: str) -> int:
    """The moment at which a line of a log was written."""
    return round(datetime.strptime(line[:23], "%Y-%m-%d %H:%M:%S,%f").timestamp() * 1000)

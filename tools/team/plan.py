"""What the team is to do: jobs and triggers, and when which process is killed or stopped."""
import random
from dataclasses import dataclass

NODES = ("north", "east", "west")
HUB = "hub"
HOARDER, HOARDS = "hoard", 5  # a node that takes all that it gets, and how much the hub lets it have
OUTSIDE = "fast"  # a node whose clock is so wrong that it isn't let in
PROXIED = "east"  # the node that reaches the hub through a proxy

# By how many ms each one's clock is ahead, and how far it may be for the node to be let in, in seconds.
AHEAD = {"north": -3000, "west": -70_000, OUTSIDE: 3_600_000}
CLOCK_LIMITS = {"west": 3600}
YEAR = 365 * 86_400_000  # ms


@dataclass(frozen=True)
class Size:
    """How much is done. Times are in seconds; `interval` is how often each trigger fires."""

    triggers: int
    firings: int  # of each trigger
    stubborn: int  # firings of each job whose workers don't end by themselves
    interval: float
    troubles: int
    stopped: float  # how long a node is stopped
    hangs: float  # how long the hub is stopped
    check_in: float
    silent: int  # connections that say nothing


SHORT = Size(triggers=12, firings=10, stubborn=3, interval=5.0, troubles=6, stopped=12.0, hangs=12.0, check_in=1.0, silent=2000)
FULL = Size(triggers=50, firings=20, stubborn=14, interval=10.0, troubles=16, stopped=60.0, hangs=40.0, check_in=2.0, silent=2000)
STANDS_STILL = 240.0  # seconds without a change at the store, after which nothing more is waited for

TIMEOUT = 1.5  # seconds of the class `stubborn`


@dataclass(frozen=True)
class JobKind:
    name: str
    klass: str
    exclusive: bool
    asks: bool
    seconds: float  # that an execution takes


KINDS = (
    JobKind("exclusive-asks", "exclusive", True, True, 0.6),
    JobKind("exclusive-silent", "exclusive", True, False, 0.6),
    JobKind("free-asks", "free", False, True, 3.5),
    JobKind("free-silent", "free", False, False, 3.5),
    JobKind("flaky-asks", "flaky", False, True, 0.8),
)
STUBBORN = JobKind("stubborn-asks", "stubborn", True, True, TIMEOUT)
STUBBORN_JOBS, STUBBORN_INTERVAL = 2, 14.0  # such jobs, and seconds between two firings of each: SIGKILL comes 10 seconds after the time-out


@dataclass(frozen=True)
class Trouble:
    """At this time (seconds from the start) something is done to this process, and undone after so many seconds.

    `kill` and `stop` are for the hub and nodes, `half-open` for the node behind the proxy, `year` for the hub's clock, `silent` for connections
    to the hub, and `hoard` for the node that hoards.
    """

    at: float
    what: str
    who: str
    away: float


def kind_of(job: str) -> JobKind:
    """The kind of a job, whose name is its kind's and a number."""
    return next(kind for kind in (*KINDS, STUBBORN) if job.rpartition("-")[0] == kind.name)


def document_of(size: Size, start: int) -> dict:
    """The jobs and triggers, as a document. All triggers fire `firings` times, and none is ever misfired."""
    jobs, triggers = {}, []
    for number in range(size.triggers):
        kind = KINDS[number % len(KINDS)]
        name = f"{kind.name}-{number // len(KINDS) // 3}"
        jobs[name] = {"name": name, "class": kind.klass, "durable": True, "no_concurrent": kind.exclusive, "requests_recovery": kind.asks,
                      "data": str(kind.seconds)}
        begin = start + round(1000 * size.interval * number / size.triggers)
        triggers.append({"name": f"t{number}", "job": name, "kind": "simple", "start": begin, "interval": round(1000 * size.interval),
                         "count": size.firings - 1, "misfire": -1})
    for number in range(STUBBORN_JOBS):
        name = f"{STUBBORN.name}-{number}"
        jobs[name] = {"name": name, "class": STUBBORN.klass, "durable": True, "no_concurrent": True, "requests_recovery": True, "data": str(TIMEOUT)}
        triggers.append({"name": name, "job": name, "kind": "simple", "start": start + 3000 * (number + 1), "interval": round(1000 * STUBBORN_INTERVAL),
                         "count": size.stubborn - 1, "misfire": -1})
    return {"jobs": list(jobs.values()), "triggers": triggers}


def troubles_of(size: Size, chance: random.Random) -> list[Trouble]:
    """Kills and stops at random moments, of the hub and of nodes; no process is away twice at once.

    A node that is away for long enough to be recovered is: the hub is left alone until then.
    """
    whats = [("kill", HUB), ("kill", "node"), ("stop", "node"), ("stop", HUB), ("kill", "node"), ("kill", HUB)]
    late = size.check_in + 7.5 + 3.0  # (by then the others have recovered it)
    span, found, kills = size.interval * size.firings, [], 0
    free = {who: 0.0 for who in (*NODES, HUB)}
    for number in range(size.troubles):
        what, who = whats[number % len(whats)]
        at = span * (number + 0.6 + 0.4 * chance.random()) / (size.troubles + 0.5)
        if who == HUB:
            at = max(at, free[HUB])
            away = max(late, size.hangs) if what == "stop" else chance.uniform(0.3, 3.0)
        else:
            at = max(at, min(free[node] for node in NODES), free[HUB])
            who = chance.choice([node for node in NODES if free[node] <= at])
            kills += what == "kill"
            away = size.stopped if what == "stop" else late + 2.0 if kills % 2 else chance.uniform(0.3, 3.0)
            free[HUB] = max(free[HUB], at + late + 1.0) if away >= late else free[HUB]
        free[who] = at + away + 2.0
        found.append(Trouble(at, what, who, away))
    return found + others_of(size, span)


def others_of(size: Size, span: float) -> list[Trouble]:
    """What is done beside the kills and stops: each twice, the hub's clock once."""
    found = [Trouble(span * 0.45, "year", HUB, 4.0)]
    for part in (0.05, 0.6):
        found += [Trouble(span * part, "silent", HUB, span * 0.2), Trouble(span * (part + 0.1), "half-open", PROXIED, span * 0.2),
                  Trouble(span * (part + 0.15), "hoard", HOARDER, 6.0)]
    return found

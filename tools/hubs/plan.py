"""What the team is to do, and what is done to it."""
import random
from dataclasses import dataclass

HUBS = ("alpha", "beta", "gamma")
NODES = ("north", "east", "west", "south")
ETCDS = 3
CHECK_IN = 3.0  # seconds
LEASE = 5.0  # seconds, that of a leader
LEADER = "the leader"  # whoever leads at that moment


@dataclass(frozen=True)
class Size:
    """How long the run goes on, in seconds, how many triggers there are, and how often each fires."""

    seconds: float
    triggers: int
    interval: float
    round: float  # seconds between two troubles

    @property
    def firings(self) -> int:
        return int(self.seconds / self.interval)


SHORT = Size(seconds=72.0, triggers=8, interval=3.0, round=10.0)
FULL = Size(seconds=600.0, triggers=16, interval=4.0, round=14.0)

# Each trouble with how long it lasts, in seconds. Those on the leader come oftener than the others.
TROUBLES = (
    ("kill", LEADER, 3.0), ("cut", LEADER, 8.0), ("stop", LEADER, 8.0), ("kill-etcd", "one", 5.0), ("swallow-answers", LEADER, 8.0),
    ("kill-node", "one", 12.0), ("stop-etcd", "two", 7.0), ("cut", "another", 6.0), ("compact", LEADER, 0.0), ("kill", "another", 3.0),
    ("swallow-requests", LEADER, 8.0), ("stop-etcd", "one", 6.0), ("stop", "another", 9.0), ("kill", LEADER, 0.5),
    ("quota", "all", 4.0), ("compact-past", "another", 3.0), ("upgrade", "all", 2.0))
OF_SHORT = ("kill", "cut", "stop", "kill-etcd", "swallow-answers", "compact", "kill-node")


@dataclass(frozen=True)
class Trouble:
    at: float  # seconds from the start
    what: str
    who: str
    lasts: float


def troubles_of(size: Size, chance: random.Random) -> list[Trouble]:
    """One after the other. The short run makes each of its kinds once; the full one all of them, in an order of chance, again and again."""
    count = int(size.seconds / size.round)
    if size is SHORT:
        chosen = [next(it for it in TROUBLES if it[0] == what) for what in OF_SHORT]
        chance.shuffle(chosen)
    else:
        chosen = []
        while len(chosen) < count:
            more = list(TROUBLES)
            chance.shuffle(more)
            chosen += more
    return [Trouble(size.round * (number + 0.3 + 0.2 * chance.random()), *it) for number, it in enumerate(chosen[:count])]


def document_of(size: Size, start: int) -> dict:
    """Jobs that are exclusive or not, and ask to be run again or not, and a trigger for each. None is ever misfired."""
    jobs, triggers = [], []
    for number in range(size.triggers):
        name, exclusive, asks = f"j{number}", number % 2 == 0, number % 4 < 2
        jobs.append({"name": name, "class": "exclusive" if exclusive else "free", "durable": True, "no_concurrent": exclusive,
                     "requests_recovery": asks, "data": "0.5" if exclusive else "2.0"})
        begin = start + round(1000 * size.interval * number / size.triggers)
        triggers.append({"name": f"t{number}", "job": name, "kind": "simple", "start": begin, "interval": round(1000 * size.interval),
                         "count": size.firings - 1, "misfire": -1})
    return {"jobs": jobs, "triggers": triggers}

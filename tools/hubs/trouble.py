"""Makes the troubles that are planned, and keeps what was done."""
import random
import signal
import time
from dataclasses import dataclass

from hubs import filling, plan
from hubs.clients import now
from hubs.crew import Crew
from kemtrua.errors import KemtruaError


ENDS_WITHIN = 60.0  # seconds that a hub has to end in good order


@dataclass(frozen=True)
class Done:
    what: str
    who: str
    begun: int
    ended: int


class Troubles:
    def __init__(self, crew: Crew, planned: list[plan.Trouble], chance: random.Random):
        self._crew, self._planned, self._chance = crew, planned, chance
        self.done: list[Done] = []
        self.lost_nodes: set[str] = set()
        self.statuses: dict[str, int | None] = {}  # of hubs that were ended for an upgrade

    def make(self) -> None:
        start = time.monotonic()
        for trouble in self._planned:
            time.sleep(max(0.0, start + trouble.at - time.monotonic()))
            begun = now()
            who = self._make(trouble)
            self.done.append(Done(trouble.what, who, begun, now()))
            print(f"{time.monotonic() - start:5.0f} s: {trouble.what} {who}, for {(now() - begun) / 1000:.1f} s", flush=True)

    def _make(self, trouble: plan.Trouble) -> str:
        crew, what = self._crew, trouble.what
        if what.endswith("-etcd"):
            return self._harm_etcds(trouble)
        if what == "kill-node":
            node = self._chance.choice(plan.NODES)
            self.lost_nodes.add(node)
            crew.kill(node)
            time.sleep(trouble.lasts)
            crew.start(node)
            return node
        if what == "quota":
            return self._meet_quota(trouble)
        if what == "upgrade":
            return self._upgrade(trouble)
        leader = crew.leader()
        who = leader if trouble.who == plan.LEADER else self._chance.choice([hub for hub in plan.HUBS if hub != leader])
        if what == "kill":
            crew.kill(who)
            time.sleep(trouble.lasts)
            crew.start(who)
        elif what == "stop":
            crew.signal(who, signal.SIGSTOP)
            time.sleep(trouble.lasts)
            crew.signal(who, signal.SIGCONT)
        elif what == "compact":
            self._compact()
        elif what == "compact-past":
            crew.signal(who, signal.SIGSTOP)
            self._compact()
            time.sleep(trouble.lasts)
            crew.signal(who, signal.SIGCONT)
        else:
            crew.links.set(who, what)
            time.sleep(trouble.lasts)
            crew.links.set(who, "pass")
        return who

    def _harm_etcds(self, trouble: plan.Trouble) -> str:
        crew = self._crew
        chosen = self._chance.sample(range(plan.ETCDS), 2 if trouble.who == "two" else 1)
        for number in chosen:
            if trouble.what == "kill-etcd":
                crew.etcds.kill(number)
            else:
                crew.etcds.signal(number, signal.SIGSTOP)
        time.sleep(trouble.lasts)
        for number in chosen:
            if trouble.what == "kill-etcd":
                crew.etcds.start(number)
            else:
                crew.etcds.signal(number, signal.SIGCONT)
        return " and ".join(f"etcd {number}" for number in chosen)

    def _meet_quota(self, trouble: plan.Trouble) -> str:
        """For a while etcd takes nothing."""
        filling.fill(self._crew.etcds)
        time.sleep(trouble.lasts)
        filling.make_room(self._crew.etcds)
        return "all etcds"

    def _upgrade(self, trouble: plan.Trouble) -> str:
        """One hub after the other ends in good order, and is begun again in another version. Those of both work side by side meanwhile."""
        crew = self._crew
        crew.is_newer = not crew.is_newer
        for hub in plan.HUBS:
            self.statuses[f"{hub}, which was to be upgraded,"] = crew.end(hub, ENDS_WITHIN)
            crew.start(hub)
            crew.leader()
            time.sleep(trouble.lasts)
        return f"all hubs to {crew.version}"

    def _compact(self) -> None:
        try:
            with self._crew.hubs().connect() as hub:
                print("compacted: {} bytes became {} in {} ms".format(*hub.compact()), flush=True)
        except KemtruaError as error:
            print(f"not compacted: {error}", flush=True)

"""Makes the troubles that are planned, and keeps what was done."""
import signal
import threading
import time
from dataclasses import dataclass

from team import peers, plan
from team.processes import Team

GONE_WITHIN = 60.0  # seconds that the processes of a killed node have to be gone


@dataclass(frozen=True)
class Done:
    """A trouble that was made, by the system's clock, in ms."""

    what: str
    who: str
    begun: int
    ended: int
    set_back: int  # when the undoing began


def now() -> int:
    return time.time_ns() // 1_000_000


class Troubles:
    """Makes troubles, each at its time, and keeps what was done and what came of it."""

    def __init__(self, team: Team, troubles: list[plan.Trouble]):
        self._team, self._planned = team, troubles
        self._hoarders: dict[plan.Trouble, peers.Hoarder] = {}
        self._floods: dict[plan.Trouble, peers.Flood] = {}
        self.done: list[Done] = []
        self.wrong: list[str] = []  # what wasn't as it has to be, while a trouble was there
        self.hoarded = self.refused = self.half_open = self.silent = 0

    def make(self) -> None:
        """Kills and stops go on in one thread and all others in another one, since some of these wait."""
        threads = [threading.Thread(target=self._make, args=([it for it in self._planned if (it.what in ("kill", "stop")) == is_rough],)) for is_rough in (True, False)]
        for thread in threads:
            thread.start()
        for thread in threads:
            thread.join()

    def _make(self, planned: list[plan.Trouble]) -> None:
        start = time.monotonic()
        acts = [(it.at, 0, it) for it in planned] + [(it.at + it.away, 1, it) for it in planned]
        begun: dict[plan.Trouble, int] = {}
        for at, comes_back, trouble in sorted(acts, key=lambda act: act[:2]):
            time.sleep(max(0.0, start + at - time.monotonic()))
            if not comes_back:
                begun[trouble] = now()
                self._begin(trouble)
            else:
                undoing = now()
                self._end(trouble)
                self.done.append(Done(trouble.what, trouble.who, begun[trouble], now(), undoing))
                print(f"{trouble.who}: {trouble.what}, back after {trouble.away:.1f} s", flush=True)

    def _begin(self, trouble: plan.Trouble) -> None:
        team, who = self._team, trouble.who
        if trouble.what == "kill":
            team.kill(who)
            if who != plan.HUB and (left := peers.gone_within(f"KEMTRUA_NODE={who}", GONE_WITHIN, f"TEAM={team.folder}")):
                self.wrong.append(f"{len(left)} processes of {who} go on {GONE_WITHIN:g} seconds after it was killed")
        elif trouble.what == "stop":
            team.signal(who, signal.SIGSTOP)
        elif trouble.what == "half-open":
            self._leave_half_open()
        elif trouble.what == "year":
            team.set_clock(plan.HUB, plan.YEAR)
        elif trouble.what == "silent":
            self._flood(trouble)
        elif trouble.what == "hoard":
            self._hoarders[trouble] = peers.Hoarder(f"unix:{team.folder}/nodes.sock")

    def _end(self, trouble: plan.Trouble) -> None:
        team, who = self._team, trouble.who
        if trouble.what == "kill":
            team.start(who)
        elif trouble.what == "stop":
            team.signal(who, signal.SIGCONT)
        elif trouble.what == "half-open":
            team.proxy.let_go()
        elif trouble.what == "year":
            team.set_clock(plan.HUB, 0)
            while team.client("clock", "accept").returncode and not self._is_hub_away():
                time.sleep(0.5)
        elif trouble.what == "silent":
            self._floods.pop(trouble).end()
        elif trouble.what == "hoard":
            hoarder = self._hoarders.pop(trouble)
            hoarder.end()
            self.hoarded, self.refused = max(self.hoarded, hoarder.most), self.refused + hoarder.refused

    def _flood(self, trouble: plan.Trouble) -> None:
        """Connects and says nothing. An operator has to get in beside it, once the hub is there."""
        until = time.monotonic() + 2 * GONE_WITHIN
        while self._is_away(plan.HUB) and time.monotonic() < until:
            time.sleep(0.1)
        self._floods[trouble] = peers.Flood(self._team.port, self._team.size.silent)
        self.silent = max(self.silent, len(self._floods[trouble]))
        while (listed := self._team.client("list", "--raw")).returncode:
            if time.monotonic() > until:
                self.wrong.append(f"an operator couldn't list beside {len(self._floods[trouble])} silent connections: {listed.stderr}")
                return
            time.sleep(1.0)

    def _leave_half_open(self) -> None:
        """Breaks the node's end while it and the hub are at work, and waits until the node is back, or something else happens to it."""
        until = time.monotonic() + GONE_WITHIN
        while time.monotonic() < until and (self._is_away(plan.HUB) or self._is_away(plan.PROXIED) or not self._team.proxy.count):
            time.sleep(0.1)
        self.half_open += self._team.proxy.leave_half_open()
        while time.monotonic() < until and not self._team.proxy.count:
            time.sleep(0.1)
        time.sleep(1.0)

    def _is_hub_away(self) -> bool:
        """Whether nobody can say what the hub would answer."""
        return self._is_away(plan.HUB)

    def _is_away(self, who: str) -> bool:
        """Whether a process is killed or stopped."""
        process = self._team.running[who]
        if process.poll() is not None:
            return True
        try:
            with open(f"/proc/{process.pid}/stat") as file:
                return file.read().rpartition(")")[2].split()[0] in "TZ"
        except OSError:
            return True

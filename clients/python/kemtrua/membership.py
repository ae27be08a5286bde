"""A node's membership of the cluster, kept over broken connections and new starts of the hub."""
from __future__ import annotations

import math
import random
import threading
from collections.abc import Callable
from typing import TypeVar

from . import clock, logs
from .errors import ClockWrong, HubRefused, KemtruaError, NotJoined, NotTrusted, Refused, StoreClosed, StoreFault, Unanswered, Unreachable
from .hubclock import HubClock
from .replies import Joined
from .scheduler import Scheduler
from .store import Store
from .team import Team
from .waking import Turn

log = logs.logger("kemtrua.node")

LONGEST_REST = 2.0  # seconds between two tries to reach the hub
CLOCK_REST = 5.0  # seconds until the own clock is compared again, where it was wrong
SAY_AGAIN = 60.0  # seconds between two lines of the log that say that it isn't there

Answer = TypeVar("Answer")
Question = Callable[[Scheduler], Answer]


class Fenced(Exception):
    """The node isn't a member under its epoch any more: what it executed counts as lost."""


class GivenUp(Exception):
    """The node ends, and the hub isn't there."""


class Membership:
    """Asks in a node's name. Safe for threads.

    A connection that breaks is made again, and the node resumes its epoch. `generation` rises with each of these, and
    whenever an answer was lost. Where the epoch is gone, or the hub's store is another one than that of the join, Fenced is raised; `join` gives the
    node a new epoch, with which another of its `lives` begins.
    """

    def __init__(self, name: str, interval: int, connect: Callable[[], Scheduler], wake: Callable[[], None], clock_limit: int = 5000,
                 given: Callable[[Turn], None] = lambda turn: None, ahead: int = 0):
        self.name, self.interval = name, interval
        self._connect, self._wake = connect, wake
        self._given, self._ahead = given, ahead
        self.takes_turns = False  # whether the hub says whose turn it is
        self._lock = threading.RLock()
        self._scheduler: Scheduler | None = None
        self._said: dict[str, float] = {}
        self.clock = HubClock(clock_limit)
        self.epoch = 0
        self.team: Team | None = None  # whose store has that epoch
        self.generation = self.lives = 0
        self.is_fenced = False
        self.is_elsewhere = False  # it is fenced since its hub's store is another one, and not since others recovered it
        self.given_up = threading.Event()

    @property
    def scheduler(self) -> Scheduler:
        assert self._scheduler is not None, "join comes first"
        return self._scheduler

    @property
    def team_generation(self) -> int:
        """The generation of the team whose store has the epoch."""
        return 1 if self.team is None else self.team.generation

    @property
    def is_cut_off(self) -> bool:
        """Whether the hub is away."""
        return self._scheduler is not None and self._scheduler.is_broken

    def give_up(self) -> None:
        """Nobody waits for the hub any more, nor for an answer that it owes."""
        self.given_up.set()
        if self._scheduler is not None:
            self._scheduler.cut()

    def join(self) -> Joined:
        """Joins, under a new epoch, once a hub is there and the clock is right. Raises HubRefused where the name is taken, and NotTrusted."""
        with self._lock:
            trusts_later, is_unanswered = self._scheduler is not None, False
            while True:
                try:
                    self._reach(trusts_later)
                    team = self.scheduler.team()
                    self.clock.measure(self.scheduler)
                    self.clock.check()
                    reply = self.scheduler.join(self.name, self.interval)
                    break
                except ClockWrong as error:
                    self._say(str(error))
                    self._rest(CLOCK_REST)
                except HubRefused as error:
                    if not error.passes and not (is_unanswered and error.word == "name-taken"):  # (by the join before, on its connection)
                        raise
                    self._say(str(error))
                    self._rest(1.0)
                except (Unanswered, Unreachable) as error:
                    if isinstance(error, NotTrusted) and not trusts_later:
                        raise
                    is_unanswered = is_unanswered or isinstance(error, Unanswered)
                    self._rest(0.1)
            self.epoch, self.team, self.lives = reply.epoch, team, self.lives + 1
            self.generation, self.is_fenced, self.is_elsewhere = self.generation + 1, False, False
            return reply

    def ask(self, question: Question[Answer], life: int | None = None) -> Answer:
        """The answer to a step in the node's name, maybe for something that began in this one of its lives.

        Raises Unanswered where it was lost, once the node is back: then the step was done or not. Raises Fenced.
        """
        scheduler, generation = self.scheduler, self.generation
        if self.is_fenced or life not in (None, self.lives):
            raise Fenced
        try:
            return question(scheduler)
        except Refused as refused:
            if refused.number == 1:
                self.is_fenced = True
                raise Fenced from None
            raise
        except (NotJoined, Unanswered, Unreachable, StoreFault, StoreClosed, HubRefused) as error:
            self._bear(error, generation)
            raise Unanswered(str(error)) from None

    def sure(self, question: Question[Answer]) -> Answer:
        """The same for a step that may be done twice: it is asked until it is answered."""
        while True:
            try:
                return self.ask(question)
            except Unanswered:
                continue

    def look(self, question: Question[Answer]) -> Answer:
        """The answer to what changes nothing."""
        while True:
            generation = self.generation
            try:
                return question(self.scheduler)
            except (Unanswered, Unreachable, StoreFault, StoreClosed, HubRefused) as error:
                self._bear(error, generation)

    def entries(self) -> list[int]:
        """What the store says that the node has in its hands."""
        return self.look(lambda it: it.entries_of(self.name))

    def peers(self) -> list[str]:
        return [peer for peer in self.look(lambda it: it.peers()) if peer != self.name]

    def _bear(self, error: KemtruaError, generation: int) -> None:
        """What is done about an answer that wasn't given: the node comes back, or waits. What no waiting helps against is raised."""
        if isinstance(self._scheduler, Store) and isinstance(error, (StoreFault, StoreClosed)):
            raise error
        if isinstance(error, (StoreFault, StoreClosed)) or isinstance(error, HubRefused) and error.passes:
            self._say(str(error))
            self._rest(0.5)
            self._come_back(generation)
        elif isinstance(error, HubRefused) and error.word != "not-yours":
            raise error
        else:
            # (after `not-yours` another thread has made this connection, and hasn't resumed on it yet)
            self._come_back(generation, resumes=isinstance(error, (NotJoined, HubRefused)))

    def _use(self, scheduler: Scheduler) -> None:
        try:
            self.takes_turns = scheduler.watch_in_turn(self._wake, self._given, self._ahead)
        except BaseException:
            scheduler.close()  # (a hub that hangs takes connections and says nothing on them: each has a thread and descriptors)
            raise
        self._scheduler = scheduler

    def _come_back(self, generation: int, resumes: bool = False) -> None:
        """Reaches the hub again if it is gone, and resumes, unless another thread did since then. Raises GivenUp where the node ends."""
        if self.given_up.is_set():
            raise GivenUp
        with self._lock:
            if self.generation != generation:
                return
            while resumes or self.is_cut_off:
                self._reach()
                resumes = not self._resume()
            self.generation += 1
        self._wake()

    def _resume(self) -> bool:
        """Whether the node holds its epoch again. Raises Fenced where it is gone."""
        try:
            self._see_that_same_team()
            self.clock.measure(self.scheduler)
            self.scheduler.resume(self.name, self.epoch)
            log.info("back, under epoch %d", self.epoch)
            self._check_in()
            return True
        except Refused as refused:
            if refused.fields[-1] == str(self.epoch):
                return True  # (it holds it still)
            self.is_fenced = True
            raise Fenced from None
        except HubRefused as error:
            self._say(str(error))
            self._rest(1.0)
        except (Unanswered, Unreachable, StoreFault, StoreClosed):
            self._rest(0.2)
        return False

    def _see_that_same_team(self) -> None:
        """Raises Fenced where the hub's store is another team's, or was restored from a backup: what this node knows of it isn't so any more."""
        team = self.scheduler.team()
        if team is not None and self.team not in (None, team):
            log.warning("the hub's store is of %s now, and %s joined one of %s", team, self.name, self.team)
            self.is_fenced = self.is_elsewhere = True
            raise Fenced
        self.team = team or self.team  # (a hub of before doesn't say it)

    def _check_in(self) -> None:
        """The store may have been made anew meanwhile, and the node's interval is in no other line."""
        try:
            self.scheduler.check_in(self.name, self.interval)
        except (HubRefused, NotJoined, Refused, StoreClosed, StoreFault, Unanswered, Unreachable):
            pass  # (it has checked in lately, or whoever asks next finds out)

    def _reach(self, trusts_later: bool = True) -> None:
        """Makes a new connection if there is none, however long it takes. Raises GivenUp where the node ends."""
        rest = 0.1
        while self._scheduler is None or self.is_cut_off:
            if self.given_up.is_set():
                raise GivenUp
            try:
                if self._scheduler is not None:
                    self._scheduler.close()
                self._use(self._connect())
            except HubRefused as error:
                self._say(str(error))
                self._rest(1.0)
            except (Unreachable, Unanswered) as error:
                if isinstance(error, NotTrusted) and not trusts_later:
                    raise
                self._say(f"{error}; trying again, and what runs goes on")
                self._rest(rest * random.uniform(0.5, 1.0))
                rest = min(rest * 2, LONGEST_REST)

    def _rest(self, seconds: float) -> None:
        if self.given_up.wait(seconds):
            raise GivenUp

    def _say(self, text: str) -> None:
        """Logs a warning, and the same one not again for a minute."""
        present = clock.uptime()
        if present - self._said.get(text, -math.inf) >= SAY_AGAIN:
            self._said = {known: said for known, said in self._said.items() if present - said < SAY_AGAIN} | {text: present}
            log.warning("%s", text)

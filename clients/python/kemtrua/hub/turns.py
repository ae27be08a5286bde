"""Whose turn it is to acquire: a due trigger wakes one node that has a free worker, and another one where it isn't taken soon.

Nodes that sleep stand in a queue, in the order in which they went to sleep. When something will be due, `ahead` ms before its moment,
the first of them is woken with that moment, and has ASKS_WITHIN seconds to ask. It comes back into the queue with its next `show_next`.
Whether something is left to be taken is known from the program alone: each turn is given right after an answer to a `show_next`.
"""
from __future__ import annotations

import asyncio
import math
from collections.abc import Callable
from dataclasses import dataclass
from typing import Protocol

from .. import clock
from ..errors import KemtruaError

ASKS_WITHIN = 0.1  # seconds that a node has to ask once it is woken, until another one is
LASTS = 5.0  # seconds that a turn lasts at most, while its node waits for answers
MISFIRES_AGAIN = 1.0  # seconds after misfires that found none, until a node is told again to ask for some
LOOKS_AGAIN = 5.0  # seconds: while nodes sleep, it is asked at least this often what is due next, since the clock may jump

Asked = Callable[["str | KemtruaError"], None]


class Sleeper(Protocol):
    """A connection of a node that takes turns."""

    @property
    def ahead(self) -> int:
        """So many ms before its moment the node acquires a trigger."""

    def give_turn(self, moment: int, is_late: bool) -> None:
        """Says that it is its turn to acquire what is due then, and whether that may be misfired."""


@dataclass
class Given:
    """A turn: for which moment, the uptimes at which it began and at which its node heard something last, and how many of its lines aren't answered."""

    moment: int
    begun: float
    heard: float
    asking: int = 0

    @classmethod
    def now(cls, moment: int) -> Given:
        return cls(moment, clock.uptime(), clock.uptime())

    def left(self) -> float:
        """Seconds for which it keeps others from this moment, if nothing is heard of the node."""
        return min(self.begun + LASTS, math.inf if self.asking else self.heard + ASKS_WITHIN) - clock.uptime()


class Timer(Protocol):
    def cancel(self) -> None:
        """It calls nothing any more."""


def _in_loop(seconds: float, call: Callable[[], None]) -> Timer:
    return asyncio.get_running_loop().call_later(seconds, call)


def due_of(said: str) -> int | None:
    """The moment that an answer to `show_next` has; None where nothing waits."""
    return None if said == "next none" else int(said.split()[1])


class Turns:
    """Gives the turns. `show_next` asks the program that, in order with all other lines; `threshold` is how late a misfired trigger is, in ms;
    `heard` is told what is due whenever the hub learns it by a question of its own."""

    def __init__(self, show_next: Callable[[Asked], None], threshold: Callable[[], int], heard: Callable[[int], None] = lambda due: None,
                 later: Callable[[float, Callable[[], None]], Timer] = _in_loop):
        self._show_next, self._threshold, self._later = show_next, threshold, later
        self.heard = heard
        self._sleepers: dict[Sleeper, None] = {}  # in their order
        self._given: dict[Sleeper, Given] = {}
        self._in_vain: Given | None = None  # the last turn in which nothing could be acquired
        self._handled_until = -math.inf  # the uptime up to which no node is told to ask for misfires
        self._at_once = 1  # so many may have a turn: more while what is overdue is taken, since then there is more of it
        self._is_asking = False
        self._timer: Timer | None = None

    @property
    def is_wanted(self) -> bool:
        """Whether somebody waits for a turn."""
        return bool(self._sleepers)

    # -- what nodes do

    def slept(self, one: Sleeper, due: int | None) -> None:
        """A node heard what is due next, and has a free worker. Where it has a turn, that goes on."""
        self._sleepers.setdefault(one)
        self._decide(due)

    def asks(self, one: Sleeper) -> None:
        """A node asks for misfires or a trigger: it is awake."""
        self._sleepers.pop(one, None)
        if (given := self._given.get(one)) is not None:
            given.asking += 1

    def handled(self, one: Sleeper, found: bool) -> None:
        """It heard of misfires, or of none, and will ask for a trigger."""
        if not found:
            self._handled_until = clock.uptime() + MISFIRES_AGAIN
        if (given := self._given.get(one)) is not None:
            given.asking, given.heard = max(0, given.asking - 1), clock.uptime()
            self._look_for_others()

    def acquired(self, one: Sleeper, took: bool) -> None:
        """It heard what it acquired: its turn is over."""
        given = self._given.pop(one, None)
        if took and given is not None:
            self._in_vain, self._at_once = None, self._at_once + 1
        elif given is not None:
            self._in_vain = Given.now(given.moment)
        self._look_for_others()

    def gone(self, one: Sleeper) -> None:
        """Nobody can wake it any more."""
        self._sleepers.pop(one, None)
        if self._given.pop(one, None) is not None:
            self._look_for_others()

    # -- what is due

    def look(self) -> None:
        """Asks what is due next. An answer that is under way is as good: the program answers in order."""
        if not self._is_asking:
            self._is_asking = True
            self._show_next(self._shown)

    def _look_for_others(self) -> None:
        if self._sleepers:
            self.look()

    def _shown(self, said: str | KemtruaError) -> None:
        self._is_asking = False
        if not isinstance(said, str) or not said.startswith("next "):
            self._look_in(ASKS_WITHIN)  # (whoever asked something gets the error)
            return
        due = due_of(said)
        if due is not None:
            self.heard(due)
        self._decide(due)

    def _decide(self, due: int | None) -> None:
        """Gives turns, or waits for the moment at which one is to be given."""
        if self._timer is not None:
            self._timer.cancel()
        self._timer = None
        present = clock.now()
        if due is None or due > present:
            self._at_once = 1
        if due is None:
            return  # (what changes that has it looked at again)
        while (left := self._left(due)) <= 0 and (one := self._first(due - present)) is not None:
            self._given[one] = Given.now(due)
            one.give_turn(due, present - due > self._threshold() and clock.uptime() >= self._handled_until)
        if self._sleepers:
            sleeping = [it.ahead for it in self._sleepers if it not in self._given]
            self._look_in(min(LOOKS_AGAIN, max(left, (due - present - max(sleeping)) / 1000)) if sleeping else ASKS_WITHIN)

    def _left(self, due: int) -> float:
        """Seconds until a further turn may be given."""
        self._given = {one: given for one, given in self._given.items() if given.left() > 0}
        waits = [0.0]
        if len(self._given) >= self._at_once:
            waits.append(min(given.left() for given in self._given.values()))
        if self._in_vain is not None and due <= self._in_vain.moment:
            waits.append(self._in_vain.left())
        return max(waits)

    def _first(self, left: int) -> Sleeper | None:
        """Who is to be woken for what is due in so many ms. Whoever is woken stands in the queue no more."""
        found = next((it for it in self._sleepers if it.ahead >= left and it not in self._given), None)
        if found is not None:
            del self._sleepers[found]
        return found

    def _look_in(self, seconds: float) -> None:
        if self._timer is not None:
            self._timer.cancel()
        self._timer = self._later(seconds, self._look_for_others)

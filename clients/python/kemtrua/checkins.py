"""A node's second loop: it says that the node lives, and looks after the others."""
from __future__ import annotations

import threading
from collections.abc import Callable

from . import clock, logs
from .deadlines import Deadlines
from .errors import HubRefused, Refused, Unanswered, Unreachable
from .membership import Fenced, Membership
from .patience import MARGIN

log = logs.logger("kemtrua.node")


class CheckIns:
    """Checks in each `interval` ms. Each time it recovers and forgets peers that are late.

    `checked` is called after each check-in. `fenced` is called where this node was recovered itself, and `cut_off` where it couldn't check in for so long that it may be.
    """

    def __init__(self, members: Membership, interval: int, deadlines: Deadlines, fenced: Callable[[], None], cut_off: Callable[[], None],
                 checked: Callable[[], None] = lambda: None):
        self._members, self._interval, self._deadlines = members, interval, deadlines
        self._fenced, self._cut_off, self._checked = fenced, cut_off, checked
        self._ended = threading.Event()

    def end(self) -> None:
        self._ended.set()

    def run(self) -> None:
        checked = clock.uptime()  # (the join checked in)
        while not self._ended.wait(max(0.0, checked + self._interval / 1000 - clock.uptime())):
            begun = clock.uptime()
            self._deadlines.set("check-in", checked + (self._interval + MARGIN) / 1000 - begun, self._cut_off)
            log.debug("checking in")
            try:
                self._check_in()
                checked = begun
                log.debug("checked in")
                self._deadlines.cancel("check-in")
                self._see_that_member()
                self._measure_clock()
                self._checked()
                self._recover_peers()
            except Fenced:
                self._fenced()
                self._ended.wait(0.2)
        self._deadlines.cancel("check-in")

    def _check_in(self) -> None:
        try:
            self._members.sure(lambda it: it.check_in(self._members.name, self._interval))
        except HubRefused as error:
            if error.word != "too-often":
                raise
            # (it has checked in lately, as by a join)

    def _measure_clock(self) -> None:
        try:
            self._members.clock.measure(self._members.scheduler)
        except (HubRefused, Unanswered, Unreachable):
            pass  # (whoever asks next finds out; the hub's time goes on by the boot clock)

    def _see_that_member(self) -> None:
        """Raises Fenced where the node was recovered. A check-in doesn't say so; a step on no entry does, and it writes nothing."""
        try:
            self._members.sure(lambda it: it.release(self._members.name, 0))
        except Refused:
            pass

    def _recover_peers(self) -> None:
        for peer in self._members.peers():
            if self._is_gone(peer):
                try:
                    self._members.sure(lambda it: it.forget(self._members.name, peer))
                    log.info("%s is forgotten", peer)
                except (Refused, HubRefused):
                    pass

    def _is_gone(self, peer: str) -> bool:
        """Whether a peer is late and no member any more; it is recovered if it was one."""
        try:
            reply = self._members.sure(lambda it: it.recover(self._members.name, peer))
        except Refused as refused:
            return refused.number == 20
        except HubRefused:
            return False
        log.warning("%s was late, and is recovered: %d executions were lost, %d of them come again", peer, reply.executions, reply.triggers)
        return True

"""The hub, asked as a client: its rows, how full its stores are, and what an operator wants done."""
from __future__ import annotations

import threading
from collections.abc import Sequence
from dataclasses import dataclass

from kemtrua import clock, replies
from kemtrua.address import Address, Tls
from kemtrua.connection import Connection
from kemtrua.errors import HubRefused, KemtruaError
from kemtrua.names import Key
from kemtrua.rows import Row, row_of
from kemtrua.scheduler import the

ANSWER_WITHIN = 10.0  # seconds


@dataclass(frozen=True)
class Done:
    """What came of an action: a sentence, and whether all of it was done."""

    text: str
    is_done: bool = True


class Hub:
    """Keeps a connection to the hub, and makes a new one where that broke. Safe for threads."""

    def __init__(self, address: Address, tls: Tls | None = None):
        self.address, self._tls = address, tls
        self._lock = threading.Lock()
        self._connection: Connection | None = None
        self.why: str | None = None  # why it isn't reached; None where it is
        self.answered: int | None = None  # when it answered last

    def _open(self) -> Connection:
        with self._lock:
            if self._connection is None or self._connection.is_broken:
                self.close_connection()
                self._connection = Connection(self.address, self._tls, ANSWER_WITHIN)
            return self._connection

    def close_connection(self) -> None:
        if self._connection is not None:
            self._connection.close()
            self._connection = None

    def listed(self) -> list[str]:
        """The lines of `list`. Raises KemtruaError."""
        return self._told(lambda it: it.listed())

    def room(self) -> replies.Room:
        return self._told(lambda it: the(replies.Room, it.ask("show_room")))

    def team(self) -> tuple[str, str]:
        """The hub's version, and the team's id and generation in words."""
        version, team = self._told(lambda it: (it.hello(), it.team()))
        return version, "" if team is None else f"{team.id[:8]}, generation {team.generation}"

    def clock(self) -> int:
        return self._told(lambda it: it.clock())

    def figures(self) -> dict[str, object] | None:
        """What the hub counts of itself; None where it is one that doesn't."""
        try:
            return self._told(lambda it: it.rows("figures"))[0]
        except HubRefused:
            return None

    def hubs(self) -> list[dict[str, object]]:
        """Each of several hubs; none where there is one."""
        try:
            return self._told(lambda it: it.rows("team"))[1:]
        except KemtruaError:
            return []

    def show(self, key: Key) -> Row | None:
        """A job's row with its data."""
        return self._told(lambda it: it.show_job(key))

    def show_trigger(self, key: Key) -> Row | None:
        return self._told(lambda it: it.show_trigger(key))

    def _told(self, ask):  # type: ignore[no-untyped-def]
        try:
            found = ask(self._open())
        except HubRefused:
            raise
        except KemtruaError as error:
            self.why = str(error)
            raise
        self.why, self.answered = None, clock.now()
        return found

    # -- actions, each on a connection of its own, which says for whom it is

    def fire(self, viewer: str, job: Key) -> Done:
        with self._for(viewer) as hub:
            hub.trigger_now(job)
        return Done("It fires now, under a new entry number.")

    def pause(self, viewer: str, triggers: Sequence[Key]) -> Done:
        return self._each(viewer, "pause_trigger", triggers, "paused")

    def resume(self, viewer: str, triggers: Sequence[Key]) -> Done:
        return self._each(viewer, "resume_trigger", triggers, "resumed")

    def reset(self, viewer: str, triggers: Sequence[Key]) -> Done:
        return self._each(viewer, "reset_trigger", triggers, "reset")

    def _each(self, viewer: str, do: str, triggers: Sequence[Key], word: str) -> Done:
        if not triggers:
            return Done("The job has no trigger for which this can be done.", False)
        with self._for(viewer) as hub:
            for key in triggers:
                the(replies.Done, hub.ask(do, **key.members()))
        return Done(f"{len(triggers)} trigger{'s' if len(triggers) > 1 else ''} of it {'are' if len(triggers) > 1 else 'is'} {word}.")

    def _for(self, viewer: str) -> Connection:
        """A connection whose lines the hub keeps with this name beside its own."""
        connection = Connection(self.address, self._tls, ANSWER_WITHIN)
        try:
            connection.speak_for(viewer)
        except BaseException:
            connection.close()
            raise
        return connection


def rows_of(lines: Sequence[str]) -> list[Row]:
    return [row_of(line) for line in lines]

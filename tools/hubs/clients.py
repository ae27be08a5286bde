"""Clients that keep all that they are answered: one adds jobs, and one at each hub looks at them."""
import threading
import time
from dataclasses import dataclass

from hubs import plan
from hubs.crew import Crew
from kemtrua.connection import Connection
from kemtrua.address import Address
from kemtrua.errors import KemtruaError, Unanswered

REST = 0.05  # seconds


def now() -> int:
    return time.time_ns() // 1_000_000


@dataclass(frozen=True)
class Shown:
    """An answer of a hub's store, and when it came, in ms: that this job is there, or with None that it isn't."""

    hub: str
    job: str | None
    at: int


class Adder(threading.Thread):
    """Adds jobs with names of their own, one after the other. A name whose answer was lost isn't used again."""

    def __init__(self, crew: Crew):
        super().__init__(daemon=True)
        self._crew, self._ends = crew, threading.Event()
        self.acknowledged: list[str] = []
        self.unanswered: list[str] = []
        self.name = "added-0"  # the job that is added at this moment
        self.answers: list[int] = []  # when each came, in ms

    def run(self) -> None:
        hubs, connection, number = self._crew.hubs(), None, 0
        while not self._ends.is_set():
            try:
                if connection is None or connection.is_broken:
                    connection = hubs.connect()
                number += 1
                self.name = f"added-{number}"
                connection.add_job({"name": self.name, "class": "free", "durable": True})
                self.acknowledged.append(self.name)
                self.answers.append(now())
            except Unanswered:
                self.unanswered.append(self.name)
            except KemtruaError:
                pass
            time.sleep(REST)
        if connection is not None:
            connection.close()

    def end(self) -> None:
        self._ends.set()
        self.join(30.0)


class Looker(threading.Thread):
    """Asks one hub, whether it leads or not, for the job that is added just then."""

    def __init__(self, crew: Crew, hub: str, adder: Adder):
        super().__init__(daemon=True)
        self._crew, self._hub, self._adder, self._ends = crew, hub, adder, threading.Event()
        self.shown: list[Shown] = []

    def run(self) -> None:
        address, connection = Address.parse(f"unix:{self._crew.socket(self._hub)}"), None
        while not self._ends.is_set():
            try:
                if connection is None or connection.is_broken:
                    connection = Connection(address, answer_within=4 * plan.LEASE)
                job = self._adder.name
                said = connection.answer({"do": "show_job", "name": job})
                if said.startswith("job "):
                    self.shown.append(Shown(self._hub, job if said.startswith("job DEFAULT/") else None, now()))
            except KemtruaError:
                time.sleep(REST)
            time.sleep(REST / 2)
        if connection is not None:
            connection.close()

    def end(self) -> None:
        self._ends.set()
        self.join(30.0)

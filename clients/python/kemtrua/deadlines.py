"""What is to be done at a time, in one thread that is there from the start, so that nothing is late for want of one."""
from __future__ import annotations

import threading
from collections.abc import Callable

from . import clock


class Deadlines:
    """Calls what is due. A deadline has a name; one that is set again replaces the former."""

    def __init__(self, failed: Callable[[BaseException], None]):
        self._changed = threading.Condition()
        self._due: dict[str, tuple[float, Callable[[], None]]] = {}
        self._failed = failed
        threading.Thread(target=self._run, name="deadlines", daemon=True).start()

    def set(self, name: str, seconds: float, call: Callable[[], None]) -> None:
        with self._changed:
            self._due[name] = clock.uptime() + seconds, call
            self._changed.notify()

    def cancel(self, name: str) -> None:
        with self._changed:
            self._due.pop(name, None)

    def _run(self) -> None:
        while True:
            with self._changed:
                name = min(self._due, key=lambda it: self._due[it][0], default=None)
                left = None if name is None else self._due[name][0] - clock.uptime()
                if name is None or left is None or left > 0:
                    # (the boot clock counts a sleep of the machine, and waiting doesn't: so it is looked again soon)
                    self._changed.wait(None if left is None else min(left, 1.0))
                    continue
                _, call = self._due.pop(name)
            try:
                call()
            except BaseException as error:
                self._failed(error)

"""What a node's scheduler loop sleeps by: messages of its own threads, and turns that a hub gives."""
from __future__ import annotations

import threading
from dataclasses import dataclass


@dataclass(frozen=True)
class Turn:
    """It is this node's turn to acquire what is due at this moment. `is_late`: that may be misfired, so misfires come first."""

    moment: int
    is_late: bool = False

    @classmethod
    def of_words(cls, words: list[str]) -> Turn:
        """That of a line `wake N`, maybe with `late`. What else comes behind it is of later hubs."""
        return cls(int(words[1]), "late" in words[2:])


class Bell:
    """Wakes one thread. Safe for all others."""

    def __init__(self) -> None:
        self._changed, self._rung = threading.Condition(), False
        self._turn: Turn | None = None

    def ring(self) -> None:
        """Has the thread look again."""
        with self._changed:
            self._rung = True
            self._changed.notify_all()

    def give(self, turn: Turn) -> None:
        """Has it take its turn."""
        with self._changed:
            self._turn = turn
            self._changed.notify_all()

    def was_rung(self) -> bool:
        """Whether it was, since this was asked last."""
        with self._changed:
            rung, self._rung = self._rung, False
        return rung

    def take_turn(self) -> Turn | None:
        with self._changed:
            turn, self._turn = self._turn, None
        return turn

    def sleep(self, seconds: float) -> None:
        """So long, or until it is woken; not at all where it was and hasn't looked since."""
        with self._changed:
            if seconds > 0 and not self._rung and self._turn is None:
                self._changed.wait(seconds)

    def pause(self, seconds: float) -> None:
        """So long, or until it is woken from now on."""
        with self._changed:
            self._changed.wait(seconds)

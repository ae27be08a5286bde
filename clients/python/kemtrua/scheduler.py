"""What a store of one's own and a hub's have in common for those who ask them: a method for each line."""
from __future__ import annotations

from abc import ABC, abstractmethod
from collections.abc import Callable, Sequence
from typing import TypeVar

from . import replies, rows
from .checking import Line
from .errors import BadReply
from .names import Key
from .replies import Reply, read
from .team import Team
from .waking import Turn

Wanted = TypeVar("Wanted")
Other = TypeVar("Other")


def the(kind: type[Wanted], reply: object) -> Wanted:
    """The reply, if it is of this kind. Raises BadReply where it isn't."""
    if isinstance(reply, kind):
        return reply
    raise BadReply(f"{type(reply).__name__} was answered, and not {kind.__name__}")


class Scheduler(ABC):
    """Who answers lines: a `Store`, or a `Connection` to a hub. Safe for threads.

    Each method sends one line, and raises what `answer` and `replies.read` do. Jobs, triggers and calendars are what documents
    have; moments and spans are in ms.
    """

    is_broken = False  # a connection that broke stays so
    late_after = 1000  # ms: what is later than this may be misfired. Where the threshold isn't known it is little

    @abstractmethod
    def answer(self, line: Line) -> str:
        """The reply to a line, as text. Raises BadLine, Unanswered, Unreachable or ProgramEnded where there is none."""

    @abstractmethod
    def peers(self) -> list[str]:
        """The nodes that are members or have checked in."""

    @abstractmethod
    def entries_of(self, node: str) -> list[int]:
        """The entry numbers of what the node has acquired or executes."""

    @abstractmethod
    def clock(self) -> int:
        """What the clock shows by which the store lives."""

    @abstractmethod
    def watch(self, call: Callable[[], None]) -> None:
        """Has this called, from any thread, whenever something may have become due sooner than `show_next` said."""

    def watch_in_turn(self, call: Callable[[], None], given: Callable[[Turn], None], ahead: int) -> bool:
        """Has `given` called, from any thread, when it is the turn of whoever sleeps here to acquire what will be due, so many ms ahead of
        its moment; `call` where the connection breaks. False where there are no turns: then this is `watch`."""
        self.watch(call)
        return False

    @abstractmethod
    def close(self) -> None:
        """Asks nothing more."""

    def team(self) -> Team | None:
        """The team whose hub this is; None where there is no hub, or one of before. Raises HubRefused where the two are of versions too far apart."""
        return None

    def cut(self) -> None:
        """Lets whoever waits for an answer wait no longer, where that can be done."""

    def ask(self, do: str, **members: object) -> Reply:
        """The reply to a line that has no method of its own here, or that is put together elsewhere."""
        return read(self.answer({"do": do, **members}))

    # -- clients

    def add_job(self, job: Line, replace: bool = False) -> replies.Done:
        return the(replies.Done, self.ask("add_job", job=job, replace=replace))

    def add_trigger(self, trigger: Line, replace: bool = False) -> replies.Done:
        return the(replies.Done, self.ask("add_trigger", trigger=trigger, replace=replace))

    def add_calendar(self, calendar: Line, replace: bool = False) -> replies.Done:
        return the(replies.Done, self.ask("add_calendar", calendar=calendar, replace=replace))

    def add_zone(self, name: str, stretches: Sequence[Sequence[int]]) -> replies.Done:
        return the(replies.Done, self.ask("add_zone", name=name, stretches=[list(it) for it in stretches]))

    def delete_job(self, key: Key) -> replies.Deleted:
        return the(replies.Deleted, self.ask("delete_job", **key.members()))

    def delete_trigger(self, key: Key) -> replies.Done:
        return the(replies.Done, self.ask("delete_trigger", **key.members()))

    def delete_calendar(self, name: str) -> replies.Done:
        return the(replies.Done, self.ask("delete_calendar", name=name))

    def delete_zone(self, name: str) -> replies.Done:
        return the(replies.Done, self.ask("delete_zone", name=name))

    def pause_trigger(self, key: Key) -> replies.Done:
        return the(replies.Done, self.ask("pause_trigger", **key.members()))

    def resume_trigger(self, key: Key) -> replies.Done:
        return the(replies.Done, self.ask("resume_trigger", **key.members()))

    def reset_trigger(self, key: Key) -> replies.Done:
        return the(replies.Done, self.ask("reset_trigger", **key.members()))

    def pause_group(self, group: str) -> replies.Done:
        return the(replies.Done, self.ask("pause_group", group=group))

    def resume_group(self, group: str) -> replies.Done:
        return the(replies.Done, self.ask("resume_group", group=group))

    def pause_job_group(self, group: str) -> replies.Done:
        return the(replies.Done, self.ask("pause_job_group", group=group))

    def resume_job_group(self, group: str) -> replies.Done:
        return the(replies.Done, self.ask("resume_job_group", group=group))

    def trigger_now(self, key: Key) -> replies.Triggered:
        return the(replies.Triggered, self.ask("trigger_now", **key.members()))

    def threshold(self, ms: int) -> replies.Done:
        return the(replies.Done, self.ask("threshold", ms=ms))

    # -- nodes

    def join(self, node: str, interval: int) -> replies.Joined:
        return the(replies.Joined, self.ask("join", node=node, interval=interval))

    def resume(self, node: str, epoch: int) -> replies.Done:
        return the(replies.Done, self.ask("resume", node=node, epoch=epoch))

    def leave(self, node: str) -> replies.Done:
        return the(replies.Done, self.ask("leave", node=node))

    def check_in(self, node: str, interval: int) -> replies.Done:
        return the(replies.Done, self.ask("check_in", node=node, interval=interval))

    def acquire(self, node: str, no_later: int, window: int = 0, most: int = 1) -> replies.Acquired:
        return the(replies.Acquired, self.ask("acquire", node=node, no_later=no_later, window=window, max=most))

    def release(self, node: str, entry: int) -> replies.Done:
        return the(replies.Done, self.ask("release", node=node, entry=entry))

    def fire(self, node: str, entry: int) -> replies.Fired:
        return the(replies.Fired, self.ask("fire", node=node, entry=entry))

    def complete(self, node: str, entry: int, code: str = "NOOP") -> replies.Completed | replies.Again:
        reply = self.ask("complete", node=node, entry=entry, code=code)
        return reply if isinstance(reply, replies.Again) else the(replies.Completed, reply)

    def misfires(self, node: str) -> replies.Misfired:
        return the(replies.Misfired, self.ask("misfires", node=node))

    def recover(self, node: str, failed: str) -> replies.Recovered:
        return the(replies.Recovered, self.ask("recover", node=node, failed=failed))

    def forget(self, node: str, failed: str) -> replies.Done:
        return the(replies.Done, self.ask("forget", node=node, failed=failed))

    # -- lines that ask

    def show_job(self, key: Key) -> rows.JobRow | None:
        return self._row(rows.JobRow, "show_job", **key.members())

    def show_trigger(self, key: Key) -> rows.TriggerRow | None:
        return self._row(rows.TriggerRow, "show_trigger", **key.members())

    def show_entry(self, entry: int) -> rows.EntryRow | None:
        return self._row(rows.EntryRow, "show_entry", entry=entry)

    def show_next(self) -> int | None:
        """When something will be due; None where nothing waits."""
        return the(replies.Next, self.ask("show_next")).time

    def _row(self, kind: type[Wanted], do: str, **members: object) -> Wanted | None:
        reply = self.ask(do, **members)
        return None if isinstance(reply, replies.Nothing) else the(kind, reply)

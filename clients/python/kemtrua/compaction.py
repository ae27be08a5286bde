"""Makes compact stores of a hub's, and has them count. No program works on the stores meanwhile."""
from __future__ import annotations

import os
import shutil
import subprocess
from collections.abc import Iterable, Sequence
from dataclasses import dataclass

from . import clock, rows
from .checking import bytes_of
from .errors import KemtruaError
from .folder import Folder
from .hooks import reached
from .program import STORE_FILES, call, cannot_run, ended
from .team import Team

RESERVE = 1 << 20  # bytes that stay free on the disk, whatever a compaction takes
# The steps after which a test has the hub die, in order.
STEPS = ("asked", "ended", "begun", "compacted", "checked-in", "compared", "finishing", "linked", "finished", "opened", "pruned")


class NotCompacted(KemtruaError):
    """The stores stay as they were."""


@dataclass(frozen=True)
class Compacted:
    """What came of it: the bytes of both stores before and after, and the seconds in which no line was answered."""

    before: int
    after: int
    pause: float

    def __str__(self) -> str:
        return f"the stores had {self.before} bytes and have {self.after}; the pause was {self.pause:.2f} s"


def size_of(stores: str) -> int:
    return sum(os.path.getsize(os.path.join(stores, name)) for name in STORE_FILES)


def compact(folder: Folder, program: str, team: Team, begun: float) -> Compacted:
    """Makes the new stores in a new folder, and changes the link. The old ones are kept. Raises NotCompacted where they go on instead."""
    try:
        reached("ended")
        old = folder.current
        look_at_room(old)
        at = folder.begin()
    except OSError as error:
        raise NotCompacted(f"no new stores can be made: {error.strerror}") from None
    try:
        reached("begun")
        make(program, old, at)
        reached("finishing")
        folder.finish(at, team)
    except (OSError, KemtruaError) as error:
        folder.abandon(at)
        raise NotCompacted(f"the new stores couldn't be made: {error}") from None
    reached("finished")
    return Compacted(size_of(old), size_of(at), clock.uptime() - begun)


def look_at_room(stores: str) -> None:
    """Raises NotCompacted where the disk has no room for new stores, which are no larger than the old ones."""
    need, free = size_of(stores) + RESERVE, shutil.disk_usage(stores).free
    if need > free:
        raise NotCompacted(f"new stores may need {need} bytes, and the disk of {stores} has {free} left: free it")


def make(program: str, old: str, at: str) -> None:
    """Makes the stores, with each member's own interval, and compares them with the old ones."""
    before, listed = state_of(old), call(program, old, "list").splitlines()
    with open(os.path.join(old, STORE_FILES[0]), "rb") as stream:
        run(program, "compact", at, stream)
    reached("compacted")
    check_in(program, at, listed)
    reached("checked-in")
    if without_check_ins(listed) != without_check_ins(call(program, at, "list").splitlines()):
        raise NotCompacted(f"the stores in {at} would have other rows than those in {old}: keep both, and tell whoever made this program")
    if state_of(old) != before:
        raise NotCompacted(f"another program worked on the stores in {old}")
    reached("compared")


def state_of(stores: str) -> list[tuple[int, int]]:
    found = [os.stat(os.path.join(stores, name)) for name in STORE_FILES]
    return [(it.st_size, it.st_mtime_ns) for it in found]


def without_check_ins(listed: Iterable[str]) -> list[str]:
    return [line for line in listed if not line.startswith("state ")]


def run(program: str, word: str, inside: str, stream: object) -> bytes:
    """What a call of the program writes that reads this. Raises ProgramEnded where its status isn't 0."""
    given: dict[str, object] = {"input": stream} if isinstance(stream, bytes) else {"stdin": stream}
    try:
        ran = subprocess.run([program, word], cwd=inside, stdout=subprocess.PIPE, stderr=subprocess.PIPE, start_new_session=True, **given)  # type: ignore[call-overload]
    except OSError as error:
        raise cannot_run(program, inside, error) from error
    if ran.returncode:
        raise ended(inside, ran.returncode, ran.stderr.decode(errors="replace").strip())
    return bytes(ran.stdout)


def check_in(program: str, at: str, listed: Sequence[str]) -> None:
    """Has each member checked in as it was: the new stores know each one's moment of the last transaction, and no interval."""
    found = [rows.row_of(line) for line in listed if line.startswith(("member ", "state "))]
    epochs = {row.node: row.epoch for row in found if isinstance(row, rows.MemberRow)}
    lines = b""
    for row in found:
        if isinstance(row, rows.CheckInRow) and row.node in epochs:
            lines += bytes_of({"do": "resume", "node": row.node, "epoch": epochs[row.node]})
            lines += bytes_of({"do": "check_in", "node": row.node, "interval": row.interval, "at": row.last})
    answers = run(program, "script", at, lines).split(b"\n")[:-1]
    if answers != [b"ok"] * lines.count(b"\n"):
        raise NotCompacted(f"the check-ins of the members couldn't be made in the new stores: {answers[:10]}")

"""Backups of a hub's stores: copies that are made under work and opened, and put back as the team's next generation."""
from __future__ import annotations

import os
import shutil
import sqlite3
from collections.abc import Sequence
from dataclasses import dataclass

from . import durable, logs, rows
from .compaction import RESERVE, run, size_of
from .errors import BadFolder, KemtruaError
from .folder import UNFINISHED, Folder, begin, is_team_folder, remove_all, stores_in
from .history import shipping
from .history.schema import NoHistory
from .program import STORE_FILES, call
from .team import FILE, Team

log = logs.logger("kemtrua.backup")

TRIES = 10  # of a copy whose two files are of moments too far apart
STREAM = "stream"  # of a standby: the bytes of a trigger store, as far as they came


@dataclass(frozen=True)
class Backup:
    """What a folder has."""

    team: Team
    jobs: int
    triggers: int

    @classmethod
    def of(cls, team: Team, listed: Sequence[str]) -> Backup:
        return cls(team, sum(line.startswith("job ") for line in listed), sum(line.startswith("trigger ") for line in listed))

    def __str__(self) -> str:
        return f"{self.team}: {self.jobs} jobs, {self.triggers} triggers"


def make(source: str, target: str, program: str) -> Backup:
    """Copies the stores of a hub's folder, at which the hub may work, to a new folder, and opens the copy. Raises BadFolder and ProgramEnded."""
    target = os.path.abspath(target)
    try:
        team = Team.read(source)
        if team is None or not is_team_folder(source):
            raise BadFolder(f"{source} is no hub's folder: it has no {FILE}, or no stores")
        if os.path.isdir(target) and os.listdir(target):
            raise BadFolder(f"{target} is there already, and has something in it: name a new folder")
        begin(target)
        try:
            listed = copied(source, target, program)
            team.write(target)
            finish(target)
        except (OSError, KemtruaError):
            remove_all(target)
            raise
    except OSError as error:
        raise BadFolder.of(error, target) from None
    return Backup.of(team, listed)


def copied(source: str, target: str, program: str) -> list[str]:
    """Copies both files, and gives the lines of `list`. Nothing orders the two against each other, so they are copied until each member has a check-in."""
    for left in reversed(range(TRIES)):
        stores = stores_in(source)
        look_at_room(stores, target)
        try:
            for name in STORE_FILES:
                durable.copy(os.path.join(stores, name), os.path.join(target, name))
        except FileNotFoundError:
            if not left:
                raise
            continue  # (these were old ones by now, and were removed)
        listed = call(program, target, "list").splitlines()
        found = [rows.row_of(line) for line in listed if line.startswith(("member ", "state "))]
        checked = {row.node for row in found if isinstance(row, rows.CheckInRow)}
        if all(row.node in checked for row in found if isinstance(row, rows.MemberRow)):
            return listed
    raise BadFolder(f"{source} has members without a check-in: let them leave, or join anew")


def look_at_room(stores: str, target: str) -> None:
    need, free = size_of(stores) + RESERVE, shutil.disk_usage(target).free
    if need > free:
        raise BadFolder(f"the disk of {target} has {free} bytes left, and {need} are needed", 5)


def finish(at: str) -> None:
    """A folder that was begun is whole."""
    for name in os.listdir(at):
        durable.own_as_folder(os.path.join(at, name))
        durable.sync(os.path.join(at, name))
    durable.sync(at)
    durable.remove(os.path.join(at, UNFINISHED))
    durable.sync(at)


def restore(source: str, path: str, program: str) -> tuple[Backup, str]:
    """Puts a backup, or what came of a standby's stream, in place as the next generation, in a hub's folder at which nobody works.

    Gives what it has, and the folder of the stores from now on. The stores that were there are kept. Raises BadFolder, StoreLocked and ProgramEnded.
    """
    folder = Folder(path)
    try:
        backup = team_of(source)
        durable.make_folder(folder.path)
        folder.hold(1.0)
        try:
            return restored(source, folder, program, backup)
        finally:
            folder.let_go()
    except OSError as error:
        raise BadFolder.of(error, path) from None


def team_of(source: str) -> Team:
    """The team of a backup that is whole."""
    team = Team.read(source)
    if team is None:
        raise BadFolder(f"{source} is no backup: it has no {FILE}")
    if is_team_folder(source):
        raise BadFolder(f"{source} is a hub's folder, and no backup: make one of it, or name one of its stores")
    if os.path.lexists(os.path.join(source, UNFINISHED)):
        raise BadFolder(f"{source} is a backup that never was whole: name another one")
    return team


def restored(source: str, folder: Folder, program: str, backup: Team) -> tuple[Backup, str]:
    own = Team.read(folder.path)
    if own is None and (is_team_folder(folder.path) or any(os.path.lexists(os.path.join(folder.path, name)) for name in STORE_FILES)):
        raise BadFolder(f"{folder.path} has stores, and names no team: let a hub work there once, or name a new folder")
    if own is not None and own.id != backup.id:
        raise BadFolder(f"{source} is of {backup}, and {folder.path} is of {own}: a hub takes its own team's backups alone")
    team = Team(backup.id, max(backup.generation, own.generation if own is not None else 0) + 1)
    at = folder.begin()
    try:
        bring(source, at, program)
        listed = call(program, at, "list").splitlines()
        team.write(folder.path)  # (before the stores count: no node takes them for those that it knew)
        folder.finish(at, team)
    except (OSError, KemtruaError):
        folder.abandon(at)
        raise
    bring_history(source, folder.path)
    folder.prune()
    return Backup.of(team, listed), at


def bring_history(source: str, home: str) -> None:
    """What ran, as far as a standby's stream had it. Stores are no worse without."""
    try:
        if os.path.exists(os.path.join(source, STREAM)) and shipping.bring(source, home):
            log.info("the history of %s is in place", source)
    except (OSError, sqlite3.Error, NoHistory) as error:
        log.error("the history of %s isn't put in place: %s", source, error)


def bring(source: str, at: str, program: str) -> None:
    """Makes the store files in a folder that was begun: of a standby's stream, or as a backup has them."""
    stream = os.path.join(source, STREAM)
    if not os.path.exists(stream):
        for name in STORE_FILES:
            durable.copy(os.path.join(source, name), os.path.join(at, name))
        return
    with open(stream, "rb") as file:
        run(program, "follow", at, file)
    for name in STORE_FILES:
        durable.own_as_folder(os.path.join(at, name))

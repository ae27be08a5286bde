"""The folder of a hub: `stores/DATE/` with both store files, and `current`, a link to the stores that count.

    team.json               which team this is
    current -> stores/DATE  put in place by rename
    stores/DATE/            both store files, and a team.json; with a file `unfinished` while it is made or removed
    hub.lock                locked by whoever works here

What a crash leaves is put in order by the next one that holds the folder. A folder of stores that has `unfinished`, or nothing, never was current, or is on its way out.
"""
from __future__ import annotations

import errno
import fcntl
import filecmp
import os
import shutil
import time
from collections.abc import Collection, Iterator
from contextlib import contextmanager
from datetime import datetime, timezone

from . import durable, logs
from .errors import BadFolder, ProgramEnded, StoreLocked
from .hooks import reached
from .program import STORE_FILES, make_store, wait_until_free
from .team import FILE, Team

log = logs.logger("kemtrua.hub")

CURRENT, STORES, LOCK, UNFINISHED = "current", "stores", "hub.lock", "unfinished"
KEEP = 3  # old stores that are kept
LOCK_WITHIN = 20.0  # seconds that whoever works there has to end
TRIES = 20  # of removing a folder


def is_team_folder(folder: str) -> bool:
    return os.path.lexists(os.path.join(folder, CURRENT))


def stores_in(folder: str) -> str:
    """The folder of the two store files: that to which `current` leads, or else this one."""
    return Folder(folder).current if is_team_folder(folder) else folder


@contextmanager
def held_stores(folder: str, seconds: float) -> Iterator[str]:
    """The same, while no hub works there. Raises StoreLocked where one does so long."""
    if not is_team_folder(folder):
        yield folder
        return
    holder = Folder(folder)
    holder.hold(seconds)
    try:
        yield holder.current
    finally:
        holder.let_go()


class Folder:
    """A hub's folder. What changes it is for whoever holds it."""

    def __init__(self, path: str, keep: int = KEEP):
        self.path, self._keep = os.path.abspath(path), keep
        self._lock: int | None = None

    # -- who works here

    def hold(self, seconds: float = LOCK_WITHIN) -> None:
        """Keeps all others away until `let_go`. Raises StoreLocked where somebody else still works here after so many seconds."""
        if not os.path.isdir(self.path):
            raise BadFolder(f"the folder {self.path} isn't there")
        try:
            lock = os.open(os.path.join(self.path, LOCK), os.O_RDWR | os.O_CREAT | os.O_CLOEXEC, 0o640)
        except OSError as error:
            raise BadFolder.of(error, self.path) from None
        until = time.monotonic() + seconds
        while True:
            try:
                fcntl.flock(lock, fcntl.LOCK_EX | fcntl.LOCK_NB)
                break
            except OSError:
                if time.monotonic() >= until:
                    os.close(lock)
                    raise StoreLocked(self.path) from None
                time.sleep(0.05)
        durable.own_as_folder(os.path.join(self.path, LOCK))
        self._lock = lock

    def let_go(self) -> None:
        if self._lock is not None:
            os.close(self._lock)
            self._lock = None

    # -- which stores count

    @property
    def current(self) -> str:
        """The folder of the stores that count. Raises BadFolder where `current` leads to none."""
        link = os.path.join(self.path, CURRENT)
        if not os.path.islink(link):
            raise BadFolder(f"{link} is no symbolic link to one of the folders in {self.path}/{STORES}")
        found = os.path.join(self.path, os.readlink(link))
        if os.path.dirname(os.path.normpath(found)) != os.path.join(self.path, STORES):
            raise BadFolder(f"{link} leads to {found}, which is none of the folders in {self.path}/{STORES}")
        if not os.path.isdir(found):
            raise BadFolder(f"{link} leads to {found}, which isn't there: let it lead to the one of {self.path}/{STORES} that is to count "
                            f"(ln -sfn {STORES}/DATE {link}), or restore a backup")
        return os.path.normpath(found)

    def all_stores(self) -> list[str]:
        """The folders of stores that were current once, by date."""
        try:
            names = sorted(os.listdir(os.path.join(self.path, STORES)))
        except FileNotFoundError:
            return []
        found = [os.path.join(self.path, STORES, name) for name in names]
        return [at for at in found if os.path.isdir(at) and not is_unfinished(at)]

    # -- at the start

    def open(self, program: str, make: bool) -> Team:
        """Puts in order what a crash left, takes a folder of the form of before over, or makes stores. Gives the team. To be called once it is held."""
        try:
            return self._opened(program, make)
        except OSError as error:
            raise BadFolder.of(error, self.path) from None

    def _opened(self, program: str, make: bool) -> Team:
        for name in (FILE, CURRENT):
            durable.remove(os.path.join(self.path, f"{name}.new"))
        team, has_link = Team.read(self.path), is_team_folder(self.path)
        if team is None and (has_link or self.all_stores()):
            raise BadFolder(f"{self.path} has stores, and {FILE} isn't there: put it back, as one of the stores has it")
        before = [name for name in STORE_FILES if os.path.lexists(os.path.join(self.path, name))]
        if not has_link and self.all_stores():
            raise BadFolder(f"{self.path} has stores, and no {CURRENT}: say which ones count (ln -s {STORES}/DATE {self.path}/{CURRENT})")
        if not has_link and not before and not make:
            raise ProgramEnded(6, "triggers not a store")
        if team is None:
            team = Team.new()
            team.write(self.path)
        if has_link:
            self._check(team)
        self._clear()
        if not has_link:
            self._take_over(team, before, program, make)
        elif before:
            self._end_taking_over(before)
        return team

    def _check(self, team: Team) -> None:
        """Raises where the stores that count are another team's."""
        at = self.current
        found = Team.read(at)
        if found is None or found.id != team.id:
            whose = "names no team" if found is None else f"is of {found}"
            raise BadFolder(f"{at} {whose}, and {self.path} is of {team}: no hub works on stores that aren't its team's")

    def _clear(self) -> None:
        """Removes what was being made or removed, and has the stores that count be finished."""
        current = self.current if is_team_folder(self.path) else None
        above = os.path.join(self.path, STORES)
        for name in os.listdir(above) if os.path.isdir(above) else ():
            at = os.path.join(above, name)
            if os.path.isdir(at) and is_unfinished(at):
                if at == current:
                    self._mark_finished(at)
                else:
                    log.warning("%s was being made or removed, and is removed", at)
                    remove_all(at)

    def _take_over(self, team: Team, before: list[str], program: str, make: bool) -> None:
        """Makes the first stores of the layout, of the files of the form of before, where some are there. These stay until the link counts."""
        if before:
            wait_until_free(self.path, LOCK_WITHIN)
        at = self.begin()
        for name in before:
            share(os.path.join(self.path, name), os.path.join(at, name))
        if make:
            make_store(program, at)
        self.finish(at, team)
        if before:
            log.info("the stores of %s are in %s from now on", self.path, at)
            self._end_taking_over(before)

    def _end_taking_over(self, before: list[str]) -> None:
        for name in before:
            old, new = os.path.join(self.path, name), os.path.join(self.current, name)
            if not os.path.exists(new) or not filecmp.cmp(old, new, shallow=False):
                raise BadFolder(f"{old} stands beside {self.path}/{CURRENT}, which has other stores: move it away")
        for name in before:
            durable.remove(os.path.join(self.path, name))
        durable.sync(self.path)

    # -- new stores

    def begin(self) -> str:
        """A new folder for stores, which doesn't count until `finish`. Its name is a date, later than that of all others."""
        above = os.path.join(self.path, STORES)
        durable.make_folder(above)
        latest = max(os.listdir(above), default="")
        name = name_of(datetime.now(timezone.utc))
        while name <= latest:
            name = latest + "+"  # (the clock was set back)
        at = os.path.join(above, name)
        begin(at)
        return at

    def finish(self, at: str, team: Team) -> None:
        """From now on these stores count."""
        team.write(at)
        for name in os.listdir(at):
            durable.sync(os.path.join(at, name))
        durable.sync(at)
        durable.link(os.path.join(self.path, CURRENT), os.path.join(STORES, os.path.basename(at)))
        reached("linked")
        self._mark_finished(at)

    def abandon(self, at: str) -> None:
        """Removes a folder that `begin` made, unless it counts."""
        try:
            if not is_team_folder(self.path) or self.current != at:
                remove_all(at)
        except (OSError, BadFolder) as error:
            log.warning("%s can't be removed (%s); the next start of the hub does", at, error)

    def prune(self, needed: Collection[str] = ()) -> None:
        """Removes the oldest stores, so that `keep` old ones are left, and those of these names."""
        try:
            old = [at for at in self.all_stores() if at != self.current and os.path.basename(at) not in needed]
            for at in old[: max(0, len(old) - self._keep)]:
                log.info("%s is removed; %d old stores are kept", at, self._keep)
                with open(os.path.join(at, UNFINISHED), "w", encoding="utf-8"):
                    pass
                durable.sync(at)
                remove_all(at)
        except OSError as error:
            log.warning("old stores can't be removed: %s", error)

    @staticmethod
    def _mark_finished(at: str) -> None:
        durable.remove(os.path.join(at, UNFINISHED))
        durable.sync(at)


def name_of(moment: datetime) -> str:
    """The name of stores that are made at this moment."""
    return moment.strftime("%Y-%m-%dT%H%M%S.") + f"{moment.microsecond // 1000:03}Z"


def begin(at: str) -> None:
    """Makes a folder that counts for nothing yet."""
    durable.make_folder(at)
    with open(os.path.join(at, UNFINISHED), "w", encoding="utf-8"):
        pass
    durable.own_as_folder(os.path.join(at, UNFINISHED))
    durable.sync(at)


def is_unfinished(at: str) -> bool:
    """Whether a folder is being made or removed: it has the mark, or not even that."""
    names = os.listdir(at)
    return UNFINISHED in names or not names


def remove_all(at: str) -> None:
    """Removes a folder that counts for nothing. Its mark goes last."""
    for left in reversed(range(TRIES)):
        try:
            for name in os.listdir(at):
                if name != UNFINISHED:
                    os.unlink(os.path.join(at, name))
            shutil.rmtree(at)
            break
        except OSError as error:
            if error.errno != errno.ENOTEMPTY or not left:
                raise
            time.sleep(0.1)  # (a program whose owner was killed adds a file)
    durable.sync(os.path.dirname(at))


def share(source: str, target: str) -> None:
    """The same file under a second name, or a copy where the file system knows no second names."""
    try:
        os.link(source, target)
    except OSError:
        durable.copy(source, target)

"""Files and folders whose names stay after a crash: each is synced, and so is the folder in which it stands."""
from __future__ import annotations

import os
import shutil


def sync(path: str) -> None:
    """Syncs a file, or the names in a folder."""
    descriptor = os.open(path, os.O_RDONLY)
    try:
        os.fsync(descriptor)
    finally:
        os.close(descriptor)


def write(path: str, data: bytes) -> None:
    """Puts a file in place by rename: after a crash it is the old one or the new one."""
    with open(f"{path}.new", "wb") as file:
        file.write(data)
        file.flush()
        os.fsync(file.fileno())
    own_as_folder(f"{path}.new")
    os.replace(f"{path}.new", path)
    sync(os.path.dirname(path))


def link(path: str, target: str) -> None:
    """Has a symbolic link lead to this target, in one step."""
    remove(f"{path}.new")
    os.symlink(target, f"{path}.new")
    own_as_folder(f"{path}.new")
    os.replace(f"{path}.new", path)
    sync(os.path.dirname(path))


def make_folder(path: str) -> None:
    """Makes a folder, and those above it that aren't there."""
    if os.path.isdir(path):
        return
    above = os.path.dirname(path)
    make_folder(above)
    os.mkdir(path)
    own_as_folder(path)
    sync(above)


def copy(source: str, target: str) -> None:
    """Copies a file while somebody may add to it. A store's file only grows at its end, so the copy is one of a moment."""
    shutil.copyfile(source, target)
    own_as_folder(target)
    sync(target)


def remove(path: str) -> None:
    """Removes a file that may not be there."""
    try:
        os.unlink(path)
    except FileNotFoundError:
        pass


def own_as_folder(path: str) -> None:
    """What root makes belongs to whoever owns the folder in which it stands."""
    if os.geteuid() == 0:
        above = os.stat(os.path.dirname(path))
        os.lchown(path, above.st_uid, above.st_gid)

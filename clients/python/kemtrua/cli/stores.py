"""What the commands of `kemtrua` do to a hub's stores."""
from __future__ import annotations

import argparse
import json
import logging
import sys

from .. import backups, standby
from ..errors import BadSettings
from . import printing, work
from .work import hub_of

Words = argparse.Namespace


def compact(given: Words) -> int:
    if given.folder is not None:
        raise BadSettings("compact asks a hub: of a folder that none holds, see the page on stores that fill")
    with hub_of(given) as hub:
        before, after, pause = hub.compact()
    print(f"compacted: {before} bytes became {after}; no line was answered for {pause / 1000:.2f} s")
    return 0


def team(given: Words) -> int:
    """Whichever hub answers tells of all."""
    if given.folder is not None:
        raise BadSettings("team asks hubs")
    with work.any_hub_of(given) as hub:
        found = hub.rows("team")
    if given.json:
        print("\n".join(json.dumps(row) for row in found))
    else:
        print(printing.team(found[0], found[1:]))
    return 0


def folder_of(given: Words) -> str:
    """The hub's folder: the one that is named, or that the hub of this machine names."""
    if given.folder is not None:
        return str(given.folder)
    with hub_of(given) as hub:
        if not hub.address.path:
            raise BadSettings("the stores are on the hub's machine: ask there, over its Unix socket, or with --folder")
        return hub.where()


def backup(given: Words) -> int:
    made = backups.make(folder_of(given), given.target, given.program)
    print(f"{given.target} has {made}")
    return 0


def restore(given: Words) -> int:
    if given.folder is None:
        raise BadSettings("restore wants --folder, the hub's folder (/var/lib/kemtrua with the unit), at which no hub works")
    made, at = backups.restore(given.source, given.folder, given.program)
    print(f"{at} has {made}; start the hub")
    return 0


def ship(given: Words) -> int:
    logging.getLogger().setLevel(logging.INFO)

    def write(data: bytes) -> None:
        sys.stdout.buffer.write(data)
        sys.stdout.buffer.flush()

    standby.ship(folder_of(given), write)
    return 0


def receive(given: Words) -> int:
    logging.getLogger().setLevel(logging.INFO)
    standby.Receiver(given.target).receive(sys.stdin.buffer)
    return 0

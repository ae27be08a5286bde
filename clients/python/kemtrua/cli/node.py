"""`kemtrua-node`: runs jobs that are commands."""
from __future__ import annotations

import os
import signal
import sys
import threading
import time
from collections.abc import Callable

from .. import logs
from ..address import Tls
from ..certificates import DAY, warn_of
from ..connection import ANSWER_WITHIN
from ..errors import BadSettings
from ..guard import Guard
from ..hubs import Hubs
from ..names import escape
from ..node import Node
from ..notify import notify
from ..patience import MARGIN
from ..running import Place
from ..scheduler import Scheduler
from ..settings import NodeSettings, read_node
from ..store import Store
from . import common

log = logs.logger("kemtrua.node")

DESCRIPTION = """\
Runs what is due. A settings file maps classes of jobs to commands; see "Run it for a team".

SIGTERM has the node finish what runs, and leave. A second one ends what runs, which other nodes then recover.

Exit status: 0 after SIGTERM, 1 for an error, that of qz_sched where the node has a store of its own and this ended."""


def connector(settings: NodeSettings) -> Callable[[], Scheduler]:
    """What gives the node whom to ask."""
    if settings.store is not None:
        store = Store(settings.store, settings.program)
        return lambda: store
    if not settings.addresses:
        raise BadSettings("a node has a hub or a store of its own")
    if settings.tls is None and (bare := [it for it in settings.addresses if not it.path]):
        raise BadSettings(f"{bare[0]} wants TLS: the settings have no table [tls]")
    return Hubs(settings.addresses, settings.tls, min(ANSWER_WITHIN, (settings.check_in + MARGIN) / 1000)).connect


def spool_of(settings: NodeSettings) -> str | None:
    """The folder for what isn't told yet of executions: that of the settings, or one of the folder that systemd gives a service."""
    if settings.spool is not None or settings.store is not None:
        return settings.spool
    given = os.environ.get("STATE_DIRECTORY", "").split(":")[0]
    if not given:
        log.warning("this node has no spool: what it hasn't told the hub of executions is lost when it ends; set `spool` in [node]")
        return None
    return os.path.join(given, "spool", f"node-{escape(settings.name)}")


def warn_each_day(tls: Tls) -> None:
    """Says each day where a certificate ends soon."""
    while True:
        try:
            warn_of(tls)
        except BadSettings as error:
            log.error("%s", error)
        time.sleep(DAY)


def run(settings: NodeSettings) -> None:
    if settings.tls is not None:
        threading.Thread(target=warn_each_day, args=(settings.tls,), name="certificates", daemon=True).start()
    guard = Guard()
    jobs = {name: it.command.job(guard, it.retry, it.ends_when_cut_off) for name, it in settings.classes.items()}
    node = Node(settings.name, connector(settings), jobs, check_in=settings.check_in, work=settings.work, finish_within=settings.finish_within,
                clock_limit=settings.clock_limit, prepare=Place if jobs else None, spool=spool_of(settings))
    for number in (signal.SIGTERM, signal.SIGINT):
        signal.signal(number, lambda *_: node.stop())
    notify("READY=1")
    try:
        node.run()
    finally:
        guard.end()


def main(words: list[str] | None = None) -> int:
    parser = common.parser("kemtrua-node", DESCRIPTION)
    parser.add_argument("settings", help="the settings file, in TOML")
    parser.add_argument("--name", help="the node's name (that of the settings, or else the host's)")
    parser.add_argument("--check", action="store_true", help="only look at the settings")
    common.add_log_level(parser)
    given = parser.parse_args(words)
    common.log_to_stderr(given.log)

    def work() -> None:
        settings = read_node(given.settings, given.name)
        if given.check:
            print(f"{given.settings}: node {settings.name}, classes {', '.join(settings.classes) or 'none'}")
        else:
            run(settings)

    return common.ended("kemtrua-node", work)


if __name__ == "__main__":
    sys.exit(main())

"""`kemtrua-hub`: serves a store to nodes and clients."""
from __future__ import annotations

import argparse
import sys
from dataclasses import replace

from ..address import DEFAULT, Address, Tls
from ..errors import BadSettings
from ..etcdlink import Endpoint
from ..folder import KEEP
from ..history.settings import HistorySettings, read_hub
from ..hub import Grant, Hub, HubSettings
from ..several.member import Member, Several
from . import common

DESCRIPTION = """\
Holds the stores of a folder and serves them to many nodes and clients, over a Unix socket, or over TCP with TLS and client
certificates alone. SIGTERM ends it in good order; nodes come back to it by themselves when it is started again. At SIGHUP it reads
its certificates again. It makes snapshots, and compacts its stores before they are full. With --etcd it is one of several hubs.

Exit status: 0 after SIGTERM; 75 where another program works on the store; that of qz_sched where this ended (5 a disk failed, 6 no
store or a damaged one, or a folder that isn't the team's, 7 the journal is full); 1 for any other error."""


def main(words: list[str] | None = None) -> int:
    parser = common.parser("kemtrua-hub", DESCRIPTION)
    parser.add_argument("folder", help="the hub's folder, which has the stores")
    parser.add_argument("--listen", action="append", metavar="ADDRESS", help=f"unix:PATH or tls:HOST:PORT; may be repeated ({DEFAULT})")
    parser.add_argument("--make", action="store_true", help="make the stores where they aren't there")
    parser.add_argument("--program", default="qz_sched", metavar="FILE", help="the program that holds the store (qz_sched)")
    parser.add_argument("--listen-nodes", action="append", default=[], metavar="ADDRESS", help="unix:PATH of a socket for nodes alone; may be repeated")
    parser.add_argument("--nodes-group", metavar="GROUP", help="the group that may open those sockets (the hub's own)")
    parser.add_argument("--operator", action="append", default=[], metavar="NAME",
                        help="a certificate's common name that may add, pause, delete, show and list; may be repeated (none may)")
    parser.add_argument("--node", action="append", default=[], metavar="NAME[:WORKERS]",
                        help="a certificate that may be the node of its name, with so many entries in its hands; 'NAME.*' for all nodes below "
                        "it; may be repeated (each trusted one may)")
    parser.add_argument("--keep", type=int, default=KEEP, metavar="NUMBER", help=f"old stores that are kept after compactions ({KEEP})")
    parser.add_argument("--settings", metavar="FILE", help="how long the history is kept, what jobs are expected to do, and who is alerted, in TOML")
    parser.add_argument("--check", action="store_true", help="only look at the settings")
    common.add_tls(parser)
    parser.add_argument("--revoked", metavar="FILE", help="a revocation list of the authority's, in PEM")
    _add_etcd(parser)
    common.add_log_level(parser)
    given = parser.parse_args(words)
    common.log_to_stderr(given.log)

    def work() -> None:
        history = HistorySettings() if given.settings is None else read_hub(given.settings)
        if given.check:
            if given.settings is None:
                raise BadSettings("--check looks at --settings FILE")
            print(f"{given.settings}: {len(history.expects)} expectations, alerts for {', '.join(history.alerts) or 'nothing'}")
            return
        tls = common.tls_of(given)
        if given.revoked is not None:
            if tls is None:
                raise BadSettings("--revoked goes with --certificate, --key and --authority")
            tls = replace(tls, revoked=given.revoked)
        settings = HubSettings(given.folder, given.program, given.make, [Address.parse(text) for text in given.listen or [DEFAULT]],
                               [Address.parse(text) for text in given.listen_nodes], given.nodes_group, tls, given.operator,
                               [Grant.parse(text) for text in given.node], max(given.keep, 0), history)
        several = several_of(given)
        if several is None:
            Hub(settings).run()
        else:
            Member(settings, several).run()

    return common.ended("kemtrua-hub", work)


def _add_etcd(to: argparse.ArgumentParser) -> None:
    group = to.add_argument_group("several hubs", "one of them leads, and the others stand by; the team's store is in etcd, too")
    group.add_argument("--etcd", metavar="URLS", help="https://HOST:2379 of each etcd, with commas between them")
    group.add_argument("--team", metavar="NAME", help="the team's name in etcd")
    group.add_argument("--name", metavar="NAME", help="this hub's name among the others (the host's)")
    for name, what in (("certificate", "the hub's certificate for etcd"), ("key", "its key"), ("authority", "the authority of etcd")):
        group.add_argument(f"--etcd-{name}", metavar="FILE", help=f"{what}, in PEM")
    group.add_argument("--etcd-restored", action="store_true", help="take an etcd that was restored as it is, as the team's next generation")


def several_of(given: argparse.Namespace) -> Several | None:
    """What is said of several hubs; None where there is one."""
    files = [given.etcd_certificate, given.etcd_key, given.etcd_authority]
    if given.etcd is None:
        if given.team is not None or given.name is not None or given.etcd_restored or files != [None] * 3:
            raise BadSettings("--team, --name and what begins with --etcd- go with --etcd")
        return None
    endpoints = Endpoint.all_of(given.etcd)
    if not endpoints or given.team is None:
        raise BadSettings("--etcd wants at least one URL, and --team NAME")
    if files != [None] * 3 and None in files:
        raise BadSettings("--etcd-certificate, --etcd-key and --etcd-authority belong together")
    return Several(tuple(endpoints), given.team, given.name or "", None if files == [None] * 3 else Tls(*files), given.etcd_restored)


if __name__ == "__main__":
    sys.exit(main())

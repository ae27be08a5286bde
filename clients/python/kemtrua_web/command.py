"""`kemtrua-web`: a page in the browser, and metrics."""
from __future__ import annotations

import asyncio
import sys

from kemtrua.address import DEFAULT, Address, Tls
from kemtrua.cli import common
from kemtrua.errors import BadSettings

from .safety import Origins
from .settings import DEFAULT_LISTEN, Listening, WebSettings, zone_of

DESCRIPTION = """\
Shows in a browser what ran, what didn't, and what is to come, and tells metrics to Prometheus at /metrics. It reads the history in the
hub's folder, and asks the hub as a client. At a port of this machine, or at a Unix socket behind a proxy, everybody may only look; over
TLS a browser shows a certificate, and those of --operator may fire, pause, resume and reset.

SIGTERM ends it. At SIGHUP it reads its certificates again."""


def main(words: list[str] | None = None) -> int:
    parser = common.parser("kemtrua-web", DESCRIPTION)
    parser.add_argument("folder", help="the hub's folder, which has the history")
    parser.add_argument("--listen", action="append", metavar="ADDRESS",
                        help=f"HOST:PORT of this machine, unix:PATH, or tls:HOST:PORT; may be repeated ({DEFAULT_LISTEN})")
    parser.add_argument("--origin", action="append", default=[], metavar="ORIGIN",
                        help="how browsers name these pages, as https://jobs.example.org; may be repeated (what --listen says)")
    parser.add_argument("--operator", action="append", default=[], metavar="NAME",
                        help="a certificate's common name that may fire, pause, resume and reset; may be repeated")
    parser.add_argument("--zone", default="UTC", metavar="NAME", help="the zone of the times that are shown, as Europe/Berlin (UTC)")
    parser.add_argument("--team", default="", metavar="NAME", help="how the team is called at the head of each page")
    parser.add_argument("--program", default="qz_sched", metavar="FILE", help="the program that says when triggers fire (qz_sched)")
    parser.add_argument("--hub", default=DEFAULT, metavar="ADDRESS", help=f"the hub, unix:PATH or tls:HOST:PORT ({DEFAULT})")
    parser.add_argument("--hub-certificate", metavar="FILE", help="this process's own certificate for a hub over TLS, an operator's")
    parser.add_argument("--hub-key", metavar="FILE", help="its key")
    parser.add_argument("--hub-authority", metavar="FILE", help="the authority of the hub's certificate")
    common.add_tls(parser)
    parser.add_argument("--revoked", metavar="FILE", help="a revocation list of the authority's, in PEM")
    common.add_log_level(parser)
    given = parser.parse_args(words)
    common.log_to_stderr(given.log)

    def work() -> None:
        from .server import Server  # pylint: disable=import-outside-toplevel  (it needs what Debian has as packages)
        asyncio.run(Server(settings_of(given)).run())

    return common.ended("kemtrua-web", work)


def settings_of(given: object) -> WebSettings:
    """What the words of the command say. Raises BadSettings."""
    words = vars(given)
    listen = tuple(Listening.parse(text) for text in words["listen"] or [DEFAULT_LISTEN])
    origins = words["origin"] or [origin for one in listen for origin in one.origins()]
    if not origins:
        raise BadSettings("--listen unix:PATH wants --origin: how browsers name the proxy before it, as https://jobs.example.org")
    tls = _tls(words, "", "--certificate, --key and --authority", words["revoked"])
    if words["operator"] and not any(one.over_tls for one in listen):
        raise BadSettings("--operator names certificates, so it goes with --listen tls:HOST:PORT")
    hub, hub_tls = Address.parse(words["hub"]), _tls(words, "hub_", "--hub-certificate, --hub-key and --hub-authority")
    if not hub.path and hub_tls is None:
        raise BadSettings(f"--hub {hub} wants --hub-certificate, --hub-key and --hub-authority")
    return WebSettings(words["folder"], hub, listen, Origins.of(origins), hub_tls, tls,
                       frozenset(words["operator"]), zone_of(words["zone"]), words["zone"], words["program"], words["team"])


def _tls(words: dict[str, str], before: str, names: str, revoked: str | None = None) -> Tls | None:
    files = [words[f"{before}{name}"] for name in ("certificate", "key", "authority")]
    if files == [None] * 3:
        return None
    if None in files:
        raise BadSettings(f"{names} belong together")
    return Tls(*files, revoked)


if __name__ == "__main__":
    sys.exit(main())

"""What all pages stand on: the history, the rows, the hub, and how a page is written."""
from __future__ import annotations

import os
from collections.abc import Mapping
from dataclasses import dataclass
from typing import Any

import jinja2
from kemtrua import __version__, clock, logs
from kemtrua.errors import KemtruaError
from kemtrua.history.schema import NoHistory
from kemtrua.names import Key

from . import addresses, moments
from .asking import Hub
from .definitions import Definitions
from .digest import Digest, Keeping, digest_of
from .moments import Clock
from .queries import History
from .rows import Rows, Store
from .safety import Tokens
from .settings import WebSettings
from .standing import Looking, Standing
from .states import WORDS

log = logs.logger("kemtrua.web")

HERE = os.path.dirname(os.path.abspath(__file__))


@dataclass(frozen=True)
class Viewer:
    """Who looks: by a certificate's name, or nobody in particular; and whether that one operates."""

    name: str = ""
    operates: bool = False


@dataclass
class Looked:
    """What one page looks at, at one moment."""

    site: Site
    viewer: Viewer
    clock: Clock
    history: History
    store: Store
    query: Mapping[str, str]

    def __enter__(self) -> Looked:
        return self

    def __exit__(self, *_: object) -> None:
        self.history.close()
        self.store.close()

    def get(self, name: str, most: int = 200) -> str:
        """A member of the query, without what no name has at its ends."""
        return self.query.get(name, "")[:most].strip()


class Site:
    """The pages of one hub."""

    def __init__(self, settings: WebSettings):
        self.settings = settings
        self.hub = Hub(settings.hub, settings.hub_tls)
        self.rows = Rows(self.hub)
        self.definitions = Definitions(settings.folder, settings.program)
        self.tokens = Tokens()
        self.digests: Keeping[Digest] = Keeping()
        self.standings: Keeping[Standing] = Keeping()
        self._templates = jinja2.Environment(loader=jinja2.FileSystemLoader(os.path.join(HERE, "templates")), autoescape=True,
                                             trim_blocks=True,
                                             lstrip_blocks=True, auto_reload=False, undefined=jinja2.StrictUndefined)
        self._templates.filters.update(iso=moments.iso)
        self._templates.globals.update(span=moments.span, num=moments.number, size=moments.size, plural=moments.plural, WORD=WORDS,
                                       url=addresses,
                                       version=__version__)

    def close(self) -> None:
        self.rows.close()
        self.hub.close_connection()

    def digest(self, since: int, until: int, name: str) -> Digest:
        """Counts of a span that ends now: `name` says which, so that what takes long is served as it was a little before."""
        return self.digests.get((name, since // moments.HOUR), lambda: digest_of(self.settings.folder, since, until))

    def standing(self, looked: Looked, since: int, name: str) -> Standing:
        def make() -> Standing:
            with History(self.settings.folder) as history, Store(self.rows) as store:
                return Looking(history, store if store.as_of is not None else None, looked.clock, since).look()

        return self.standings.get((name, since // moments.HOUR), make)

    def looked(self, viewer: Viewer, query: Mapping[str, str]) -> Looked:
        """Opens what a page looks at. Raises NoHistory."""
        self.rows.refresh()
        self.definitions.learn()
        present = clock.now()
        history = History(self.settings.folder)
        return Looked(self, viewer, Clock(self.settings.zone, present), history, Store(self.rows), query)

    def write(self, name: str, viewer: Viewer, present: Clock, facts: Mapping[str, Any]) -> str:
        """A page. Names, data and outputs are text in it, whatever they are."""
        known = {"tab": "", "live": False, "q": "", "count_open": 0, "asof": present.present, "viewer": viewer, "team": self.settings.team,
                 "zone": self.settings.zone_name, "notice": self.notice(present), "when": present.when, "clock": present.clock,
                 "ago": present.ago,
                 "day": present.day, "short_zone": present.short_zone(present.present), "Key": Key}
        return self._templates.get_template(f"{name}.html").render(known | dict(facts))

    def notice(self, present: Clock) -> dict[str, str] | None:
        """What is to be said above each page, where something isn't as it should be."""
        if self.hub.why is not None:
            as_of = self.rows.as_of
            since = "Its rows were never told." if as_of is None else f"The rows are as of {present.when(as_of, True)}."
            return {"state": "failed", "word": "The hub isn't reached", "text": f"{since} What ran is read from its history."}
        if self.rows.as_of is not None and not self.rows.is_quick and present.present - self.rows.as_of > moments.MINUTE:
            return {"state": "late", "word": "The rows are behind", "text": f"They are as of {present.when(self.rows.as_of, True)}."}
        return None

    def room(self) -> Any | None:
        try:
            return self.hub.room()
        except KemtruaError:
            return None


def can_read(folder: str) -> str | None:
    """Why the history can't be read; None where it can."""
    try:
        with History(folder):
            return None
    except NoHistory as error:
        return str(error)

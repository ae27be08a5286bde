"""Serves the pages: each request is looked at before anything is read, and each page is made in a thread of its own."""
from __future__ import annotations

import asyncio
import hashlib
import os
import signal
import sqlite3
import ssl
import threading
import time
from collections.abc import Awaitable, Callable
from typing import Any

from aiohttp import web
from kemtrua import logs
from kemtrua.address import common_name, listen_at
from kemtrua.errors import BadSettings, KemtruaError
from kemtrua.history.schema import NoHistory
from kemtrua.notify import notify

from . import actions, metrics
from .moments import Clock
from .pages import execution, executions, job, jobs, now, store, timeline
from .safety import HEADERS, LONGEST_BODY, LONGEST_QUERY, Pace, Refused
from .settings import Listening, WebSettings
from .site import HERE, Looked, Site, Viewer

log = logs.logger("kemtrua.web")

Handler = Callable[[web.Request], Awaitable[web.StreamResponse]]
Page = Callable[[Looked], tuple[str, dict[str, Any]]]
AT_ONCE = 4  # pages that are made at the same time
WAITING = 64  # requests that may wait for their turn
STATIC = {"/page.css": ("page.css", "text/css"), "/page.js": ("page.js", "text/javascript"), "/icon.svg": ("icon.svg", "image/svg+xml")}
PAGES: dict[str, Page] = {"/": now.page, "/timeline": timeline.page, "/jobs": jobs.page, "/job": job.page, "/executions": executions.page,
                          "/store": store.page, "/job/ask": actions.ask_page}
SLOW = 0.5  # seconds after which a page that took longer is logged


class Server:
    """One process of pages."""

    def __init__(self, settings: WebSettings):
        self.settings = settings
        self.site = Site(settings)
        self.metrics = metrics.Collector(self.site)
        self._pace = Pace()
        self._behind_proxy = Pace(200.0, 400.0)  # (a proxy's viewers are told apart by nobody here)
        self._making = asyncio.Semaphore(AT_ONCE)
        self._waiting = 0
        self._contexts: list[ssl.SSLContext] = []

    def application(self) -> web.Application:
        app = web.Application(middlewares=[self._guard], client_max_size=LONGEST_BODY)
        for path, page in PAGES.items():
            app.router.add_get(path, self._handler(page))
        for path, (name, kind) in STATIC.items():
            app.router.add_get(path, self._file(name, kind))
        app.router.add_get(r"/execution/{entry:\d{1,18}}", self._handler(execution.page))
        app.router.add_get(r"/output/{entry:\d{1,18}}", self._output)
        app.router.add_get("/metrics", self._metrics)
        app.router.add_post(r"/do/{do:fire|pause|resume|reset}", self._do)
        return app

    # -- each request

    @web.middleware
    async def _guard(self, request: web.Request, handler: Handler) -> web.StreamResponse:
        """Looks at a request, has it answered, and puts the headers of all pages."""
        begun = time.monotonic()
        try:
            self._look_at(request)
            response = await handler(request)
        except Refused as refused:
            response = self._refusal(request, refused)
        except NoHistory as error:
            response = self._refusal(request, Refused(503, "The history can't be read", str(error), "The hub makes it when it begins."))
        except web.HTTPException as error:
            titles = {404: "There is no such page", 405: "This address isn't asked so", 413: "That is too much"}
            response = self._refusal(request, Refused(error.status, titles.get(error.status, "This can't be answered")))
        except KemtruaError as error:
            response = self._refusal(request, Refused(503, "The hub isn't reached", str(error)))
        except Exception:  # (whatever is wrong with one page, the others go on)
            log.exception("a page failed")
            response = self._refusal(request, Refused(500, "This page failed", "The log of kemtrua-web says why."))
        response.headers.update(HEADERS)
        if time.monotonic() - begun > SLOW:
            log.info("%s took %.2f s", request.path[:60], time.monotonic() - begun)
        return response

    def _look_at(self, request: web.Request) -> None:
        self.settings.origins.look_at_host(request.headers.get("Host"))
        if len(request.raw_path) > LONGEST_QUERY:
            raise Refused(414, "That address is too long", f"Addresses here have {LONGEST_QUERY} bytes at most.")
        address = request.remote
        if not (self._pace.may(address) if address else self._behind_proxy.may("")):
            raise Refused(429, "That is too often", "Wait a few seconds and ask again.")

    def _refusal(self, request: web.Request, refused: Refused) -> web.Response:
        clock = Clock(self.settings.zone, round(time.time() * 1000))
        text = self.site.write("notice", Viewer(), clock, {"title": refused.title, "code": refused.status, "text": refused.text})
        return web.Response(text=text, status=refused.status, content_type="text/html")

    def viewer(self, request: web.Request) -> Viewer:
        """Who looks, by the certificate of the connection."""
        certificate = request.transport.get_extra_info("peercert") if request.transport is not None else None
        name = common_name(certificate) if certificate else ""
        return Viewer(name, bool(name) and name in self.settings.operators)

    async def _in_turn(self, make: Callable[[], Any]) -> Any:
        """Has something made in a thread, a few at a time."""
        if self._waiting >= WAITING:
            raise Refused(503, "Too many look at once", "Wait a few seconds and ask again.")
        self._waiting += 1
        try:
            async with self._making:
                return await asyncio.to_thread(make)
        finally:
            self._waiting -= 1

    # -- what is answered

    def _handler(self, page: Page) -> Handler:
        async def answer(request: web.Request) -> web.StreamResponse:
            viewer, query = self.viewer(request), {**request.query, **request.match_info}
            text = await self._in_turn(lambda: self._written(page, viewer, query))
            if text.startswith("/"):
                return web.Response(status=303, headers={"Location": text})
            return _html(request, text)

        return answer

    def _written(self, page: Page, viewer: Viewer, query: dict[str, str]) -> str:
        looked = self.site.looked(viewer, query)
        with looked:
            name, facts = page(looked)
            if name.startswith("/"):
                return name
            return self.site.write(name, viewer, looked.clock, {"count_open": self._count_open(looked, facts), **facts})

    def _count_open(self, looked: Looked, facts: dict[str, Any]) -> int:
        """How many jobs need a look, for the head of each page."""
        return int(facts["count_open"]) if "count_open" in facts else now.count_open(looked)

    async def _output(self, request: web.Request) -> web.StreamResponse:
        query = {**request.query, **request.match_info}
        data = await self._in_turn(lambda: execution.saved(self.settings.folder, query))
        name = f"{request.match_info['entry']}.txt"
        return web.Response(body=data, content_type="text/plain", charset="utf-8",
                            headers={"Content-Disposition": f'attachment; filename="{name}"'})

    async def _metrics(self, request: web.Request) -> web.StreamResponse:
        data, kind = await self._in_turn(self.metrics.written)
        return web.Response(body=data, headers={"Content-Type": kind})

    async def _do(self, request: web.Request) -> web.StreamResponse:
        self.settings.origins.look_at_action(request.headers)
        viewer, form = self.viewer(request), {name: str(value) for name, value in (await request.post()).items()}
        location = await self._in_turn(lambda: actions.do(self.site, viewer, request.match_info["do"], form))
        return web.Response(status=303, headers={"Location": location})

    @staticmethod
    def _file(name: str, kind: str) -> Handler:
        with open(os.path.join(HERE, "static", name), "rb") as file:
            data = file.read()
        tag = f'"{hashlib.sha256(data).hexdigest()[:20]}"'

        async def answer(request: web.Request) -> web.StreamResponse:
            if request.headers.get("If-None-Match") == tag:
                return web.Response(status=304, headers={"ETag": tag})
            return web.Response(body=data, content_type=kind, charset="utf-8", headers={"ETag": tag})

        return answer

    # -- begin and end

    async def run(self) -> None:
        """Serves until SIGTERM or SIGINT. At SIGHUP it reads its certificates again."""
        loop, ended = asyncio.get_running_loop(), asyncio.Event()
        runner = web.AppRunner(self.application(), access_log=None, keepalive_timeout=75)
        await runner.setup()
        locks = [await self._listen(runner, listening) for listening in self.settings.listen]
        for number in (signal.SIGTERM, signal.SIGINT):
            loop.add_signal_handler(number, ended.set)
        loop.add_signal_handler(signal.SIGHUP, self._read_certificates)
        threading.Thread(target=self._begin, name="begin", daemon=True).start()
        log.info("listening at %s", ", ".join(map(str, self.settings.listen)))
        notify("READY=1")
        try:
            await ended.wait()
        finally:
            notify("STOPPING=1")
            await runner.cleanup()
            for lock in locks:
                if lock is not None:
                    lock.close()
            self.metrics.close()
            self.site.close()

    def _begin(self) -> None:
        """Reads what takes long before somebody asks for it."""
        try:
            self.site.rows.look()
            self.site.definitions.learn()
            self.metrics.begin()
            with self.site.looked(Viewer(), {}) as looked:
                for name in now.SPANS:
                    self.site.digest(now.since_of(name, looked.clock), looked.clock.present + 1, name)
                now.count_open(looked)
        except (KemtruaError, OSError, sqlite3.Error) as error:
            log.warning("%s", error)

    async def _listen(self, runner: web.AppRunner, at: Listening) -> Any:
        context, lock = None, None
        site: web.BaseSite
        if at.path:
            sock, lock = listen_at(at.path)
            site = web.SockSite(runner, sock)
        else:
            if at.over_tls:
                if self.settings.tls is None:
                    raise BadSettings(f"--listen {at} wants --certificate, --key and --authority")
                context = self.settings.tls.context(server=True)
                self._contexts.append(context)
            site = web.TCPSite(runner, at.host, at.port, ssl_context=context)
        try:
            await site.start()
        except OSError as error:
            raise BadSettings(f"nobody can listen at {at}: {error.strerror or error}") from None
        return lock

    def _read_certificates(self) -> None:
        """Takes the files as they are now, for connections from now on."""
        if self.settings.tls is None:
            return
        for context in self._contexts:
            try:
                context.load_cert_chain(self.settings.tls.certificate, self.settings.tls.key)
                context.load_verify_locations(self.settings.tls.authority)
            except (OSError, ssl.SSLError) as error:
                log.error("the former certificates go on: %s", error)


def _html(request: web.Request, text: str) -> web.Response:
    """A page, or that it is as it was."""
    data = text.encode("utf-8", "replace")
    tag = f'"{hashlib.sha256(data).hexdigest()[:20]}"'
    if request.headers.get("If-None-Match") == tag:
        return web.Response(status=304, headers={"ETag": tag})
    response = web.Response(body=data, content_type="text/html", charset="utf-8", headers={"ETag": tag})
    if len(data) > 4096:
        response.enable_compression()
    return response

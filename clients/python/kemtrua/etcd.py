"""etcd, asked over its JSON gateway: leases, guarded transactions, ranges by pages, and watches.

Of several endpoints the client stays at one as long as that answers, and goes on to the next one then. It repeats nothing by itself:
whoever gets NoEtcd for a transaction doesn't know whether it was done, and has to look.
"""
from __future__ import annotations

import asyncio
import base64
import contextlib
import json
import ssl
from collections.abc import AsyncGenerator, Sequence
from dataclasses import dataclass
from typing import Any

from .address import Tls
from .errors import BadSettings, KemtruaError
from .etcdlink import Endpoint, Link

WITHIN = 2.0  # seconds that an endpoint has for an answer
BYTES_A_SECOND = 500_000  # of a request, for which an endpoint has so much longer
PAGE, A_KEY = 8, 0.25  # keys of a range that are asked for at once, and for how many seconds longer each may be waited
_NO_SPACE, _COMPACTED = "database space exceeded", "required revision has been compacted"
# gRPC's codes of what another endpoint, or the same one later, may answer: cancelled, unknown, too late, too much at once, unavailable
_PASSES = (1, 2, 4, 8, 14)

Object = dict[str, Any]


class EtcdError(KemtruaError):
    """etcd refused what was asked, and nothing was done."""


class NoEtcd(EtcdError):
    """No answer came: what was asked was done, or it wasn't."""


class NoSpace(NoEtcd):
    """etcd's quota is met. What was asked was done, or it wasn't: the one that meets it is refused, and may be there."""


class Compacted(EtcdError):
    """etcd doesn't have this revision any more: read anew."""


class EtcdNotTrusted(NoEtcd):
    """One of both sides doesn't trust the other's certificate."""


class OtherCluster(EtcdError):
    """Another cluster answers than the one before."""


@dataclass(frozen=True)
class Pair:
    """A key with its value, and the revisions at which it was made and changed last."""

    key: bytes
    value: bytes
    created: int
    changed: int

    @classmethod
    def of(cls, found: Object) -> Pair:
        created, changed = int(found.get("create_revision", 0)), int(found.get("mod_revision", 0))
        return cls(_bytes(found.get("key", "")), _bytes(found.get("value", "")), created, changed)


@dataclass(frozen=True)
class Event:
    """What a watch tells: a key has this value now, or it is gone."""

    pair: Pair
    is_gone: bool


@dataclass(frozen=True)
class Page:
    """A part of a range, and the revision as of which it was read."""

    pairs: list[Pair]
    revision: int
    more: bool


@dataclass(frozen=True)
class Done:
    """What came of a transaction: whether its comparisons held, its revision, and what its reads found, one list for each."""

    held: bool
    revision: int
    found: list[list[Pair]]


def _text(data: bytes) -> str:
    return base64.b64encode(data).decode()


def _bytes(text: str) -> bytes:
    return base64.b64decode(text)


def is_created(key: bytes, revision: int) -> Object:
    """The comparison that a key was made at this revision. With 0: that it isn't there."""
    return {"key": _text(key), "target": "CREATE", "result": "EQUAL", "create_revision": revision}


def has_value(key: bytes, value: bytes) -> Object:
    """The comparison that a key has this value."""
    return {"key": _text(key), "target": "VALUE", "result": "EQUAL", "value": _text(value)}


def put(key: bytes, value: bytes, lease: int = 0) -> Object:
    return {"request_put": {"key": _text(key), "value": _text(value), **({"lease": lease} if lease else {})}}


def get(key: bytes) -> Object:
    return {"request_range": {"key": _text(key)}}


def delete(key: bytes, end: bytes | None = None) -> Object:
    """Deletes a key, or all from it up to another one."""
    return {"request_delete_range": {"key": _text(key), **({"range_end": _text(end)} if end is not None else {})}}


def end_of(prefix: bytes) -> bytes:
    """The end of the range of all keys that begin so."""
    return prefix[:-1] + bytes([prefix[-1] + 1])


class Etcd:
    """For the tasks of one event loop. `cluster` is the number of the cluster that answered first; any other one raises OtherCluster."""

    def __init__(self, endpoints: Sequence[Endpoint], tls: Tls | None = None, within: float = WITHIN):
        if any(it.over_tls for it in endpoints) and tls is None:
            raise BadSettings("etcd at https:// wants a certificate, a key and an authority")
        self._endpoints, self._tls, self._within = list(endpoints), tls, within
        self._context: ssl.SSLContext | None = None
        self._at = 0
        self._idle: list[Link] = []
        self.cluster: int | None = None
        self.read_certificates()

    def read_certificates(self) -> None:
        """Takes the files as they are now."""
        self._context = self._tls.context(server=False) if self._tls is not None else None

    @property
    def endpoint(self) -> Endpoint:
        """Where it asks next."""
        return self._endpoints[self._at % len(self._endpoints)]

    def close(self) -> None:
        while self._idle:
            self._idle.pop().close()

    def go_on(self) -> None:
        """Asks another endpoint from now on, as where this one is silent."""
        self._at += 1
        self.close()

    # -- what is asked

    async def grant(self, seconds: int) -> int:
        """A new lease."""
        return int((await self.call("lease/grant", {"TTL": seconds}))["ID"])

    async def keep_alive(self, lease: int) -> int:
        """Has a lease begin anew, and gives its seconds; 0 where it is gone."""
        return int((await self.call("lease/keepalive", {"ID": lease})).get("result", {}).get("TTL", 0))

    async def revoke(self, lease: int) -> None:
        await self.call("lease/revoke", {"ID": lease})

    async def transact(self, compare: list[Object], then: list[Object], otherwise: list[Object]) -> Done:
        found = await self.call("kv/txn", {"compare": compare, "success": then, "failure": otherwise})
        ranges = [one["response_range"] for one in found.get("responses", []) if "response_range" in one]
        read = [[Pair.of(it) for it in one.get("kvs", [])] for one in ranges]
        return Done(bool(found.get("succeeded")), int(found["header"]["revision"]), read)

    async def range(self, key: bytes, end: bytes | None = None, revision: int = 0, limit: int = PAGE) -> Page:
        body: Object = {"key": _text(key), "limit": limit, "revision": revision}
        if end is not None:
            body["range_end"] = _text(end)
        found = await self.call("kv/range", body, (limit - 1) * A_KEY)
        return Page([Pair.of(it) for it in found.get("kvs", [])], revision or int(found["header"]["revision"]), bool(found.get("more")))

    async def pages(self, key: bytes, end: bytes, revision: int = 0) -> AsyncGenerator[Page, None]:
        """A range in pages, all as of one revision. Raises Compacted where that goes meanwhile."""
        while True:
            page = await self.range(key, end, revision)
            yield page
            if not page.more:
                return
            key, revision = page.pairs[-1].key + b"\0", page.revision

    async def last(self, key: bytes, end: bytes, revision: int = 0) -> Pair | None:
        """The last pair of a range."""
        found = await self.call("kv/range", {"key": _text(key), "range_end": _text(end), "limit": 1, "revision": revision,
                                             "sort_order": "DESCEND", "sort_target": "KEY"})
        return Pair.of(found["kvs"][0]) if found.get("kvs") else None

    async def get(self, key: bytes) -> Pair | None:
        page = await self.range(key, limit=1)
        return page.pairs[0] if page.pairs else None

    async def size(self) -> tuple[int, int]:
        """The bytes of the database of the member that answers, and how many of them are in use."""
        found = await self.call("maintenance/status", {})
        return int(found.get("dbSize", 0)), int(found.get("dbSizeInUse", 0))

    async def alarms(self) -> list[str]:
        """The alarms that were raised, as NOSPACE."""
        found = await self.call("maintenance/alarm", {"action": "GET"})
        return sorted({str(it.get("alarm", "NONE")) for it in found.get("alarms", [])})

    async def watch(self, key: bytes, end: bytes, revision: int, silence: float) -> AsyncGenerator[list[Event], None]:
        """What happens in a range from a revision on. Raises NoEtcd where nothing is heard for so many seconds, and Compacted."""
        body = {"create_request": {"key": _text(key), "range_end": _text(end), "start_revision": revision}}
        at = self._at
        link: Link | None = None
        try:
            link = await asyncio.wait_for(Link.open(self.endpoint, self._context), self._within)
            async with contextlib.aclosing(link.stream("/v3/watch", _json(body), silence)) as lines:
                async for line in lines:
                    found = self._looked_at(json.loads(line)).get("result", {})
                    if int(found.get("compact_revision", 0)):
                        raise Compacted("what was to be watched was compacted")
                    if found.get("canceled"):
                        raise NoEtcd(f"etcd at {self.endpoint} ended the watch: {found.get('cancel_reason', 'it gives no reason')}")
                    yield [Event(Pair.of(it.get("kv", {})), it.get("type") == "DELETE") for it in found.get("events", [])]
            raise NoEtcd(f"etcd at {self.endpoint} ended the watch")
        except (OSError, EOFError, ValueError, TimeoutError, NoEtcd) as error:
            raise self._away(at, error) from None
        finally:
            if link is not None:
                link.close()

    # -- one request

    async def call(self, path: str, body: Object, longer: float = 0.0) -> Object:
        """The answer of the endpoint of this moment. Raises NoEtcd where it gives none, and asks another one from then on."""
        at, data = self._at, _json(body)
        within = self._within + longer + len(data) / BYTES_A_SECOND
        try:
            status, answer = await asyncio.wait_for(self._ask(f"/v3/{path}", data), within)
            found = json.loads(answer) if answer.strip() else {}
            if not isinstance(found, dict):
                raise ValueError(f"{answer[:80]!r} is no object")
        except (OSError, EOFError, ValueError, TimeoutError) as error:
            raise self._away(at, error) from None
        try:
            return self._looked_at(found, status)
        except NoSpace:
            raise
        except NoEtcd as error:
            raise self._away(at, error) from None

    async def _ask(self, path: str, data: bytes) -> tuple[int, bytes]:
        link = self._idle.pop() if self._idle else await Link.open(self.endpoint, self._context)
        try:
            answer = await link.ask(path, data)
        except BaseException:
            link.close()
            raise
        if link.endpoint == self.endpoint and not link.is_spent:
            self._idle.append(link)
        else:
            link.close()
        return answer

    def _looked_at(self, found: Object, status: int = 200) -> Object:
        """The answer, where it is none that says what went wrong."""
        error = found.get("error")
        if error is not None or status != 200:
            text, code = _error_of(found, error, status)
            if _NO_SPACE in text:
                raise NoSpace(f"etcd's quota is met ({text}): make room, as the page on several hubs says")
            if _COMPACTED in text:
                raise Compacted(text)
            raise (NoEtcd if code in _PASSES or status >= 500 and code == 0 else EtcdError)(f"etcd answers: {text}")
        header = found.get("header") or (found.get("result") or {}).get("header") or {}
        if "cluster_id" in header:
            cluster = int(header["cluster_id"])
            if self.cluster not in (None, cluster):
                raise OtherCluster(f"etcd's cluster {cluster:x} answers, and before it was {self.cluster:x}")
            self.cluster = cluster
        return found

    def _away(self, at: int, error: BaseException) -> NoEtcd:
        """What is raised where an endpoint gave no answer. Another one is asked from now on."""
        endpoint = self._endpoints[at % len(self._endpoints)]
        if at == self._at:
            self.go_on()
        if isinstance(error, NoEtcd):
            return error
        if isinstance(error, ssl.SSLCertVerificationError):
            return EtcdNotTrusted(f"the certificate of etcd at {endpoint} isn't trusted: {error.verify_message}")
        if isinstance(error, ssl.SSLError):
            return EtcdNotTrusted(f"no TLS with etcd at {endpoint} ({error.reason or error}): one side doesn't trust the other")
        if isinstance(error, TimeoutError):
            return NoEtcd(f"no answer from etcd at {endpoint} in time")
        return NoEtcd(f"no etcd answers at {endpoint}: {getattr(error, 'strerror', None) or error or type(error).__name__}")


def _json(body: Object) -> bytes:
    return json.dumps(body, separators=(",", ":")).encode()


def _error_of(found: Object, error: object, status: int) -> tuple[str, int]:
    """The text and gRPC's code of an answer that says what went wrong."""
    if isinstance(error, dict):  # (in a stream it is an object of its own)
        return str(error.get("message", error)), int(error.get("grpc_code", error.get("code", 0)) or 0)
    return str(error or found.get("message") or f"status {status}"), int(found.get("code", 0) or 0)

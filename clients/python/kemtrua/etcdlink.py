"""A connection to etcd's JSON gateway: HTTP 1.1, as far as that needs it."""
from __future__ import annotations

import asyncio
import ssl
from collections.abc import AsyncGenerator
from dataclasses import dataclass
from urllib.parse import urlsplit

from .errors import BadSettings

LINE = 1 << 16  # bytes of a line of a head
LONGEST = 1 << 28  # bytes of a body
LOOPBACK = ("127.0.0.1", "localhost", "::1")


@dataclass(frozen=True)
class Endpoint:
    """Where an etcd listens to clients."""

    host: str
    port: int
    over_tls: bool

    @classmethod
    def parse(cls, text: str) -> Endpoint:
        """Reads `https://HOST:PORT`. `http://` is for this machine alone."""
        try:
            found = urlsplit(text.strip())
            host, port = found.hostname, found.port
        except ValueError:
            host = port = None
        if host is None or found.scheme not in ("http", "https") or found.path not in ("", "/") or found.query or found.username:
            raise BadSettings(f"--etcd {text}: write https://HOST:2379, and commas between several")
        if found.scheme == "http" and host not in LOOPBACK:
            raise BadSettings(f"--etcd {text}: without TLS etcd is asked on this machine alone; write https://{host}:{port or 2379}")
        return cls(host, port or 2379, found.scheme == "https")

    @classmethod
    def all_of(cls, text: str) -> list[Endpoint]:
        """Reads several, with commas between them."""
        return [cls.parse(one) for one in text.split(",") if one.strip()]

    def __str__(self) -> str:
        host = f"[{self.host}]" if ":" in self.host else self.host
        return f"{'https' if self.over_tls else 'http'}://{host}:{self.port}"


class Link:
    """One connection. Where a call raises, it is of no use any more."""

    def __init__(self, endpoint: Endpoint, reader: asyncio.StreamReader, writer: asyncio.StreamWriter):
        self.endpoint, self._reader, self._writer = endpoint, reader, writer
        self.is_spent = False  # etcd closes it

    @classmethod
    async def open(cls, endpoint: Endpoint, context: ssl.SSLContext | None) -> Link:
        reader, writer = await asyncio.open_connection(endpoint.host, endpoint.port, limit=LINE, ssl=context if endpoint.over_tls else None)
        return cls(endpoint, reader, writer)

    def close(self) -> None:
        self._writer.transport.abort()

    async def ask(self, path: str, data: bytes) -> tuple[int, bytes]:
        """The status and the body of the answer."""
        self._send(path, data)
        await self._writer.drain()
        status, headers = await self._head()
        self.is_spent = headers.get("connection", "").lower() == "close"
        if headers.get("transfer-encoding", "").lower() == "chunked":
            body = bytearray()
            async for part in self._chunks():
                body += _bounded(len(body), part)
            return status, bytes(body)
        length = int(headers.get("content-length", "0"))
        if not 0 <= length <= LONGEST:
            raise ValueError(f"a body of {length} bytes")
        return status, await self._reader.readexactly(length)

    async def stream(self, path: str, data: bytes, silence: float) -> AsyncGenerator[bytes, None]:
        """The lines of an answer that has no end. Raises TimeoutError where none comes for so many seconds."""
        self._send(path, data)
        status, headers = await asyncio.wait_for(self._head(), silence)
        if status != 200 or headers.get("transfer-encoding", "").lower() != "chunked":
            raise ValueError(f"the status {status}, and no stream")
        rest, chunks = b"", self._chunks()
        while True:
            try:
                rest += _bounded(len(rest), await asyncio.wait_for(anext(chunks), silence))
            except StopAsyncIteration:
                return
            *lines, rest = rest.split(b"\n")
            for line in lines:
                if line.strip():
                    yield line

    def _send(self, path: str, data: bytes) -> None:
        head = (f"POST {path} HTTP/1.1", f"Host: {self.endpoint.host}:{self.endpoint.port}", "Content-Type: application/json",
                f"Content-Length: {len(data)}", "", "")
        self._writer.write("\r\n".join(head).encode() + data)

    async def _head(self) -> tuple[int, dict[str, str]]:
        first = (await self._line()).split(None, 2)
        if len(first) < 2 or not first[0].startswith("HTTP/1.") or not first[1].isdecimal():
            raise ValueError("what answers doesn't speak HTTP")
        headers: dict[str, str] = {}
        while line := await self._line():
            name, _, value = line.partition(":")
            headers[name.strip().lower()] = value.strip()
        return int(first[1]), headers

    async def _line(self) -> str:
        try:
            return (await self._reader.readuntil(b"\n")).decode("latin-1").strip()
        except asyncio.LimitOverrunError:
            raise ValueError(f"a line has more than {LINE} bytes") from None

    async def _chunks(self) -> AsyncGenerator[bytes, None]:
        while size := int((await self._line()).partition(";")[0], 16):
            if size > LONGEST:
                raise ValueError(f"a chunk of {size} bytes")
            yield await self._reader.readexactly(size)
            await self._line()
        while await self._line():
            pass


def _bounded(have: int, part: bytes) -> bytes:
    """A further part of a body. Raises ValueError where that has too many bytes with it."""
    if have + len(part) > LONGEST:
        raise ValueError(f"a body of more than {LONGEST} bytes")
    return part

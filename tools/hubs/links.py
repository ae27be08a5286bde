"""The ways between hubs and etcds: each is a small proxy that can be cut, both ways or one."""
import asyncio
import contextlib
import threading

from tests.etcds import free_ports

MODES = ("pass", "cut", "swallow-answers", "swallow-requests")


class Link:
    """Listens at a port of its own and passes on to an etcd's."""

    def __init__(self, to: int):
        (self.port,) = free_ports(1)
        self._to, self.mode = to, "pass"
        self._open: set[asyncio.StreamWriter] = set()

    async def listen(self) -> None:
        await asyncio.start_server(self._welcome, "127.0.0.1", self.port)

    def set(self, mode: str) -> None:
        """From now on this link does so. What was open and lost bytes is of no use any more, and breaks when the link is whole again."""
        before, self.mode = self.mode, mode
        if mode == "cut" or before != "pass":
            for writer in list(self._open):
                writer.transport.abort()

    async def _welcome(self, reader: asyncio.StreamReader, writer: asyncio.StreamWriter) -> None:
        if self.mode == "cut":
            writer.transport.abort()
            return
        try:
            there, onward = await asyncio.open_connection("127.0.0.1", self._to)
        except OSError:
            writer.transport.abort()
            return
        self._open |= {writer, onward}
        try:
            await asyncio.gather(self._pass_on(reader, onward, "swallow-requests"), self._pass_on(there, writer, "swallow-answers"))
        finally:
            self._open -= {writer, onward}

    async def _pass_on(self, reader: asyncio.StreamReader, writer: asyncio.StreamWriter, swallowed_in: str) -> None:
        with contextlib.suppress(OSError):
            while data := await reader.read(1 << 16):
                if self.mode != swallowed_in:
                    writer.write(data)
                    await writer.drain()
        writer.transport.abort()


class Links:
    """One between each hub and each etcd, in a thread of its own."""

    def __init__(self, hubs: tuple[str, ...], ports: list[int]):
        self._links = {(hub, number): Link(port) for hub in hubs for number, port in enumerate(ports)}
        self._loop = asyncio.new_event_loop()
        threading.Thread(target=self._loop.run_forever, daemon=True).start()
        for link in self._links.values():
            asyncio.run_coroutine_threadsafe(link.listen(), self._loop).result()

    def endpoints_of(self, hub: str) -> str:
        return ",".join(f"http://127.0.0.1:{link.port}" for (one, _), link in self._links.items() if one == hub)

    def set(self, hub: str, mode: str) -> None:
        """All links of a hub."""
        for (one, _), link in self._links.items():
            if one == hub:
                self._loop.call_soon_threadsafe(link.set, mode)

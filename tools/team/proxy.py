"""A proxy between a node and the hub, whose connections can be left half open: the node's end breaks, and the hub hears nothing of it."""
import contextlib
import os
import socket
import threading


class Proxy:
    """Listens at one Unix socket and passes on to another."""

    def __init__(self, path: str, to: str):
        self._to = to
        self._lock = threading.Lock()
        self._open: list[tuple[socket.socket, socket.socket]] = []  # the node's end and the hub's of each connection
        self._kept: list[socket.socket] = []  # the hub's ends that were left half open
        with contextlib.suppress(FileNotFoundError):
            os.unlink(path)
        self._listening = socket.socket(socket.AF_UNIX)
        self._listening.bind(path)
        self._listening.listen(64)
        threading.Thread(target=self._accept, daemon=True).start()

    @property
    def count(self) -> int:
        """How many connections are open at both ends."""
        return len(self._open)

    def leave_half_open(self) -> int:
        """Breaks the node's end of each connection. Says how many there were."""
        with self._lock:
            broken, self._open = self._open, []
            self._kept += [hub for _, hub in broken]
        for node, _ in broken:
            self._end(node)
        return len(broken)

    def let_go(self) -> None:
        """Breaks the hub's ends, too."""
        with self._lock:
            kept, self._kept = self._kept, []
        for hub in kept:
            self._end(hub)

    def _accept(self) -> None:
        while True:
            node, _ = self._listening.accept()
            hub = socket.socket(socket.AF_UNIX)
            try:
                hub.connect(self._to)
            except OSError:
                node.close()
                continue
            with self._lock:
                self._open.append((node, hub))
            for source, target in ((node, hub), (hub, node)):
                threading.Thread(target=self._pass_on, args=(source, target, node, hub), daemon=True).start()

    def _pass_on(self, source: socket.socket, target: socket.socket, node: socket.socket, hub: socket.socket) -> None:
        with contextlib.suppress(OSError):
            while data := source.recv(65536):
                target.sendall(data)
        with self._lock:
            if (node, hub) not in self._open:
                return  # (it is half open, and stays so)
            self._open.remove((node, hub))
        self._end(node)
        self._end(hub)

    @staticmethod
    def _end(sock: socket.socket) -> None:
        with contextlib.suppress(OSError):
            sock.shutdown(socket.SHUT_RDWR)
        sock.close()

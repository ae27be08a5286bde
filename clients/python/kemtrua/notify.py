"""Says to systemd how a service is doing, where systemd asks for it."""
from __future__ import annotations

import os
import socket


def notify(state: str) -> None:
    """Sends a state as `READY=1` or `STATUS=..`. Without NOTIFY_SOCKET it does nothing."""
    path = os.environ.get("NOTIFY_SOCKET", "")
    if not path:
        return
    with socket.socket(socket.AF_UNIX, socket.SOCK_DGRAM) as it:
        try:
            it.connect("\0" + path[1:] if path.startswith("@") else path)
            it.send(state.encode())
        except OSError:
            pass  # (a service that can't say so works all the same)

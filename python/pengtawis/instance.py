"""An instance, which is a process of a service that dsrs started: its connection, its heartbeats, and where its clients connect."""
from __future__ import annotations

import os
import socket
import time
from typing import List, Optional

from .client import Client
from .values import Endpoint

BEAT = b"beat\n"
SUBS = 8  # subscriptions of a server


class Instance(Client):
    """The side of a process that dsrs started: a client over descriptor DS_FD. Every call that waits answers pings.

    It publishes under its own endpoint. ConnectionError means that dsrs has ended: the connection can't be opened again.

        with Instance() as me:
            me.notify("READY=1")
            while True:
                me.publish("clock.time", int(time.time()))
                me.wait(1)
    """

    _is_instance = True

    def __init__(self, timeout: Optional[float] = None) -> None:
        given = os.environ
        self.label, self.endpoint = given["DS_LABEL"], Endpoint.parse(given["DS_ENDPOINT"])
        self._path, self._timeout, self._opened, self._number = given["DS_FOLDER"].removesuffix(".d"), timeout, 0, 0
        self._open(socket.socket(fileno=int(given["DS_FD"])))
        self._socket.set_inheritable(False)

    def listener(self) -> socket.socket:
        """Returns the socket at which the instance accepts clients."""
        return socket.socket(fileno=int(os.environ["DS_LISTEN"]))

    def wait(self, seconds: float) -> None:
        """Answers pings for this long."""
        end = time.monotonic() + seconds
        try:
            while True:
                self._wait(end)
        except (socket.timeout, BlockingIOError):
            pass

    def beat(self) -> None:
        """Sends a heartbeat, for a process that is busy between two waits."""
        if self._awaits:
            self._later += 1
        else:
            self._late += 1
        self._send(BEAT)

    def notify(self, message: str) -> None:
        """Sends a message to NOTIFY_SOCKET: `READY=1`, `WATCHDOG=1` or `STATUS=..`. Without that variable nothing is sent."""
        path = os.environ.get("NOTIFY_SOCKET")
        if path:
            with socket.socket(socket.AF_UNIX, socket.SOCK_DGRAM) as to:
                to.sendto(message.encode(), f"\0{path[1:]}" if path.startswith("@") else path)

    def _own_subs(self) -> Optional[range]:
        first = int(os.environ.get("DS_SUB", "0"))
        return range(first, first + SUBS)

    def _is_other(self, answer: List[str]) -> bool:
        """Answers a ping. The descriptor that comes with a line `peer` isn't received, and the kernel closes it."""
        if answer == ["ping"]:
            self.beat()
        return answer == ["ping"] or len(answer) == 1 and answer[0].startswith("peer ")

"""A watch: what a store holds under a pattern, and then each change, also after the connection was lost."""
from __future__ import annotations

import collections
import itertools
import time
from typing import TYPE_CHECKING, Deque, Iterator, List, Optional, Union

from .refusals import Ahead, Behind, OldCursor
from .values import Change, Cursor, Floor, read_item

if TYPE_CHECKING:
    from .client import Client

MOST = 256  # items of a since
PAUSE, LONGEST = 0.001, 0.032  # seconds between two attempts


class Anew:
    """Says that all that was known is forgotten: the items that follow are all there is."""

    def __repr__(self) -> str:
        return "Anew()"


def pauses() -> Iterator[float]:
    """Yields how long to wait before each attempt."""
    return itertools.chain((PAUSE * 2**it for it in range(5)), itertools.repeat(LONGEST))


class Watch:
    """Yields `Anew`, then each Change and Floor that a store holds, and then each later one. `Client.watch` returns it.

    A lost connection is opened again, and the watch continues at its cursor. If the journal doesn't have the cursor any longer, `Anew`
    and a snapshot follow.
    """

    def __init__(self, client: Client, scope: str, cursor: Optional[Cursor]) -> None:
        self._client, self._scope, self._at = client, scope, cursor
        self.cursor = cursor  # up to which all items were returned
        self._opened = self._sub = 0  # the connection in which it subscribed, and its subscription there
        self._is_due = False  # there may be more in the store
        self._items: Deque[Union[Anew, Change, Floor]] = collections.deque()

    def __iter__(self) -> Watch:
        return self

    def __next__(self) -> Union[Anew, Change, Floor]:
        return self.next()

    def close(self) -> None:
        """Leaves the subscription, whose number the client may use again. Its notices aren't reported."""
        if self._opened == self._client._opened:
            self._client._used.discard(self._sub)

    def next(self, timeout: Optional[float] = None) -> Union[Anew, Change, Floor]:
        """Waits for the next item. socket.timeout: there is none in time. ConnectionError: the daemon can't be reached in time.

        Another call may follow either. A request that the watch sends meanwhile may take the client's timeout.
        """
        end = None if timeout is None else time.monotonic() + timeout
        pause = pauses()
        while not self._items:
            try:
                self._renew()
                self._await(end)
                pause = pauses()
            except (ConnectionError, FileNotFoundError, BlockingIOError) as why:
                if self._client._is_instance or end is not None and time.monotonic() >= end:
                    raise why if isinstance(why, ConnectionError) else ConnectionError(str(why)) from None
                time.sleep(next(pause))
        item = self._items.popleft()
        if not self._items:
            self.cursor = self._at
        return item

    def _renew(self) -> None:
        """Subscribes in a connection in which it hasn't yet. That comes before the items, so that each later change has a notice."""
        client = self._client
        if client._is_lost:
            client.reconnect()
        if self._opened != client._opened:
            self._sub = client._subscribe(self._scope, "later")
            client._watched.add(self._sub)
            self._opened, self._is_due = client._opened, True

    def _await(self, end: Optional[float]) -> None:
        """Fetches items if there may be some, or else waits for a notice."""
        if not self._is_due and not self._client._inbox.take(self._sub):
            self._client._wait(end)
        else:
            self._is_due = False
            self._fetch()

    def _fetch(self) -> None:
        """Fetches the items after the cursor, or a snapshot if the store doesn't have these."""
        try:
            if self._at is not None:
                count = self._keep(self._client.ask("since %s %d %d %d" % (self._scope, *self._at, MOST)))
                self._is_due = count == MOST
                return
        except (OldCursor, Ahead, Behind):
            pass
        answer = self._client.ask(f"snapshot {self._scope}")
        self._items.append(Anew())
        self._keep(answer)

    def _keep(self, answer: List[str]) -> int:
        """Keeps the items of an answer, whose last line is `WORD COUNT INCARNATION POSITION`. Returns how many there are."""
        *lines, last = answer
        self._items.extend(map(read_item, lines))
        self._at = Cursor(*map(int, last.split(" ")[2:]))
        if not self._items:
            self.cursor = self._at
        return len(lines)

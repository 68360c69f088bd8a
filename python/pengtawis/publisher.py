"""The side of a process that publishes into a store of this process, or at a seat."""
from __future__ import annotations

from typing import Tuple

from . import wrong
from .commands import Commands
from .values import Change, Done, Endpoint, Value, Version


class Publisher:
    """Publishes the entries of a process, by a `Store` or a `Seat`, and counts their versions.

    Each version is greater than all earlier ones of the process. The count begins after the greatest number that the store holds of this
    generation, so a later Publisher of the same endpoint continues. One at a time may publish under an endpoint. A refused call takes a
    number, too.

    NotFound: no live label has the endpoint.

    >>> with Store() as store:
    ...     _ = store.rs_started("eth0", Endpoint(3, 16))
    ...     eth0 = Publisher(store, Endpoint(3, 16))
    ...     _ = eth0.publish("eth0.mtu", 1500), eth0.publish("eth0.mtu", 9000)
    ...     store.retrieve("eth0.mtu", int), eth0.draw()
    (9000, Version(epoch=3, seq=2))
    """

    def __init__(self, store: Commands, endpoint: Tuple[int, int]) -> None:
        self._store, self._endpoint = store, Endpoint(*wrong.pair("endpoint", endpoint))
        owner, generation = store.nameof(self._endpoint), self._endpoint.generation
        changes = (it for it in store.snapshot(kinds=(int, str, bytes)).items if isinstance(it, Change))
        numbers = (it.version.seq for it in changes if it.owner == owner and it.version.epoch == generation)
        self._number = 1 + max(numbers, default=-1)

    def __repr__(self) -> str:
        return f"<Publisher of {self._endpoint}, at {self._number}>"

    def publish(self, name: str, value: Value, overwrite: bool = True) -> Done:
        """Puts a value under a key, over a live entry unless `overwrite` is False."""
        return self._store.publish(self._endpoint, name, value, self.draw(), overwrite)

    def delete(self, name: str, kind: type) -> Done:
        """Ends a live entry, and leaves a tombstone."""
        return self._store.delete(self._endpoint, name, kind, self.draw())

    def draw(self) -> Version:
        """Returns the next version, as for `Store.publish_all`, and counts it."""
        drawn, self._number = Version(self._endpoint.generation, self._number), self._number + 1
        return drawn

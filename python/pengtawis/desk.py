"""A store that threads share, and their seats."""
from __future__ import annotations

import threading
import time
from ctypes import byref, c_uint8, c_uint64
from typing import Any, FrozenSet, NamedTuple, Optional

from . import wrong
from .commands import ELSEWHERE, OF_ALL, Commands
from .library import Answer, Handle, fault_of, sharing
from .refusals import NUMBERED, IsBusy

NO_PLACE = 2**64 - 1  # places are below 2^62


class Notices(NamedTuple):
    """The subscriptions whose notices were pending. Each notice is owed by a call whose place is below `floor`."""

    owed: FrozenSet[int]
    floor: int


class Desk(Handle):
    """Holds a store that threads share, until the end of its `with`. Each thread calls the store at a seat of its own, without a lock.

    `seats` is how many seats it has in all, 1 to 64. The other arguments are a `Store`'s. Close the seats first: IsBusy refuses to close a
    desk that has an open seat.

    >>> with Desk(seats=2) as desk, desk.seat() as rs, desk.seat() as eth0:
    ...     _ = rs.rs_started("eth0", Endpoint(3, 16))
    ...     _ = Publisher(eth0, Endpoint(3, 16)).publish("eth0.mtu", 1500)
    ...     rs.retrieve("eth0.mtu", int), rs.place  # a label, and three calls of the Publisher, come before it
    (1500, 4)
    """

    def __init__(
        self, seats: int, incarnation: Optional[int] = None, first: int = 0, ring: int = 256, library: Optional[str] = None
    ) -> None:
        super().__init__(library, "ds_desk_close")
        opening = time.time_ns() if incarnation is None else incarnation, first, ring, seats
        wrong.check((*wrong.OPENING, ("`seats`", wrong.NUMBER)), opening)
        self._call("ds_desk_open", *opening)
        self._incarnation = opening[0]

    def __repr__(self) -> str:
        return f"<Desk of incarnation {self._incarnation}{'' if self._handle else ', closed'}>"

    def __exit__(self, *why: object) -> None:
        try:
            self.close()
        except IsBusy:
            if not any(why):  # else the exception that ends the `with` matters more
                raise

    def __del__(self) -> None:
        if hasattr(self, "_at"):
            self._library.ds_desk_close(self._at)

    def seat(self) -> Seat:
        """Opens a seat. One that is closed doesn't come back: hand it to another thread instead. NoSeat: none is left."""
        return Seat(self)

    def close(self) -> None:
        """Frees all memory. A second close does nothing. IsBusy: a seat is open, and then the desk is unchanged."""
        refusal = self._library.ds_desk_close(self._at)
        if refusal and self._handle:
            raise NUMBERED[refusal]()


class Seat(Commands):
    """Calls the store of a `Desk`, as a `Store` is called. A thread makes its calls at a seat of its own.

    The calls of all seats have one order, and each answer is that of a store which one thread calls in this order. A call waits while
    another seat has the turn, and lets go of the interpreter's lock. With `waits` set to False it is refused by IsBusy instead: nothing
    was called.

    RuntimeError: another thread makes a call at this seat.
    """

    _fetches = "ds_seat_items"
    _elsewhere = {**ELSEWHERE, **dict.fromkeys(OF_ALL, "snapshot()")}
    waits = True

    def __init__(self, desk: Desk) -> None:
        super().__init__(desk._path, "ds_seat_close")
        self._desk = desk  # so that it is closed later
        self._sharing, self._used = sharing(desk._path), threading.Lock()
        self._place, self._bits, self._floor = c_uint64(NO_PLACE), c_uint8(), c_uint64()
        self._place_at, self._bits_at, self._floor_at = byref(self._place), byref(self._bits), byref(self._floor)
        desk._call("ds_seat_open", self._at)

    def __repr__(self) -> str:
        return f"<Seat of {self._desk!r}{'' if self._handle else ', closed'}>"

    @property
    def place(self) -> Optional[int]:
        """The place of the last call in the order of all seats' calls, from 0.

        None: there was no call yet; the last one was malformed, or memory ran out for its text. A call that is refused by IsBusy leaves
        the place unchanged. A check without `most`, and a merge of more than 256 items, are several calls.
        """
        return None if self._place.value == NO_PLACE else self._place.value

    def take(self, server: int) -> Notices:
        """Takes the pending notices of a server, 0 to 15, which has the subscriptions from 8 * `server` on. Never waits.

        Each call posts the notices that it owes once it is carried out. Several of one subscription are one. If threads take the notices
        of one server, each notice goes to one of them.

        >>> with Desk(2) as desk, desk.seat() as rs, desk.seat() as server:
        ...     _ = server.subscribe(40, "eth.*", kinds=[Endpoint], initial=False)
        ...     _ = rs.rs_started("eth0", Endpoint(3, 16))
        ...     server.take(5)
        Notices(owed=frozenset({40}), floor=2)
        """
        wrong.check((("`server`", wrong.NUMBER),), (server,))
        self._call("ds_seat_take", server, self._bits_at, self._floor_at)
        return Notices(frozenset(8 * server + it for it in range(8) if self._bits.value >> it & 1), self._floor.value)

    def close(self) -> None:
        """Frees the seat's memory. A second close does nothing; any other call on a closed seat raises IsClosed."""
        if self._handle:
            self._alone(self._library.ds_seat_close)

    def _ask(self, call: str, *words: Any) -> Answer:
        self._leave()
        before, self._place.value = self._place.value, NO_PLACE
        call_at_seat = self._sharing.ds_seat_wait if self.waits else self._sharing.ds_seat_call
        refusal = self._alone(call_at_seat, *words, self._answer_at, self._place_at)
        if refusal:
            self._place.value = before
            raise NUMBERED[refusal]()
        fault = fault_of(self._answer)
        if fault:
            raise fault
        return self._answer

    def _call(self, call: str, *words: Any) -> None:
        refusal = self._alone(getattr(self._library, call), *words)
        if refusal:
            raise NUMBERED[refusal]()

    def _alone(self, call: Any, *words: Any) -> int:
        """Makes a call of the library, and returns its refusal. No other thread makes one at this seat meanwhile."""
        if not self._used.acquire(blocking=False):
            raise RuntimeError("another thread makes a call at this seat: each thread needs a seat of its own")
        try:
            return int(call(self._at, *words))
        finally:
            self._used.release()

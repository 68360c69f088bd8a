"""Driver tables: what a file server and a network server know of their drivers, and the requests that aren't answered yet."""
from __future__ import annotations

import ctypes
from ctypes import POINTER, byref, c_size_t, c_uint8, c_uint16, c_uint32, c_uint64
from typing import List, NamedTuple, Optional, Union

from . import wrong
from .library import Handle
from .map import Map
from .refusals import NUMBERED, Refused
from .rs import Class
from .commands import Pair
from .values import Endpoint

ID, UNIT = ("`id`", 2**64 - 1), ("`unit`", 255)

# What a server has to do.
StartPort = NamedTuple("StartPort", [("unit", int), ("endpoint", Endpoint)])
Send = NamedTuple("Send", [("id", int), ("endpoint", Endpoint)])
Finish = NamedTuple("Finish", [("id", int)])
Fail = NamedTuple("Fail", [("id", int)])
Hold = NamedTuple("Hold", [("id", int)])
StartPort.__doc__ = "Starts a port anew, with the driver at an endpoint."
Send.__doc__ = "Sends a request to an endpoint, for the first time or again."
Finish.__doc__ = "Answers a request: the driver replied."
Fail.__doc__ = "Answers a request by an error: the driver is gone, and nobody knows how far it got."
Hold.__doc__ = "Keeps a request: there is no driver now, and a later move sends it."
Move = Union[StartPort, Send, Finish, Fail, Hold]


class Moved(NamedTuple):
    """Moves, to be carried out in order, and why the call did no more: None, NoRoom of a follow, or why a request wasn't accepted."""

    moves: List[Move]
    refused: Optional[Refused] = None


class MoveOfC(ctypes.Structure):
    _fields_ = [("id", c_uint64), ("kind", c_uint32), ("generation", c_uint32), ("slot", c_uint16), ("unit", c_uint8)]

    def read(self) -> Move:
        endpoint = Endpoint(self.generation, self.slot)
        made = (StartPort(self.unit, endpoint), Send(self.id, endpoint), Finish(self.id), Fail(self.id), Hold(self.id))
        return made[self.kind]  # which are in the order of enum ds_move_kind


class Table(Handle):
    """Follows a map, and says where each request goes: to the driver that the map names, and never to an older one.

    A request to a block driver that dies is sent again to the next one, so none is lost; one to a character or a network driver fails.
    Each is finished once at most. The table is open until the end of its `with`.
    """

    def __init__(self, server: int, library: Optional[str] = None) -> None:
        super().__init__(library, "ds_table_close")
        self._call("ds_table_new", server)

    def assign(self, unit: int, service_class: Class, label: str) -> None:
        """Assigns a unit to the driver with a label: a block or a character driver in a FileTable, a network driver in a NetworkTable."""
        spelled = wrong.spelled("label", label)
        wrong.check((UNIT,), (unit,))
        wrong.check_name("label", spelled)
        try:
            self._ask("ds_table_assign", unit, Class(service_class), spelled, len(spelled))
        except ValueError as fault:
            raise ValueError(f"`service_class` isn't one of a {type(self).__name__}") if type(fault) is ValueError else fault from None

    def follow(self, drivers: Map) -> Moved:
        """Takes what the map has of the labels of the units. Call it after each `take` of the map."""
        return self._follow("ds_table_follow", drivers)

    def submit(self, drivers: Map, id: int, unit: int) -> Moved:
        """Follows the map, and submits a request to a unit. Its id is above that of every request that was accepted.

        If it isn't accepted, `refused` is TwoIds, NoDevice or NoRoom, and isn't raised.
        """
        wrong.check((ID, UNIT), (id, unit))
        return self._follow("ds_table_submit", drivers, id, unit)

    def reply(self, endpoint: Pair, id: int) -> Moved:
        """Takes a driver's reply to a request: the move finishes it.

        NotPending: no request of this id waits for a reply. OldEndpoint: the reply is of an older instance.
        """
        wrong.check((*wrong.endpoint_parts("endpoint"), ID), (*wrong.pair("endpoint", endpoint), id))
        self._ask("ds_table_reply", *endpoint, id)
        return Moved(self._moves())

    def _follow(self, call: str, drivers: Map, *words: int) -> Moved:
        if not isinstance(drivers, Map):
            raise TypeError(f"a table follows a Map, and not a {type(drivers).__name__}")
        self._call(call, drivers._at, *words, self._answer_at)
        refused = NUMBERED[self._answer.refusal]() if self._answer.refusal else None
        return Moved(self._moves(), refused)

    def _moves(self) -> List[Move]:
        """Returns the moves of the last answer."""
        count = self._answer.count
        moves = (MoveOfC * count)()
        self._call("ds_table_moves", 0, ctypes.cast(moves, POINTER(MoveOfC)), count, byref(c_size_t()))
        return [it.read() for it in moves]


class FileTable(Table):
    """The table of a file server, whose units are major devices.

    A request to a block driver that dies is sent again to the next one. One to a character driver fails.

    >>> with Map() as drivers, FileTable() as table:
    ...     table.assign(3, Class.BLOCK, "disk")
    ...     _ = drivers.take(Items(b"disk label rs 4.0 = 4/16\\n"))
    ...     sent = table.submit(drivers, id=1, unit=3)
    ...     _ = drivers.take(Items(b"disk label rs 5.0 = 5/16\\n"))
    ...     sent.moves, table.follow(drivers).moves
    ([Send(id=1, endpoint=Endpoint(generation=4, slot=16))], [Send(id=1, endpoint=Endpoint(generation=5, slot=16))])
    """

    def __init__(self, library: Optional[str] = None) -> None:
        super().__init__(0, library)


class NetworkTable(Table):
    """The table of a network server, whose units are ports. A request to a driver that dies fails."""

    def __init__(self, library: Optional[str] = None) -> None:
        super().__init__(1, library)

"""An exception for each refusal. docs/reference/refusals.md shows a session for each word."""
from __future__ import annotations

from typing import FrozenSet, Optional

from .values import Version


class Refused(Exception):
    """Says that a call was refused. It changed nothing. Exception: a merge and a take keep the first `done` items.

    `version` is that of a Clash; `service` and `line` are the place of a fault in settings, or None.

    >>> NotFound.word
    'notfound'
    """

    word = "refused"
    line: Optional[int] = None  # of settings that aren't TOML
    service: Optional[int] = None  # that is at fault in settings, counted from 0

    def __init__(self, version: Optional[Version] = None, done: int = 0, owed: FrozenSet[int] = frozenset()) -> None:
        super().__init__(f"{self.word}: {self.__doc__}" if self.__doc__ else self.word)  # python -OO has none
        self.version, self.done, self.owed = version, done, owed  # of a clash; how many items; who is owed a notice of them

    def __init_subclass__(cls) -> None:
        cls.word = cls.__name__.lower()


class BadLine(ValueError):
    """The line can't be read, or it asks nothing of one store."""


class BadItems(ValueError):
    """Says that a line isn't an item, at a merge. The first `done` items were merged, and `owed` is who is owed a notice of them."""

    def __init__(self, done: int, owed: FrozenSet[int]) -> None:
        super().__init__(f"a line isn't an item: see docs/reference/lines.md. {done} items before it were merged")
        self.done, self.owed = done, owed


# In the order of enum ds_refusal, which counts them from 1.
class BadSub(Refused, ValueError): """Subscriptions are numbered from 0 to 127."""
class TooMany(Refused, ValueError): """A check, a page and a since show 1 to 256 items."""
class TooLong(Refused, ValueError): """A pattern has at most 128 bytes."""
class BadPattern(Refused, ValueError): """The pattern isn't a regular expression of printable ASCII."""
class BadKind(Refused, ValueError): """A map needs at least one kind."""
class BadLabel(Refused, ValueError): """A label's epoch is its generation, its number 0 for a put and 1 for an end; none is named rs."""
class BadVersion(Refused, ValueError): """The epoch is the caller's generation, and the number is below 4294967295."""
class NoCaller(Refused): """The caller's endpoint is neither a live label's nor that of RS."""
class NotAllowed(Refused): """Only RS publishes labels, deletes them and sweeps; an `Rs` does so by itself."""
class NotOwner(Refused): """The key belongs to another owner."""
class Clash(Refused): """This version is held already, with another value."""
class Stale(Refused): """A greater version is held, or a floor of the owner made the change void."""
class Exists(Refused): """The entry or the subscription exists, and the call doesn't overwrite."""
class NotFound(Refused, LookupError): """There is no such live entry, endpoint or subscription."""
class OldCursor(Refused): """The cursor is of another incarnation: continue from a snapshot."""
class Ahead(Refused, ValueError): """The cursor is past everything that the store accepted."""
class Behind(Refused): """The journal doesn't reach back to the cursor: continue from a snapshot."""
class Full(Refused): """4096 keys are held, or floors of 64 owners."""
class Worn(Refused): """The store's positions are used up, or a tick is above 2^62."""
class NoRoom(Refused, MemoryError): """Out of memory, or the pattern compiles to too much."""
class BadRing(Refused, ValueError): """A journal keeps 1 to 4096 items."""
class BadFirst(Refused, ValueError): """The first position is at most 2^62. Of an `Rs`, `next` is 1 to 2097152, and slots are 16 to 1023."""
class IsClosed(Refused, ValueError): """The store, the map, the table, the desk or the seat is closed."""
class IsOpen(Refused, ValueError): """The handle is open already."""
# Those of an event of RS, and of its settings.
class TickBack(Refused, ValueError): """The tick is below that of the last event that RS took."""
class UnknownLabel(Refused, LookupError): """No service of RS has the label."""
class BadCause(Refused, ValueError): """A cause of death is 1 to 6."""
class AlreadyUp(Refused): """The service is up, or waits for its next start."""
class NotUp(Refused): """The service isn't up. A restart needs one that waits or was given up."""
class OldEndpoint(Refused): """No instance that is up has the endpoint, or the request wasn't last sent there."""
class GenerationsSpent(Refused): """RS has no generation left for a start."""
class NoSlot(Refused): """RS has no slot left for a start."""
class Toml(Refused, ValueError): """The settings aren't TOML."""
class UnknownField(Refused, ValueError): """The settings have an unknown field."""
class Missing(Refused, ValueError): """A service lacks its label, its class or its unit."""
class OutOfRange(Refused, ValueError): """A value of the settings is of another type, or out of its range."""
class TwoLabels(Refused, ValueError): """Two services have one label."""
class TwoUnits(Refused, ValueError): """Two services have one major number, or one port."""
class SharedName(Refused, ValueError): """A name is published by two services, or twice by one."""
# Those of a driver table.
class Assigned(Refused): """The unit has a driver."""
class TwoIds(Refused, ValueError): """The id isn't above that of every request that was accepted."""
class NoDevice(Refused, LookupError): """The unit has no driver."""
class NotPending(Refused, LookupError): """There is no unanswered request of this id."""
# Those of a desk.
class IsBusy(Refused): """Another seat has the turn, or a seat of the desk is open."""
class NoSeat(Refused): """The desk has no seat left."""
# That of a bridge.
class NoLines(Refused, ValueError): """The text isn't lines of items."""


NUMBERED = dict(enumerate(Refused.__subclasses__(), 1))


# Of a dsfleet alone, so no call of the library is refused by it.
class NotSender(Refused): """The connection acts under another endpoint: `as` in docs/reference/fleet.md."""

"""The reincarnation server (RS), beside a store in this process."""
from __future__ import annotations

import ctypes
import enum
import itertools
import struct
from ctypes import byref, c_char, c_uint8, c_uint16, c_uint32, c_uint64
from typing import FrozenSet, Iterator, List, NamedTuple, Optional, Union, cast

from . import wrong
from .commands import Pair
from .refusals import NUMBERED, NotAllowed, NotFound, Refused
from .store import Store
from .values import Endpoint, bit_of

Cause = enum.IntEnum("Cause", "EXIT EXCEPTION KILLED SILENT COMPLAINT UPDATE", start=1)
Cause.__doc__ = "Why an instance died. EXIT includes a panic, SILENT is a missing heartbeat, UPDATE a dynamic update."
Class = enum.IntEnum("Class", "BLOCK CHARACTER NETWORK SERVER", start=0)
Class.__doc__ = "The class of a service, as in its settings."
State = enum.IntEnum("State", "DOWN UP WAITING GIVENUP", start=0)
State.__doc__ = "What a service is. One that waits starts at `until`; one that was given up, at an `up` or a `restart`."
Kind = enum.IntEnum("Kind", "UP DOWN REFRESH RESTART DEATH BEAT TICK", start=0)  # of an event
EVENT = struct.Struct("@Q3IHB64s0Q")  # struct ds_rs_event
OPENING = ("`next`", 2**32 - 1), ("`slot`", 65535)
PARTS = ("`tick`", 2**64 - 1), ("the kind", 6), ("`cause`", 2**32 - 1), *wrong.endpoint_parts("endpoint")  # of an event
NEVER, WHOLE_TEXT = 2**64 - 1, 2**32 - 1
REFUSED = 12  # of enum ds_word

# What a supervisor carries out.
Kill = NamedTuple("Kill", [("endpoint", Endpoint)])
Start = NamedTuple("Start", [("label", str), ("endpoint", Endpoint)])
Ping = NamedTuple("Ping", [("endpoint", Endpoint)])
Kill.__doc__ = "Ends an instance, if it hasn't ended."
Start.__doc__ = "Starts an instance of a service, under this endpoint."
Ping.__doc__ = "Asks an instance for a heartbeat, which `Rs.beat` reports."
# What RS changed in the store.
Offer = NamedTuple("Offer", [("label", str), ("endpoint", Optional[Endpoint]), ("refused", Optional[Refused])])
Sweep = NamedTuple("Sweep", [("label", str), ("generation", int), ("refused", Optional[Refused])])
Offer.__doc__ = """Reports that RS published a label, or deleted it (None). `refused` is why the store refused it, or None.

RS never repeats one that was refused, as when memory ran out. `line("offer eth0 label rs 3.0 = 3/16")` of the Rs makes it: the version is
the instance's generation, and 0, or 1 for a deletion, which ends in ` -`.
"""
Sweep.__doc__ = """Reports that RS swept a service up to a generation. `refused` is why the store refused it, or None.

RS never repeats one that was refused. `line("offer ! eth0 3")` of the Rs makes it, up to generation 3.
"""
GiveUp = NamedTuple("GiveUp", [("label", str)])
GiveUp.__doc__ = "Reports that a service failed too often. It is down until an `up` or a `restart`."
Action = Union[Kill, Start, Ping, Offer, Sweep, GiveUp]
Acted = NamedTuple("Acted", [("actions", List[Action]), ("owed", FrozenSet[int])])
Acted.__doc__ = "Actions, to be carried out in order, and the subscriptions that are owed a notice."


class Service(NamedTuple):
    """A service: its settings, and its state. What the state doesn't have is None."""

    label: str
    service_class: Class
    unit: Optional[int]  # its major number or port; a server has none
    period: int
    limit: int
    state: State
    failures: int
    endpoint: Optional[Endpoint]  # of its instance, if it is up
    until: Optional[int]  # the tick of its next start, if it waits


class ActionOfC(ctypes.Structure):
    _fields_ = [
        *[(it, c_uint32) for it in ("kind", "generation", "word", "refusal")],
        *[("slot", c_uint16), ("gone", c_uint8), ("label_length", c_uint8), ("label", c_char * 64)],
    ]


class ServiceOfC(ctypes.Structure):
    _fields_ = [
        ("until", c_uint64),
        *[(it, c_uint32) for it in ("state", "generation", "failures", "period", "limit")],
        ("slot", c_uint16),
        *[(it, c_uint8) for it in ("service_class", "has_unit", "unit", "label_length")],
        ("label", c_char * 64),
    ]


class FaultOfC(ctypes.Structure):
    _fields_ = [("line", c_uint64), ("cause", c_uint32), ("service", c_uint32)]


class Rs(Store):
    """A store with RS beside it, which decides which services run, and under which endpoints. Every service begins as down.

    A supervisor reports events, and carries out the actions that each returns, in order. RS publishes labels in the store, takes them
    back and sweeps it by itself; a publication by another caller that passes for RS is refused by NotAllowed. A merge has no caller:
    merge only items of stores whose labels come from this RS, or from a later run of it. Ticks are the supervisor's: no event has one
    below that of the last event, nor above 2^62.

    `settings` is the whole text of a TOML file (docs/reference/settings.md). A refused text has the service that is at fault in
    `service` of the exception, counted from 0, and the line in `line` if it isn't TOML. Keep `next_generation` for the next run, and
    pass it as `next`, so that no generation comes twice. `slot` is the first process slot. The other arguments are a Store's.

    >>> with Rs('[[service]]\\nlabel = "eth0"\\nclass = "network"\\nunit = 0\\nlimit = 3\\n') as rs:
    ...     acted = rs.up("eth0", tick=0)
    ...     where = rs.retrieve("eth0", Endpoint)
    ...     dead = rs.death(where, Cause.KILLED, tick=5)
    ...     str(where), rs.services()[0].state.name, rs.due
    ('1/16', 'WAITING', 6)
    """

    def __init__(
        self, settings: str, next: int = 1, slot: int = 16,
        incarnation: Optional[int] = None, first: int = 0, ring: int = 256, library: Optional[str] = None,
    ) -> None:
        super().__init__(incarnation, first, ring, library)
        wrong.check(OPENING, (next, slot))
        self._settle("ds_rs_open", settings, next, slot)

    def renew(self, settings: str) -> None:
        """Gives RS other settings while services run. A service whose label stays keeps its instance, state and failures; a new one is
        down. The store and the next generation stay.

        AlreadyUp is a service that is up or waits, and isn't in the text: its `service` counts as `services` does. Stop it first.
        NoSlot are fewer slots than before, and BadFirst is a last slot above 1023. What is refused changes nothing.
        """
        self._settle("ds_rs_renew", settings)

    def up(self, label: str, tick: int) -> Acted:
        """Starts a service that is down or was given up."""
        return self._event(tick, Kind.UP, label=label)

    def down(self, label: str, tick: int) -> Acted:
        """Stops a service that is up or waits."""
        return self._event(tick, Kind.DOWN, label=label)

    def refresh(self, label: str, tick: int) -> Acted:
        """Stops a service that is up, and starts it at once."""
        return self._event(tick, Kind.REFRESH, label=label)

    def restart(self, label: str, tick: int) -> Acted:
        """Starts a service that waits or was given up."""
        return self._event(tick, Kind.RESTART, label=label)

    def death(self, endpoint: Pair, cause: int, tick: int) -> Acted:
        """Reports that an instance died. By SILENT, COMPLAINT or UPDATE the first action kills it."""
        return self._event(tick, Kind.DEATH, cause, endpoint)

    def beat(self, endpoint: Pair, tick: int) -> Acted:
        """Reports that an instance is alive."""
        return self._event(tick, Kind.BEAT, 0, endpoint)

    def tick(self, tick: int) -> Acted:
        """Reports that time passed. Report it again at the same tick until it has no actions."""
        return self._event(tick, Kind.TICK)

    @property
    def due(self) -> Optional[int]:
        """The first tick at which `tick` has actions, or None if there is none until another event."""
        tick = c_uint64()
        self._call("ds_rs_due", byref(tick))
        return None if tick.value == NEVER else tick.value

    @property
    def next_generation(self) -> int:
        """The generation of the next start."""
        generation = c_uint32()
        self._call("ds_rs_next", byref(generation))
        return generation.value

    def services(self) -> List[Service]:
        """Returns what RS knows of each service, in the order of the settings."""
        return list(self._services())

    def may_publish(self, endpoint: Pair, name: str, kind: type) -> bool:
        """Returns whether an instance is up and its settings let it publish under this key. Only RS publishes labels."""
        return self._may("ds_rs_may_publish", endpoint, wrong.spelled("name", name), bit_of(kind))

    def may_complain(self, endpoint: Pair, label: str) -> bool:
        """Returns whether an instance is up and may complain of a service, so that a supervisor reports its death by COMPLAINT."""
        return self._may("ds_rs_may_complain", endpoint, wrong.spelled("label", label))

    def may_connect(self, endpoint: Pair, label: str) -> bool:
        """Returns whether an instance is up and may connect to a service."""
        return self._may("ds_rs_may_connect", endpoint, wrong.spelled("label", label))

    def _settle(self, call: str, settings: str, *numbers: int) -> None:
        text, fault = wrong.spelled("settings", settings), FaultOfC()
        self._leave()  # since RS forgets the last answer
        try:
            self._call(call, text, len(text), *numbers, byref(fault))
        except Refused as refused:
            refused.line = fault.line or None
            refused.service = None if not fault.cause or fault.service == WHOLE_TEXT else fault.service
            raise

    def _may(self, call: str, endpoint: Pair, spelled: bytes, *kind: int) -> bool:
        wrong.check(wrong.endpoint_parts("endpoint"), wrong.pair("endpoint", endpoint))
        try:
            self._call(call, *endpoint, *kind, spelled, len(spelled))
        except NotAllowed:
            return False
        return True

    def _event(self, tick: int, kind: Kind, cause: int = 0, endpoint: Pair = (0, 0), label: str = "") -> Acted:
        spelled = wrong.spelled("label", label)
        wrong.check(PARTS, (tick, kind, cause, *wrong.pair("endpoint", endpoint)))
        if kind < Kind.DEATH:
            wrong.check_name("label", spelled)
        answer = self._ask("ds_rs_event", EVENT.pack(tick, kind, cause, *endpoint, len(spelled), spelled))
        return Acted([self._action(at) for at in range(answer.count)], answer.subscriptions())

    def _action(self, index: int) -> Action:
        """Returns an action of the last answer."""
        told = ActionOfC()
        self._call("ds_rs_action", index, byref(told))
        label, endpoint = label_of(told), Endpoint(told.generation, told.slot)
        refused = NUMBERED[told.refusal]() if told.word == REFUSED else None
        made = (
            lambda: Kill(endpoint), lambda: Start(label, endpoint), lambda: Ping(endpoint),
            lambda: Offer(label, None if told.gone else endpoint, refused), lambda: Sweep(label, told.generation, refused),
            lambda: GiveUp(label),
        )  # in the order of enum ds_rs_action_kind
        return cast(Action, made[told.kind]())

    def _services(self) -> Iterator[Service]:
        told = ServiceOfC()
        for at in itertools.count():
            try:
                self._call("ds_rs_service", at, byref(told))
            except NotFound:
                return
            yield service_of(told)


def label_of(told: Union[ActionOfC, ServiceOfC]) -> str:
    return str(told.label[: told.label_length], "ascii")


def service_of(told: ServiceOfC) -> Service:
    state, unit = State(told.state), told.unit if told.has_unit else None
    endpoint = Endpoint(told.generation, told.slot) if state is State.UP else None
    until = told.until if state is State.WAITING else None
    return Service(label_of(told), Class(told.service_class), unit, told.period, told.limit, state, told.failures, endpoint, until)

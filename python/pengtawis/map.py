"""A map in this process."""
from __future__ import annotations

import ctypes
from typing import Iterable, Iterator, NamedTuple, Optional, Tuple, Type, cast

from . import wrong
from .commands import V
from .library import Given, Handle, MapKey, fault_of
from .refusals import NotFound
from .values import KINDS, Endpoint, Items, Merged, Value, bit_of, lines_of, mask_of

LONGEST = 1024  # DS_MAX_MEMORY
Entry = NamedTuple("Entry", [("name", str), ("kind", type), ("value", Value)])
Entry.__doc__ = "Has a live entry of a map."


class Map(Handle):
    """Follows stores, whose items may come late, twice or out of order. It never returns an older generation than it did before.

    It is open until the end of its `with`. `library` is the path of libds.so, as for a Store.

    >>> with Map("eth.*") as drivers:
    ...     _ = drivers.take(Items(b"eth0 label rs 4.0 = 4/16\\neth0 label rs 3.0 = 3/16\\n"))
    ...     drivers.label("eth0")
    Endpoint(generation=4, slot=16)
    """

    def __init__(self, pattern: str = ".*", kinds: Iterable[type] = (Endpoint,), library: Optional[str] = None) -> None:
        super().__init__(library, "ds_map_close")
        spelled = wrong.spelled("pattern", pattern)
        self._call("ds_map_new", mask_of(kinds), spelled, len(spelled))
        self._pattern = pattern
        self._given, self._room = Given(), ctypes.create_string_buffer(LONGEST)

    def __repr__(self) -> str:
        return f"<Map of {self._pattern!r}{'' if self._handle else ', closed'}>"

    def take(self, items: Items) -> Merged:
        """Takes items in order, up to the first that is refused. That one and those after it may be taken again later."""
        text = lines_of(items)
        answer = self._ask("ds_map_take", text, len(text))
        return Merged(answer.count, answer.taken, answer.stale, frozenset())

    def label(self, name: str) -> Endpoint:
        """Returns where the label is now. If it was deleted, or never taken, raises NotFound."""
        spelled = wrong.spelled("name", name)
        wrong.check_name("name", spelled)
        answer = self._ask("ds_map_label", spelled, len(spelled))
        return Endpoint(answer.value, answer.value_slot)

    def __getitem__(self, key: Tuple[str, Type[V]]) -> V:
        """Returns the value of a live entry, by its name and its kind. If it was deleted, or never taken, raises NotFound.

        >>> with Map("eth0.*", kinds=[Endpoint, int]) as driver:
        ...     _ = driver.take(Items(b"eth0.mtu u32 eth0 4.0 = 1500\\n"))
        ...     driver["eth0.mtu", int]
        1500
        """
        name, kind = wrong.key(key)
        spelled = wrong.spelled("name", name)
        wrong.check_name("name", spelled)
        return cast(V, self._value(kind, spelled))

    def __iter__(self) -> Iterator[Entry]:
        """Iterates over the live entries, by name. It may take items in between.

        >>> with Map("eth0.*", kinds=[Endpoint, int]) as driver:
        ...     _ = driver.take(Items(b"eth0.mtu u32 eth0 4.0 = 1500\\neth0 label rs 4.0 = 4/16\\n"))
        ...     [(name, str(value)) for name, _, value in driver]
        [('eth0', '4/16'), ('eth0.mtu', '1500')]
        """
        key, kinds = MapKey(), {bit: kind for kind, bit in KINDS.items()}
        while self._steps(key):
            name, kind = bytes(key.name[: key.name_length]), kinds[key.kind]
            yield Entry(str(name, "ascii"), kind, self._value(kind, name))

    def __len__(self) -> int:
        """Returns how many live entries it has."""
        return sum(1 for _ in self)

    def __bool__(self) -> bool:
        return True  # also while it is empty

    def __contains__(self, key: object) -> bool:
        """Returns whether a live entry has this name and kind.

        >>> with Map("eth0.*", kinds=[Endpoint, int]) as driver:
        ...     _ = driver.take(Items(b"eth0.mtu u32 eth0 4.0 = 1500\\n"))
        ...     ("eth0.mtu", int) in driver, ("eth0", Endpoint) in driver, len(driver)
        (True, False, 1)
        """
        try:
            self[cast(Tuple[str, type], key)]
        except NotFound:
            return False
        return True

    def _steps(self, key: MapKey) -> bool:
        """Goes to the next key. Returns whether there is one."""
        try:
            self._call("ds_map_next", ctypes.byref(key))
        except NotFound:
            return False
        return True

    def _value(self, kind: type, name: bytes) -> Value:
        answer, given = self._answer, self._given
        self._call("ds_map_value", bit_of(kind), name, len(name), self._answer_at, self._room, LONGEST, ctypes.byref(given))
        fault = fault_of(answer)
        if fault:
            raise fault
        if kind is int or kind is Endpoint:
            return cast(Value, answer.value if kind is int else Endpoint(answer.value, answer.value_slot))
        text = self._room.raw[: given.length]
        return str(text, "ascii") if kind is str else text

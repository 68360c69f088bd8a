"""What a store holds and answers.

The kind of a key is the type of its values: Endpoint for a label, int for a u32, str for a str, bytes for a mem.
"""
from __future__ import annotations

import re
from typing import Any, Callable, Dict, FrozenSet, Iterable, Iterator, NamedTuple, Optional, Tuple, Union


class Endpoint(NamedTuple):
    """Names a process by its generation and its process slot."""

    generation: int
    slot: int

    def __str__(self) -> str:
        return f"{self.generation}/{self.slot}"

    @classmethod
    def parse(cls, text: str) -> Endpoint:
        """Returns the endpoint of a text, as DS_ENDPOINT of a service has it. ValueError: it isn't one.

        >>> Endpoint.parse("3/16")
        Endpoint(generation=3, slot=16)
        """
        found = re.fullmatch(r"(0|[1-9]\d{0,6})/(0|[1-9]\d{0,3})", text, re.ASCII)
        if not found or int(found[1]) > 2097151 or int(found[2]) > 1023:
            raise ValueError(f"an endpoint is GENERATION/SLOT, and not {text!r}")
        return cls(int(found[1]), int(found[2]))


RS = Endpoint(0, 2)  # the reincarnation server, which publishes labels and sweeps
Value = Union[Endpoint, int, str, bytes]
Version = NamedTuple("Version", [("epoch", int), ("seq", int)])  # an owner's generation, and a number that it counts
Cursor = NamedTuple("Cursor", [("incarnation", int), ("position", int)])  # a place in the journal of a store
KINDS: Dict[type, int] = {Endpoint: 1, int: 2, str: 4, bytes: 8}  # the bits of enum ds_kinds
SPELLED: Dict[str, Tuple[type, Callable[[str], Any]]] = {  # the word of each kind in a line, and how its values are read
    "label": (Endpoint, lambda text: Endpoint(*map(int, text.split("/")))),
    "u32": (int, int),
    "str": (str, lambda text: re.sub(r"\\(.)", r"\1", text[1:-1])),
    "mem": (bytes, bytes.fromhex),
}


class Change(NamedTuple):
    """Puts a value under a key, or ends the key if the value is None."""

    name: str
    kind: type
    owner: str
    version: Version
    value: Optional[Value]


class Floor(NamedTuple):
    """Makes void what the owner published in generations up to this one, except labels."""

    owner: str
    generation: int


class Items:
    """Holds changes and floors as lines (docs/reference/lines.md) in `text`. Iteration reads these lines.

    >>> list(Items(b"! eth0 3\\n"))
    [Floor(owner='eth0', generation=3)]
    """

    def __init__(self, text: bytes) -> None:
        self.text = text

    def __iter__(self) -> Iterator[Union[Change, Floor]]:
        return map(read_item, str(self.text, "ascii").splitlines())

    def __eq__(self, other: object) -> bool:
        return isinstance(other, Items) and self.text == other.text

    def __repr__(self) -> str:
        return f"Items({self.text!r})"

    def __len__(self) -> int:
        return self.text.count(b"\n")


# The answers of a store. In each, `owed` is the set of subscriptions that are owed a notice.
Done = NamedTuple("Done", [("changed", bool), ("owed", FrozenSet[int])])
Swept = NamedTuple("Swept", [("dropped", int), ("owed", FrozenSet[int])])
Subscribed = NamedTuple("Subscribed", [("stamp", int), ("owed", FrozenSet[int])])
Merged = NamedTuple("Merged", [("done", int), ("taken", int), ("stale", int), ("owed", FrozenSet[int])])
Reading = NamedTuple("Reading", [("items", Items), ("cursor", Cursor)])
Page = NamedTuple("Page", [("items", Items), ("cursor", Cursor), ("is_last", bool)])
Done.__doc__ = "Says that a change is held. `changed` is False if it was held already."
Swept.__doc__ = "Says how many live entries a sweep dropped."
Subscribed.__doc__ = "Has the stamp of a subscription, a number that rises with each subscription and each check that shows something."
Merged.__doc__ = """Says how many items were done, and how many of these took effect or were stale.

The others were held already, or aren't under a map's query.
"""
Reading.__doc__ = "Has items, and the cursor from which `Store.since` continues."
Page.__doc__ = "Has items, the cursor of this page, and whether it is the last one."


def read_item(line: str) -> Union[Change, Floor]:
    """Returns the change or the floor of a line, which has no newline. ValueError: it is malformed."""
    try:
        return floor_of(line) if line.startswith("! ") else change_of(line)
    except (LookupError, TypeError, ValueError):
        raise ValueError(f"it isn't an item: {line}") from None


def floor_of(line: str) -> Floor:
    _, owner, generation = line.split(" ")
    return Floor(owner, int(generation))


def change_of(line: str) -> Change:
    name, word, owner, version, mark, *value = line.split(" ", 5)
    kind, read = SPELLED[word]
    return Change(name, kind, owner, Version(*map(int, version.split("."))), read(value[0]) if mark == "=" else None)


def kind_of(value: Value) -> type:
    for kind in KINDS:
        if isinstance(value, kind) and not isinstance(value, bool):
            return kind
    raise TypeError(f"a value is an Endpoint, an int, a str or bytes, and not {type(value).__name__}")


def bit_of(kind: type) -> int:
    """Returns the bit of a kind."""
    if kind not in KINDS:
        raise TypeError(f"a kind is Endpoint, int, str or bytes, and not {getattr(kind, '__name__', repr(kind))}")
    return KINDS[kind]


def mask_of(kinds: Iterable[type]) -> int:
    return sum(bit_of(kind) for kind in set(kinds))


def lines_of(items: Items) -> bytes:
    """Returns the text of items."""
    if not isinstance(items, Items):
        raise TypeError(f"Items are taken, and not a {type(items).__name__}; those of a Reading or a Page are its `items`")
    return items.text

"""Says which argument of a call is wrong."""
from __future__ import annotations

import re
import struct
from typing import Any, Iterable, Sequence, Tuple

from .values import KINDS

Part = Tuple[str, int]  # how an argument, or a number of it, is named, and its greatest value
GENERATION, SLOT, NUMBER, LONG = 2097151, 1023, 2**32 - 1, 2**64 - 1
IS_NAME = re.compile(r"[A-Za-z0-9._-]{1,64}", re.ASCII)
IS_STRING = re.compile(rb"[ -~]{0,256}")
OF_A_CURSOR = ("`cursor`'s incarnation", LONG), ("`cursor`'s position", LONG)
OF_A_TEXT = ("the text's place", LONG), ("the text's length", LONG)
OF_A_VERSION = ("`version`'s epoch", GENERATION), ("`version`'s number", NUMBER - 1)
OPENING = ("`incarnation`", LONG), ("`first`", LONG), ("`ring`", NUMBER)
NARROWER = {"`most`": "1 to 256", "`ring`": "1 to 4096", "`first`": "0 to 2^62"}  # where the library refuses more by a word of its own
# Those of a request, by the command that has other names for them; else those of a publication.
NAMES = {"nameof": {"caller": "endpoint"}, "sweep": {"value": "generation", "name": "owner"}, "page": {"name": "after"}}


def endpoint_parts(name: str) -> Tuple[Part, Part]:
    """Returns the parts of an argument that is an endpoint."""
    return (f"`{name}`'s generation", GENERATION), (f"`{name}`'s slot", SLOT)


def request_parts(word: str, is_label: bool) -> Sequence[Part]:
    """Returns the numbers of struct ds_request, in its order, as the method of a command names them."""
    names = NAMES.get(word, {})
    (generation, slot), value = endpoint_parts(names.get("caller", "caller")), names.get("value", "value")
    number = (f"`{value}`'s generation" if is_label else f"`{value}`", GENERATION if is_label or word == "sweep" else NUMBER)
    flags = [(it, 255) for it in ("`kinds`", "`overwrite`", "`initial`", "`under`", "`after`", "the name's length")]
    others = ("the command", NUMBER), generation, *OF_A_VERSION, number, ("`sub`", 127), ("`most`", 256)
    return (*OF_A_CURSOR, *OF_A_TEXT, *others, slot, (f"`{value}`'s slot", SLOT), *flags)


def check(parts: Iterable[Part], numbers: Iterable[Any]) -> None:
    """Raises TypeError for the first argument that isn't an int, and ValueError for the first one that is out of range."""
    for (name, most), number in zip(parts, numbers):
        if not isinstance(number, int):
            raise TypeError(f"{name} is an int, and not {type(number).__name__}")
        if not 0 <= number <= most:
            raise ValueError(f"{name} is {NARROWER.get(name, f'0 to {most}')}, and not {number}")


def pair(name: str, it: Any) -> Any:
    """Returns an argument that is a pair of ints, as an endpoint, a version or a cursor. TypeError: it isn't one."""
    if not isinstance(it, (tuple, list)) or len(it) != 2:
        raise TypeError(f"`{name}` is a pair of ints, and not {it!r}")
    return it


def spelled(name: str, text: Any) -> bytes:
    """Returns the bytes of an argument that is a str. TypeError: it isn't one."""
    if not isinstance(text, str):
        raise TypeError(f"`{name}` is a str, and not {type(text).__name__}")
    return text.encode()


def key(it: Any) -> Any:
    """Returns the key of an entry. TypeError: it isn't a pair of a name and a kind."""
    if not isinstance(it, tuple) or len(it) != 2:
        raise TypeError(f"a key is a name and a kind, as in `map[\"eth0\", Endpoint]`, and not {it!r}")
    return it


def check_name(name: str, text: bytes) -> None:
    """Raises ValueError if the bytes aren't a name."""
    it = text.decode()
    if not IS_NAME.fullmatch(it):
        raise ValueError(f"`{name}` has 1 to 64 ASCII letters, digits, `.`, `_` and `-`, and isn't {it!r}")


def check_request(layout: struct.Struct, request: bytes, word: str, text: bytes) -> None:
    """Raises ValueError for the first argument for which the library finds no command in a request."""
    *numbers, kinds, _, _, under, behind, length, name = layout.unpack(request)
    is_publication = word == "publish"
    check(request_parts(word, is_publication and kinds == 1), numbers)
    if word in ("publish", "delete", "sweep", "retrieve") or behind:
        check_name(NAMES.get(word, {}).get("name", "name"), name[:length])
    if (word == "subscribe" or under) and not kinds:
        raise ValueError(f"`kinds` has at least one of {', '.join(it.__name__ for it in KINDS)}")
    if is_publication and kinds == 4 and not IS_STRING.fullmatch(text):
        raise ValueError(f"`value` has at most 256 printable ASCII characters, and isn't {text.decode()!r}")
    if is_publication and kinds == 8 and len(text) > 1024:
        raise ValueError(f"`value` has at most 1024 bytes, and not {len(text)}")

"""libds.so.1: where it is, its calls, and the structs of c/ds.h."""
from __future__ import annotations

import ctypes
import enum
import functools
import os
import struct
from ctypes import POINTER, byref, c_char_p, c_size_t, c_uint8, c_uint16, c_uint32, c_uint64, c_void_p
from typing import Any, FrozenSet, Optional, Type, TypeVar

from .refusals import NUMBERED, BadLine, Clash
from .values import Version

PLACES = [os.path.join(it, "lib/pengtawis/libds.so.1") for it in (os.path.expanduser("~/.local"), "/usr/local")]
NAME = "libds.so.1"  # by which the system's loader finds it, as Debian's package has it


class Command(enum.IntEnum):
    """The numbers of enum ds_command."""

    PUBLISH, DELETE, SWEEP, RETRIEVE, NAMEOF, SUBSCRIBE, CHECK, SINCE, SNAPSHOT, PAGE, MERGE = range(11)

    @property
    def word(self) -> str:
        return self.name.lower()


CHANGED, NO_REQUEST, BAD_LINE = 0, 13, 15  # of enum ds_word
WHOLE, WANTING = 0, 20  # of enum ds_stop
REQUEST = struct.Struct("@4Q7I2H6B64s0Q")  # struct ds_request: unlike ctypes, struct refuses a number that is out of range
Self = TypeVar("Self", bound="Handle")
Loaded = TypeVar("Loaded", bound=ctypes.CDLL)
ROOM = 1 << 16  # bytes of text that are fetched at a time
PIECE = 2204  # DS_MAX_PIECE


class Answer(ctypes.Structure):
    _fields_ = [
        *[(it, c_uint64) for it in ("count", "taken", "stale", "before", "after", "pieces")],
        *[(it, c_uint32) for it in ("word", "refusal", "epoch", "seq", "value")],
        *[("value_slot", c_uint16), ("kind", c_uint8), ("last", c_uint8), ("owed", c_uint8 * 16)],
    ]

    def subscriptions(self) -> FrozenSet[int]:
        """Returns the subscriptions that are owed a notice."""
        mask = int.from_bytes(bytes(self.owed), "little")
        return frozenset(it for it in range(mask.bit_length()) if mask >> it & 1)


class Given(ctypes.Structure):
    _fields_ = [("count", c_uint64), ("length", c_uint64), ("stop", c_uint32)]


class MapKey(ctypes.Structure):
    _fields_ = [("kind", c_uint8), ("name_length", c_uint8), ("name", c_uint8 * 64)]


TEXT, ANSWER, ROOM_OF_TEXT = (c_char_p, c_size_t), POINTER(Answer), (c_size_t, c_void_p, c_size_t, POINTER(Given))
CALLS: Any = {
    "ds_open": (c_uint64, c_uint64, c_uint32),
    "ds_call": (c_char_p, *TEXT, ANSWER),
    "ds_run": (c_char_p, c_size_t, *TEXT, POINTER(Answer), c_size_t, POINTER(c_size_t)),
    "ds_items": ROOM_OF_TEXT,
    "ds_call_line": (*TEXT, ANSWER),
    "ds_text": ROOM_OF_TEXT,
    "ds_close": (),
    "ds_rs_open": (*TEXT, c_uint32, c_uint16, c_void_p),
    "ds_rs_renew": (*TEXT, c_void_p),
    "ds_rs_event": (c_char_p, ANSWER),
    "ds_rs_action": (c_size_t, c_void_p),
    "ds_rs_service": (c_size_t, c_void_p),
    "ds_rs_due": (POINTER(c_uint64),),
    "ds_rs_next": (POINTER(c_uint32),),
    "ds_rs_may_publish": (c_uint32, c_uint16, c_uint8, *TEXT),
    "ds_rs_may_complain": (c_uint32, c_uint16, *TEXT),
    "ds_rs_may_connect": (c_uint32, c_uint16, *TEXT),
    "ds_map_new": (c_uint8, *TEXT),
    "ds_map_take": (*TEXT, ANSWER),
    "ds_map_label": (*TEXT, ANSWER),
    "ds_map_value": (c_uint8, *TEXT, ANSWER, c_char_p, c_size_t, POINTER(Given)),
    "ds_map_next": (POINTER(MapKey),),
    "ds_map_close": (),
    "ds_table_new": (c_uint32,),
    "ds_table_assign": (c_uint8, c_uint8, *TEXT, ANSWER),
    "ds_table_follow": (c_void_p, ANSWER),
    "ds_table_submit": (c_void_p, c_uint64, c_uint8, ANSWER),
    "ds_table_reply": (c_uint32, c_uint16, c_uint64, ANSWER),
    "ds_table_moves": (c_size_t, c_void_p, c_size_t, POINTER(c_size_t)),
    "ds_table_close": (),
    "ds_desk_open": (c_uint64, c_uint64, c_uint32, c_uint32),
    "ds_seat_open": (c_void_p,),
    "ds_seat_items": ROOM_OF_TEXT,
    "ds_seat_take": (c_uint32, POINTER(c_uint8), POINTER(c_uint64)),
    "ds_seat_close": (),
    "ds_desk_close": (),
}
SHARING: Any = dict.fromkeys(("ds_seat_call", "ds_seat_wait"), (c_char_p, *TEXT, ANSWER, POINTER(c_uint64)))


def typed(library: Loaded, calls: Any) -> Loaded:
    for name, words in calls.items():
        call = getattr(library, name)
        call.argtypes, call.restype = (c_void_p, *words), c_uint32
    return library


@functools.lru_cache(maxsize=None)
def loaded(path: str) -> ctypes.PyDLL:
    """Loads the library once. Its calls keep the interpreter's lock: they are short, and a handle has one call at a time."""
    return typed(ctypes.PyDLL(path), CALLS)


@functools.lru_cache(maxsize=None)
def sharing(path: str) -> ctypes.CDLL:
    """Loads the library for calls of several threads side by side, which let go of the interpreter's lock."""
    return typed(ctypes.CDLL(path), SHARING)


class Handle:
    """Keeps a handle of the library, which the end of its `with` closes."""

    def __init__(self, library: Optional[str], closes: str) -> None:
        named = library or os.environ.get("PENGTAWIS_LIBRARY")
        path = named if named else next((it for it in PLACES if os.path.exists(it)), NAME)
        try:
            self._path, self._closes = os.fspath(path), closes
            self._library = loaded(self._path)
        except OSError as fault:
            if path != NAME:
                raise
            raise FileNotFoundError(f"there is no {NAME}: pass `library`, set PENGTAWIS_LIBRARY, or install {PLACES[0]}") from fault
        self._answer, self._handle = Answer(), c_void_p()
        self._at, self._answer_at = byref(self._handle), byref(self._answer)

    def __enter__(self: Self) -> Self:
        return self

    def __exit__(self, *_: object) -> None:
        self.close()

    def __del__(self) -> None:
        if hasattr(self, "_at"):
            self.close()

    def close(self) -> None:
        """Frees all memory. A second close does nothing; any other call on a closed handle raises IsClosed."""
        getattr(self._library, self._closes)(self._at)

    def _call(self, call: str, *words: Any) -> None:
        """Makes a call, and raises the refusal that the call itself returns."""
        refusal = getattr(self._library, call)(self._at, *words)
        if refusal:
            raise NUMBERED[refusal]()

    def _ask(self, call: str, *words: Any) -> Answer:
        """Makes a call, and returns its answer, or raises what the answer refuses. The next call overwrites the answer."""
        self._call(call, *words, self._answer_at)
        fault = fault_of(self._answer, BadLine if call == "ds_call_line" else ValueError)
        if fault:
            raise fault
        return self._answer


def fault_of(answer: Answer, malformed: Type[ValueError] = ValueError) -> Optional[Exception]:
    """Returns the exception for an answer that refuses something, or None."""
    if answer.word == BAD_LINE:
        return BadLine(f"the line can't be read from byte {answer.count} on")
    if answer.word == NO_REQUEST:
        what = "the line isn't for one store" if malformed is BadLine else "an argument is malformed or out of range"
        return malformed(f"{what}: see docs/reference/lines.md")
    if answer.refusal:
        refused = NUMBERED[answer.refusal]
        version = Version(answer.epoch, answer.seq) if refused is Clash else None
        return refused(version, answer.count, answer.subscriptions())
    return None

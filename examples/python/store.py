#!/usr/bin/env python3
"""store.py LIBRARY: answers the lines of a script that asks one store, as dsctl does.

LIBRARY is the shared library that `tools/build ds_c` makes, crates/ds_c/out/libds_c.so.
"""
import ctypes
import sys

WHOLE = 0  # of enum ds_stop: all of the text is fetched
NO_REQUEST, BAD_LINE = 13, 15  # of enum ds_word: the answers with no text


class Answer(ctypes.Structure):
    """`struct ds_answer` of ds.h."""

    _fields_ = [
        *((name, ctypes.c_uint64) for name in ("count", "taken", "stale", "before", "after", "pieces")),
        *((name, ctypes.c_uint32) for name in ("word", "refusal", "epoch", "seq", "value")),
        ("value_slot", ctypes.c_uint16),
        ("kind", ctypes.c_uint8),
        ("last", ctypes.c_uint8),
        ("owed", ctypes.c_uint8 * 16),
    ]


class Given(ctypes.Structure):
    """`struct ds_given` of ds.h."""

    _fields_ = [("count", ctypes.c_uint64), ("length", ctypes.c_uint64), ("stop", ctypes.c_uint32)]


class Store:
    """A store in this process."""

    def __init__(self, library, incarnation, first, ring):
        self.library, self.handle = library, ctypes.c_void_p()
        numbers = ctypes.c_uint64(incarnation), ctypes.c_uint64(first), ctypes.c_uint32(ring)
        if library.ds_open(ctypes.byref(self.handle), *numbers):
            raise MemoryError

    def ask(self, line):
        """Carries out the command of a line, and returns the answer."""
        answer = Answer()
        self.library.ds_call_line(ctypes.byref(self.handle), line, ctypes.c_size_t(len(line)), ctypes.byref(answer))
        return answer

    def text(self):
        """Returns the whole text of the last answer: a call without a buffer returns its length, and the next one fetches it."""
        room = ctypes.create_string_buffer(self.fetch(None, 0).count)
        if self.fetch(room, len(room)).stop != WHOLE:
            raise MemoryError
        return room.raw

    def fetch(self, room, length):
        given = Given()
        self.library.ds_text(ctypes.byref(self.handle), ctypes.c_size_t(0), room, ctypes.c_size_t(length), ctypes.byref(given))
        return given

    def close(self):
        self.library.ds_close(ctypes.byref(self.handle))


def said(store, answer):
    """What is printed for an answer."""
    if answer.word == BAD_LINE:
        return b"no line of a script, from byte %d on\n" % answer.count
    if answer.word == NO_REQUEST:
        return b"no line that asks one store\n"
    return store.text()


def main():
    if len(sys.argv) != 2:
        sys.exit(__doc__)
    store = Store(ctypes.CDLL(sys.argv[1]), incarnation=1, first=0, ring=256)
    for line in sys.stdin.buffer:
        sys.stdout.buffer.write(said(store, store.ask(line)))
    store.close()


main()

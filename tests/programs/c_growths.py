"""Makes calls of the library for C and refuses them growths of memory, for tests/programs/store.

The library is linked as a shared one with python/tests/refusing.c in it, so that no growth of Python's is counted. Growths are counted
and refused in the calls under test alone: not in those that prepare a store or a map, or fetch a text.
"""
import ctypes
import itertools
import os
import pathlib
import subprocess

import askers
import c_calls

ROOT = pathlib.Path(__file__).resolve().parent.parent.parent
CC = os.environ.get("CC", "cc")
STRICT = ["-std=c11", "-Wall", "-Wextra", "-Wpedantic", "-Werror", "-O2"]
REFUSED = [str(ROOT / "python" / "tests" / "refusing.c"), "-Wl,--wrap=malloc,--wrap=realloc", "-Wl,-Bsymbolic"]
ROOM = 1 << 16  # bytes of a text that are fetched at a time
NOROOM = c_calls.REFUSALS.index("noroom") + 1
BLOCKS = ("merge", "take", "run")  # lines that begin a command of several, up to `end`


def heap():
    """Returns the toolchain's library that calls malloc and free."""
    page = subprocess.run(["rt", "doc"], capture_output=True, text=True, check=True).stdout.split()[0]
    return str(pathlib.Path(page).parent / "c" / "liblibc_c.a")


def refusing(library, made):
    """Links a shared library whose growths of memory can be refused, and returns its path. It exports the variables that control this."""
    whole = ["-Wl,--whole-archive", library, "-Wl,--no-whole-archive", *REFUSED, heap()]
    subprocess.run([CC, *STRICT, "-shared", "-fPIC", "-o", made, *whole], check=True)
    return made


class Memory:
    """Refuses growths to one call, and counts those that the last call asked for."""

    def __init__(self, path):
        self.library = c_calls.loaded(path)
        self.askers = askers.Askers(path)
        self.left, self.asked = (ctypes.c_long.in_dll(self.library, it) for it in ("growths_left", "growths_asked"))
        self.once = ctypes.c_int.in_dll(self.library, "growths_once")
        self.words = ctypes.c_size_t.in_dll(self.library, "growths_stack_words")
        self.planned, self.growths = None, 0

    def refuse(self, number, later=False):
        """Plans to refuse to the next call its growth of this number, counted from 1; with `later`, all after it too."""
        self.planned = number - 1, not later

    def call(self, function, handle, *words):
        """Makes a call, and refuses it the planned growths."""
        left, once = self.planned or (-1, 0)
        self.planned, before = None, self.asked.value
        self.once.value, self.left.value = once, left
        said = function(ctypes.byref(handle), *words)
        self.left.value = -1
        self.growths = self.asked.value - before
        return said

    def asker(self):
        """Returns the function that asked for the growth refused last, without its types. Functions in C only pass a request on."""
        stack = (ctypes.c_ulong * self.words.value).in_dll(self.library, "growths_stack")
        found = (it for it in self.askers.callers(bytes(stack)) if "::" in it and not askers.BELOW.search(it))
        return next(found, "-").partition("::<")[0]


class Store(c_calls.Runs):
    """A store behind a handle."""

    def __init__(self, memory):
        super().__init__(memory.library, ROOM)
        self.memory = memory

    def begin(self, line):
        """Opens the store of a line `store INCARNATION FIRST RING`, and returns the answer."""
        refused = self.open(*map(int, line.split()[1:4]))
        return ["ready"] if refused == 0 else [f"refused {c_calls.REFUSALS[refused - 1]}"]

    def open(self, incarnation, first, ring):
        self.close()
        self.first, self.ring = first, ring
        return self.memory.call(self.library.ds_open, self.handle, ctypes.c_uint64(incarnation), ctypes.c_uint64(first), ctypes.c_uint32(ring))

    def call(self, request, text):
        answer = c_calls.Answer()
        called = self.memory.call(self.library.ds_call, self.handle, ctypes.byref(request), text, len(text), ctypes.byref(answer))
        if called:
            raise AssertionError(f"call {called}")
        return answer, self.pieces(answer)

    def ask(self, command, line, taken):
        return c_calls.Session.ask(self, command, line, taken)

    def told(self, block):
        """Returns the answer to a command: a line, or `merge` and offers, or `run` and the lines that one call carries out."""
        if block[0] == "merge":
            text = items_of(block)
            request = c_calls.Request(command=c_calls.COMMANDS.index(b"merge"), text_length=len(text))
            return c_calls.told(*self.call(request, text), False)
        if block[0] == "run":
            answers = self.answers([it.encode() for it in block[1:]], len(block), is_script=False)
            return [line for answer in answers for line in answer]
        return self.held() if block == ["held"] else self.answer(block[0].encode())

    def held(self):
        """Returns a line with how much the store holds, its position and its incarnation."""
        *items, snapshot = self.answer(b"snapshot *")
        floors = sum(it.startswith("! ") for it in items)
        _, _, incarnation, position = snapshot.split()
        return [f"held {len(items) - floors} floors {floors} position {position} incarnation {incarnation}"]


class Map(c_calls.Map):
    """A subscriber's map behind a handle."""

    def __init__(self, memory):
        super().__init__(memory.library)
        self.memory = memory

    def begin(self, line):
        """Makes the map of a line `map "PATTERN" KINDS`, and returns the answer."""
        _, pattern, kinds = line.split('"')
        self.close()
        refused = self.make(pattern.encode(), int(kinds))
        return ["ready"] if refused == 0 else [f"refused {c_calls.REFUSALS[refused - 1]}"]

    def make(self, pattern, kinds):
        return self.memory.call(self.library.ds_map_new, self.handle, ctypes.c_uint8(kinds), pattern, ctypes.c_size_t(len(pattern)))

    def told(self, block):
        """Returns the answer to `take` and offers, or to `label NAME`."""
        if block[0] == "take":
            return self.ask(self.library.ds_map_take, items_of(block))
        return self.ask(self.library.ds_map_label, block[0].removeprefix("label ").encode())

    def ask(self, function, text):
        answer = c_calls.Answer()
        called = self.memory.call(function, self.handle, text, ctypes.c_size_t(len(text)), ctypes.byref(answer))
        if called:
            raise AssertionError(f"call {called}")
        return c_calls.told(answer, [], False)


def items_of(block):
    """Returns the lines of the items that are offered."""
    return "".join(it.removeprefix("offer ") + "\n" for it in block[1:]).encode("latin1")


def blocks(lines):
    """Yields each command: one line, or those from the first of several to the one before `end`."""
    rest = iter(lines)
    for line in rest:
        yield [line, *(itertools.takewhile(lambda it: it != "end", rest) if line in BLOCKS else ())]


def reading(block):
    """Returns how many growths the library asks for to read a command, before it calls a store or a map.

    A text, memory or a pattern is copied once. A list of items grows to 4 places, then doubles each time.
    """
    if block[0] in ("merge", "take"):
        return growths_of_list(len(block) - 1) + sum(map(has_text, block[1:]))
    word, _, rest = block[0].partition(" ")
    if word == "offer":
        return growths_of_list(1) + has_text(block[0])
    return int('"' in rest or word == "publish" and " mem " in rest)


def growths_of_list(count):
    """Returns how many growths a list asks for until it has `count` items."""
    return 0 if count == 0 else sum(1 for power in range(2, 64) if count > (1 << power)) + 1


def has_text(offer):
    """Returns whether the item's value is a text or memory."""
    return " = " in offer and (" str " in offer or " mem " in offer)

"""Finds the function of a program that asked for the growth that tests/kit/refuse.c refused, by the words of its stack.

A word of the stack is a return address if it points just past a call instruction in the program's code. From the innermost one
outwards, the next address that counts is one whose call leads to the function found last. Other words are left over from calls
that have ended. A function that the compiler inlined is part of its caller.
"""
import bisect
import re
import struct
import subprocess

CALL = 0xE8  # followed by a distance of 4 bytes, counted from the return address
LOADED, EXECUTABLE = 1, 1  # PT_LOAD and PF_X of an ELF program header
BELOW = re.compile(r"^(core|std|std_[a-z]+)::|^rattle_")  # functions that take memory for their callers


class Askers:
    """The functions of a program, by address."""

    def __init__(self, program):
        listed = subprocess.run(["nm", "-n", "--defined-only", program], stdout=subprocess.PIPE, text=True, check=True).stdout
        parts = (line.split(" ", 2) for line in listed.splitlines())
        functions = [(int(place, 16), name) for place, kind, name in parts if kind in "tT"]
        self.places, self.names = [list(it) for it in zip(*functions)]
        with open(program, "rb") as file:
            self.code = list(executable(file.read()))

    def called(self, place):
        """Returns the target of the call that returns to this place; None if there is no such call."""
        for begin, code in self.code:
            at = place - begin
            if 5 <= at <= len(code) and code[at - 5] == CALL:
                return place + struct.unpack("<i", code[at - 4 : at])[0]
        return None

    def callers(self, stack):
        """Yields the functions whose calls haven't ended, the innermost first. The first word is the program's load address."""
        base, *words = struct.unpack(f"<{len(stack) // 8}Q", stack)
        last = None
        for word in words:
            to = self.called(word - base)
            if to is not None and last in (None, to):
                at = bisect.bisect(self.places, word - base - 1) - 1
                last = self.places[at]
                yield self.names[at]

    def is_within(self, stack, crate):
        """Returns whether a call of one of the crate's functions hasn't ended."""
        return bool(stack) and any(name.startswith(f"{crate}::") for name in self.callers(stack))

    def asker(self, stack):
        """Returns the innermost function that doesn't take memory on behalf of others, without its types; a dash if there is none."""
        found = next((name for name in self.callers(stack) if not BELOW.search(name)), "-") if stack else "-"
        return found.partition("::<")[0]


def executable(file):
    """Yields the executable parts of a program's file, each with its address."""
    first, size, count = struct.unpack_from("<Q14xHH", file, 0x20)
    for at in range(first, first + size * count, size):
        kind, flags, offset, place, _, length = struct.unpack_from("<IIQQQQ", file, at)
        if kind == LOADED and flags & EXECUTABLE:
            yield place, file[offset : offset + length]

"""A second opinion on `dsctl record`, written from its rules: the trace of the run of an input, and the report of a bad line."""
import re

from . import lines, traces
from .store import Store

PASS = re.compile(rb"(0|[1-9][0-9]?) ")
RING = re.compile(rb"ring ([1-9][0-9]{0,3})")


class Bad(Exception):
    """A line that can't be read, by its number and the place where it can't."""

    def __init__(self, number, place):
        super().__init__(number, place)
        self.number, self.place = number, place


class Recording:
    """The lines of an input, how many were read, the store that answers, and the trace so far."""

    def __init__(self, text, is_older, limits):
        self.lines = text.split(b"\n")
        if not self.lines[-1]:
            self.lines.pop()
        ring = self.lines and RING.fullmatch(self.lines[0])
        self.at = bool(ring and int(ring[1]) <= lines.MOST_RING)
        count = int(ring[1]) if self.at else 256
        self.is_older = is_older
        self.store = (traces.OlderStore if is_older else Store)(count, 1, 0, *limits)
        self.given = [b"trace 1 1 0 %d" % count if is_older else b"trace 2 1 0 %d %d %d" % (count, *limits)]

    def entry(self):
        """Records one entry."""
        line = self.lines[self.at]
        self.at += 1
        mark = b"> " if line[:1].isdigit() else b"> 0 "
        if len(mark + line) > lines.LONGEST:
            raise Bad(self.at, lines.LONGEST - len(mark))
        rest = line
        if line[:1].isdigit():
            mask = PASS.match(line)
            if not mask or int(mask[1]) > traces.MOST_PASS:
                raise Bad(self.at, 0)
            rest = line[mask.end() :]
        before = len(line) - len(rest)
        if lines.WORD.match(rest)[0] == b"merge":
            count = self.count(rest, before)
            first = self.at
            items = [self.item() for _ in range(count)]
            asked, answer = [mark + line, *self.lines[first : self.at]], self.store.merge(items)
        else:
            asked, answer = [mark + line], self.store.answer(*self.command(rest, before))
        self.given += asked + [b"< " + it for it in answer]

    def count(self, text, before):
        """Reads how many items a Merge has; `before` bytes of its line come first."""
        digits = lines.DIGITS.match(text, 6)[0]
        if text[5:6] != b" ":
            raise Bad(self.at, before + 5)
        if not lines.is_number(digits, traces.MOST_ITEMS):
            raise Bad(self.at, before + 6)
        if len(text) > 6 + len(digits):
            raise Bad(self.at, before + 6 + len(digits))
        return int(digits)

    def command(self, text, before):
        """Reads a store's command; `before` bytes of its line come first."""
        try:
            command, taken = lines.read(text, is_first=self.at == 1 and not before)
        except lines.BadLine as bad:
            raise Bad(self.at, before + bad.place) from None
        if command not in traces.ASKED:
            raise Bad(self.at, before)
        if command == b"offer":
            self.carry(taken[0], before + 6)
        return command, taken

    def item(self):
        """Reads the next line, which is an item's."""
        self.at += 1
        line = self.lines[self.at - 1] if self.at <= len(self.lines) else b""
        if len(line) > lines.LONGEST:
            raise Bad(self.at, lines.LONGEST)
        if not line.startswith(b"+ "):
            raise Bad(self.at, 0)
        try:
            item = lines.item(line[2:])
        except lines.BadLine as bad:
            raise Bad(self.at, bad.place - len(b"offer ") + 2) from None
        self.carry(item, 2)
        return item

    def carry(self, item, place):
        """Checks that the format has such an item: format 1 has no floors."""
        if self.is_older and isinstance(item, lines.Floor):
            raise Bad(self.at, place)


def record(text, is_older=False, limits=(128, 4096)):
    """Returns what `dsctl record` writes for an input, what it prints on standard error, and its status."""
    recording = Recording(text, is_older, (64, 1024) if is_older else limits)
    try:
        while recording.at < len(recording.lines):
            recording.entry()
    except Bad as bad:
        return traces.text_of(recording.given), b"badline %d %d\n" % (bad.number, bad.place), 1
    return traces.text_of(recording.given), b"", 0

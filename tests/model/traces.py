"""A second opinion on traces, written from the rules of their format: the verdict on one as `dsctl verify` prints it, and one of
format 1 in format 2, as `dsctl upgrade` writes it."""
import functools
import re

from . import lines
from .store import LAST_PLACE, LABEL, RS, Refused, Store

HEADER = re.compile(rb"trace (?:1|2) (0|[1-9][0-9]*) (0|[1-9][0-9]*) ([1-9][0-9]*)(?: ([1-9][0-9]*) ([1-9][0-9]*))?")
HEAD = re.compile(rb"> (0|[1-9][0-9]?) (.*)", re.DOTALL)
MERGE = re.compile(rb"merge (0|[1-9][0-9]{0,2})")
MOST_PASS = 63
MOST_ITEMS = 256
ASKED = [b"offer", b"publish", b"delete", b"sweep", b"retrieve", b"nameof", b"subscribe", b"check", b"since", b"snapshot", b"page"]
NO_ROOM = [b"refused noroom"]


class Wrong(Exception):
    """The line of this number is the first that is wrong; `word` is its fault: unreadable or illegal."""

    def __init__(self, word, number):
        super().__init__(word)
        self.word, self.number = word, number


class OlderStore(Store):
    """A store of format 1, whose sweeps leave tombstones. `swept` has those of the last one, each its line and the bits owed for it."""

    def sweep(self, caller, owner, generation):
        """Leaves a tombstone over each live entry of the owner's up to the generation."""
        if caller != RS:
            raise Refused("notallowed")
        gone = [key for key in sorted(self.held) if self.is_swept(key, owner, generation)]
        if self.position() + len(gone) > LAST_PLACE:
            raise Refused("worn")
        self.swept = []
        for key in gone:
            answer = self.take(key, owner, (generation, lines.MOST_NUMBER), None)
            self.swept.append((self.accepted[-1][1], sum(int(it.split()[1], 16) for it in answer[1:])))
        return [b"swept %d" % len(gone)] + self.mask_line(self.owed_for(self.swept))

    def owed_for(self, swept):
        """Returns the bits that are owed for some tombstones together."""
        return functools.reduce(int.__or__, (owed for _, owed in swept), 0)

    def merges(self):
        """Yields the last sweep's tombstones as Merges, each by its lines after `> PASS `."""
        for at in range(0, len(self.swept), MOST_ITEMS):
            part = self.swept[at : at + MOST_ITEMS]
            yield [b"merge %d" % len(part)] + [b"+ " + line for line, _ in part] + [
                b"< " + it for it in [b"merged %d %d 0" % (len(part), len(part))] + self.mask_line(self.owed_for(part))
            ]

    def is_swept(self, key, owner, generation):
        """Returns whether a sweep ends what is held for the key."""
        of, version, value = self.held[key]
        return key[1] != LABEL and value is not None and of == owner and version[0] <= generation


class Trace:
    """The lines of a trace, the one that comes next, and the store that answers."""

    def __init__(self, text):
        self.lines = text.split(b"\n")
        if not self.lines[-1]:
            self.lines.pop()
        self.at = 0

    def next(self, word):
        """Returns the next line; `word` is the fault if there is none."""
        self.at += 1
        if self.at > len(self.lines) or len(self.lines[self.at - 1]) > lines.LONGEST:
            raise Wrong(word, self.at)
        return self.lines[self.at - 1]

    def header(self):
        """Opens the store that the header names."""
        line = self.next("badline")
        read = HEADER.fullmatch(line)
        is_older = line.startswith(b"trace 1")
        if not read or is_older != (read[4] is None):
            raise Wrong("badline", 1)
        incarnation, first, ring = (int(it) for it in read.groups()[:3])
        limits = (64, 1024) if is_older else (int(read[4]), int(read[5]))
        if incarnation > lines.MOST_LONG or first > LAST_PLACE or ring > lines.MOST_RING or limits not in [(64, 1024), (128, 4096)]:
            raise Wrong("badline", 1)
        self.is_older = is_older
        self.store = (OlderStore if is_older else Store)(ring, incarnation, first, *limits)

    def entry(self):
        """Judges one entry."""
        read = HEAD.fullmatch(self.next("badline"))
        if not read or int(read[1]) > MOST_PASS:
            raise Wrong("badline", self.at)
        merge = MERGE.fullmatch(read[2])
        if merge and int(merge[1]) <= MOST_ITEMS:
            items = [self.item() for _ in range(int(merge[1]))]
            self.merge(items)
            return
        try:
            command, taken = lines.read(read[2])
        except lines.BadLine:
            raise Wrong("badline", self.at) from None
        if command not in ASKED or command == b"offer" and not self.is_carried(taken[0]):
            raise Wrong("badline", self.at)
        if not self.is_noroom():
            self.replies(self.store.answer(command, taken))

    def item(self):
        """Reads one item of a Merge."""
        line = self.next("badline")
        try:
            item = lines.item(line[2:])
        except lines.BadLine:
            raise Wrong("badline", self.at) from None
        if not line.startswith(b"+ ") or not self.is_carried(item):
            raise Wrong("badline", self.at)
        return item

    def is_carried(self, item):
        """Returns whether the format has such an item: format 1 has no floors."""
        return not (self.is_older and isinstance(item, lines.Floor))

    def merge(self, items):
        """Judges the reply to a Merge, which memory may stop after some of its items."""
        if self.is_noroom():
            return
        stop = re.fullmatch(rb"< stopped (0|[1-9][0-9]{0,2}) noroom", self.peek())
        if not stop or int(stop[1]) >= len(items):
            self.replies(self.store.merge(items))
            return
        first, *owed = self.store.merge(items[:int(stop[1])])
        if not first.startswith(b"merged"):
            raise Wrong("illegal", self.at + 1)
        self.replies([b"stopped %d noroom" % int(stop[1])] + owed)

    def peek(self):
        """Returns the line that comes next, or nothing."""
        return self.lines[self.at] if self.at < len(self.lines) else b""

    def is_noroom(self):
        """Returns whether the reply is `refused noroom`; then it is passed over."""
        is_so = self.peek() == b"< " + NO_ROOM[0]
        self.at += is_so
        return is_so

    def replies(self, wanted):
        """Checks that the next lines are those of the reply."""
        for line in wanted:
            if self.next("illegal") != b"< " + line:
                raise Wrong("illegal", self.at)

    def upgraded(self, given):
        """Returns the lines of an entry of format 1, which was judged, in format 2: a sweep becomes the Merges of its tombstones, if it left any."""
        mark, number, asked = given[0].split(b" ", 2)
        if not asked.startswith(b"sweep "):
            return given
        if not given[1].startswith(b"< swept "):
            return []
        return [line for first, *more in self.store.merges() for line in [b"%s %s %s" % (mark, number, first), *more]]


def verify(text):
    """Returns the output of `dsctl verify` for a trace, and its status."""
    trace, count = Trace(text), 0
    try:
        trace.header()
        while trace.at < len(trace.lines):
            trace.entry()
            count += 1
    except Wrong as wrong:
        return b"%s %d\n" % (wrong.word.encode(), wrong.number), 1
    return b"legal %d\n" % count, 0


def upgrade(text):
    """Returns the output of `dsctl upgrade` for a trace, its standard error, and its status."""
    trace, given = Trace(text), []
    try:
        trace.header()
        if not trace.is_older:
            return b"", b"already 2\n", 1
        given.append(trace.lines[0].replace(b"trace 1", b"trace 2") + b" 64 1024")
        while trace.at < len(trace.lines):
            first = trace.at
            trace.entry()
            given += trace.upgraded(trace.lines[first : trace.at])
    except Wrong as wrong:
        return text_of(given), b"%s %d\n" % (wrong.word.encode(), wrong.number), 1
    return text_of(given), b"", 0


def text_of(given):
    """Returns the text of lines."""
    return b"".join(it + b"\n" for it in given)

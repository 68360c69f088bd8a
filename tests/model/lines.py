"""The lines of a script, read in parts from left to right.

A bad line is reported by the byte where its first unreadable part begins. Each reader returns what its part means, a value as
it is spelled.
"""
import functools
import re
from collections import namedtuple

LONGEST = 4096  # bytes of a line, its newline not counted
MOST_GENERATION = 2097151
MOST_SLOT = 1023
MOST_NUMBER = 4294967295  # of a sequence number and of a u32
MOST_TEXT = 256  # bytes of a str
MOST_BLOB = 1024  # bytes of a mem
MOST_WORD = 4294967295  # of the number of a subscription, and of how many items are asked for or delivered
MOST_LONG = 18446744073709551615  # of a map, a message, an incarnation, a position, a tick, a cause and a request
MOST_RING = 4096  # changes that a journal has room for
MOST_UNIT = 255  # of a major number and of a port
KINDS = [b"label", b"u32", b"str", b"mem"]  # in the order of keys
NAME = re.compile(rb"[A-Za-z0-9._-]*")
WORD = re.compile(rb"[A-Za-z0-9]*")
DIGITS = re.compile(rb"[0-9]*")
NUMBER = re.compile(rb"0|[1-9][0-9]*")
ENDPOINT = re.compile(rb"([0-9]+)/([0-9]+)|")
HEX = re.compile(rb"[0-9a-f]*")
QUOTED = re.compile(rb'"(?:[ !#-\[\]-~]|\\["\\])*"|')
ESCAPED = re.compile(rb"\\(.)")
PATTERN = re.compile(rb'"(?:[^"\\\n]|\\["\\])*"|')
BEGINNING = re.compile(rb"-(?![A-Za-z0-9._-])(?! (?:label|u32|str|mem)(?![A-Za-z0-9]))")  # a dash that doesn't begin a name
ALL = re.compile(rb"\*")
BYTE = re.compile(rb".?", re.DOTALL)
REST = re.compile(rb".*", re.DOTALL)


# An item: a change, whose value is as it is spelled, or None for a tombstone; or the floor of an owner.
Change = namedtuple("Change", "key owner version value")
Floor = namedtuple("Floor", "owner generation")


class BadLine(Exception):
    """A line that can't be read; `place` is where its first bad part begins."""

    def __init__(self, place):
        super().__init__(place)
        self.place = place


class Reader:
    """Reads a line's parts from left to right."""

    def __init__(self, line):
        self.line = line
        self.at = 0

    def part(self, run, is_good):
        """Reads the longest run here as one part, which must be good."""
        text = run.match(self.line, self.at).group()
        if not is_good(text):
            raise BadLine(self.at)
        self.at += len(text)
        return text

    def byte(self, wanted):
        """Reads one byte, a part of its own."""
        if self.line[self.at : self.at + 1] != wanted:
            raise BadLine(self.at)
        self.at += 1

    def end(self):
        """Reads the newline, the last part. (The line is kept without it.)"""
        if self.at < len(self.line):
            raise BadLine(self.at)

    def after_space(self, read, *given):
        """Reads a space, and then by the reader `read`."""
        self.byte(b" ")
        return read(self, *given)


def is_number(text, most):
    """Returns whether a text is a decimal without leading zeros that isn't above `most`."""
    return NUMBER.fullmatch(text) is not None and int(text) <= most


def numbers_of(text):
    """Returns the generation and the slot of an endpoint's text, or None."""
    found = text and ENDPOINT.fullmatch(text)
    if not found or not is_number(found[1], MOST_GENERATION) or not is_number(found[2], MOST_SLOT):
        return None
    return int(found[1]), int(found[2])


def is_quoted(text):
    """Returns whether a text in quotes has at most 256 bytes without its backslashes."""
    return text != b"" and len(ESCAPED.sub(rb"\1", text[1:-1])) <= MOST_TEXT


def is_hex(text):
    """Returns whether hex digits spell at most 1024 bytes."""
    return len(text) % 2 == 0 and len(text) <= 2 * MOST_BLOB


def name(reader):
    return reader.part(NAME, lambda it: 1 <= len(it) <= 64)


def number(reader, most):
    return int(reader.part(DIGITS, lambda it: is_number(it, most)))


def word(reader, *words):
    return reader.part(WORD, lambda it: it in words)


def endpoint(reader):
    return numbers_of(reader.part(ENDPOINT, lambda it: numbers_of(it) is not None))


def key(reader):
    """Reads a name and a kind, and returns the name and the kind's place."""
    return name(reader), KINDS.index(reader.after_space(word, *KINDS))


def version(reader):
    """Reads an epoch and a sequence number."""
    epoch = number(reader, MOST_GENERATION)
    reader.byte(b".")
    return epoch, number(reader, MOST_NUMBER)


def value(reader, kind, is_good=lambda it: True):
    """Reads a value of the kind, as it is spelled."""
    run, is_spelled = [
        (ENDPOINT, lambda it: numbers_of(it) is not None),
        (DIGITS, lambda it: is_number(it, MOST_NUMBER)),
        (QUOTED, is_quoted),
        (HEX, is_hex),
    ][kind]
    return reader.part(run, lambda it: is_spelled(it) and is_good(it))


def change(reader):
    """Reads a change."""
    entry = name(reader)
    reader.byte(b" ")
    kind = KINDS.index(reader.part(WORD, lambda it: it in KINDS and (it, entry) != (b"label", b"rs")))
    is_label = kind == 0
    reader.byte(b" ")
    owner = reader.part(NAME, lambda it: it == b"rs" if is_label else 1 <= len(it) <= 64)
    reader.byte(b" ")
    epoch = int(reader.part(DIGITS, lambda it: is_number(it, MOST_GENERATION) and not (is_label and it == b"0")))
    reader.byte(b".")
    seq = number(reader, 1 if is_label else MOST_NUMBER)
    reader.byte(b" ")
    marks = b"=-"[seq : seq + 1] if is_label else b"-" if seq == MOST_NUMBER else b"=-"
    mark = reader.part(BYTE, lambda it: it != b"" and it in marks)
    spelled = None
    if mark == b"=":
        own = b"%d/" % epoch  # a label's generation is its epoch
        spelled = reader.after_space(value, kind, lambda it: not is_label or it.startswith(own))
    return Change((entry, kind), owner, (epoch, seq), spelled)


def floor(reader):
    """Reads a floor."""
    reader.byte(b"!")
    return Floor(reader.after_space(name), reader.after_space(number, MOST_GENERATION))


def offer(reader):
    """Reads what an `offer` takes. No name begins with a floor's mark."""
    return (floor(reader) if reader.line.startswith(b"!", reader.at) else change(reader),)


def put(reader):
    """Reads what a `publish` takes."""
    caller = endpoint(reader)
    overwrite = reader.after_space(word, b"new", b"over") == b"over"
    entry = reader.after_space(key)
    numbered = reader.after_space(version)
    reader.byte(b" ")
    reader.byte(b"=")
    return caller, entry, numbered, reader.after_space(value, entry[1]), overwrite


def deletion(reader):
    """Reads what a `delete` takes."""
    return endpoint(reader), reader.after_space(key), reader.after_space(version)


def sweep(reader):
    """Reads what a `sweep` takes."""
    return endpoint(reader), reader.after_space(name), reader.after_space(number, MOST_GENERATION)


def query(reader):
    """Reads a pattern, any bytes but the newline in quotes, and a mask of kinds."""
    spelled = reader.part(PATTERN, lambda it: it != b"")
    kinds = int(reader.after_space(Reader.part, DIGITS, lambda it: is_number(it, 15) and it != b"0"))
    return ESCAPED.sub(rb"\1", spelled[1:-1]), kinds


def is_at(reader, run):
    """Returns whether such a run begins here."""
    return run.match(reader.line, reader.at) is not None


def scope(reader):
    """Reads a scope. Returns None for all keys, which is written `*`, or a query."""
    if is_at(reader, ALL):
        reader.byte(b"*")
        return None
    return query(reader)


def after(reader):
    """Reads where a page begins. Returns None for the first page, which is written `-`, or the key that it begins after."""
    if is_at(reader, BEGINNING):
        reader.byte(b"-")
        return None
    return key(reader)


def subscription(reader):
    """Reads what a `subscribe` takes."""
    sub = number(reader, MOST_WORD)
    asked = reader.after_space(query)
    initial = reader.after_space(word, b"first", b"later") == b"first"
    return sub, asked, initial, reader.after_space(word, b"new", b"over") == b"over"


def check(reader):
    """Reads what a `check` takes."""
    return number(reader, MOST_WORD), reader.after_space(number, MOST_WORD)


def ring(reader):
    """Reads what a `ring` takes."""
    return (int(reader.part(DIGITS, lambda it: is_number(it, MOST_RING) and it != b"0")),)


def since(reader):
    """Reads what a `since` takes: a cursor, how many items at most, and the scope, which is written first."""
    asked = scope(reader)
    incarnation = reader.after_space(number, MOST_LONG)
    return incarnation, reader.after_space(number, MOST_LONG), reader.after_space(number, MOST_WORD), asked


def page(reader):
    """Reads what a `page` takes: how many changes at most, what it begins after, and the scope, which is written first."""
    asked = scope(reader)
    last = reader.after_space(after)
    return reader.after_space(number, MOST_WORD), last, asked


def is_holder(text):
    """Returns whether a text is a side, or `m` and the number of a map."""
    return text in (b"a", b"b") or text[:1] == b"m" and is_number(text[1:], MOST_LONG)


def holder(reader):
    """Reads a holder. Returns a side as it is written, or the number of a map."""
    text = reader.part(WORD, is_holder)
    return int(text[1:]) if text[:1] == b"m" else text


def count(reader):
    """Reads a count. Returns None for all items, which is written `*`, or how many."""
    if is_at(reader, ALL):
        reader.byte(b"*")
        return None
    return number(reader, MOST_WORD)


def delivery(reader):
    """Reads what a `deliver` takes."""
    return number(reader, MOST_LONG), reader.after_space(holder), reader.after_space(count)


def restart(reader):
    """Reads what a `restart` takes."""
    return side(reader), reader.after_space(number, MOST_LONG)


def side(reader):
    """Reads one of the two stores."""
    return word(reader, b"a", b"b")


def server(reader):
    """Reads one of the two driver tables."""
    return word(reader, b"file", b"net")


def settings(reader):
    """Reads what a `settings` takes: the rest of the line."""
    return (reader.part(REST, lambda it: True),)


def service(reader):
    """Reads what a `service` takes: what RS must do, with which service, and when."""
    asked = word(reader, b"up", b"down", b"refresh", b"restart")
    return asked, reader.after_space(name), reader.after_space(number, MOST_LONG)


def death(reader):
    """Reads what a `death` takes."""
    return endpoint(reader), reader.after_space(number, MOST_LONG), reader.after_space(number, MOST_LONG)


def beat(reader):
    """Reads what a `beat` takes."""
    return endpoint(reader), reader.after_space(number, MOST_LONG)


def assignment(reader):
    """Reads what an `assign` takes: whose table, the unit, its class, which only a file server's units have, and the label."""
    table = server(reader)
    unit = reader.after_space(number, MOST_UNIT)
    kind = reader.after_space(word, b"block", b"character") if table == b"file" else b"network"
    return table, unit, kind, reader.after_space(name)


def submission(reader):
    """Reads what a `submit` takes: whose table, the request, its unit, and the map that is followed first."""
    table = server(reader)
    request = reader.after_space(number, MOST_LONG)
    return table, request, reader.after_space(number, MOST_UNIT), reader.after_space(number, MOST_LONG)


def reply(reader):
    """Reads what a `reply` takes."""
    return server(reader), reader.after_space(endpoint), reader.after_space(number, MOST_LONG)


# The readers of what each command takes after its word and a space; `show` and `all` take nothing.
COMMANDS = {
    b"offer": offer,
    b"show": None,
    b"all": None,
    b"publish": put,
    b"delete": deletion,
    b"sweep": sweep,
    b"retrieve": lambda reader: (key(reader),),
    b"nameof": lambda reader: (endpoint(reader),),
    b"subscribe": subscription,
    b"check": check,
    b"map": lambda reader: (query(reader),),
    b"entries": lambda reader: (number(reader, MOST_LONG),),
    b"ring": ring,
    b"since": since,
    b"snapshot": lambda reader: (scope(reader),),
    b"page": page,
    b"side": lambda reader: (side(reader),),
    b"deliver": delivery,
    b"clear": lambda reader: (number(reader, MOST_LONG),),
    b"restart": restart,
    b"settings": settings,
    b"service": service,
    b"death": death,
    b"beat": beat,
    b"tick": lambda reader: (number(reader, MOST_LONG),),
    b"assign": assignment,
    b"follow": lambda reader: (number(reader, MOST_LONG),),
    b"submit": submission,
    b"reply": reply,
}


@functools.lru_cache(maxsize=16384)
def read(line, is_first=False):
    """Reads a line without its newline: its command word, and what the command takes. Only the first line may be a `ring`.

    The last results are kept: scripts repeat lines, each script is read unchanged and with bad lines, and items are read from lines.
    """
    if len(line) > LONGEST:
        raise BadLine(LONGEST)
    reader = Reader(line)
    command = reader.part(WORD, lambda it: it in COMMANDS and (is_first or it != b"ring"))
    taken = () if COMMANDS[command] is None else reader.after_space(COMMANDS[command])
    reader.end()
    return command, taken


def item(line):
    """Reads the line of a change or a floor."""
    return read(b"offer " + line)[1][0]

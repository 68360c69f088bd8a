"""Calls a store in C with the lines of scripts, for tests/programs/c.

The library is loaded as a shared one. A line becomes a request, and the answer with its text becomes the lines that a script would
print, which must be those of tests/model/store.py.
"""
import ctypes
import re

import model

COMMANDS = (b"publish", b"delete", b"sweep", b"retrieve", b"nameof", b"subscribe", b"check", b"since", b"snapshot", b"page", b"merge")
REFUSALS = (
    "badsub toomany toolong badpattern badkind badlabel badversion nocaller notallowed notowner clash stale exists notfound"
    " oldcursor ahead behind full worn noroom badring badfirst"
).split()
WORDS = (
    "changed known swept found named subscribed checked journaled snapped paged merged stopped refused no_request shown bad_line "
    "acted moved"
).split()
LISTED = {"checked": "checked", "journaled": "since", "snapped": "snapshot", "paged": "page"}


class Request(ctypes.Structure):
    _fields_ = [
        *[(it, ctypes.c_uint64) for it in ("incarnation", "position", "text_at", "text_length")],
        *[(it, ctypes.c_uint32) for it in ("command", "generation", "epoch", "seq", "value", "sub", "max")],
        *[(it, ctypes.c_uint16) for it in ("slot", "value_slot")],
        *[(it, ctypes.c_uint8) for it in ("kinds", "overwrite", "initial", "under", "behind", "name_length")],
        ("name", ctypes.c_uint8 * 64),
    ]


class Answer(ctypes.Structure):
    _fields_ = [
        *[(it, ctypes.c_uint64) for it in ("count", "taken", "stale", "before", "after", "pieces")],
        *[(it, ctypes.c_uint32) for it in ("word", "refusal", "epoch", "seq", "value")],
        ("value_slot", ctypes.c_uint16),
        *[(it, ctypes.c_uint8) for it in ("kind", "last")],
        ("owed", ctypes.c_uint8 * 16),
    ]


class Given(ctypes.Structure):
    _fields_ = [("count", ctypes.c_uint64), ("length", ctypes.c_uint64), ("stop", ctypes.c_uint32)]


def loaded(path):
    """Returns the library, with its calls declared."""
    library = ctypes.CDLL(path)
    handle, pointer, size = ctypes.POINTER(ctypes.c_void_p), ctypes.POINTER, ctypes.c_size_t
    library.ds_open.argtypes = [handle, ctypes.c_uint64, ctypes.c_uint64, ctypes.c_uint32]
    library.ds_call.argtypes = [handle, pointer(Request), ctypes.c_char_p, ctypes.c_size_t, pointer(Answer)]
    library.ds_items.argtypes = [handle, ctypes.c_size_t, ctypes.c_char_p, ctypes.c_size_t, pointer(Given)]
    library.ds_call_line.argtypes = [handle, ctypes.c_char_p, ctypes.c_size_t, pointer(Answer)]
    library.ds_text.argtypes = [handle, ctypes.c_size_t, ctypes.c_char_p, ctypes.c_size_t, pointer(Given)]
    library.ds_run.argtypes = [handle, pointer(Request), size, ctypes.c_char_p, size, pointer(Answer), size, pointer(size)]
    library.ds_close.argtypes = [handle]
    library.ds_map_new.argtypes = [handle, ctypes.c_uint8, ctypes.c_char_p, ctypes.c_size_t]
    library.ds_map_take.argtypes = [handle, ctypes.c_char_p, ctypes.c_size_t, pointer(Answer)]
    library.ds_map_label.argtypes = [handle, ctypes.c_char_p, ctypes.c_size_t, pointer(Answer)]
    library.ds_map_close.argtypes = [handle]
    for call in (library.ds_open, library.ds_call, library.ds_run, library.ds_items, library.ds_call_line, library.ds_text, library.ds_close):
        call.restype = ctypes.c_uint32
    for call in (library.ds_map_new, library.ds_map_take, library.ds_map_label, library.ds_map_close):
        call.restype = ctypes.c_uint32
    return library


class Map:
    """A subscriber's map behind a handle."""

    def __init__(self, library):
        self.library, self.handle = library, ctypes.c_void_p()

    def make(self, pattern, kinds):
        """Makes the map. Returns 0, or the number of a refusal."""
        return self.library.ds_map_new(ctypes.byref(self.handle), kinds, pattern, len(pattern))

    def take(self, text):
        return self.told(self.library.ds_map_take, text)

    def label(self, name):
        return self.told(self.library.ds_map_label, name)

    def told(self, call, text):
        answer = Answer()
        called = call(ctypes.byref(self.handle), text, len(text), ctypes.byref(answer))
        return told(answer, [], False) if called == 0 else [f"call {called}"]

    def close(self):
        return self.library.ds_map_close(ctypes.byref(self.handle))


class Session:
    """A store behind a handle, called with lines. Its texts are fetched `room` bytes at a time."""

    def __init__(self, library, room):
        self.library, self.room = library, room
        self.handle = ctypes.c_void_p()

    def open(self, incarnation, first, ring):
        self.close()
        self.first, self.ring = first, ring
        return self.library.ds_open(ctypes.byref(self.handle), incarnation, first, ring)

    def close(self):
        return self.library.ds_close(ctypes.byref(self.handle))

    def answer(self, line):
        """Returns the lines that a script would print."""
        words = line.split()
        if words[0] == b"store":
            return ["ready"] if self.open(*map(int, words[1:4])) == 0 else ["not opened"]
        command, taken = model.read(line)
        if command == b"restart":
            return [f"refused {word}" for word in [self.open(taken[1], self.first, self.ring)] if word] or RESTARTED
        return self.ask(command, line, taken)

    def ask(self, command, line, taken):
        """Returns the lines that a script would print for a command."""
        answer, pieces = self.call(*asked(command, line, taken))
        return told(answer, pieces, command == b"offer")

    def merge(self, text):
        """Merges the items whose lines are in the text, and returns the answer."""
        request = Request()
        request.command, request.text_length = COMMANDS.index(b"merge"), len(text)
        return self.call(request, text)[0]

    def call(self, request, text):
        """Returns the answer to a request, and the pieces of its text."""
        answer = Answer()
        called = self.library.ds_call(ctypes.byref(self.handle), ctypes.byref(request), text, len(text), ctypes.byref(answer))
        if called:
            raise AssertionError(f"call {called}")
        return answer, self.pieces(answer)

    def pieces(self, answer):
        """Fetches all pieces of the last answer's text, as many at a time as fit into the room."""
        room, given, pieces = ctypes.create_string_buffer(self.room), Given(), []
        while len(pieces) < answer.pieces:
            called = self.library.ds_items(ctypes.byref(self.handle), len(pieces), room, self.room, ctypes.byref(given))
            if called or not given.count:
                raise AssertionError(f"piece {len(pieces)} of {answer.pieces} wasn't returned: call {called}, stop {given.stop}")
            text = room.raw[: given.length]
            some = text.splitlines(keepends=True) if answer.word in range(6, 10) else [text]
            if len(some) != given.count:
                raise AssertionError(f"{given.count} pieces are {text!r}")
            pieces += some
        return pieces


class Runs(Session):
    """A session in which one call makes many requests."""

    def ask(self, command, line, taken):
        return self.answers([line], 2)[0]

    def answers(self, lines, places, is_script=True):
        """Returns what a script prints for the lines, each a request, with up to `places` answers a call. Without `is_script` an offer is a Merge."""
        requests, text = (Request * len(lines))(), b""
        commands = [model.read(line) for line in lines]
        for request, line, (command, taken) in zip(requests, lines, commands):
            one, own = asked(command, line, taken)
            ctypes.pointer(request)[0] = one
            request.text_at, text = len(text), text + own
        printed, room = [], (Answer * places)()
        while len(printed) < len(lines):
            at, done = len(printed), ctypes.c_size_t()
            rest = ctypes.cast(ctypes.byref(requests, at * ctypes.sizeof(Request)), ctypes.POINTER(Request))
            called = self.library.ds_run(ctypes.byref(self.handle), rest, len(lines) - at, text, len(text), room, places, ctypes.byref(done))
            if called or not done.value:
                raise AssertionError(f"call {called}, {done.value} answers")
            for answer, (command, _) in zip(room[: done.value], commands[at:]):
                printed.append(told(answer, self.pieces(answer), is_script and command == b"offer"))
        return printed


RESTARTED = ["restarted"]


def asked(command, line, taken):
    """Returns the request of a line, and its text."""
    request, text = Request(), b""
    request.command = COMMANDS.index(b"merge" if command == b"offer" else command)
    if command == b"publish":
        caller, key, version, value, overwrite = taken
        text = valued(request, key[1], value)
        request.overwrite = overwrite
        by(request, caller), keyed(request, key), numbered(request, version)
    elif command == b"delete":
        by(request, taken[0]), keyed(request, taken[1]), numbered(request, taken[2])
    elif command == b"sweep":
        by(request, taken[0]), named(request, taken[1])
        request.value = taken[2]
    elif command == b"retrieve":
        keyed(request, taken[0])
    elif command == b"nameof":
        by(request, taken[0])
    elif command == b"subscribe":
        request.sub, (text, request.kinds), request.initial, request.overwrite = taken
    elif command == b"check":
        request.sub, request.max = taken
    elif command == b"since":
        request.incarnation, request.position, request.max, scope = taken
        text = under(request, scope)
    elif command == b"snapshot":
        text = under(request, taken[0])
    elif command == b"page":
        request.max, after, scope = taken
        text = under(request, scope)
        if after is not None:
            named(request, after[0])
            request.behind = 1 << after[1]
    elif command == b"offer":
        text = line.removeprefix(b"offer ") + b"\n"
    request.text_length = len(text)
    return request, text


def by(request, endpoint):
    request.generation, request.slot = endpoint


def keyed(request, key):
    named(request, key[0])
    request.kinds = 1 << key[1]


def named(request, name):
    request.name_length = len(name)
    request.name[: len(name)] = name


def numbered(request, version):
    request.epoch, request.seq = version


def under(request, scope):
    """Sets the scope, and returns its pattern."""
    if scope is None:
        return b""
    request.under, request.kinds = 1, scope[1]
    return scope[0]


def valued(request, kind, spelled):
    """Sets a label or a number, or returns the bytes of a string or memory."""
    if kind == 0:
        request.value, request.value_slot = map(int, spelled.split(b"/"))
    elif kind == 1:
        request.value = int(spelled)
    elif kind == 2:
        return re.sub(rb"\\(.)", rb"\1", spelled[1:-1])
    else:
        return bytes.fromhex(spelled.decode())
    return b""


def told(answer, pieces, is_offer):
    """Returns what a script prints for the answer."""
    word = WORDS[answer.word]
    refusal = REFUSALS[answer.refusal - 1] if answer.refusal else ""
    refusal += f" {answer.epoch}.{answer.seq}" if refusal == "clash" else ""
    shown = [it.decode()[:-1] for it in pieces] if word in LISTED else []
    counts = f"{len(pieces)} {answer.before} {answer.after}"
    if word == "paged":
        counts = f"{len(pieces)} {'last' if answer.last else 'more'} {answer.before} {answer.after}"
    lines = {
        "changed": "taken",
        "known": "known",
        "swept": f"swept {answer.count}",
        "found": found(answer, pieces),
        "named": f"named {b''.join(pieces).decode('latin1')}",
        "subscribed": f"subscribed {answer.after}",
        "merged": ("taken" if answer.taken else "stale" if answer.stale else "known") if is_offer else f"merged {answer.count} {answer.taken} {answer.stale}",
        "stopped": f"refused {refusal}" if is_offer else f"stopped {answer.count} {refusal}",
        "refused": f"refused {refusal}",
        "no_request": "no request",
        **{it: f"{LISTED[it]} {counts}" for it in LISTED},
    }
    bits = int.from_bytes(bytes(answer.owed), "little")
    return shown + [lines[word]] + ([f"owed {bits:032x}"] if bits else [])


def found(answer, pieces):
    """Returns the line of a found value, spelled as in a script."""
    text = b"".join(pieces)
    spelled = {
        1: f"{answer.value}/{answer.value_slot}",
        2: f"{answer.value}",
        4: '"' + re.sub(r'(["\\])', r"\\\1", text.decode("latin1")) + '"',
        8: text.hex(),
    }
    return f"found {spelled.get(answer.kind)}"

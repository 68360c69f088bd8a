"""Draws calls in C on a driver table over a map, for tests/programs/c, and compares the answers with tests/model.

The model has a map and a table too. What a table learns from a map is the model's `Session.learn`.
"""
import ctypes
import random

import c_calls
import model
from model import session, store, tables

STEPS = 400  # of a drawn run
LABELS = (b"disk", b"tty", b"eth", b"eth1")
CLASSES = ("block", "character", "network", "server")  # in the order of enum ds_rs_class
SERVERS = ("file", "net")  # in the order of enum ds_table_server
FAULTS = {20: "noroom", 30: "oldendpoint", 40: "assigned", 41: "twoids", 42: "nodevice", 43: "notpending"}
MOVED, REFUSED, NO_REQUEST = 17, 12, 13  # of enum ds_word
MOST_ID = 2**64 - 1
CALLS = ("assign", "follow", "submit", "reply", "moves", "new", "close")


class Move(ctypes.Structure):
    _fields_ = [
        ("id", ctypes.c_uint64),
        *[(it, ctypes.c_uint32) for it in ("kind", "generation")],
        *[("slot", ctypes.c_uint16), ("unit", ctypes.c_uint8)],
    ]


class Table:
    """A driver table and a map of all labels, each behind a handle."""

    def __init__(self, library, server, chance):
        self.library, self.chance, self.answer = library, chance, c_calls.Answer()
        self.map, self.table = ctypes.c_void_p(), ctypes.c_void_p()
        for it in CALLS:
            getattr(library, f"ds_table_{it}").restype = ctypes.c_uint32
        refused = library.ds_map_new(ctypes.byref(self.map), 1, b".*", 2), library.ds_table_new(ctypes.byref(self.table), ctypes.c_uint32(server))
        assert refused == (0, 0), refused

    def take(self, lines):
        refused = self.library.ds_map_take(ctypes.byref(self.map), lines, len(lines), ctypes.byref(self.answer))
        assert (refused, self.answer.refusal) == (0, 0), f"{lines}: {refused} {self.answer.refusal}"

    def call(self, call, *words):
        """Makes a call. Returns its refusal, or None, and its moves."""
        refused = getattr(self.library, f"ds_table_{call}")(ctypes.byref(self.table), *words, ctypes.byref(self.answer))
        assert refused == 0, f"{call}: {refused}"
        if self.answer.word == NO_REQUEST:
            return "norequest", []
        fault = FAULTS[self.answer.refusal] if self.answer.refusal else None
        assert self.answer.word == (REFUSED if fault and call in ("assign", "reply") else MOVED), f"{call}: {self.answer.word}"
        return fault, self.moves()

    def moves(self):
        """Fetches the moves, a few at a time."""
        found, room, given = [], (Move * 4)(), ctypes.c_size_t()
        while True:
            size, at = ctypes.c_size_t(self.chance.randrange(1, 5)), ctypes.c_size_t(len(found))
            refused = self.library.ds_table_moves(ctypes.byref(self.table), at, room, size, ctypes.byref(given))
            assert refused == 0 and given.value <= size.value
            found += [told(room[it]) for it in range(given.value)]
            if given.value < size.value:
                assert len(found) == self.answer.count, f"{len(found)} moves, and the answer counts {self.answer.count}"
                return found

    def follow(self):
        return self.call("follow", ctypes.byref(self.map))

    def submit(self, request, unit):
        return self.call("submit", ctypes.byref(self.map), ctypes.c_uint64(request), ctypes.c_uint8(unit))

    def close(self):
        return self.library.ds_table_close(ctypes.byref(self.table)), self.library.ds_map_close(ctypes.byref(self.map))


def told(move):
    """Returns a move as the model has it. The parts that its kind lacks must be 0."""
    endpoint, zeros = (move.generation, move.slot), (0, 0)
    if move.kind == 0:
        assert move.id == 0
        return "start", move.unit, endpoint
    assert move.unit == 0 and (move.kind == 1 or endpoint == zeros), f"{move.kind}"
    return {1: ("send", move.id, endpoint), 2: ("answer", move.id, "done"), 3: ("answer", move.id, "fault"), 4: ("held", move.id)}[move.kind]


class Drawn:
    """Draws calls, and compares each answer with the model's."""

    def __init__(self, library, seed):
        self.chance = random.Random(seed)
        server = seed % 2
        self.table, self.wanted = Table(library, server, self.chance), tables.Table(SERVERS[server])
        self.session, self.map = session.Session(), model.world.Map(store.Query(b".*", 1))
        self.classes = CLASSES[2:3] if server else CLASSES[:2]
        self.generation, self.request, self.sent = 1, 0, [(1, 16)]

    def same(self, what, found, wanted):
        assert found == wanted, f"{what}: {found}, wanted {wanted}"
        self.sent += [it[2] for it in found[1] if it[0] == "send"]

    def learn(self, then=None):
        """Returns what the model's table learns from the map, and then the result of a request."""
        moves = []
        self.session.learn(self.wanted, self.map.held.held, moves)
        try:
            return None, moves + ([then()] if then else [])
        except tables.Refused as refused:
            return str(refused), moves

    def take(self):
        """Takes news of a label, mostly of a new generation."""
        self.generation += self.chance.random() < 0.6
        at = self.chance.randrange(len(LABELS))
        generation = max(1, self.generation - self.chance.choice([0, 0, 0, 0, 1, 2]))
        label, slot = LABELS[at], 16 + (generation + at) % 8
        line = self.chance.choice([b"%s label rs %d.0 = %d/%d" % (label, generation, generation, slot), b"%s label rs %d.1 -" % (label, generation)])
        self.table.take(line + b"\n")
        self.map.merge([model.lines.item(line)])

    def follow(self):
        self.same("follow", self.table.follow(), self.learn())

    def submit(self):
        request = self.chance.choice([self.request + 1, self.request + 1, self.request + 1, self.request + 7, self.request, 0])
        unit = self.chance.randrange(6)
        self.same(f"submit {request} {unit}", self.table.submit(request, unit), self.learn(lambda: self.wanted.submit(request, unit)))
        self.request = max(self.wanted.requests, default=0)

    def reply(self):
        pending = self.wanted.pending()
        request = self.chance.choice(pending) if pending and self.chance.random() < 0.8 else self.chance.randrange(self.request + 2)
        last = self.wanted.sends.get(request, [None])[-1]
        endpoint = last if last and self.chance.random() < 0.7 else self.chance.choice(self.sent)
        words = ctypes.c_uint32(endpoint[0]), ctypes.c_uint16(endpoint[1]), ctypes.c_uint64(request)
        self.same(f"reply {endpoint} {request}", self.table.call("reply", *words), self.one(lambda: self.wanted.reply(endpoint, request)))

    def assign(self):
        unit, label, kind = self.chance.randrange(6), self.chance.choice(LABELS), self.chance.choice(CLASSES)
        words = ctypes.c_uint8(unit), ctypes.c_uint8(CLASSES.index(kind)), label, ctypes.c_size_t(len(label))
        wanted = self.one(lambda: self.wanted.assign(unit, kind, label)) if kind in self.classes else ("norequest", [])
        self.same(f"assign {unit} {kind} {label}", self.table.call("assign", *words), wanted)

    def one(self, call):
        try:
            move = call()
            return None, [move] if move else []
        except tables.Refused as refused:
            return str(refused), []

    def run(self):
        for _ in range(3):
            self.assign()
        for _ in range(STEPS):
            self.chance.choice([self.take, self.take, self.follow, self.submit, self.submit, self.submit, self.reply, self.reply, self.assign])()
        self.submit_last()
        assert self.table.close() == (0, 0)

    def submit_last(self):
        """Submits the last id of all twice: none is above it."""
        for _ in range(2):
            self.same("the last id", self.table.submit(MOST_ID, 5), self.learn(lambda: self.wanted.submit(MOST_ID, 5)))


def drawn(library, seed):
    Drawn(library, seed).run()

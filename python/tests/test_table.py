"""Driver tables: drawn calls against the model, and each refusal."""
import random
import unittest

import support  # noqa: F401, I001: it finds the modules of tests/
from model import tables
from pengtawis import (
    Class, Endpoint, Fail, FileTable, Finish, Hold, Items, Map, Moved, NetworkTable, Refused, Rs, Send, StartPort, refusals,
)

DRAWN = 30  # runs of drawn calls
CALLS = 200
LABELS = ("disk", "tty", "eth0")
CLASSES = {FileTable: {"block": Class.BLOCK, "character": Class.CHARACTER}, NetworkTable: {"network": Class.NETWORK}}
SERVERS = {FileTable: "file", NetworkTable: "net"}
MOVES = {
    "start": lambda unit, at: StartPort(unit, Endpoint(*at)), "send": lambda id, at: Send(id, Endpoint(*at)), "done": Finish,
    "fault": Fail, "held": Hold,
}


class Drawn:
    """Calls drawn by a seed: of a table and its map, and of the model of the table."""

    def __init__(self, seed, kind):
        self.chance, self.kind = random.Random(seed), kind
        self.table, self.drivers, self.model = kind(), Map(), tables.Table(SERVERS[kind])
        self.now = {}  # where each label is, or None, by what the map took
        self.generation, self.id = 0, 0

    def news(self):
        """The map takes a new generation of a label, or its end."""
        label = self.chance.choice(LABELS)
        if self.now.get(label) and self.chance.random() < 0.5:
            line, self.now[label] = f"{label} label rs {self.now[label][0]}.1 -\n", None
        elif not self.now.get(label):
            self.generation += 1
            self.now[label] = (self.generation, self.chance.randrange(16, 20))
            line = f"{label} label rs {self.generation}.0 = {self.generation}/{self.now[label][1]}\n"
        else:
            return
        self.drivers.take(Items(line.encode()))

    def followed(self):
        labels = dict.fromkeys(label for _, label in self.model.units.values())
        return [move for label in labels if label in self.now for move in self.model.changed(label, self.now[label])]

    def assign(self):
        unit, label = self.chance.randrange(4), self.chance.choice(LABELS)
        word, service_class = self.chance.choice([*CLASSES[self.kind].items()])
        self.compare(lambda: self.model.assign(unit, word, label), lambda: self.table.assign(unit, service_class, label))

    def follow(self):
        self.equal(self.followed(), None, self.table.follow(self.drivers))

    def submit(self):
        self.id += self.chance.choice([0, 1, 1, 1, 5])
        unit, before = self.chance.randrange(5), self.followed()
        try:
            made, refused = before + [self.model.submit(self.id, unit)], None
        except tables.Refused as fault:
            made, refused = before, str(fault)
        self.equal(made, refused, self.table.submit(self.drivers, self.id, unit))

    def reply(self):
        id = self.chance.choice([*self.model.pending(), self.id, self.id + 1])
        sent = self.model.sends.get(id, [None])
        at = self.chance.choice([sent[-1], sent[-1], sent[0]]) or (9, 16)
        self.compare(lambda: Moved([move_of(self.model.reply(at, id))]), lambda: self.table.reply(Endpoint(*at), id))

    def equal(self, moves, refused, told):
        assert told == ([move_of(it) for it in moves], told.refused), f"{moves} and {told}"
        assert refused == (told.refused and told.refused.word), f"{refused} and {told}"

    def compare(self, model, call):
        assert result_of(model, tables.Refused, str) == result_of(call, Refused, lambda it: it.word)


def move_of(move):
    """Returns a move of the model as the package has it: the model's answers end by `done` or `fault`."""
    word, *parts = (move[2], move[1]) if move[0] == "answer" else move
    return MOVES[word](*parts)


def result_of(call, refusal, word):
    try:
        return call()
    except refusal as refused:
        return word(refused)


class Tables(unittest.TestCase):
    def test_drawn_calls(self):
        for kind in CLASSES:
            for seed in range(DRAWN):
                with self.subTest(kind=kind.__name__, seed=seed):
                    drawn = Drawn(seed, kind)
                    for _ in range(CALLS):
                        drawn.chance.choice([drawn.news, drawn.assign, drawn.follow, drawn.submit, drawn.submit, drawn.reply, drawn.reply])()

    def test_a_class_that_another_server_has(self):
        with FileTable() as files, NetworkTable() as network:
            self.assertRaises(ValueError, files.assign, 1, Class.NETWORK, "eth0")
            self.assertRaises(ValueError, network.assign, 1, Class.BLOCK, "disk")

    def test_what_is_out_of_range_is_no_call(self):
        with FileTable() as table, Map() as drivers:
            for call in (lambda: table.assign(256, Class.BLOCK, "disk"), lambda: table.submit(drivers, 2**64, 0),
                         lambda: table.submit(drivers, 1, -1), lambda: table.reply((2**32, 0), 1)):
                self.assertRaises(ValueError, call)

    def test_only_a_map_is_followed(self):
        with FileTable() as table, Rs("[[service]]\nlabel = 'disk'\nclass = 'block'\nunit = 3\nlimit = 1\n") as rs, Map() as drivers:
            table.assign(3, Class.BLOCK, "disk")
            rs.up("disk", 0)
            for other in (rs, table, None):
                self.assertRaises(TypeError, table.follow, other)
                self.assertRaises(TypeError, table.submit, other, 1, 3)
            self.assertEqual(table.submit(drivers, 1, 3).moves, [Hold(1)])
            self.assertRaises(ValueError, table.assign, 3, "block", "disk")

    def test_after_a_close_nothing_is_known(self):
        table, drivers = FileTable(), Map()
        drivers.close()
        self.assertRaises(refusals.IsClosed, table.follow, drivers)
        table.close()
        self.assertRaises(refusals.IsClosed, table.reply, (1, 16), 1)


if __name__ == "__main__":
    unittest.main()

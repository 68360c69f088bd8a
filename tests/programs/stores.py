"""Draws commands for a store, for tests/programs/store and c.

The store and tests/model/store.py answer them, and must agree. This module also decides which commands may run out of memory. These may
not: a change of a held key, except for a copied text or blob; a tombstone; a floor of an owner that has one; a question for a label or a
number; a restart; and a command that is refused for another reason, except for what a pattern needs.
"""
import behaviour
import causes
import demos
import model

SHORT = 60  # scripts that are refused memory
OPENING = [
    b'subscribe 0 ".*" 15 first new',
    *[b"publish 0/2 new %s label 1.0 = 1/%d" % (name, slot) for name, slot in ((b"eth0", 16), (b"tty", 17), (b"disk", 18))],
    b"publish 1/16 new mtu u32 1.0 = 1500",
]
NOT_COMMANDS = (b"map", b"entries", b"show", b"all")
RING = 5  # items in the journal of every second script


class Session:
    """The model's store, called with lines."""

    def __init__(self):
        self.store = model.Store()

    def answer(self, line, _may=None):
        """Returns the line as the store gets it, and the answers."""
        if line.startswith(b"store "):
            incarnation, first, ring = map(int, line.split()[1:])
            self.store = model.Store(ring, incarnation, first)
            return line.decode(), ["ready"]
        command, taken = model.read(line)
        given = taken[1:] if command == b"restart" else taken  # there is one store, whatever side is named
        return line.decode(), [it.decode() for it in self.store.answer(command, given)]


class Script(demos.Script):
    """Commands for a store, each with why it may be refused memory, if it may."""

    def __init__(self, seed, count, subscribes):
        super().__init__(seed, Session)
        self.left_out = NOT_COMMANDS if subscribes else (b"subscribe", *NOT_COMMANDS)
        self.ask(causes.store(ring=RING if seed % 2 else 256).strip().encode(), None)
        for line in OPENING:
            self.draw(line)
        while len(self.lines) < count:
            self.draw(behaviour.command_by_chance(self.random))
            if self.random.random() < 0.25:
                self.draw(reading_by_chance(self.random, self.model.store))

    def draw(self, line):
        if not line.startswith(self.left_out):
            self.ask(line, may_take(self.model.store, line))

    def may_lack_room(self, command, ample):
        """Returns whether the command, which has this answer with ample memory, may be refused memory."""
        may = command[1]
        if may is SHOWN:
            return not ample[0].startswith(("checked 0", "since 0", "snapshot 0", "page 0", "refused"))
        return may is ANSWERED or may is NEW and ample[0].startswith(("taken", "swept"))


def reading_by_chance(chance, store):
    """Returns a reader's question to the store, or, rarely, a restart."""
    end = len(store.accepted)
    position = chance.choice([end, max(end - 1, 0), max(end - chance.randrange(1, 9), 0), end + (chance.random() < 0.1), 0])
    incarnation = store.incarnation + (chance.random() < 0.05)
    most = chance.choice([1, 1, 2, 3, 256, 256 + (chance.random() < 0.2)])
    scope = chance.choice([b"*", b"*", b'"m.*" 15', b'"eth0|id" %d' % chance.randrange(1, 16), b'".*" 2'])
    if incarnation != store.incarnation or not end - min(store.ring, end) <= position <= end:
        scope = b"*"  # a pattern may take memory, and no answer reports its refusal if the cursor is refused
    after = chance.choice([b"-", b"-", b"eth0 label", b"mac u32", b"id str", b"mtu mem"])
    asked = [b"since %s %d %d %d" % (scope, incarnation, position, most), b"snapshot " + scope, b"page %s %s %d" % (scope, after, most)]
    return b"restart a %d" % (incarnation + 1) if chance.random() < 0.03 else chance.choice(asked)


# Why a command may be refused memory.
ANSWERED = "its pattern is compiled before what comes later in the order is judged"
SHOWN = "it copies what it shows"
NEW = "a key that isn't held, or an owner without a floor, needs a place, and a string or memory is copied to the journal"


def may_take(store, line):
    """Returns why the command may be refused memory in this state, or None if it may not."""
    command, taken = model.read(line)
    if command in (b"since", b"snapshot", b"page"):
        *before, scope = taken
        if command != b"snapshot" and not 1 <= before[0 if command == b"page" else 2] <= 256:
            return None
        return SHOWN if scope is None else ANSWERED if len(scope[0]) <= 128 else None
    if command == b"subscribe":
        sub, (pattern, _), *_ = taken
        return ANSWERED if sub < store.subs and len(pattern) <= 128 else None
    if command == b"check":
        return SHOWN
    if command == b"sweep":
        return None if taken[1] in store.floors else NEW
    if command == b"retrieve":
        return SHOWN if taken[0][1] >= 2 else None
    if command == b"publish":
        return None if taken[1] in store.held and taken[1][1] < 2 else NEW
    if command == b"offer":
        (item,) = taken
        if isinstance(item, model.Floor):
            return None if item.owner in store.floors else NEW
        is_copied = item.key[1] >= 2 and item.value is not None
        return None if item.key in store.held and not is_copied else NEW
    return None


def short_scripts():
    return [Script(1000 + seed, 40, seed % 2 == 0) for seed in range(SHORT)]

"""Lines over a world, drawn so that most cursors, messages and maps exist, and scripts of callers that clash."""
import random

import behaviour
import model
from service_scripts import Services

LINES = 400
OF_RS = (b"service", b"death", b"tick")  # the lines whose answers may start an instance
SCOPES = [b"*", b"*", b"*", b'"m.*" 15', b'"eth0|id" 15', b'".*" 2', b'".*" 13', b'"eth0.*" 3', b'"" 15', b'"(" 15']
QUERIES = [b'".*" 15', b'"eth0.*" 15', b'".*" 1', b'"[a-m].*" 14']


class Script:
    """Lines, and the model's answer to each."""

    def __init__(self, seed):
        self.chance = random.Random(seed)
        self.session = model.Session()
        self.world = self.session.world
        self.lines, self.answers = [], []
        self.faults = []  # what doesn't hold and should
        self.newest = {}  # by holder and label, the greatest generation that was shown since the holder began
        if self.chance.random() < 0.7:
            self.ask(b"ring %d" % self.chance.choice([1, 2, 3, 5, 8, 20, 256, 4096]))
        self.services = Services(self, self.LABELS, self.RIVALS)

    def ask(self, line):
        """Adds a line, and returns the model's answer."""
        self.lines.append(line)
        command, taken = model.read(line, len(self.lines) == 1)
        self.answers.append(self.session.answer(command, taken))
        self.watch(command, taken, self.answers[-1])
        if command in OF_RS:
            self.services.learn(self.answers[-1])
        return self.answers[-1]

    def watch(self, command, taken, answer):
        """Expects that no holder shows an older generation of a label than it did, unless it began again."""
        if command in (b"clear", b"restart"):
            self.newest.pop(taken[0], None)
        if command not in (b"show", b"all", b"entries"):
            return
        newest = self.newest.setdefault(taken[0] if taken else self.world.current, {})
        for name, kind, _, version, *_ in (it.split(b" ") for it in answer[:-1] if not it.startswith(b"!")):
            generation = int(version.partition(b".")[0])
            if kind == b"label":
                self.expect(newest.get(name, 0) <= generation, f"{name} is shown in generation {generation} again")
                newest[name] = generation

    def expect(self, holds, what):
        if not holds:
            self.faults.append(f"line {len(self.lines)}: {what}")

    def store(self):
        """Returns the store of the current side."""
        return self.world.stores[self.world.current]

    def text(self):
        return b"".join(line + b"\n" for line in self.lines)

    def wanted(self):
        return b"".join(line + b"\n" for answer in self.answers for line in answer)

    # ---- lines of a world ----

    def of_world(self):
        """Returns a line that reads a store, or that moves items, or that makes, clears or restarts a holder."""
        draws = [self.reading] * 5 + [self.delivery] * 6 + [self.side] * 2 + [self.holder] * 2
        return self.chance.choice(draws)()

    def side(self):
        return self.chance.choice([b"side a", b"side b"])

    def reading(self):
        """Returns a line that makes a message, unless it is refused."""
        chance, store = self.chance, self.store()
        scope, end = chance.choice(SCOPES), len(store.accepted)
        incarnation = store.incarnation + chance.choice([0] * 12 + [1, -1])
        back = chance.choice([0, 1, 3, chance.randrange(1, 9), end])
        position = max(end - back, 0) + (chance.random() < 0.02)
        most = chance.choice([1, 1, 2, 3, 8, 256, 256, 256 + (chance.random() < 0.1), chance.random() < 0.9])
        after = chance.choice([b"-", b"-", b"eth0 label", b"mac u32", b"id str", b"mtu mem", b"- u32", b"-a label"])
        return chance.choice(
            [
                b"since %s %d %d %d" % (scope, incarnation, position, most),
                b"since %s %d %d %d" % (scope, store.incarnation, position, most),
                b"snapshot " + scope,
                b"page %s %s %d" % (scope, after, most),
            ]
        )

    def delivery(self):
        """Returns a delivery of one of the last messages, or of any, to any holder."""
        chance, there = self.chance, len(self.world.messages)
        number = max(there - 1 - chance.choice([0, 0, 0, 1, 2, chance.randrange(there + 1)]), 0) + (chance.random() < 0.03)
        maps = [b"m%d" % it for it in range(len(self.world.maps) + (chance.random() < 0.1))]
        items = len(self.world.messages[number]) if number < there else 1
        count = chance.choice([b"*", b"*", b"*", b"%d" % chance.randrange(items + 1), b"%d" % (items + (chance.random() < 0.2))])
        return b"deliver %d %s %s" % (number, chance.choice([b"a", b"b", *maps]), count)

    def holder(self):
        """Returns a line about maps, or, rarely, the restart of a store."""
        chance = self.chance
        if chance.random() < 0.1:
            last = max(it.incarnation for it in self.world.stores.values())
            return b"restart %s %d" % (chance.choice([b"a", b"b"]), last + chance.choice([1, 1, 1, 7, 0, -1]))
        number, query = chance.randrange(len(self.world.maps) + 1), chance.choice(QUERIES + SCOPES[3:])
        cleared = [b"clear %d" % number] * (chance.random() < 0.3)
        return chance.choice([*[b"entries %d" % number] * 4, *[b"map " + query] * 2, *cleared, b"show", b"all"])


class Disorderly(Script):
    """Callers that use numbers twice and take each other's names, at both sides, and now and then a crowd of entries.

    They write about RS's services, too.
    """

    LABELS = [b"eth0", b"tty", b"disk", b"mfs"]
    RIVALS = 1

    def __init__(self, seed):
        super().__init__(seed)
        crowded = self.chance.random() < 0.1
        self.services.begin()
        while len(self.lines) < LINES:
            if crowded and self.chance.random() < 0.02:
                self.crowd()
            drawn = self.chance.random()
            self.ask(self.services.line() if drawn < 0.45 else self.of_world() if drawn < 0.7 else behaviour.command_by_chance(self.chance))
        self.services.hold()
        for line in (b"side a", b"all", b"side b", b"all", *(b"entries %d" % it for it in range(len(self.world.maps)))):
            self.ask(line)

    def crowd(self):
        """Asks for more changes than one Merge takes, few of them another owner's, and for their delivery to all holders."""
        chance = self.chance
        odd = chance.randrange(2, 900)
        for at in range(chance.randrange(257, 700)):
            owner = b"tty" if at % odd == odd - 1 else b"disk"
            self.ask(b"offer k%03d u32 %s %d.%d = 7" % (at, owner, chance.randrange(1, 3), at))
        self.ask(b"snapshot *")
        last = len(self.world.messages) - 1
        items = len(self.world.messages[last])
        for holder in [b"a", b"b", *(b"m%d" % it for it in range(len(self.world.maps)))]:
            self.ask(b"deliver %d %s %d" % (last, holder, chance.choice([items, chance.randrange(items)])))


class Full(Script):
    """Every unit of both tables has one of many drivers, and requests for all of them wait while drivers die and come back."""

    LABELS = [b"driver%d" % n for n in range(24)]
    RIVALS = 0

    def __init__(self, seed):
        super().__init__(seed)
        self.services.begin()
        for unit in self.chance.sample(range(256), 256):
            self.ask(b"assign file %d %s %s" % (unit, self.chance.choice([b"block", b"block", b"character"]), self.chance.choice(self.LABELS)))
            self.ask(b"assign net %d %s" % (unit, self.chance.choice(self.LABELS)))
        for _ in range(2 * LINES):
            self.ask(self.services.line())
        self.services.hold()

"""Scripts over a world in which each change has a number of its own and each entry one owner, and what holds in all of them."""
import behaviour
from world_scripts import LINES, QUERIES, Script

DRIVERS = [b"eth0", b"tty", b"disk"]
SLOTS = range(900, 904)  # where RS puts none of its own services


class Orderly(Script):
    """RS and drivers that never use a number twice, each with names of its own, so that equal versions are equal changes.

    Some drivers are started by lines, and others, of other names, by RS's own actions.
    """

    LABELS = [b"rtl8139", b"at_wini", b"console", b"mfs"]
    RIVALS = 0

    def __init__(self, seed):
        super().__init__(seed)
        self.generation = 0
        self.drivers = {}  # the generation and slot of each that was started, and its next number
        for query in QUERIES:
            self.ask(b"map " + query)
        self.services.begin()
        while len(self.lines) < LINES:
            self.step()
        self.services.hold()
        self.agreement()
        self.catch_up()
        stops = [it[0] for it in self.answers if it[0].startswith(b"stopped")]
        self.expect(not stops, f"orderly deliveries are {stops[:1]}")

    def step(self):
        """Asks one line, of RS, a driver or another caller."""
        chance = self.chance
        drawn = chance.random()
        if drawn < 0.4:
            line = self.services.line()
        elif drawn < 0.65:
            line = self.of_world()
        else:
            line = chance.choice([self.start, self.end, self.late, *[self.put] * 8, self.subscriber])()
        self.ask(line)

    def start(self):
        """Returns the line by which RS starts a driver: it publishes the driver's label, over an older one, too."""
        name, slot = self.chance.choice(DRIVERS), self.chance.choice(SLOTS)
        self.generation += 1
        self.drivers[name] = (self.generation, slot, 0)
        return b"publish 0/2 over %s label %d.0 = %d/%d" % (name, self.generation, self.generation, slot)

    def end(self):
        """Returns a line by which RS ends a driver's label, or sweeps what the driver left."""
        name = self.chance.choice(DRIVERS)
        generation, _, _ = self.drivers.get(name, (1, 16, 0))
        return self.chance.choice([b"delete 0/2 %s label %d.1", b"sweep 0/2 %s %d"]) % (name, generation)

    def put(self):
        """Returns a line by which a driver publishes or deletes an entry of its own. Only a store that has its label accepts it."""
        name = self.chance.choice(DRIVERS)
        if name not in self.drivers:
            return self.start()
        generation, slot, number = self.drivers[name]
        self.drivers[name] = (generation, slot, number + 1)
        kind, value = behaviour.value_by_chance(self.chance)
        entry = self.chance.choice([b"mtu", b"mac", b"id"])
        if self.chance.random() < 0.2:
            return b"delete %d/%d %s.%s %s %d.%d" % (generation, slot, name, entry, kind, generation, number)
        return b"publish %d/%d over %s.%s %s %d.%d = %s" % (generation, slot, name, entry, kind, generation, number, value)

    def late(self):
        """Returns a line that offers once more an item that some store accepted."""
        accepted = self.world.stores[self.chance.choice([b"a", b"b"])].accepted
        return b"offer " + self.chance.choice(accepted)[1] if accepted else b"all"

    def subscriber(self):
        """Returns a line by which a subscriber follows a query, or checks."""
        sub, query = self.chance.choice([0, 1, 126, 127]), self.chance.choice(QUERIES)
        begins = [b"subscribe %d %s %s over" % (sub, query, mode) for mode in (b"first", b"later")]
        return self.chance.choice([*begins, *[b"check %d %d" % (sub, most) for most in (1, 2, 8, 256)]])

    # ---- what holds in every orderly world ----

    def message(self, line):
        """Asks a line, and returns the number of the message that it makes."""
        self.ask(line)
        return len(self.world.messages) - 1

    def agreement(self):
        """Expects that replicas which exchanged their snapshots hold the same items, and that a map which got either holds them, too."""
        one, other = self.chance.sample([b"a", b"b"], 2)
        self.ask(b"side " + one)
        first = self.message(b"snapshot *")
        self.ask(b"side " + other)
        second = self.message(b"snapshot *")
        for number, side in self.chance.sample([(first, other), (second, one)], 2):
            self.ask(b"deliver %d %s *" % (number, side))
        there = self.ask(b"all")
        self.ask(b"side " + one)
        here = self.ask(b"all")
        self.expect(here == there, "the replicas differ")
        self.ask(b"clear 0")
        for number in self.chance.sample([first, second, second], 3):
            self.ask(b"deliver %d m0 *" % number)
        held = self.ask(b"entries 0")
        self.expect(held == self.ask(b"show"), "the map of all and the store differ")

    def catch_up(self):
        """Expects that a map which gets a snapshot and what followed it, in any order, holds what the store holds under its query."""
        number = self.chance.randrange(1, len(QUERIES))
        query, store = QUERIES[number], self.store()
        self.ask(b"clear %d" % number)
        messages = [self.message(b"snapshot " + query)]
        position = len(store.accepted)
        for _ in range(self.chance.randrange(1, 30)):
            self.ask(self.chance.choice([self.start, self.end, self.late, *[self.put] * 8])())
        while True:
            answer = self.ask(b"since %s %d %d 3" % (query, store.incarnation, position))
            if answer == [b"refused behind"]:  # the journal is too short: it reads pages
                messages += self.pages(query)
                break
            messages.append(len(self.world.messages) - 1)
            position = int(answer[-1].split()[-1])
            if len(answer) < 4:
                break
        self.chance.shuffle(messages)
        for it in messages:
            self.ask(b"deliver %d m%d *" % (it, number))
        held = self.ask(b"entries %d" % number)
        self.ask(b"clear %d" % number)
        self.ask(b"deliver %d m%d *" % (self.message(b"snapshot " + query), number))
        self.expect(held == self.ask(b"entries %d" % number), "the map that caught up and a new one differ")

    def pages(self, query):
        """Returns the numbers of messages that have all that the store holds under a query."""
        after, numbers = b"-", []
        while True:
            answer = self.ask(b"page %s %s %d" % (query, after, self.chance.choice([1, 2, 256])))
            numbers.append(len(self.world.messages) - 1)
            if answer[-1].split()[2] == b"last":
                return numbers
            after = b" ".join(answer[-2].split(b" ")[:2])

"""Draws systems and their events from a seed, for tests/programs/system.

Services mostly live, and publish what they may. Both servers' maps are fed now and then, late or at once. So requests arrive before a
driver is known, while it lives, and after its end. A service's change is drawn for either store, and is repeated.
"""
import random

from model import restarts, system

LABELS = ["disk", "eth0", "tty", "log"]
CLASSES = {"disk": "block", "eth0": "network", "tty": "character", "log": "server"}
NAMES = ["mtu", "mac"]  # what a service publishes, each its own
SETTLED = b"system 1 1 0 256 2 0 256"  # how most begin
BEGINNINGS = [b"system 2097150 1 0 256 2 0 256", b"system 1 1 0 2 2 7 4096", b"system 1 1 4611686018427387900 256 2 0 256", b"system 1 2 0 256 1 0 256"]
REFUSED = [b"system 0 1 0 0 1 0 256", b"system 1 1 0 0 1 0 256", b"system 1 1 0 256 2 4611686018427387905 256", b"system 1 1 0 256 1 0 256"]


class Drawn:
    """A drawn part."""

    def __init__(self, seed, count):
        self.chance, self.now, self.lines, self.side = random.Random(seed), 0, [], b"a"
        first = self.chance.choice([SETTLED] * 8 + BEGINNINGS + REFUSED)
        chosen = LABELS[: self.chance.randrange(1, 5)]
        slots = self.chance.choice(["", "", f"slots = {len(chosen)}\n", "slots = 1\n"])
        services = [self.service(unit, label) for unit, label in enumerate(chosen)]
        self.head = first + b"\n" + f"{slots}service = {restarts.toml(services)}\nend\n".encode()
        try:
            self.model = system.System(*system.Part(self.head).begun)
        except system.Refused:
            return
        for label in chosen[: self.chance.randrange(len(chosen) + 1)]:
            self.ask(b"service up %s 0" % label.encode())
        while len(self.lines) < count:
            self.ask(self.line())

    def service(self, unit, label):
        """Returns a service of the settings."""
        kind, chance = CLASSES[label], self.chance
        table = {"label": label, "class": kind, **({} if kind == "server" else {"unit": unit})}
        if chance.random() < 0.4:
            table["period"] = chance.choice([1, 3, 10])
        return {**table, "limit": chance.choice([0, 1, 3, 1000]), "publishes": [f"{label}.{name}" for name in NAMES]}

    def text(self):
        return self.head + b"".join(it + b"\n" for it in self.lines)

    def ask(self, line):
        """Adds an event, which also happens in the model."""
        self.lines.append(line)
        self.model.world.current = self.side
        self.model.happen(line)

    def line(self):
        """Returns the next event. Events that prepare it are added first."""
        kinds = [self.service_event] * 6 + [self.written] * 6 + [self.again] * 2 + [self.fed] * 5 + [self.submit] * 4 + [self.reply] * 3
        return self.chance.choice([*kinds, self.follow, self.question, self.of_world])()

    # ---- RS and its services ----

    def label(self):
        known = [*self.model.rs.services]
        return self.chance.choice(known if self.chance.random() < 0.95 else ["nobody"]).encode()

    def living(self):
        """Returns the label of a service, mostly of one that is up."""
        up = [label for label, state in self.model.rs.states.items() if state[0] == "up"]
        return self.chance.choice(up).encode() if up and self.chance.random() < 0.8 else self.label()

    def endpoint(self):
        """Returns an endpoint, mostly of an instance that lives, or of an earlier one."""
        up = [state[1] for state in self.model.rs.states.values() if state[0] == "up"]
        near = (max(self.model.rs.next - 2, 1), 16)
        return self.chance.choice(up) if up and self.chance.random() < 0.85 else near

    def service_event(self):
        chance = self.chance
        self.now += chance.choice([0, 1, 2, 5])
        drawn = chance.random()
        if drawn < 0.3:
            return b"tick %d" % self.now
        if drawn < 0.5:
            return b"death %d/%d %d %d" % (*self.endpoint(), chance.choice([1, 4, 5, 6, 7]), self.now)
        if drawn < 0.6:
            return b"beat %d/%d %d" % (*self.endpoint(), self.now)
        return b"service %s %s %d" % (chance.choice([b"up", b"up", b"down", b"refresh", b"restart"]), self.label(), self.now)

    def written(self):
        """Returns a service's put or remove, mostly of what it declares, to the current store, or now and then to the other one."""
        chance, label = self.chance, self.living()
        if chance.random() < 0.1:
            self.side = b"b" if self.side == b"a" else b"a"
            self.lines.append(b"side " + self.side)
        of = label if chance.random() < 0.95 else self.label()
        name = of + b"." + chance.choice(NAMES).encode()
        if chance.random() < 0.25:
            return b"remove %s %s %s" % (label, name, chance.choice([b"u32", b"str"]))
        kind, value = chance.choice([(b"u32", b"1500"), (b"u32", b"%d" % self.now), (b"str", b"00-16"), (b"str", b"up"), (b"str", b"7"), (b"mem", b"00")])
        return b"put %s %s %s %s" % (label, name, kind, value)

    def again(self):
        return b"again %d" % self.chance.randrange(len(self.model.made) + 1)

    # ---- the world ----

    def fed(self):
        """Delivers what the store holds, or took last, to a map or a store. Returns an event of the servers, which mostly look then."""
        chance, world = self.chance, self.model.world
        store = world.stores[self.side]
        since = b"since * %d %d 256" % (store.incarnation, max(store.position() - chance.randrange(1, 5), store.first))
        self.ask(chance.choice([b"snapshot *", since, since, b"page * - 256"]))
        if world.messages:
            last = len(world.messages) - 1
            number = last if chance.random() < 0.8 else chance.randrange(last + 1)
            holder = chance.choice([b"m0", b"m0", b"m1", b"m1", b"a", b"b"])
            count = b"*" if chance.random() < 0.8 else b"%d" % chance.randrange(len(world.messages[number]) + 1)
            self.ask(b"deliver %d %s %s" % (number, holder, count))
        return chance.choice([self.follow, self.submit, self.submit])()

    def question(self):
        chance = self.chance
        asked = [b"nameof %d/%d" % self.endpoint(), b"retrieve %s label" % self.label(), b"retrieve %s.mac str" % self.label()]
        return chance.choice([*asked, b'subscribe 0 ".*" 15 first over', b"check 0 256", b'snapshot "eth.*" 15', b"check 0 1"])

    def of_world(self):
        chance, world = self.chance, self.model.world
        least = 1 + max(store.incarnation for store in world.stores.values())
        others = [b"sweep 0/2 %s 9" % self.label(), b"offer eth0 label rs 9.0 = 9/16", b"deliver 99 m0 *", b"clear 7"]
        return chance.choice([b'map ".*" 15', b'map "(" 15', b"clear 0", b"clear 1", b"restart %s %d" % (self.side, least), b"restart a 1", *others])

    # ---- the servers ----

    def follow(self):
        return b"follow 0"

    def submit(self):
        """Returns a request, mostly for a unit that exists, and with a number above all before."""
        chance, server = self.chance, self.chance.choice([b"file", b"file", b"net"])
        table = self.model.tables[server]
        number = max(table.requests, default=0) + (chance.random() < 0.95)
        unit = chance.choice([*table.units]) if table.units and chance.random() < 0.9 else 99
        return b"submit %s %d %d 0" % (server, number, unit)

    def reply(self):
        """Returns a reply, mostly to a request that was sent, and by the endpoint that it was last sent to."""
        chance, tables = self.chance, self.model.tables
        sending = [name for name, table in tables.items() if any(it in table.sends for it in table.pending())]
        server = chance.choice(sending or [*tables])
        table = tables[server]
        sent = [it for it in table.pending() if it in table.sends]
        number = chance.choice(sent) if sent and chance.random() < 0.9 else 99
        endpoint = table.sends[number][-1] if number in table.sends and chance.random() < 0.85 else self.endpoint()
        return b"reply %s %d/%d %d" % (server, *endpoint, number)


def text_of(seed, count):
    """Returns a part of about `count` lines, drawn from a seed."""
    return Drawn(seed, count).text()

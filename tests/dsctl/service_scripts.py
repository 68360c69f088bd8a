"""Lines to RS and to the driver tables, drawn so that mostly an instance lives, time advances, and a map holds something."""
import behaviour
from model import restarts

CLASSES = ["block", "character", "network", "server"]
# The usual requests for a service in each state.
SENSIBLE = {
    "down": [b"up"],
    "up": [b"refresh", b"refresh", b"down"],
    "waiting": [b"restart", b"up", b"down"],
    "gaveup": [b"restart", b"up"],
}
FAULTY = [b"[[service", b"slots = 0", b"slot = 8", b"service = [{}]", b'service = [{label = "rs", class = "server"}]']


class Services:
    """Draws such lines for a script, by what its session knows. If there are rivals, others write about RS's services, too."""

    def __init__(self, script, labels, rivals):
        self.script, self.chance, self.session = script, script.chance, script.session
        self.labels, self.rivals = labels, rivals
        self.now = 0
        self.started = [(1, 16)]  # endpoints that were started
        self.numbers = {}  # of each endpoint that published, its last number

    def begin(self):
        """Asks for a map of labels, some units, and mostly settings."""
        chance = self.chance
        self.script.ask(b'map ".*" ' + chance.choice([b"1", b"15"]))
        for _ in range(chance.randrange(2, 6)):
            self.script.ask(self.assign())
        if chance.random() < 0.3:
            self.script.ask(b"settings " + chance.choice(FAULTY))
        if chance.random() < 0.85:
            self.script.ask(self.settings())

    def line(self):
        """Returns the next line. (Lines that prepare it are in the script already.)"""
        to_rs = [self.time] * 5 + [self.request] * 5 + [self.death] * 5 + [self.beat] * 3 + [self.published] * 3 + [self.rival] * self.rivals
        if self.session.rs is None or self.chance.random() < 0.01:
            to_rs += [self.settings] * 8
        to_tables = [self.feed] * 4 + [self.follow] + [self.submit] * 8 + [self.reply] * 7 + [self.assign] * (self.chance.random() < 0.3)
        return self.chance.choice(self.chance.choice([to_rs, to_tables]))()

    def learn(self, answer):
        """Notes which instances an answer of RS starts, and returns their endpoints by label."""
        starts = [it.split(b" ") for it in answer if it.startswith(b"start ")]
        found = {label: tuple(map(int, endpoint.split(b"/"))) for _, label, endpoint in starts}
        self.started += found.values()
        return found

    # ---- lines to RS ----

    def settings(self):
        """Returns a line with the settings of some services, one of each label."""
        chance = self.chance
        if chance.random() < 0.03:
            return b"settings slots = %d" % chance.choice([1, 8, 1008, 1009])
        chosen = chance.sample(self.labels, chance.randrange(1, len(self.labels) + 1))
        services = [self.service_table(unit, label.decode()) for unit, label in enumerate(chosen)]
        return b"settings service = " + restarts.toml(services).encode()

    def service_table(self, unit, label):
        chance = self.chance
        kind = chance.choice(CLASSES)
        table = {"label": label, "class": kind, **({} if kind == "server" else {"unit": unit})}
        if chance.random() < 0.5:
            table["period"] = chance.choice([0, 1, 3, 10, 10, 1000000])
        if chance.random() < 0.9:
            table["limit"] = chance.choice([0, 1, 2, 3, 7, 1000, 1000])
        if chance.random() < 0.3:
            table["publishes"] = [f"{label}.{it}" for it in chance.sample(["mtu", "mac", "id"], 2)]
        return table

    def when(self):
        """Returns the time now, or, rarely, a time that is past, or one that never comes."""
        late = [max(self.now - 1, 0), max(self.now - 1, 0), 2**62 + 1, 2**64 - 1]
        return self.now if self.chance.random() < 0.94 else self.chance.choice(late)

    def time(self):
        """Returns a tick, now and then repeated until nothing is due, as a caller would repeat it."""
        self.now += self.chance.choice([0, 1, 1, 2, 5, 5, 20, 40])
        line = b"tick %d" % self.when()
        for _ in range(self.chance.choice([0, 0, 1, 70])):
            answer = self.script.ask(line)
            if answer in ([], [b"actions 0"]) or answer[0].startswith(b"refused"):
                break
        return line

    def request(self):
        """Returns a request for a service, mostly one that its state allows."""
        chance = self.chance
        known = self.session.rs.services if self.session.rs else []
        if not known or chance.random() < 0.05:
            return b"service %s %s %d" % (chance.choice([b"up", b"down", b"refresh", b"restart"]), chance.choice([b"nobody", *self.labels]), self.when())
        label = chance.choice([*known])
        asked = SENSIBLE[self.session.rs.states[label][0]] if chance.random() < 0.85 else [b"up", b"down", b"refresh", b"restart"]
        return b"service %s %s %d" % (chance.choice(asked), label.encode(), self.when())

    def endpoint(self):
        """Returns mostly the endpoint of a live instance, else one that was started once, or RS's own."""
        up = [state[1] for state in self.session.rs.states.values() if state[0] == "up"] if self.session.rs else []
        drawn = self.chance.random()
        return self.chance.choice(up) if up and drawn < 0.8 else self.chance.choice(self.started[-20:]) if drawn < 0.97 else (0, 2)

    def death(self):
        cause = self.chance.choice([1, 2, 3, 4, 5, 6] * 4 + [0, 7, 2**64 - 1])
        return b"death %d/%d %d %d" % (*self.endpoint(), cause, self.when())

    def beat(self):
        return b"beat %d/%d %d" % (*self.endpoint(), self.when())

    def published(self):
        """Returns a line by which an instance publishes an entry under its label, with its next number; a dead one late, under a name of its own."""
        generation, slot = self.endpoint()
        states = self.session.rs.states if self.session.rs else {}
        label = next((label for label, state in states.items() if state[1:2] == ((generation, slot),)), f"old{generation}")
        number = self.numbers[generation, slot] = self.numbers.get((generation, slot), -1) + 1
        kind, value = behaviour.value_by_chance(self.chance)
        entry = self.chance.choice([b"mtu", b"mac", b"id"])
        return b"publish %d/%d over %s.%s %s %d.%d = %s" % (generation, slot, label.encode(), entry, kind, generation, number, value)

    def rival(self):
        """Returns a line by which another caller writes about a service, mostly about an instance of a near generation."""
        chance = self.chance
        label, near = chance.choice(self.labels), (self.session.rs.next if self.session.rs else 1) + chance.choice([-2, -1, -1, 0, 0, 1])
        generation, slot = max(near, 1), chance.choice([16, 17])
        return chance.choice([
            b"offer %s label rs %d.0 = %d/%d" % (label, generation, generation, slot),
            b"offer %s label rs %d.1 -" % (label, generation),
            b"offer ! %s %d" % (label, generation),
            b"delete 0/2 %s label %d.1" % (label, generation),
        ])

    # ---- lines to the tables ----

    def table(self):
        """Returns the word of a table, mostly of the file server's, and the table as the session knows it."""
        server = self.chance.choice([b"file", b"file", b"net"])
        return server, self.session.tables[server]

    def map(self):
        """Returns the number of a map, mostly the first, or, rarely, of one that doesn't exist."""
        first = self.chance.random() < 0.6
        return 0 if first else self.chance.randrange(len(self.session.world.maps) or 1) + (self.chance.random() < 0.05)

    def assign(self):
        """Returns a line that assigns a unit to a driver. There are few units, so that some are assigned twice."""
        chance = self.chance
        unit, label = chance.choice([0, 1, 2, 3, 4, 255]), chance.choice([*self.labels, *self.labels, b"nobody"])
        if chance.random() < 0.4:
            return b"assign net %d %s" % (unit, label)
        return b"assign file %d %s %s" % (unit, chance.choice([b"block", b"block", b"character"]), label)

    def feed(self):
        """Gives a map what a store holds or took last, late or at once. Returns a line by which a table then follows the map."""
        chance, world = self.chance, self.session.world
        store = world.stores[world.current]
        since = b"since * %d %d 256" % (store.incarnation, max(len(store.accepted) - chance.randrange(1, 5), 0))
        self.script.ask(chance.choice([b"snapshot *", b'snapshot ".*" 1', since, since]))
        if world.messages:
            late = chance.randrange(len(world.messages)) if chance.random() < 0.2 else len(world.messages) - 1
            self.script.ask(b"deliver %d m%d *" % (late, self.map()))
        return chance.choice([self.follow, self.follow, self.submit])()

    def follow(self):
        return b"follow %d" % self.map()

    def submit(self):
        """Returns a request, mostly for a unit that exists, and with a number above all others."""
        chance, (server, table) = self.chance, self.table()
        last = max(table.requests, default=0)
        number = last + chance.choice([1, 1, 1, 2, 1000]) if chance.random() < 0.95 else chance.randrange(last + 1)
        unit = chance.choice([*table.units]) if table.units and chance.random() < 0.94 else chance.choice([0, 7, 255])
        return b"submit %s %d %d %d" % (server, number, unit, self.map())

    def reply(self):
        """Returns a reply to a request, mostly to one that was sent, and by the endpoint that got it last."""
        chance, (server, table) = self.chance, self.table()
        drawn = chance.random()
        pending = [it for it in table.pending() if it in table.sends]
        if not pending and drawn < 0.7:
            return self.feed()
        number = chance.choice(pending or [7]) if drawn < 0.85 else chance.randrange(max(table.requests, default=0) + 2)
        sent = table.sends.get(number, [self.endpoint()])
        other = [sent[0], (sent[-1][0], sent[-1][1] + 1), (sent[-1][0] + 1, sent[-1][1]), self.endpoint()]
        return b"reply %s %d/%d %d" % (server, *(sent[-1] if chance.random() < 0.8 else chance.choice(other)), number)

    # ---- what holds in every script ----

    def hold(self):
        """Expects that nothing was sent to an older endpoint, that no request has two answers, and that only a block request waits for its driver."""
        for server, table in self.session.tables.items():
            for number, answers in table.answers.items():
                self.script.expect(len(answers) == 1, f"request {number} of {server} has the answers {answers}")
            for number, sent in table.sends.items():
                generations = [generation for generation, _ in sent]
                rising = all(one < other for one, other in zip(generations, generations[1:]))
                self.script.expect(rising, f"request {number} of {server} was sent to generations {generations}")
            for number in table.pending():
                kind, label = table.units[table.requests[number]]
                now = table.now(label)
                known = table.sends.get(number, [None])[-1]
                self.script.expect(now is None or known == now, f"request {number} of {server} isn't at {now}, where its driver is")
                self.script.expect(now is not None or kind == "block", f"request {number} of {server} is pending without a driver")

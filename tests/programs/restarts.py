"""Draws settings and events for the reincarnation server from a seed, for tests/programs/services.

The program and tests/model/restarts.py answer them, and must agree: settings with and without faults, services that fail, wait and are
given up, slots and generations that run out, and 64 services that start and stop 40 times in 1, 63, 64 and 1008 slots. If the n-th
growth of a short script is refused, settings or an event are answered `refused noroom`, or the program ends with `noroom`. After a
refusal every answer is the model's for an RS that never got the refused line.
"""
import demos
from model.restarts import Session

LONG = 60  # scripts of many events
SHORT = 40  # scripts that are refused memory
FAULTS = 400  # settings with something wrong


class Script(demos.Script):
    """Settings and events drawn from a seed."""

    def __init__(self, seed):
        super().__init__(seed, Session)
        self.now = 0
        self.old = [(1, 16)]  # endpoints that were started
        self.format = {"format": 2} if seed % 3 else {}

    def ask(self, *command):
        answers = super().ask(*command)
        self.old += [tuple(map(int, it.split()[2].split("/"))) for it in answers if it.startswith("start ")]
        return answers

    def may_lack_room(self, command, ample):
        """Returns whether the command takes memory: settings without a fault, or an event that has actions."""
        if command[0] == "settings":
            return ample[-1].startswith("services ")
        return any(it.startswith("actions ") and it != "actions 0" for it in ample)

    def settings(self, most):
        """Begins RS with up to `most` services, sometimes with few slots or few generations left."""
        count = self.random.randint(1, most)
        slots = self.random.choice([None, 1008, count, max(1, count - 1), 1])
        services = [self.service(n) for n in range(count)]
        settings = {**self.format, **({} if slots is None else {"slots": slots}), "service": services}
        self.ask("settings", self.random.choice([1, 1, 1, 7, 2097152 - self.random.randint(0, 12)]), settings)
        self.now = 0

    def service(self, n):
        drawn = self.random
        kind = drawn.choice(["block", "character", "network", "server"])
        service = {"label": f"service{n}", "class": kind}
        if kind != "server":
            service["unit"] = n
        if drawn.random() < 0.6:
            service["period"] = drawn.choice([1, 3, 10, 50, 1000000])
        if drawn.random() < 0.8:
            service["limit"] = drawn.choice([0, 1, 2, 3, 7, 8, 1000])
        if drawn.random() < 0.5:
            service["publishes"] = [f"name{n}.{k}" for k in range(drawn.randint(0, 3))]
        for field in ("complains", "connects"):
            if self.format and drawn.random() < 0.4:
                service[field] = [f"service{drawn.randint(0, 7)}" for _ in range(drawn.randint(0, 4))]
        if self.format and drawn.random() < 0.4:
            service["forget"] = drawn.choice([0, 1, 2, 10, 40, 1000000000])
        if self.format and drawn.random() < 0.4:
            service["startup"] = drawn.choice([0, 1, 5, 30, 1000000])
        return service

    def draw(self):
        """Draws one more command: mostly an event in order, now and then a late one, or a question."""
        drawn = self.random.random()
        if drawn < 0.25:
            self.now += self.random.choice([0, 1, 1, 2, 5, 20, 40])
            self.tick()
        elif drawn < 0.45:
            self.ask(self.random.choice(["up", "up", "up", "stop", "refresh", "restart"]), self.label(), self.when())
        elif drawn < 0.72:
            cause = self.random.choice([1, 2, 3, 4, 5, 6, 1, 2, 3, 4, 5, 6, 0, 7, 2**64 - 1])
            self.ask("death", self.endpoint(), cause, self.when())
        elif drawn < 0.84:
            self.ask("beat", self.endpoint(), self.when())
        elif drawn < 0.92:
            self.ask("state", self.label())
        else:
            self.read()

    def read(self):
        """Reads something from RS between two events."""
        drawn = self.random
        self.ask(*drawn.choice([
            ("key",), ("next",), ("due",), ("due",), ("service", drawn.randint(0, 64)), ("instance", self.endpoint()),
            (drawn.choice(["publishes", "publishes", "labels"]), self.endpoint(), f"name{drawn.randint(0, 7)}.{drawn.randint(0, 2)}"),
            (drawn.choice(["complains", "connects"]), self.endpoint(), self.label()),
        ]))

    def tick(self):
        """Sends a tick, now and then repeated until it has no actions or is refused, as a caller would."""
        for _ in range(self.random.choice([1, 2, 200])):
            answers = self.ask("tick", self.when())
            if answers == ["actions 0"] or answers[0].startswith("refused"):
                break

    def when(self):
        return self.now if self.random.random() < 0.97 else self.random.choice([self.now - 1 if self.now else 0, 2**62 + 1, 2**64 - 1])

    def label(self):
        return self.random.choice([*self.model.rs.services, "nobody"])

    def endpoint(self):
        up = [state[1] for state in self.model.rs.states.values() if state[0] == "up"]
        return self.random.choice(up) if up and self.random.random() < 0.85 else self.random.choice(self.old[-20:])


def long_script(seed):
    script = Script(seed)
    for _ in range(1 + seed % 3):
        script.settings(64 if seed % 10 == 0 else 1 + seed % 6)
        for _ in range(400):
            script.draw()
    return script


def short_script(seed):
    script = Script(1000 + seed)
    script.settings(3)
    for _ in range(25):
        script.draw()
    script.settings(2)
    for _ in range(6):
        script.draw()
    return script


def last_script():
    """Returns what no seed is sure to draw: the last tick, the last numbers, and settings that are refused, after which RS continues."""
    script = Script(0)
    script.ask("tick", 0)
    script.ask("settings", 1, {"service": [{"label": "eth0", "class": "network", "unit": 0}]})
    script.ask("up", "eth0", 5)
    script.ask("settings", 0, {})
    script.ask("settings", 2097153, {})
    script.ask("settings", 1, {"slots": 0})
    script.ask("state", "eth0")
    script.ask("beat", (1, 16), 2**62)
    script.ask("tick", 2**62 + 1)
    script.ask("state", "eth0")
    script.ask("number")
    script.ask("numbers", 2097151, 4294967290)
    for _ in range(7):
        script.ask("number")
    return script


def slots_script(slots):
    """Returns a script in which 64 services start over and over until no slot is free. Each that stops leaves its slot to a later start."""
    script = Script(slots)
    labels = [f"service{n}" for n in range(64)]
    script.ask("settings", 1, {"slots": slots, "service": [{"label": label, "class": "server"} for label in labels]})
    for tick in range(40):
        for label in script.random.sample(labels, 64):
            script.ask("up", label, tick)
        script.ask("key")
        for label in script.random.sample(labels, 64):
            script.ask(script.random.choice(["stop", "stop", "refresh"]), label, tick)
        script.ask("key")
    return script


def faults():
    """Returns scripts of settings with one to three faults, the first of which must be reported."""
    scripts = []
    for seed in range(FAULTS):
        script = Script(5000 + seed)
        for _ in range(5):
            services = [script.service(n) for n in range(script.random.randint(1, 5))]
            settings = {**script.format, "service": services}
            for _ in range(script.random.randint(1, 3)):
                spoil(script.random, settings)
            script.ask("settings", 1, settings)
        scripts.append(script)
    return scripts


def spoil(drawn, settings):
    """Changes one thing, mostly to something wrong."""
    services = settings["service"]
    one = drawn.choice(services)
    other = drawn.choice(services)
    way = drawn.randrange(9)
    if way == 0:
        settings[drawn.choice(["slots", "slots", "slot", "colour", "format"])] = drawn.choice([0, 1, 2, 3, 1008, 1009, -1, "2", True, []])
    elif way == 1:
        one[drawn.choice(["colour", "Label", "units"])] = 1
    elif way == 2:
        one.pop(drawn.choice(["label", "class", "unit"]), None)
    elif way == 3:
        field = drawn.choice(["unit", "period", "limit", "forget", "startup"])
        one[field] = drawn.choice([0, 255, 256, 1000, 1001, 1000000, 1000001, 1000000000, 1000000001, -1, 2**63 - 1, "5", False, [1]])
    elif way == 4:
        one["label"] = drawn.choice(["rs", "", "a" * 64, "a" * 65, "a b", "RS", 7, "eth0"])
    elif way == 5:
        one["class"] = drawn.choice(["block", "Block", "disk", "server", 3])
    elif way == 6:
        field = drawn.choice(["publishes", "publishes", "complains", "connects"])
        one[field] = drawn.choice([["mtu"], ["mtu", "mac"], ["mtu", "mtu"], ["a" * 65], "mtu", [1], [f"n{k}" for k in range(65)]])
    elif way == 7 and "label" in other:
        one["label"] = other["label"]
    elif "unit" in other:
        one["unit"] = other["unit"]


def long_scripts():
    drawn = [long_script(seed) for seed in range(LONG)]
    return drawn + [last_script()] + [slots_script(slots) for slots in (1, 63, 64, 1008)] + faults()


def short_scripts():
    return [short_script(seed) for seed in range(SHORT)]

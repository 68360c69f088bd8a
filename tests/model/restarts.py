"""A second opinion on the reincarnation server, written from its rules: settings judged, and events answered by the table of states."""

MOST_GENERATION = 2097151
LAST_TICK = 2**62
CLASSES = ("block", "character", "network", "server")
FIRST_FIELDS = ("label", "class", "unit", "period", "limit", "publishes")  # of format 1
FIELDS = FIRST_FIELDS + ("complains", "connects", "forget", "startup")  # of format 2
FIRST_DEFAULTS = {"unit": None, "period": 0, "limit": 0, "publishes": [], "complains": None, "connects": None, "forget": 0, "startup": 0}
DEFAULTS = {**FIRST_DEFAULTS, "limit": 5, "forget": 6000}
REFUSALS = ("tickback", "worn", "unknownlabel", "badcause", "alreadyup", "notup", "oldendpoint", "generationsspent", "noslot")


class Refused(Exception):
    """An event that is refused, by its word."""


class Bad(Exception):
    """Settings with a fault: its word, and the index of the service that has it."""

    def __str__(self):
        return " ".join(str(it) for it in self.args)


# ---- settings


def is_name(it):
    allowed = "abcdefghijklmnopqrstuvwxyzABCDEFGHIJKLMNOPQRSTUVWXYZ0123456789._-"
    return isinstance(it, str) and 1 <= len(it) <= 64 and all(byte in allowed for byte in it)


def is_number(it, low, high):
    return isinstance(it, int) and not isinstance(it, bool) and low <= it <= high


def is_unit_of(service):
    if service["class"] == "server":
        return "unit" not in service
    return is_number(service["unit"], 0, 255)


def are_names(it):
    return isinstance(it, list) and len(it) <= 64 and all(is_name(name) for name in it)


def judged(settings, may_be_second):
    """Returns the slots and the services, with each field, of what a TOML document has at the top. Raises Bad with the first fault. Unless the
    document may be of format 2, `format` isn't a field."""
    services = settings.get("service", [])
    slots = settings.get("slots", 64)
    if set(settings) - {"slots", "service"} - ({"format"} if may_be_second else set()):
        raise Bad("unknownfield")
    is_second = "format" in settings
    if is_second and not is_number(settings["format"], 2, 2):
        raise Bad("outofrange")
    if not (is_number(slots, 1, 1008) and isinstance(services, list) and len(services) <= 64 and all(isinstance(it, dict) for it in services)):
        raise Bad("outofrange")
    for index, service in enumerate(services):
        judge_service(index, service, FIELDS if is_second else FIRST_FIELDS)
    repeated(services, "twolabels", lambda service: [service["label"]])
    repeated(services, "twounits", lambda it: [(it["class"] == "network", it["unit"])] if "unit" in it else [])
    repeated(services, "sharedname", lambda service: service.get("publishes", []))
    return slots, [{**(DEFAULTS if is_second else FIRST_DEFAULTS), **service} for service in services]


def judge_service(index, service, fields):
    if set(service) - set(fields):
        raise Bad("unknownfield", index)
    needed = ("label", "class") + (() if service.get("class") == "server" else ("unit",))
    if set(needed) - set(service):
        raise Bad("missing", index)
    fits = (
        is_name(service["label"]) and service["label"] != "rs"
        and service["class"] in CLASSES
        and is_unit_of(service)
        and is_number(service.get("period", 0), 0, 1000000)
        and is_number(service.get("limit", 0), 0, 1000)
        and all(are_names(service.get(field, [])) for field in ("publishes", "complains", "connects"))
        and is_number(service.get("forget", 0), 0, 1000000000)
        and is_number(service.get("startup", 0), 0, 1000000)
    )
    if not fits:
        raise Bad("outofrange", index)


def repeated(services, word, marks_of):
    """Raises Bad if a service has a mark that one before it has, or the same one twice."""
    seen = []
    for index, service in enumerate(services):
        for mark in marks_of(service):
            if mark in seen:
                raise Bad(word, index)
            seen.append(mark)


# ---- the restart machine


class Slots:
    """Process slots by keys from 0: the one that was freed last is taken first, else a new one."""

    def __init__(self):
        self.freed, self.most = [], 0

    def next_key(self):
        return self.freed[-1] if self.freed else self.most

    def take(self):
        key = self.next_key()
        if self.freed:
            self.freed.pop()
        else:
            self.most += 1
        return key


class Rs:
    """The state of RS. The state of a service is ("down",), ("gaveup",), ("waiting", until, failures) or
    ("up", endpoint, beat, ping, failures, since)."""

    def __init__(self, settings, next, first=16, may_be_second=False):
        self.slots, services = judged(settings, may_be_second)
        if not (1 <= next <= MOST_GENERATION + 1 and 16 <= first <= 1024 - self.slots):
            raise Refused("outofrange")
        self.services = {service["label"]: service for service in services}
        self.states = {label: ("down",) for label in self.services}
        self.next, self.first, self.tick, self.keys = next, first, 0, Slots()

    def event(self, verb, *args):
        """Returns the actions of an event, whose last argument is the tick."""
        *about, tick = args
        if tick < self.tick:
            raise Refused("tickback")
        if tick > LAST_TICK:
            raise Refused("worn")
        if verb in ("death", "beat"):
            plan = self.of_instance(verb, *about)
        elif verb == "tick":
            plan = self.of_tick(tick)
        else:
            plan = self.of_label(verb, *about)
        actions = self.done(*plan, tick) if plan else []
        self.tick = tick
        return actions

    # The plan of an event: a label, and what is done to its service.

    def of_label(self, verb, label):
        if label not in self.services:
            raise Refused("unknownlabel")
        state = self.states[label][0]
        asked = {
            ("up", "down"): "begin", ("up", "gaveup"): "begin", ("up", "up"): "alreadyup", ("up", "waiting"): "alreadyup",
            ("stop", "up"): "stop", ("stop", "waiting"): "forget", ("stop", "down"): "notup", ("stop", "gaveup"): "notup",
            ("refresh", "up"): "replace", ("refresh", "waiting"): "notup", ("refresh", "down"): "notup", ("refresh", "gaveup"): "notup",
            ("restart", "waiting"): "resume", ("restart", "gaveup"): "begin", ("restart", "up"): "alreadyup", ("restart", "down"): "notup",
        }[verb, state]
        if asked in REFUSALS:
            raise Refused(asked)
        return label, asked

    def of_instance(self, verb, endpoint, cause=1):
        if cause not in (1, 2, 3, 4, 5, 6):
            raise Refused("badcause")
        label = next((label for label, state in self.states.items() if state[0] == "up" and state[1] == endpoint), None)
        if label is None:
            raise Refused("oldendpoint")
        if verb == "beat":
            return label, "hear"
        return label, "replace" if cause == 6 else "lose and kill" if cause in (4, 5) else "lose"

    def of_tick(self, tick):
        up = [(label, state, self.services[label]["period"]) for label, state in self.states.items() if state[0] == "up"]
        missed = [label for label, state, period in up if period and tick - state[2] >= 2 * period]
        unasked = [label for label, state, period in up if period and tick - state[3] >= period]
        rested = [label for label, state in self.states.items() if state[0] == "waiting" and state[1] <= tick]
        due = [(label, "lose and kill") for label in missed] + [(label, "ping") for label in unasked] + [(label, "resume") for label in rested]
        return due[0] if due else None

    def due(self):
        """Returns the first tick, from the last event's on, at which a tick has actions, or None."""
        ticks = [state[1] for state in self.states.values() if state[0] == "waiting"]
        for label, state in self.states.items():
            period = self.services[label]["period"]
            if state[0] == "up" and period:
                ticks += [state[2] + 2 * period, state[3] + period]
        first = max(self.tick, min(ticks, default=LAST_TICK + 1))
        return first if first <= LAST_TICK else None

    def instance(self, endpoint):
        """Returns the index of the service that runs under the endpoint, or None."""
        return next((n for n, state in enumerate(self.states.values()) if state[0] == "up" and state[1] == endpoint), None)

    def publishes(self, endpoint, name):
        """Returns whether the instance may publish the name."""
        place = self.instance(endpoint)
        return place is not None and name in list(self.services.values())[place]["publishes"]

    def complains(self, endpoint, label):
        """Returns whether the instance may complain about the service."""
        return self.deals(endpoint, label, "complains", lambda one, other: one["class"] == "server" != other["class"])

    def connects(self, endpoint, label):
        """Returns whether the instance may connect to the service."""
        return self.deals(endpoint, label, "connects", lambda one, other: True)

    def deals(self, endpoint, label, field, otherwise):
        """Returns whether the instance's settings list the label of a service; without a list, the rule `otherwise` decides."""
        place = self.instance(endpoint)
        if place is None or label not in self.services:
            return False
        service = list(self.services.values())[place]
        listed = service[field]
        return otherwise(service, self.services[label]) if listed is None else label in listed

    # How it is done.

    def done(self, label, asked, tick):
        state = self.states[label]
        if asked in ("begin", "resume", "replace") and self.next > MOST_GENERATION:
            raise Refused("generationsspent")
        if asked in ("begin", "resume") and self.keys.next_key() >= self.slots:
            raise Refused("noslot")
        if asked == "begin":
            return self.start(label, 0, tick)
        if asked == "resume":
            return self.start(label, state[2], tick)
        if asked == "replace":
            failures = self.remembered(label, tick)
            return self.end(label, True, ("down",)) + self.start(label, failures, tick)
        if asked == "stop":
            return self.end(label, True, ("down",))
        if asked.startswith("lose"):
            failures = self.remembered(label, tick) + 1
            waits = ("waiting", tick + min(2 ** (failures - 1), 32), failures)
            return self.end(label, asked == "lose and kill", waits if failures <= self.services[label]["limit"] else ("gaveup",))
        if asked == "forget":
            self.states[label] = ("down",)
            return []
        up, endpoint, beat, ping, *rest = state
        self.states[label] = (up, endpoint, tick, ping, *rest) if asked == "hear" else (up, endpoint, beat, tick, *rest)
        return [f"ping {spelled(endpoint)}"] if asked == "ping" else []

    def remembered(self, label, tick):
        """Returns the failures that count when a service's instance ends: none if it was up for `forget` ticks, unless that is 0."""
        _, _, _, _, failures, since = self.states[label]
        forget = self.services[label]["forget"]
        return 0 if forget and tick - since >= forget else failures

    def start(self, label, failures, tick):
        endpoint = (self.next, self.first + self.keys.take())
        self.next += 1
        self.states[label] = ("up", endpoint, tick + self.services[label]["startup"], tick, failures, tick)
        return [f"start {label} {spelled(endpoint)}", f"offer {label} label rs {endpoint[0]}.0 = {spelled(endpoint)}"]

    def end(self, label, kill, after):
        endpoint = self.states[label][1]
        self.keys.freed.append(endpoint[1] - self.first)
        self.states[label] = after
        killed = [f"kill {spelled(endpoint)}"] if kill else []
        return killed + [f"offer {label} label rs {endpoint[0]}.1 -", f"sweep {label} {endpoint[0]}"]


def spelled(endpoint):
    """Returns an endpoint as it is written."""
    return f"{endpoint[0]}/{endpoint[1]}"


def told(state):
    """Returns a state as it is printed."""
    if state[0] == "up":
        return f"up {spelled(state[1])} beat {state[2]} ping {state[3]} failures {state[4]}"
    return f"waiting until {state[1]} failures {state[2]}" if state[0] == "waiting" else state[0]


# ---- lines


def toml(value):
    """Returns a value as TOML writes it, on one line."""
    if isinstance(value, dict):
        return "{" + ", ".join(f"{key} = {toml(it)}" for key, it in value.items()) + "}"
    if isinstance(value, list):
        return "[" + ", ".join(toml(it) for it in value) + "]"
    if isinstance(value, bool):
        return str(value).lower()
    return f'"{value}"' if isinstance(value, str) else str(value)


def written(settings):
    """Returns settings as lines of TOML, each with its newline."""
    return "".join(f"{key} = {toml(it)}\n" for key, it in settings.items())


def number(it):
    """Returns a number that may be missing, as it is printed."""
    return "none" if it is None else it


# How RS is read between two events, by the word that asks for it.
READINGS = {
    "next": lambda rs: f"next {rs.next}",
    "due": lambda rs: f"due {number(rs.due())}",
    "service": lambda rs, index: told(dict(enumerate(rs.states.values())).get(index, ("unknown",))),
    "instance": lambda rs, endpoint: f"instance {number(rs.instance(endpoint))}",
    "publishes": lambda rs, endpoint, name: "may publish" if rs.publishes(endpoint, name) else "may not publish",
    "labels": lambda rs, endpoint, name: "may not publish",
    "complains": lambda rs, endpoint, label: "may complain" if rs.complains(endpoint, label) else "may not complain",
    "connects": lambda rs, endpoint, label: "may connect" if rs.connects(endpoint, label) else "may not connect",
}


class Session:
    """RS and a numberer, which answer commands as the section `rs` of the program for tests does."""

    def __init__(self):
        self.rs = self.numbers = None

    def answer(self, verb, *args):
        """Returns the line that asks for a command, and the lines that answer it."""
        if verb == "settings":
            line = f"settings {args[0]}\n{written(args[1])}end"
        else:
            line = " ".join([verb] + [spelled(it) if isinstance(it, tuple) else str(it) for it in args])
        try:
            return line, self._answers(verb, args)
        except Refused as refused:
            return line, [f"refused {refused}"]
        except Bad as bad:
            word, *index = bad.args
            return line, [f"refused {word}", *(f"service {it}" for it in index)]

    def _answers(self, verb, args):
        if verb == "settings":
            self.rs = Rs(args[1], args[0], may_be_second=True)
            return [f"services {len(self.rs.services)} slots {self.rs.slots}"]
        if verb == "numbers":
            self.numbers = list(args)
            return ["numbers"]
        if verb == "number":
            return [self._number()]
        if self.rs is None:
            raise Refused("nosettings")
        if verb == "state":
            return [told(self.rs.states.get(args[0], ("unknown",)))]
        if verb == "key":
            return [f"key {self.rs.keys.next_key()}"]
        if verb in READINGS:
            return [READINGS[verb](self.rs, *args)]
        before = list(self.rs.states.values())
        actions = self.rs.event(verb, *args)
        gone = [n for n, (old, new) in enumerate(zip(before, self.rs.states.values())) if new[0] == "gaveup" != old[0]]
        return actions + [f"actions {len(actions)}"] + [f"gave up {n}" for n in gone]

    def _number(self):
        if self.numbers is None:
            raise Refused("nonumbers")
        generation, number = self.numbers
        if number > 4294967294:
            raise Refused("seqspent")
        self.numbers[1] += 1
        return f"number {generation}.{number}"

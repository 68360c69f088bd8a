"""A second opinion on driver tables, written from their rules: all that was ever accepted is kept, and everything is looked up in it."""

MOST_UNIT = 255
REFUSALS = ("assigned", "twoids", "nodevice", "notpending", "oldendpoint")


class Refused(Exception):
    """A call that is refused, by its word."""


class Table:
    """The table of one server: `server` is "file" or "net"."""

    def __init__(self, server):
        self.server = server
        self.units = {}  # each unit with its class and its label, in order of assignment
        self.units_of = {}  # each label with its units, in this order
        self.states = {}  # each label that has a unit with its states in order: an endpoint, or None
        self.requests = {}  # each id with its unit, in order of submission
        self.sends = {}  # each id with the endpoints that it was sent to
        self.answers = {}  # each id with its answers, of which there is one

    # ---- what the lists have

    def now(self, label):
        """Returns the endpoint of a label's last state."""
        return self.states.get(label, [None])[-1]

    def newest(self, label):
        """Returns the generation of a label's last endpoint, which is the greatest that it had: an older one is refused."""
        return next((endpoint[0] for endpoint in reversed(self.states.get(label, [])) if endpoint), None)

    def pending(self):
        return [id for id in self.requests if id not in self.answers]

    # ---- the calls

    def assign(self, unit, kind, label):
        if unit in self.units:
            raise Refused("assigned")
        self.units[unit] = (kind, label)
        self.units_of.setdefault(label, []).append(unit)

    def changed(self, label, state):
        units, newest = self.units_of.get(label, []), self.newest(label)
        if not units or state == self.now(label):
            return []
        if state and newest is not None and state[0] <= newest:
            raise Refused("oldendpoint")
        self.states.setdefault(label, []).append(state)
        moves = [("start", unit, state) for unit in units] if state and self.server == "net" else []
        for id in self.pending():
            if self.requests[id] in units:
                moves += self._after_change(id, self.units[self.requests[id]][0], state)
        return moves

    def _after_change(self, id, kind, state):
        if kind != "block":
            return [self._answer(id, "fault")]
        return [self._send(id, state)] if state else []

    def submit(self, id, unit):
        if self.requests and id <= max(self.requests):
            raise Refused("twoids")
        if unit not in self.units:
            raise Refused("nodevice")
        kind, label = self.units[unit]
        self.requests[id] = unit
        now = self.now(label)
        if now:
            return self._send(id, now)
        return ("held", id) if kind == "block" else self._answer(id, "fault")

    def reply(self, endpoint, id):
        if id not in self.requests or id in self.answers:
            raise Refused("notpending")
        if self.sends.get(id, [None])[-1] != endpoint:
            raise Refused("oldendpoint")
        return self._answer(id, "done")

    def _send(self, id, endpoint):
        self.sends.setdefault(id, []).append(endpoint)
        return ("send", id, endpoint)

    def _answer(self, id, ending):
        self.answers.setdefault(id, []).append(ending)
        return ("answer", id, ending)


def spelled(endpoint):
    """Returns an endpoint as it is written."""
    return "-" if endpoint is None else f"{endpoint[0]}/{endpoint[1]}"


def told(move):
    """Returns a move as it is printed."""
    return " ".join(spelled(it) if isinstance(it, tuple) else str(it) for it in move)

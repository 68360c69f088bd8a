"""A second opinion on RS beside a store, as one handle of the library for C answers lines: for tests/programs/pairs and the package for Python."""
from . import restarts
from .session import Session, document
from .store import RS, Refused, Store

BY_CALLERS = (b"publish", b"delete", b"sweep")
EVENTS = (b"service", b"death", b"beat", b"tick")


class Pair(Session):
    """A store, and RS once settings have opened it. From then on no caller may pass for RS."""

    def __init__(self):
        super().__init__()
        self.world = Store()
        self.next, self.first = 1, 16  # of the first start
        self.gone = None  # the label of the service that the last event made RS give up

    def answer(self, command, taken, ample=None):
        if self.rs and command in BY_CALLERS and taken[0] == RS:
            return [b"refused notallowed"]
        if not self.rs and command in EVENTS:
            return []  # no text: DS_NOREQUEST
        return super().answer(command, taken, ample)

    def settings(self, text):
        if self.rs:
            raise Refused("exists")
        try:
            self.rs = restarts.Rs(document(text), self.next, self.first)
        except restarts.Refused:
            raise Refused("badfirst") from None
        return [b"services %d" % len(self.rs.services)]

    def event(self, without, *event):
        before = {**self.rs.states}
        shown = super().event(without, *event)
        self.gone = next((label for label, state in self.rs.states.items() if state[0] == "gaveup" != before[label][0]), None)
        return shown

    def read(self, line):
        """Returns the answer to a line that scripts don't have."""
        word, *rest = line.decode().split()
        if word == "from":
            self.next, self.first = map(int, rest)
            return []
        if word == "gave":
            return [f"gave up {self.gone or 'nobody'}".encode()]
        if word == "state":
            return [f"state {self.state(rest[0])}".encode()]
        return [(restarts.READINGS[word](self.rs) if self.rs else f"{word} none").encode()]

    def state(self, label):
        """Returns the state of a service as the library tells it: without the ticks of its heartbeats."""
        state, *more = self.rs.states.get(label, ("unknown",)) if self.rs else ("unknown",)
        if state == "up":
            return f"up {more[0][0]}/{more[0][1]} failures {more[3]}"
        return f"waiting until {more[0]} failures {more[1]}" if state == "waiting" else state

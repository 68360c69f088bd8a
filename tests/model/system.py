"""A system, driven by one list of events: RS, the numbers that its services draw, a world with a map of labels for each of two servers,
and their tables. It reads and writes the lines of the section `system` of the program for tests.
"""
import copy

from . import lines, restarts, session, tables
from .store import LABEL, LAST_PLACE, Query, Refused, Store
from .world import GIVING, MOST_MESSAGES, Map

MOST_EVENTS = 65536
BARRED = (b"offer", b"publish", b"delete", b"sweep")  # only RS and the services may send these to a store
TOLD_LAST = (b"again", b"service", b"death", b"beat", b"tick", b"retrieve")  # for them any other refusal comes before noroom
WANTING = (b"map", b"subscribe", *GIVING)  # for them noroom may come before another refusal


class System(session.Session):
    """A system; the changes that RS and the services made are kept in order, and the numbers of each label that drew some."""

    def __init__(self, seeds, settings, next):
        super().__init__()
        if not 1 <= next <= restarts.MOST_GENERATION + 1:
            raise Refused("outofrange")
        if not all(1 <= ring <= lines.MOST_RING for _, _, ring in seeds):
            raise Refused("badring")
        if any(first > LAST_PLACE for _, first, _ in seeds):
            raise Refused("badfirst")
        if seeds[0][0] == seeds[1][0]:
            raise Refused("oldincarnation")
        self.rs = restarts.Rs(session.document(settings), next)
        for side, (incarnation, first, ring) in zip(self.world.stores, seeds):
            self.world.stores[side] = Store(ring, incarnation, first)
        self.world.maps = [Map(Query(b".*", 1)) for _ in self.tables]
        self.made, self.numbers = [], {}
        for it in self.rs.services.values():
            self.assign_unit(it["class"], it["unit"], it["label"].encode())

    def assign_unit(self, kind, unit, label):
        """Gives the unit of a service to the table of its class's server, if there is one."""
        if kind != "server":
            self.tables[b"net" if kind == "network" else b"file"].assign(unit, kind, label)

    def happen(self, line, ample=None):
        """Returns the lines of an event's outcome.

        Memory runs out at one step of it, after `ample` others. A step is a command that RS or a service sends to a store, an item of a
        delivery, a label that a table learns, or a request.
        """
        word, *taken = line.split(b" ")
        self.ample = ample
        if word in (b"put", b"remove", b"again"):
            return self.refusing(getattr(self, word.decode()), *taken)
        command, taken = lines.read(line)
        if command in session.OF_SERVICES:
            return self.refusing(getattr(self, command.decode()), *taken)
        if command in BARRED:
            return [b"refused notallowed"]
        if command == b"deliver" and ample is not None:
            return self.deliver_some(*taken)
        return self.world.answer(command, taken)

    def refusing(self, answer, *taken):
        """Returns the answer, or the refusal."""
        try:
            return answer(*taken)
        except session.REFUSALS as refused:
            return [session.refusal(refused)]

    def may_be_refused(self, line):
        """Returns whether memory may run out for an event as a whole: never for a turn of a table, nor for a delivery."""
        word, *taken = line.split(b" ")
        if word in (b"put", b"remove"):
            return self.refusing(self.judge, *taken[:3], None if word == b"remove" else taken[3])[0] == "judged"
        if word in TOLD_LAST:
            return not copy.deepcopy(self).happen(line)[0].startswith(b"refused ")
        return word in WANTING and (word not in GIVING or len(self.world.messages) < MOST_MESSAGES)

    # ---- what RS and the services make ----

    def asked_by(self, action):
        """Returns the answer of the side's store to an action. A label that is offered counts as made."""
        verb, _, item = action.partition(b" ")
        if verb == b"offer":
            self.made.append(lines.item(item))
        return super().asked_by(action)

    def judge(self, label, name, kind, word):
        """Refuses a change of a service by the first cause, or returns the place of its kind, its value and the service's endpoint."""
        kind, service = lines.KINDS.index(kind), self.rs.services.get(label.decode())
        if service is None:
            raise Refused("unknownlabel")
        if kind == LABEL or name.decode() not in service["publishes"]:
            raise Refused("notdeclared")
        state, *instance = self.rs.states[label.decode()]
        if state != "up":
            raise Refused("notup")
        is_number = word is not None and word.isdigit() and int(word) <= lines.MOST_NUMBER
        if word is not None and kind != (1 if is_number else 2):
            raise Refused("badkind")
        return "judged", kind, word if word is None or is_number else b'"%s"' % word, instance[0]

    def put(self, label, name, kind, word):
        """Puts a service's value."""
        return self.write(label, name, kind, word)

    def remove(self, label, name, kind):
        """Takes a service's entry back."""
        return self.write(label, name, kind, None)

    def write(self, label, name, kind, word):
        """Numbers a service's change, and sends it to the store. If the store refuses it, the number stays spent."""
        _, kind, value, endpoint = self.judge(label, name, kind, word)
        generation, number = self.numbers.get(label, (0, 0))
        version = (endpoint[0], number if generation == endpoint[0] else 0)
        self.numbers[label] = (version[0], version[1] + 1)
        self.made.append(lines.Change((name, kind), label, version, value))
        if value is None:
            return self.ask(b"delete", (endpoint, (name, kind), version))
        return self.ask(b"publish", (endpoint, (name, kind), version, value, True))

    def ask(self, command, taken):
        """Returns the answer of the side's store, where noroom is the last refusal."""
        if self.ample is not None and copy.deepcopy(self.world).answer(command, taken)[0] != b"taken":
            self.ample = None
        return [session.NO_ROOM] if self.is_wanting() else self.world.answer(command, taken)

    def again(self, number):
        """Offers a change that was made once more."""
        if int(number) >= len(self.made):
            raise Refused("nomessage")
        return self.world.answer(b"offer", (self.made[int(number)],))

    def deliver_some(self, number, holder, count):
        """Makes a delivery that memory stops after `ample` items, if it has more."""
        given = len(self.world.messages[number]) if number < len(self.world.messages) and count is None else count
        done, *masks = copy.deepcopy(self.world).answer(b"deliver", (number, holder, self.ample))
        if given is None or self.ample >= given or not done.startswith(b"merged "):
            return self.world.answer(b"deliver", (number, holder, count))
        self.world.answer(b"deliver", (number, holder, self.ample))
        return [b"stopped %d noroom" % self.ample, *masks]

    # ---- what the servers do ----

    def follow(self, _number):
        """Lets both servers look at their maps: the file server first, and then the other one, if nothing ended that."""
        rounds, fault = [], None
        for number, table in enumerate(self.tables.values()):
            fault = fault or self.look(number, table, rounds)
        return moved(rounds, None, fault)

    def submit(self, server, request, unit, _number):
        """Lets a server look at its map, and take a request. Noroom is the last refusal."""
        table, rounds, own = self.tables[server], [], None
        fault = self.look([*self.tables].index(server), table, rounds)
        try:
            if not fault and self.ample is not None:
                copy.deepcopy(table).submit(request, unit)
            fault = fault or (b"noroom" if self.is_wanting() else None)
            own = None if fault else table.submit(request, unit)
        except tables.Refused as refused:
            fault = str(refused).encode()
        return moved(rounds, own, fault)

    def reply(self, server, endpoint, request):
        """Passes a driver's reply to a server."""
        try:
            return moved([], self.tables[server].reply(endpoint, request), None)
        except tables.Refused as refused:
            return moved([], None, str(refused).encode())

    def look(self, number, table, rounds):
        """Lets a table learn what its map holds of each unit's label, a round of moves for each. Returns what ended that, or None.

        A state older than the table knows has no round, and takes no memory.
        """
        held = self.world.maps[number].held.held
        for _, label in [*table.units.values()]:
            _, (epoch, _), value = held.get((label, LABEL), (None, (-1, None), None))
            if epoch < 0 or value is None and epoch < (table.newest(label) or 0):
                continue
            state = None if value is None else lines.numbers_of(value)
            try:
                if self.ample is not None:
                    copy.deepcopy(table).changed(label, state)
                if self.is_wanting():
                    return b"noroom"
                rounds.append(table.changed(label, state))
            except tables.Refused:
                pass
        return None

    def shown(self):
        """Returns the lines of what both servers' maps hold."""
        return [it for one in self.world.maps[: len(self.tables)] for it in one.held.show()]


def moved(rounds, own, fault):
    """Returns the lines of a server's event: each round, the own move, what ended it, and how many rounds there are."""
    shown = [line for it in rounds for line in session.counted(it)]
    own_lines = session.told([own] if own else [])
    return shown + own_lines + ([b"refused " + fault] if fault else []) + [b"rounds %d" % len(rounds)]


class Part:
    """A part of an input: the beginning of a system, and the events' lines, each with its side."""

    def __init__(self, text):
        first, _, rest = text.partition(b"\n")
        settings, _, asked = rest.partition(b"\nend")
        _, next, *numbers = [it if it == b"system" else int(it) for it in first.split(b" ")]
        self.begun = ([numbers[:3], numbers[3:]], settings, next)
        self.events, side = [], b"a"
        for line in asked.strip(b"\n").split(b"\n") if asked.strip(b"\n") else []:
            count, _, repeated = line.rpartition(b" times ")
            if line.startswith(b"side "):
                side = line[5:]
            else:
                self.events += [(side, repeated)] * int(count or 1)

    def answers(self, runs_out=(None, None)):
        """Returns the lines of each event's outcome, and then of what the maps hold; or the refusal of the beginning.

        `runs_out` names an event, counted from 0, at which memory runs out, and after how many of its steps. If the number of steps is
        None, the whole event is refused, if it may be.
        """
        try:
            system = System(*self.begun)
        except Refused as refused:
            return [[b"refused " + str(refused).encode()]]
        if len(self.events) > MOST_EVENTS:
            return [[b"refused toomany"]]
        outcomes = []
        for at, (side, line) in enumerate(self.events):
            system.world.current = side
            if (at, None) == runs_out and system.may_be_refused(line):
                outcomes.append([session.NO_ROOM])
            else:
                outcomes.append(system.happen(line, runs_out[1] if at == runs_out[0] else None))
        return [*outcomes, system.shown()]

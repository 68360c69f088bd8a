"""All that a script drives: a world, the reincarnation server over it, and the tables of two servers that talk to drivers.

RS's offers and sweeps are commands to the store of the current side, in RS's name. A table learns of drivers only from a map.
"""
import copy
import tomllib

from . import lines, restarts, tables
from .store import LABEL, RS, Refused
from .world import World

REFUSALS = (Refused, restarts.Refused, restarts.Bad, tables.Refused)
NO_ROOM = b"refused noroom"
OF_SERVICES = (b"settings", b"service", b"death", b"beat", b"tick", b"assign", b"follow", b"submit", b"reply")
LEAST_INTEGER, MOST_INTEGER = -(2**63), 2**63 - 1  # of a TOML document


class Session:
    """A world, RS once settings were accepted, and the tables by their words."""

    def __init__(self):
        self.world = World()
        self.rs = None
        self.tables = {b"file": tables.Table("file"), b"net": tables.Table("net")}
        self.ample = None  # how many more steps of a command find memory before one doesn't; None: all

    def answer(self, command, taken, ample=None):
        """Answers a command by the lines that a script prints.

        Memory runs out at one step of it, after `ample` others. A step is a command that RS sends to the store, which is then refused
        and changes nothing; or a label that a table learns, or a request, which end the command there.
        """
        if command not in OF_SERVICES:
            return self.world.answer(command, taken)
        self.ample = ample
        try:
            return getattr(self, command.decode())(*taken)
        except REFUSALS as refused:
            return [refusal(refused)]

    def is_wanting(self):
        """Returns whether memory runs out at this step."""
        if self.ample is None:
            return False
        self.ample -= 1
        return self.ample == -1

    # ---- RS ----

    def settings(self, text):
        """Begins RS with the services of a settings text, once."""
        if self.rs:
            raise Refused("exists")
        self.rs = restarts.Rs(document(text), 1)
        return [b"services %d slots %d" % (len(self.rs.services), self.rs.slots)]

    def service(self, asked, label, tick):
        """Asks RS to start a service, to stop it, to replace its instance, or to start it before its time."""
        return self.event("unknownlabel", "stop" if asked == b"down" else asked.decode(), label.decode(), tick)

    def death(self, endpoint, cause, tick):
        """Reports to RS that an instance died."""
        return self.event("oldendpoint", "death", endpoint, cause, tick)

    def beat(self, endpoint, tick):
        """Reports to RS that an instance lives."""
        return self.event("oldendpoint", "beat", endpoint, tick)

    def tick(self, tick):
        """Reports the time to RS."""
        return self.event(None, "tick", tick)

    def event(self, without, *event):
        """Returns the actions of an event, each with the store's answer below it, and their number. Without settings RS knows no service."""
        if self.rs is None and without:
            raise Refused(without)
        actions = self.rs.event(*event) if self.rs else []
        shown = [line for it in actions for line in (it.encode(), *self.asked_by(it.encode()))]
        return shown + [b"actions %d" % len(actions)]

    def asked_by(self, action):
        """Returns the store's answer to an action that publishes or deletes a label or sweeps an owner; nothing for any other."""
        verb, *words = action.split(b" ")
        if verb not in (b"offer", b"sweep"):
            return []
        if self.is_wanting():
            return [NO_ROOM]
        if verb == b"sweep":
            return self.world.answer(b"sweep", (RS, words[0], int(words[1])))
        change = lines.item(b" ".join(words))
        if change.value is None:
            return self.world.answer(b"delete", (RS, change.key, change.version))
        return self.world.answer(b"publish", (RS, change.key, change.version, change.value, True))

    # ---- the driver tables ----

    def assign(self, table, unit, kind, label):
        """Gives a table a unit."""
        self.tables[table].assign(unit, kind.decode(), label)
        return [b"assigned"]

    def follow(self, number):
        """Lets both tables learn what a map holds of their drivers."""
        held, moves = self.world.map_of(number).held.held, []
        try:
            for table in self.tables.values():
                self.learn(table, held, moves)
        except REFUSALS as refused:
            return [*told(moves), refusal(refused)]
        return counted(moves)

    def submit(self, table, request, unit, number):
        """Lets a table learn what a map holds, and then take a request. If that is refused, the table keeps what it learned."""
        table, held, moves = self.tables[table], self.world.map_of(number).held.held, []
        try:
            self.learn(table, held, moves)
            if self.ample is not None:
                copy.deepcopy(table).submit(request, unit)  # any other refusal comes first
            if self.is_wanting():
                raise Refused("noroom")
            moves.append(table.submit(request, unit))
        except REFUSALS as refused:
            return [*told(moves), refusal(refused)]
        return counted(moves)

    def learn(self, table, held, moves):
        """Lets a table learn what the map holds of each unit's label, in order of assignment, and adds its moves.

        It ignores what is older than it knows: a tombstone of an earlier generation, and an endpoint that no longer exists.
        """
        labels = table.units_of if self.ample is None else [label for _, label in table.units.values()]
        for label in labels:  # a second unit of a label changes nothing more, but may find no memory
            if (label, LABEL) not in held:
                continue
            _, (epoch, _), value = held[label, LABEL]
            if value is None and epoch < (table.newest(label) or 0):
                continue
            if self.is_wanting():
                raise Refused("noroom")
            try:
                moves += table.changed(label, None if value is None else lines.numbers_of(value))
            except tables.Refused:
                pass

    def reply(self, table, endpoint, request):
        """Passes a driver's reply to a table."""
        return told([self.tables[table].reply(endpoint, request)])


def document(text):
    """Returns the top of a settings text. Raises Bad if it isn't a TOML document: no integer in one has more than 64 bits."""
    try:
        read = tomllib.loads(text.decode())
    except (UnicodeDecodeError, tomllib.TOMLDecodeError, RecursionError):
        raise restarts.Bad("toml") from None
    if not is_within(read):
        raise restarts.Bad("toml")
    return read


def is_within(read):
    """Returns whether each integer of a TOML value has at most 64 bits."""
    if isinstance(read, (dict, list)):
        return all(map(is_within, read.values() if isinstance(read, dict) else read))
    return not isinstance(read, int) or LEAST_INTEGER <= read <= MOST_INTEGER


def told(moves):
    """Returns the lines of moves."""
    return [tables.told(it).encode() for it in moves]


def counted(moves):
    """Returns the lines of moves, and then their number."""
    return told(moves) + [b"moves %d" % len(moves)]


def refusal(refused):
    """Returns the line of a refusal. For a fault of settings it has the word alone, without the service."""
    return b"refused " + (refused.args[0] if isinstance(refused, restarts.Bad) else str(refused)).encode()

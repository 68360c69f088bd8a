"""A world: two stores, a and b, the maps of subscribers, and the messages that carry items from the stores to any of them.

A message is the list of the lines of its items, and each holder that gets it reads them again: each item has one spelling.
"""
from . import lines
from .store import Query, Refused, Store, answered

MOST_MAPS = 64
MOST_MESSAGES = 65536
OF_WORLD = (b"ring", b"side", b"deliver", b"map", b"entries", b"clear", b"restart")  # all other commands are a store's
GIVING = (b"check", b"since", b"snapshot", b"page")  # the commands whose items are the next message


class Map:
    """A subscriber's copy of the items that it gets: those under its query, and all floors."""

    def __init__(self, query):
        self.query = query
        self.held = Store()  # which gets no commands, and has no subscriptions

    def merge(self, items):
        return self.held.merge(items, self.query.admits)


class World:
    """The stores by their sides, the current side, the maps and the messages."""

    def __init__(self):
        self.stores = {b"a": Store(incarnation=1), b"b": Store(incarnation=2)}
        self.current = b"a"
        self.maps, self.messages = [], []

    def answer(self, command, taken):
        """Answers a command by the lines that a script prints."""
        if command in OF_WORLD:
            return answered(self, command, taken)
        if command in GIVING and len(self.messages) == MOST_MESSAGES:
            return [b"refused messagesfull"]
        answer = self.stores[self.current].answer(command, taken)
        if command in GIVING and not answer[-1].startswith(b"refused "):  # an item is never the last line
            self.messages.append(answer[:-1])
        return answer

    def ring(self, most):
        """Sets how many of the last changes the journals keep. (It is the first command.)"""
        for store in self.stores.values():
            store.ring = most
        return [b"ring %d" % most]

    def side(self, side):
        """Makes this side the current one."""
        self.current = side
        return [b"side " + side]

    def restart(self, side, incarnation):
        """Begins a store again with nothing, as an incarnation above all others."""
        if incarnation <= max(store.incarnation for store in self.stores.values()):
            raise Refused("oldincarnation")
        return self.stores[side].restart(incarnation)

    def deliver(self, number, holder, count):
        """Delivers the first items of a message, or all, to a side or a map."""
        if number >= len(self.messages):
            raise Refused("nomessage")
        given_to = self.stores[holder] if holder in self.stores else self.map_of(holder)
        items = self.messages[number]
        if count is not None and count > len(items):
            raise Refused("toomany")
        return given_to.merge([lines.item(line) for line in items[:count]])

    def map(self, query):
        """Makes a map."""
        if len(self.maps) == MOST_MAPS:
            raise Refused("mapsfull")
        self.maps.append(Map(Query(*query)))
        return [b"map %d" % (len(self.maps) - 1)]

    def map_of(self, number):
        """Returns a map by its number."""
        if number >= len(self.maps):
            raise Refused("nomap")
        return self.maps[number]

    def entries(self, number):
        """Returns the puts that a map holds."""
        return self.map_of(number).held.show()

    def clear(self, number):
        """Empties a map."""
        self.maps[number] = Map(self.map_of(number).query)
        return [b"cleared"]

"""Runs the scripts of one world as C calls, for tests/programs/c.

Its two stores and its maps have handles of their own. This module keeps what a caller in C would keep: the current side, the messages and
their numbers.
"""
import re

import c_calls
import model

SERVED = {b"offer", *c_calls.COMMANDS} | {b"ring", b"side", b"show", b"all", b"map", b"deliver", b"entries", b"clear", b"restart"}
GIVING = (b"check", b"since", b"snapshot", b"page")  # the commands whose items become the next message
AT_ONCE = 256  # items of one merge
NAMES = re.compile(rb"([A-Za-z0-9._-]{1,64}) label\b")


class Stores:
    """Two stores and maps, called with lines. `wanted` is all that the script must print."""

    session = c_calls.Session

    def __init__(self, library, room, wanted):
        self.library, self.wanted = library, wanted
        self.sides = {side: self.session(library, room) for side in (b"a", b"b")}
        self.printed, self.maps, self.messages, self.names = [], [], [], set()
        self.current, self.incarnations = b"a", {b"a": 1, b"b": 2}
        self.opened(256)

    def opened(self, ring):
        for side, store in self.sides.items():
            if store.open(self.incarnations[side], 0, ring):
                raise AssertionError(f"no store with a ring of {ring}")

    def close(self):
        for it in (*self.sides.values(), *(held for held, _ in self.maps)):
            if it.close():
                raise AssertionError("it wasn't open at the end")

    def ask(self, line, is_first):
        """Adds what a script prints for the line."""
        command, taken = model.read(line, is_first)
        self.names.update(NAMES.findall(line))
        own = getattr(self, command.decode(), None)
        self.printed += own(*taken) if own else self.of_store(command, line, taken)

    def of_store(self, command, line, taken):
        answer = self.sides[self.current].ask(command, line, taken)
        if command in GIVING and not answer[-1].startswith("refused "):
            self.messages.append([it.encode() + b"\n" for it in answer[:-1]])
        return answer

    def ring(self, most):
        self.opened(most)
        return [f"ring {most}"]

    def side(self, side):
        self.current = side
        return [f"side {side.decode()}"]

    def restart(self, side, incarnation):
        if incarnation <= max(self.incarnations.values()):
            return ["refused oldincarnation"]
        self.incarnations[side] = incarnation
        return self.sides[side].answer(b"restart %s %d" % (side, incarnation))

    def all(self):
        """Returns all that is held, as a snapshot does."""
        lines = self.sides[self.current].ask(b"snapshot", b"snapshot *", (None,))[:-1]
        return [*lines, f"shown {len(lines)}"]

    def show(self):
        """Returns the puts among these."""
        lines = [it for it in self.all()[:-1] if " = " in it]
        return [*lines, f"shown {len(lines)}"]

    def map(self, query):
        if len(self.maps) == 64:
            return ["refused mapsfull"]
        made = c_calls.Map(self.library)
        word = made.make(*query)
        if word:
            return [f"refused {c_calls.REFUSALS[word - 1]}"]
        self.maps.append((made, query))
        return [f"map {len(self.maps) - 1}"]

    def deliver(self, number, holder, count):
        if number >= len(self.messages):
            return ["refused nomessage"]
        if holder not in self.sides and holder >= len(self.maps):
            return ["refused nomap"]
        items = self.messages[number]
        if count is not None and count > len(items):
            return ["refused toomany"]
        if holder in self.sides:
            return self.merged(self.sides[holder], items[:count])
        return self.maps[holder][0].take(b"".join(items[:count]))

    def merged(self, store, items):
        """Merges items into a store, as many at a time as a merge may have."""
        total = store.merge(b"".join(items[:AT_ONCE]))
        for at in range(AT_ONCE, len(items), AT_ONCE):
            if c_calls.WORDS[total.word] == "stopped":
                break
            more = store.merge(b"".join(items[at : at + AT_ONCE]))
            more.count, more.taken, more.stale = more.count + total.count, more.taken + total.taken, more.stale + total.stale
            for byte in range(16):
                more.owed[byte] |= total.owed[byte]
            total = more
        return c_calls.told(total, [], False)

    def clear(self, number):
        """Clears a map by making it again."""
        if number >= len(self.maps):
            return ["refused nomap"]
        held, query = self.maps[number]
        if held.close() or held.make(*query):
            raise AssertionError("it wasn't made again")
        return ["cleared"]

    def entries(self, number):
        """Returns the wanted lines, since no call returns all that a map holds. The map must have the script's labels as they show them."""
        if number >= len(self.maps):
            return ["refused nomap"]
        rest = self.wanted[len(self.printed) :]
        lines = rest[: next(at for at, it in enumerate(rest) if it.startswith("shown ")) + 1]
        labels = {it.split(" ")[0]: it.split(" ")[-1] for it in lines[:-1] if it.split(" ")[1] == "label"}
        for name in sorted(self.names):
            given = self.maps[number][0].label(name)
            at = labels.get(name.decode())
            if given != [f"found {at}" if at else "refused notfound"]:
                raise AssertionError(f"map {number} has {name.decode()}: {given}, wanted {at}")
        return lines


class Runs(Stores):
    """Two stores and maps, called with many requests at once."""

    session = c_calls.Runs


def is_served(script):
    """Returns whether each line can be read and is a command of a world."""
    try:
        commands = [model.read(line, at == 0)[0] for at, line in enumerate(script)]
    except model.BadLine:
        return False
    return all(it in SERVED for it in commands)


def ask(stores, script):
    """Runs a script's lines as calls, and checks what they print."""
    wanted = stores.wanted
    for at, line in enumerate(script):
        before = len(stores.printed)
        stores.ask(line, at == 0)
        if stores.printed[before:] != wanted[before : len(stores.printed)]:
            raise AssertionError(f"line {at + 1}, {line[:80]}: {stores.printed[before:]}, wanted {wanted[before:before + 8]}")
    if stores.printed != wanted:
        raise AssertionError(f"it printed {len(stores.printed)} lines, wanted {len(wanted)}")
    stores.close()

"""Models a follower of one desk's store, and exchanges with the store at another desk, for tests/programs/exchanges.

The rows are those of crates/test_threads, each in new stores, and the model below prints them too. Memory may run out at one point of a row.
A call that is refused for that is an entry of its desk's history and changes nothing. A follower that runs out of memory is lost: it keeps
its part of the map, and begins again with its next refresh. An exchange that runs out of memory ends and keeps what it merged, and the next
one exchanges everything once more.
"""
import functools
import re
from dataclasses import dataclass

import model
from model import world

RS = (0, 2)
MOST = 256  # items of a Check, of a question in an exchange, and of a Merge
NOROOM = "out of memory"
WORDS = {  # what is printed for a refusal
    b"behind": "the journal doesn't reach back to the cursor",
    b"clash": "the key has another change of version Version {{ epoch: Generation {{ number: {} }}, seq: {} }}",
}


@dataclass
class Row:
    """What the first store's journal keeps, what a follower follows, what happens, and what is compared at the end."""

    ring: int
    sub: int
    pattern: bytes
    steps: list
    end: str


ROWS = [
    Row(256, 0, b"eth.*", [
        ("ask", "start", b"eth0", 3, 17), ("refresh", 1), ("refresh", 2), ("label", b"eth0"), ("ask", "sweep", b"eth0", 3),
        ("ask", "start", b"eth0", 4, 17), ("ask", "start", b"disk", 1, 17), ("take",), ("refresh", 2), ("label", b"eth0"),
        ("ask", "take_over", 0), ("refresh", 2), ("refresh", 2), ("lose",), ("refresh", 65537), ("refresh", 65536),
    ], "map"),
    Row(256, 0, b".*", [
        ("ask", "start", b"eth0", 3, 17), ("give",), ("give_back",), ("ask", "start", b"disk", 1, 17), ("ask", "start", b"eth0", 4, 17),
        ("ask_second", "start", b"eth0", 4, 18), ("forget",), ("give",),
    ], "open"),
    Row(2, 0, b".*", [
        ("ask", "start", b"eth0", 3, 17), ("give",), ("ask", "sweep", b"eth0", 3), ("ask", "start", b"eth0", 4, 17),
        ("ask", "start", b"disk", 1, 17), ("give",), ("give",), ("forget",), ("give",),
    ], "stores"),
    Row(256, 8, b".*", [("start_many", 0, 300), ("refresh", 2), ("refresh", 2)], "map"),
    Row(4096, 0, b".*", [("start_many", 0, 300), ("look",), ("give",), ("look",), ("start_many", 300, 600), ("give",), ("give",)], "stores"),
]


class OutOfMemory(Exception):
    """Memory runs out, after `done` items if the store reports how many."""

    def __init__(self, done=None):
        super().__init__(done)
        self.done = done


class Desk:
    """A store, the length of its history, and the notices that no server took."""

    def __init__(self, store):
        self.store, self.place, self.pending = store, 0, set()

    def call(self, command, taken):
        """Calls the store, and returns its answer without the masks, which are kept."""
        self.place += 1
        answer = self.store.answer(command, taken)
        masks = [int(it.split()[1], 16) for it in answer if it.startswith(b"owed ")]
        self.pending |= {sub for mask in masks for sub in range(self.store.subs) if mask >> sub & 1}
        return [it for it in answer if not it.startswith(b"owed ")]


class Playing:
    """A row that is being played. Memory runs out at a point of a step, if one is named: (step, point)."""

    def __init__(self, row, fault=(None, None)):
        self.row, self.fault, self.lines, self.points, self.begun = row, fault, [], [], []
        self.first, self.second = Desk(model.Store(row.ring, 1)), Desk(model.Store(256, 2))
        self.map, self.stamp, self.cursor = world.Map(world.Query(row.pattern, 15)), None, None
        for self.step, (verb, *given) in enumerate(row.steps):
            self.begun.append(len(self.lines))
            getattr(self, verb)(*given)
        self.compare()

    def say(self, word, number=None):
        self.lines.append(word if number is None else f"{word} {number}")

    def runs_out(self, *point):
        """Returns whether memory runs out at this point."""
        self.points.append((self.step, point))
        return (self.step, point) == self.fault

    # ---- calls ----

    def ask(self, verb, *given, desk=None, number=0):
        """Calls a desk's store, and prints only a refusal."""
        desk = desk or self.first
        if self.runs_out("asked", number):
            desk.place += 1
            return self.say(f"refused: {NOROOM}")
        answer = desk.call(*getattr(self, f"command_of_{verb}")(*given))
        return self.say(f"refused: {answer[0]}") if answer[0].startswith(b"refused") else None

    def command_of_start(self, name, generation, slot):
        return b"publish", (RS, (name, 0), (generation, 0), b"%d/%d" % (generation, slot), True)

    def command_of_sweep(self, name, generation):
        return b"sweep", (RS, name, generation)

    def command_of_take_over(self, sub):
        return b"subscribe", (sub, (b".*", 15), False, True)

    def ask_second(self, *given):
        self.ask(*given, desk=self.second)

    def start_many(self, low, high):
        for number in range(low, high):
            self.ask("start", b"n%03d" % number, 1, 17, number=number)

    def look(self):
        self.say("front", self.first.place)

    def take(self):
        """Takes the notices of server 0, which has the first eight subscriptions."""
        bits = sum(1 << it for it in self.first.pending if it < 8)
        self.first.pending = {it for it in self.first.pending if it >= 8}
        self.say("taken", bits)
        self.say("floor", self.first.place)

    # ---- the follower ----

    def label(self, name):
        change = self.map.held.held.get((name, 0), (None, None, None))
        self.say("generation", 0 if change[2] is None else int(change[2].partition(b"/")[0]))

    def lose(self):
        self.stamp = None

    def refresh(self, limit):
        try:
            place = self.called(limit) if 2 <= limit <= 65536 else "the limit isn't 2 to 65536 calls"
        except OutOfMemory:
            place = NOROOM
        if isinstance(place, str):
            self.stamp = None
            self.say(place)
        else:
            self.say(*(("up to", place) if place else ("more, limit", limit)))
        self.say("keys", len(self.map.held.held))

    def called(self, limit):
        """Makes at most `limit` calls. Returns the place that the map has reached, or None if there is none yet."""
        for number in range(limit):
            place = self.subscribe(number) if self.stamp is None else self.check(number)
            if place:
                return place
        return None

    def subscribe(self, number):
        if self.runs_out("copied", number):
            raise OutOfMemory
        if self.runs_out("called", number):
            self.first.place += 1
            raise OutOfMemory
        (answer,) = self.first.call(b"subscribe", (self.row.sub, (self.row.pattern, 15), True, True))
        self.map = world.Map(self.map.query)  # only now: a refusal keeps what the follower knew
        self.stamp = int(answer.split()[1])

    def check(self, number):
        if self.runs_out("called", number):
            self.first.place += 1
            raise OutOfMemory
        *items, answer = self.first.call(b"check", (self.row.sub, MOST))
        before, after = map(int, answer.split()[2:])
        if before != self.stamp:
            self.stamp = None
            return None
        for done, line in enumerate(items):
            if self.runs_out("taking", number, done):
                raise OutOfMemory
            self.map.merge([model.lines.item(line)])
        self.stamp = after
        return self.first.place if len(items) < MOST else None

    # ---- exchanges ----

    def forget(self):
        self.cursor = None

    def give(self):
        self.cursor = self.exchange(self.first, self.second, self.cursor)

    def give_back(self):
        self.exchange(self.second, self.first, None)

    def exchange(self, one, other, cursor):
        """Delivers what one store has to the other. Returns where the next exchange begins, or None after a fault."""
        try:
            done, taken, more, cursor = self.given(one, other, cursor)
        except OutOfMemory as stop:
            return self.say(NOROOM if stop.done is None else f"stopped after {stop.done} items: {NOROOM}")
        except model.store.Refused as refused:
            return self.say(str(refused))
        for word, number in (("done", done), ("taken", taken), ("more", int(more)), ("position", cursor)):
            self.say(word, number)
        return cursor

    def given(self, one, other, cursor):
        """Returns how many items were delivered and took effect, whether there may be more, and the cursor to continue from."""
        if cursor is not None:
            items, words = self.asked(one, 0, b"since", (1, cursor, MOST, None))
            return len(items), self.merged(other, items, 0), len(items) >= MOST, int(words[3])
        first, after, done, taken, is_last = None, None, 0, 0, False
        while not is_last:
            items, words = self.asked(one, done, b"page", (MOST, after, None))
            first, is_last = first if first is not None else int(words[4]), words[2] == b"last"
            after = next((model.lines.item(it).key for it in reversed(items) if not it.startswith(b"! ")), after)
            taken += self.merged(other, items, done)
            done += len(items)
        return done, taken, False, first

    def asked(self, desk, number, command, taken):
        """Returns the items of a store's answer, and the words after them."""
        if self.runs_out("asked", number):
            desk.place += 1
            raise OutOfMemory
        *items, answer = desk.call(command, taken)
        if answer.startswith(b"refused"):
            raise model.store.Refused("the store refused: " + WORDS[answer.split()[1]])
        return items, answer.split()

    def merged(self, desk, items, before):
        """Delivers items by Merges, and returns how many took effect."""
        taken = 0
        for at in range(0, len(items), MOST):
            part = items[at : at + MOST]
            if self.runs_out("split", before + at):
                raise OutOfMemory
            taken += self.merged_at_once(desk, part, before + at)
        return taken

    def merged_at_once(self, desk, items, before):
        """Makes one Merge, in which memory may run out at each item."""
        stop = next((at for at in range(len(items)) if self.runs_out("merged", before, at)), None)
        (answer,) = desk.call(b"merge", ([model.lines.item(it) for it in items[:stop]],))
        word, done, taken, *cause = answer.split()
        if stop is not None:
            raise OutOfMemory(stop)
        if word == b"stopped":
            cause = WORDS[taken].format(*cause[0].decode().split("."))
            raise model.store.Refused(f"stopped after {done.decode()} items: {cause}")
        return int(taken)

    # ---- the end ----

    def compare(self):
        """Compares the first store and the map, or both stores."""
        self.step = len(self.row.steps)
        self.begun.append(len(self.lines))
        scope = (self.row.pattern, 15)
        if self.row.end == "map":
            self.say("map equal", int(self.map.held.all()[:-1] == self.first.store.snapshot(scope)[:-1]))
        if self.row.end == "stores":
            self.say("stores equal", int(self.first.store.snapshot(scope)[:-1] == self.second.store.snapshot(scope)[:-1]))


def texts(rows):
    """Returns the lines of rows that were played."""
    return "".join(f"{line}\n" for it in rows for line in it.lines).encode()


@functools.lru_cache(maxsize=None)
def all_played():
    """Plays all rows with ample memory."""
    return [Playing(row) for row in ROWS]


def likely(row, played, local, rest):
    """Returns the points of a row at which memory may have run out, the likeliest first. The row's text differs from line `local` on."""
    asking = rest.startswith(b"refused: ")
    found = re.match(rb"stopped after (\d+) |.*\nkeys (\d+)\n", rest)
    number = int(found[1] or found[2]) if found else None
    points = [it for it in played.points if played.begun[it[0]] <= local and row.steps[it[0]][0].startswith(("ask", "start")) == asking]
    return sorted(points, key=lambda it: (it[1][0] in ("merged", "taking") and it[1][-1] != number, -it[0]))


def judged(output):
    """Returns what is wrong with an output of all rows, in one of which memory ran out, or None; and the step and the point."""
    played = all_played()
    lines, ample, at = output.splitlines(True), texts(played).splitlines(True), 0
    differs = next((it for it, (one, other) in enumerate(zip(lines, ample)) if one != other), min(len(lines), len(ample)))
    for number, row in enumerate(ROWS):
        local = differs - at
        at += len(played[number].lines)
        if differs < at:
            break
    before, after = texts(played[:number]), texts(played[number + 1 :])
    for step, point in likely(row, played[number], local, b"".join(lines[differs:])):
        if before + texts([Playing(row, (step, point))]) + after == output:
            return None, (row.steps[step][0], point[0])
    return f"memory ran out at none of the points: line {differs + 1} is {lines[differs : differs + 1]}, row {number + 1}", None

#!/usr/bin/env python3
"""tests/bridges/explorer.py [COUNT [FIRST]]: draws schedules of what bridges decide, against a model of a server that loses, and checks
laws.

The decisions are those of daemon/fleet/*.c, without lines, connections and time. An item is a number, so a store holds a set. Two bridges
share a server, and the events of clients, questions, answers and losses come in any order. COUNT schedules, or 3,000, begin with the seed
FIRST, or 0: none may break a law. Then guards are taken out of the decisions: for each of these wrong rules a schedule is sought that
breaks a law, and shrunk until each of its events is needed. The last line is 'N passed, M failed'.

The laws: an answer was true at some moment after its line came; a compaction takes nothing from the server; a snapshot has only what an
entry had; a bridge holds what it has read; what it holds is on the server, or is to be sent. A premise: no stream has an id that another
one had.
"""
import random
import sys

COUNT, SOUGHT, LENGTH = 3000, 20000, 80  # schedules; those in which a law is to be broken; events of one
ITEMS, ROOM, ROOM_DEAD, KEEP = 8, 4, 1, 1
NO_ENTRY = (0, 0)
LOSSES = ("stream", "stream", "all", "another", "back", "forward")  # the last two are the clock's
GUARDS = frozenset(("outbox", "entry", "probes", "known", "lost", "dead_letters", "after", "owed", "asked"))
WRONG = {  # rules, and the guards that they lack
    "a snapshot takes in what no entry has": ("outbox",),
    "a compaction trims any stream": ("entry", "probes"),
    "a compaction replaces any snapshot": ("entry", "known"),
    "a compaction drops what no store here holds": ("lost",),
    "what was refused isn't sent again": ("dead_letters",),
    "a look that began before a line answers it": ("after",),
    "a look that finds a loss answers a line": ("owed",),
    "what was held is answered at once": ("asked",),
}


class Server:
    """A stream and a snapshot. `ever` has all items that an entry ever had."""

    def __init__(self):
        self.clock, self.made, self.version, self.history, self.ever, self.losses = 10, 0, 0, 0, set(), 0
        self.empty()

    def empty(self):
        self.lose_stream()
        self.snapshot, self.at, self.trimmed = frozenset(), NO_ENTRY, 0
        self.version += 1

    def lose_stream(self):
        self.entries, self.generated, self.added = {}, NO_ENTRY, 0

    def content(self):
        return set(self.snapshot).union(*(items for _, items in self.entries.values()))

    def add(self, author, items):
        """Adds an entry, and returns its id: it rises within a stream, even if the clock goes back, and is no other stream's."""
        self.made += 1
        self.generated = (max(self.clock, self.generated[0] + 1), self.made)
        self.clock += 1
        self.entries[self.generated] = (author, items)
        self.added += 1
        self.ever |= items
        return self.generated

    def stock(self):
        at = NO_ENTRY if self.at > self.generated else self.at
        return {
            "snapshot": at, "generated": self.generated, "added": self.added, "gone": self.added - len(self.entries) - self.trimmed,
            "history": self.history, "losses": self.losses
        }


class Trail:
    """The entries that a bridge told, or read: see loss.h."""

    def __init__(self):
        self.sure = self.first = self.last = self.asked = self.later = NO_ENTRY

    def add(self, entry):
        self.first = entry if self.first == NO_ENTRY else self.first
        self.later = entry if self.later == NO_ENTRY else self.later
        self.last = entry

    def ask(self):
        self.asked, self.later = self.last, NO_ENTRY

    def looked(self):
        self.sure, self.first = self.asked, self.later


class Bridge:
    """The decisions of one bridge. `question` is the producer's, and `answer` what the server said to it."""

    def __init__(self, name, guards):
        self.name, self.guards = name, guards
        self.store, self.dead_letters, self.lost, self.noted = set(), set(), False, None
        self.outbox, self.sent, self.told, self.gathered, self.owes = [], 0, 0, 0, False
        self.met, self.caught_up, self.is_long, self.looks_due = False, False, False, False
        self.asked_looks, self.wanted, self.good, self.good_at, self.seen, self.gathered_at = 0, 0, 0, 0, 0, 0
        self.question = self.answer = None
        self.noticed = -1  # losses that the server had had when this bridge last began anew
        self.waiting = []  # [item, mark, is of a look, whether it was true since its line came]
        self.stock = None
        self.read_from_start()

    def read_from_start(self):
        self.last = self.passed = self.merged = self.written = self.asked = NO_ENTRY
        self.said, self.state, self.lost = None, "behind", False
        self.trails = {"told": Trail(), "read": Trail()}

    def begin_anew(self, stock, owes):
        self.owes |= owes
        self.noted = set() if self.owes else None
        self.sent, self.good, self.stock, self.noticed = 0, 0, stock, stock["losses"]
        self.read_from_start()

    def probes(self):
        return [it for trail in self.trails.values() for it in (trail.sure, trail.first)]

    # ---- the store ----

    def take(self, items):
        for item in items:
            if item in self.store or item in self.dead_letters:
                continue
            if len(self.store) < ROOM:
                self.store.add(item)
            elif len(self.dead_letters) < ROOM_DEAD:
                self.dead_letters.add(item)
            else:
                self.lost = True
        if self.noted is not None:
            self.noted |= items

    def line(self, item):
        """Takes a client's change, and marks when it is answered."""
        if not self.caught_up:
            return
        if item in self.store:
            is_look = "asked" in self.guards
            self.wanted = self.asked_looks + ("after" in self.guards)
            self.waiting.append([item, self.wanted if is_look else self.gathered, is_look, False])
        elif len(self.store) < ROOM:
            self.store.add(item)
            self.outbox.append(item)
            self.gathered += 1
            self.waiting.append([item, self.gathered, False, False])

    def released(self):
        """Takes the changes that are answered now."""
        ready = [it for it in self.waiting if (self.has_seen(it[1]) if it[2] else self.told >= it[1])]
        self.waiting = [it for it in self.waiting if it not in ready]
        return ready

    def has_seen(self, look):
        return self.seen >= look or (self.good >= look and self.told >= self.good_at)

    # ---- the producer ----

    def ask(self):
        """Asks the next question, as ask_next of ds_fleet.c chooses it."""
        if self.question:
            return
        if self.owes and self.state == "end" and self.met:
            owed = self.store | (self.dead_letters if "dead_letters" in self.guards else set())
            fresh = sorted(owed - (self.noted or set()))
            self.outbox += fresh
            self.gathered += len(fresh)
            self.owes, self.noted = False, None
        if not self.met:
            self.question = ("meet",)
        elif self.state == "gap":
            self.question = ("fetch",)
        elif self.state == "end" and self.looks_due:
            self.ask_to_look()
        elif self.state == "end" and self.is_long and not self.owes and not self.is_overfull():
            self.question = ("watch",)
        elif self.is_look_due():
            self.ask_to_look()
        elif self.outbox:
            self.sent = len(self.outbox)
            self.question = ("add", frozenset(self.outbox))

    def is_overfull(self):
        return self.lost and "lost" in self.guards

    def is_look_due(self):
        waits = self.good > self.seen and self.told < self.good_at
        return self.wanted > max(self.seen, self.good) and not waits and not self.owes and self.state == "end"

    def ask_to_look(self):
        self.asked_looks += 1
        self.gathered_at, self.asked, self.looks_due = self.gathered, self.last, False
        self.question = ("look", self.probes())
        for trail in self.trails.values():
            trail.ask()

    def write(self, at, version):
        """Asks to write the snapshot that was watched, or nothing."""
        is_known = (at == self.merged != NO_ENTRY) or (at in (self.stock["snapshot"], self.written) and self.last > at)
        may = self.state == "end" and self.said is not None and not self.is_overfull() and not self.owes
        if not may or ("known" in self.guards and not is_known):
            return None
        self.sent = len(self.outbox)
        added = frozenset(self.outbox) if "outbox" in self.guards else frozenset()
        missing = [it for it in self.probes() if it > at] if "probes" in self.guards else []
        return ("write", version, dict(self.stock), self.last, self.said, missing, added, frozenset(self.store | self.dead_letters))

    def tell(self, entry):
        self.trails["told"].add(entry)
        self.drop_told()

    def drop_told(self):
        self.outbox, self.told, self.sent = self.outbox[self.sent :], self.told + self.sent, 0

    def look_for_loss(self, stock, lacks):
        before = self.stock
        less = stock["snapshot"] < before["snapshot"] or stock["gone"] > before["gone"] or stock["added"] < before["added"]
        if less or lacks or stock["history"] != before["history"] or self.asked > stock["generated"]:
            self.begin_anew(stock, True)
            return
        self.stock = stock
        for trail in self.trails.values():
            trail.looked()

    def hear(self):
        """Takes the answer to the question."""
        kind, answer, self.question, self.answer = self.question[0], self.answer, None, None
        if kind == "meet":
            if self.stock is None or answer["history"] != self.stock["history"]:
                self.begin_anew(answer, self.stock is not None)
            self.met = True
        elif kind == "add":
            self.tell(answer[0])
            self.is_long = answer[1] > KEEP
        elif kind == "fetch":
            generated, at, items = answer
            self.take(items)
            self.merged, self.state = at, "behind"
            if at > generated:
                self.passed = at
            elif at > self.last:
                self.last, self.said = at, None
        elif kind == "look":
            self.look_for_loss(answer[0], answer[1])
            self.is_long = answer[2] > KEEP
            if not self.owes or "owed" not in self.guards:
                self.look_is_good()
        elif kind == "watch":
            self.question = self.write(*answer)
        elif kind == "write":
            self.is_long = False
            self.hear_of_snapshot(*answer)

    def hear_of_snapshot(self, at, entry):
        """Takes up to which entry a snapshot was written, and the entry that was added with it."""
        if entry:
            self.tell(entry)
        self.sent, self.written = 0, at or self.written

    def look_is_good(self):
        if self.good and self.told >= self.good_at:
            self.seen = max(self.seen, self.good)
        if self.good <= self.seen:
            self.good, self.good_at = self.asked_looks, self.gathered_at

    # ---- the consumer ----

    def read(self, server):
        if not self.met or self.state == "gap":
            return
        has_gap = server.at > self.last and server.at != self.passed
        for entry, (author, items) in sorted(server.entries.items()):
            if entry > self.last:
                self.take(items if author != self.name else set())
                if self.noted is not None:
                    self.noted |= items
                self.last, self.said = entry, (author, items)
                self.trails["read"].add(entry)
        self.state = "gap" if has_gap else "end"

    def cut(self):
        self.question = self.answer = None
        self.met, self.sent = False, 0
        self.state = "behind" if self.state == "end" else self.state


def lacks(server, ids):
    return any(it > server.at and it not in server.entries for it in ids)


def serve(server, bridge):
    """The server carries out a bridge's question. Returns the law that this breaks, or None."""
    kind, *given = bridge.question
    if kind == "meet":
        bridge.answer = server.stock()
    elif kind == "add":
        bridge.answer = (server.add(bridge.name, given[0]), len(server.entries))
    elif kind == "fetch":
        bridge.answer = (server.generated, server.at, set(server.snapshot))
    elif kind == "look":
        bridge.answer = (server.stock(), lacks(server, given[0]), len(server.entries))
    elif kind == "watch":
        bridge.answer = (server.at, server.version)
    elif kind == "write":
        return serve_compaction(server, bridge, *given)
    return None


def serve_compaction(server, bridge, version, stock, last, said, ids, added, held):
    is_there = server.entries.get(last) == said or "entry" not in bridge.guards
    is_same = server.history == stock["history"] and is_there and all(it in server.entries for it in ids)
    gone = server.added - len(server.entries) - server.trimmed
    bridge.answer = (None, None)
    if version != server.version or not is_same or server.added < stock["added"] or gone > stock["gone"]:
        return None
    entry = server.add(bridge.name, added) if added else None
    before = server.content()
    kept = {it: what for it, what in server.entries.items() if it > last}
    server.trimmed += len(server.entries) - len(kept)
    server.entries, server.snapshot, server.at = kept, held, last
    server.version += 1
    bridge.answer = (last, entry)
    if before - server.content():
        return "a compaction takes nothing from the server"
    return "a snapshot has only what an entry had" if held - server.ever else None


class World:
    """Two bridges and a server."""

    def __init__(self, guards):
        self.guards, self.server, self.runs = guards, Server(), 2
        self.bridges = [Bridge(at, guards) for at in range(2)]

    def lose(self, kind):
        server = self.server
        if kind in ("back", "forward"):
            server.clock = max(1, server.clock + (8 if kind == "forward" else -8))
            return
        if kind == "stream":
            server.lose_stream()
        else:
            server.empty()
        if kind == "another":
            server.history += 1
            for bridge in self.bridges:
                bridge.cut()
        server.losses += 1

    def step(self, event, at=None, what=None):
        """Carries out an event. Returns the law that is broken, or None."""
        bridge, broken = self.bridges[at] if at is not None else None, None
        if event == "lose":
            self.lose(what)
        elif event == "line":
            bridge.line(what)
        elif event == "ask":
            bridge.looks_due |= what
            bridge.ask()
        elif event == "serve" and bridge.question and not bridge.answer:
            broken = serve(self.server, bridge)
        elif event == "hear" and bridge.answer:
            bridge.hear()
        elif event == "read":
            bridge.read(self.server)
        elif event == "cut":
            bridge.cut()
        elif event == "kill":
            self.bridges[at] = Bridge(self.runs, self.guards)
            self.runs += 1
        return broken or self.judge()

    def judge(self):
        content = self.server.content()
        for bridge in self.bridges:
            for it in bridge.waiting:
                it[3] |= it[0] in content
            if any(not it[3] for it in bridge.released()):
                return "an answer is true at some moment after its line came"
            in_step = bridge.met and bridge.state == "end" and bridge.noticed == self.server.losses and not bridge.question
            bridge.caught_up |= in_step and not bridge.outbox and not bridge.owes
            if not in_step or bridge.owes:
                continue
            held = bridge.store | bridge.dead_letters
            read = set().union(*(items for entry, (_, items) in self.server.entries.items() if entry <= bridge.last))
            if read - held and not bridge.lost:
                return "what a bridge has read it holds"
            if held - content - set(bridge.outbox):
                return "what it holds is on the server, or is to be told"
        return None


def drawn(seed):
    """Returns a schedule: a list of events. Mostly a bridge goes through whole rounds; sometimes events come between."""
    draw, events = random.Random(seed), []
    while len(events) < LENGTH:
        at, chance = draw.randrange(2), draw.random()
        asks = ("ask", at, draw.random() < 0.3)
        if chance < 0.06:
            events.append(("lose", None, draw.choice(LOSSES)))
        elif chance < 0.08:
            events.append((draw.choice(("kill", "cut")), at))
        elif chance < 0.3:
            events.append(("line", at, draw.randrange(ITEMS)))
        elif chance < 0.5:
            events.append(("read", at))
        elif chance < 0.75:
            events += [asks, ("serve", at), ("hear", at)]
        else:
            events.append(draw.choice((asks, ("serve", at), ("hear", at))))
    return events


def broken_by(schedule, guards):
    """Returns the law that a schedule breaks, and how many events that takes; or None and its length."""
    world = World(guards)
    count = 0
    for count, event in enumerate(schedule, 1):
        law = world.step(*event)
        if law:
            return law, count
    return None, count


def shrunk(schedule, law, guards):
    """Returns a schedule of no event that could be left out, by which the law is broken."""
    at = 0
    while at < len(schedule):
        shorter = schedule[:at] + schedule[at + 1 :]
        if broken_by(shorter, guards)[0] == law:
            schedule, at = shorter, 0
        else:
            at += 1
    return schedule


def found(guards, seeds):
    """Returns the law that the first of these schedules breaks, and the schedule, shrunk; or None."""
    for seed in seeds:
        schedule = drawn(seed)
        law, count = broken_by(schedule, guards)
        if law:
            return law, shrunk(schedule[:count], law, guards)
    return None


def main():
    count, first = (*map(int, sys.argv[1:]), *(COUNT, 0)[len(sys.argv) - 1 :])
    worst, failed = found(GUARDS, range(first, first + count)), 0
    if worst:
        failed += 1
        print(f"FAILED a schedule breaks the law that {worst[0]}:", *worst[1], sep="\n    ")
    for rule, lacked in WRONG.items():
        wrong = found(GUARDS.difference(lacked), range(first, first + SOUGHT))
        failed += not wrong
        print(f"{rule}: {f'{len(wrong[1])} events break the law that {wrong[0]}' if wrong else 'FAILED, no law is broken'}", flush=True)
    print(f"{len(WRONG) + 1 - failed} passed, {failed} failed")
    return failed > 0


if __name__ == "__main__":
    sys.exit(main())

"""Publishers work at some bridges for a while, under kills and meddling. Then all stores must hold the same, as the model predicts.

A rough storm also has failovers, swallowed connections, bridges of another scope, and clients that hang up or read nothing. In a Sentinel's
storm masters are killed, a Sentinel promotes the replica, and a change is answered once the replica has it. So nothing is lost, whatever
dies after that, and whatever the Sentinel of a busy machine takes for dead. A seed never chooses this kind.
"""
import collections
import contextlib
import itertools
import json
import os
import random
import threading
import time

from fleets import Fleet, Gone, Sentinel
from history import History
from rough import Prober, Rapids, Rude
from waiting import until

from model import lines as reader
from model.store import Store

PLAIN, MEDDLED, ROUGH = KINDS = ("storm", "storm with meddling", "rough storm")  # by the seed
OF_SENTINEL = "Sentinel's storm"
BRIDGES = 5
NAMES = 300  # of each publisher: enough that no later change of the same name hides a lost one
PACE = 0.25  # seconds between two kills, on average
REST = 0.002  # seconds that a publisher rests between two rounds of changes, so that the model keeps up
GRAVE = ("killed", "failovers")
GRAVE_LEAST = {PLAIN: 10, MEDDLED: 10, ROUGH: 5, OF_SENTINEL: 5}  # how many happen in a run, however slow the machine is
LIMIT = 5  # seconds that an answer of a running bridge may take, besides
DELAYS = 10  # times what the machine delayed a rest at most: so busy is it
REFUSED = 2  # the status of a bridge of another scope
FOLLOWED = ("--repl-diskless-sync-delay", "0")  # an empty replica gets everything immediately

# Commands by hand, as a user with the keys may send them.
HANDS = (
    ["CLIENT", "KILL", "TYPE", "normal"], ["XTRIM", "ds:items", "MAXLEN", 0], ["FLUSHALL"], ["DEL", "ds:items"], ["DEL", "ds:snapshot"],
    ["DEL", "ds:digests"],
    ["XADD", "ds:items", "*", "from", "x", "items", "junk"], ["XADD", "ds:items", "*", "other", "field"], ["CLIENT", "PAUSE", 150, "WRITE"],
    ["HSET", "ds:snapshot", "at", "9999999999999-0", "items", ""], ["HDEL", "ds:snapshot", "items"], ["HSET", "ds:digests", "x", "y"],
)
LOSSES = [it for it in HANDS if it[0] in ("XTRIM", "FLUSHALL", "DEL", "HDEL") or it[1] == "ds:snapshot"]


class Reader(threading.Thread):
    """Reads pages at its bridge, each after a random key."""

    clients = itertools.count()
    WINDOW, REST = 20, 0.05  # changes of a page; seconds between two reads

    def __init__(self, bridge, seed, publishers):
        super().__init__(daemon=True)
        self.bridge, self.draw, self.publishers = bridge, random.Random(seed), publishers
        self.events, self.ended = [], False

    def run(self):
        while not self.ended:
            try:
                run = self.bridge.starts
                with self.bridge.client() as client:
                    if run == self.bridge.starts:
                        self.read(client, next(self.clients), run)
            except (OSError, Gone):
                time.sleep(self.REST)

    def read(self, client, number, run):
        while not self.ended:
            asked = time.monotonic()
            after = f"host{self.draw.randrange(self.publishers)}.n{self.draw.randrange(NAMES)} u32"
            lines = client.ask(f"page * {after} {self.WINDOW}")
            self.events.append(read_event(self.bridge, run, number, asked, lines[:-1]))
            time.sleep(self.REST)


def read_event(bridge, run, client, asked, lines, **more):
    """Returns the event of a read, for a history."""
    return {"store": bridge.socket, "run": run, "client": client, "asked": asked, "answered": time.monotonic(), "shown": lines, **more}


def change_event(bridge, run, item):
    """Returns the event of a change that waits for its answer, for a history."""
    return {"store": bridge.socket, "run": run, "text": item, "asked": time.monotonic(), "answered": None}


def patient(work):
    """Returns the result of `work`, or None if a server hung up: a Sentinel ends the connections to a server that it demotes."""
    try:
        return work()
    except ConnectionError:
        time.sleep(REST)
        return None


class Lost(AssertionError):
    """A change that was answered isn't there."""


class Publisher(threading.Thread):
    """Publishes and deletes entries of its own at its bridge. Now and then its driver dies, is swept, and returns in the next generation.

    Publishers with odd numbers offer items. Those with even ones act as RS and a driver with a label, whose commands the store judges. Each
    connection begins a generation above all that the store holds and all that this publisher ever sent: a change without an answer may
    still take effect, also after a failover, and the store of a restarted bridge need not hold it. So a refusal is always a fault.
    """

    def __init__(self, bridge, number, seed):
        super().__init__(daemon=True)
        self.bridge, self.number, self.draw = bridge, number, random.Random(seed)
        self.owner, self.endpoint = f"host{number}.drv", f"/{16 + number}"
        self.sent, self.answered, self.ended, self.rests, self.wrong = [], [], False, False, None
        self.events, self.run_of_bridge, self.generation = [], 0, 0

    def run(self):
        try:
            while not self.ended:
                self.serve()
        except AssertionError as wrong:
            self.wrong = wrong

    def serve(self):
        """Serves one connection, until the bridge hangs up or the storm ends."""
        try:
            self.run_of_bridge = self.bridge.starts
            with self.bridge.client() as client:
                if self.run_of_bridge != self.bridge.starts:
                    return
                self.begin(client)
                while not self.ended:
                    if self.rests:
                        time.sleep(0.01)
                        continue
                    for _ in range(self.draw.choice((1, 1, 1, 8))):
                        self.tell(client, self.drawn())
                    self.hear(client)
                    time.sleep(REST)
        except (OSError, Gone):
            time.sleep(0.01)

    def tell(self, client, drawn):
        """Sends lines at once. `drawn` has each line with the item that it makes."""
        events = [change_event(self.bridge, self.run_of_bridge, item) for _, item in drawn]
        self.sent += [item for _, item in drawn]
        self.events += events
        self.waits += events
        client.send(*(line for line, _ in drawn))

    def begin(self, client):
        """Checks that the store holds every answered change, and begins a new generation."""
        self.waits = []
        said = client.ask("all")
        held = {key_of(line): line for line in said[:-1]}
        newest = {}
        for line in self.answered:
            newest[key_of(line)] = line
        floor = generation_of(held.get(f"! {self.owner}"))
        for key, line in newest.items():
            if not covered(line, held.get(key), floor):
                raise Lost(f"{self.bridge.socket} has {held.get(key)}, floor {floor}, but {line} was answered")
        self.generation = max(
            [self.generation, floor, *(generation_of(line) for key, line in held.items() if key.startswith(f"host{self.number}."))]
        )
        self.seqs, self.waiting = {}, self.reborn()

    def reborn(self):
        """Begins the driver's next generation. Returns RS's lines about it and about the sweep of the last one, each with its item."""
        before, self.generation, self.seqs = self.generation, self.generation + 1, {}
        floor = f"! {self.owner} {before}"
        if self.number % 2:
            return [(f"offer {floor}", floor)]
        at = f"{self.generation}{self.endpoint}"
        return [
            (f"publish 0/2 over {self.owner} label {self.generation}.0 = {at}", f"{self.owner} label rs {self.generation}.0 = {at}"),
            (f"sweep 0/2 {self.owner} {before}", floor),
        ]

    def drawn(self):
        """Draws the next lines, each with the item that it makes."""
        if self.waiting:
            lines, self.waiting = self.waiting, []
            return lines
        if self.draw.random() < 0.02:
            return self.reborn()
        name = f"host{self.number}.n{self.draw.randrange(NAMES)}"
        is_new = name not in self.seqs
        self.seqs[name] = self.seqs.get(name, 0) + 1
        version = f"{self.generation}.{self.seqs[name]}"
        ends = not is_new and self.draw.random() < 0.1
        value = "-" if ends else f"= {self.draw.randrange(1000)}"
        item = f"{name} u32 {self.owner} {version} {value}"
        if self.number % 2:
            return [(f"offer {item}", item)]
        caller = f"{self.generation}{self.endpoint}"
        return [(f"delete {caller} {name} u32 {version}" if ends else f"publish {caller} over {name} u32 {version} {value}", item)]

    def hear(self, client):
        while self.waits:
            answer, event = client.answer(), self.waits.pop(0)
            item = event["text"]
            if answer[0] == "refused notfound" and item.endswith(" -"):
                self.sent.remove(item)  # it deletes what is deleted already
                self.events.remove(event)
            elif answer[0] in ("taken", "known") or answer[0].startswith("swept"):
                self.answered.append(item)
                event["answered"] = time.monotonic()
            else:
                raise AssertionError(f"{item}: {answer}")


def key_of(line):
    """Returns the key of a change, or the `!` and the owner of a floor."""
    return " ".join(line.split()[:2])


def version(line):
    return tuple(map(int, line.split()[3].split(".")))


def generation_of(line):
    """Returns the generation of a floor or a change, or 0 for None."""
    return 0 if line is None else int(line.split()[2]) if line.startswith("!") else version(line)[0]


def covered(line, held, floor):
    """Returns whether a floor, or the version that is held, covers the line."""
    if line.startswith("!"):
        return floor >= generation_of(line)
    is_void = line.split()[1] != "label" and generation_of(line) <= floor
    return is_void or held is not None and version(held) >= version(line)


class Storm:
    """One storm, and what was done in it."""

    def __init__(self, words, seed, kind=None, bridges=BRIDGES):
        self.words, self.seed, self.count = words, seed, bridges
        self.kind = kind or KINDS[seed % len(KINDS)]
        self.meddles, self.is_rough = self.kind in (MEDDLED, ROUGH), self.kind == ROUGH
        self.sentinel = None
        self.draw = random.Random(seed)
        self.done, self.is_fragile = collections.Counter(), False
        self.log = None  # a file for the history, or None
        self.publishers, self.readers, self.rude, self.probers, self.master, self.replica, self.rapids = [], [], [], [], None, None, None

    def run(self, seconds):
        """Returns a line about what was done and seen. Raises AssertionError if stores differ, or something is missing."""
        # A server that syncs each second may hold its writes back for two, and loses answered changes if it is killed. Bridges that
        # live send these again, but here all may die at once, too.
        with contextlib.ExitStack() as held:
            fleet = self.master = held.enter_context(Fleet(self.words, keep=60, syncs="always", settings=FOLLOWED))
            if self.is_rough or self.kind == OF_SENTINEL:
                self.replica = held.enter_context(Fleet([], syncs="always", settings=FOLLOWED))
                self.replica.follow(fleet)
            if self.kind == OF_SENTINEL:
                self.sentinel = held.enter_context(contextlib.closing(Sentinel(fleet)))
            if self.is_rough:
                self.rapids = held.enter_context(contextlib.closing(Rapids(fleet.port, self.seed)))
            for _ in range(self.count):
                fleet.start(*(("--replicas", "1", "--within", "200") if self.sentinel else ()), wait=False, url=self.url())
            for bridge in fleet.bridges:
                bridge.serves()
            self.begin(fleet)
            end = time.monotonic() + seconds
            while time.monotonic() < end or self.grave() < GRAVE_LEAST[self.kind]:
                time.sleep(self.draw.uniform(0.3 * PACE, 1.7 * PACE))
                self.strike(fleet)
            done = self.judged(fleet)
            fleet.end()
            return done

    def url(self):
        """Returns where bridges look for the server."""
        if self.sentinel:
            return f"redis-sentinel://127.0.0.1:{self.sentinel.port}/ds"
        return self.rapids and self.rapids.url()

    def begin(self, fleet):
        for at, bridge in enumerate(fleet.bridges):
            self.publishers.append(Publisher(bridge, at, self.seed * 100 + at))
            self.probers.append(Prober(bridge))
            self.readers.append(Reader(bridge, self.seed * 100 + at, self.count))
            if self.is_rough:
                self.rude.append(Rude(bridge, at, self.seed * 100 + at))
        for it in (*self.publishers, *self.probers, *self.readers, *self.rude):
            it.start()

    def grave(self):
        return sum(count for it, count in self.done.items() if it.endswith(GRAVE))

    # ---- what happens ----

    def strike(self, fleet):
        """Does something bad."""
        if self.sentinel:
            self.draw.choices((self.kill_bridge, self.pause_bridge, self.fail_over_by_sentinel), (6, 2, 2))[0](fleet)
        elif self.is_rough and self.draw.random() < 0.3:
            self.draw.choice((self.fail_over, self.fail_over, self.meet_stranger, self.cut_connections))(fleet)
        elif self.meddles and self.draw.random() < 0.4:
            self.meddle(fleet)
        else:
            acts, chances = zip((self.kill_bridge, 6), (self.pause_bridge, 1), (self.kill_server, 2), (self.kill_all, 1))
            act = self.draw.choices(acts, chances)[0]
            if self.is_fragile and act != self.pause_bridge:
                self.heal(fleet)
            act(fleet)

    def meddle(self, fleet):
        self.done["meddlings"] += 1
        meddling = self.draw.choice(HANDS)
        if meddling in LOSSES:
            self.become_fragile(fleet)
        self.master.ask(*meddling)

    def kill_bridge(self, fleet):
        self.done["bridges killed"] += 1
        bridge = self.draw.choice(fleet.bridges)
        bridge.kill()
        bridge.start()

    def pause_bridge(self, fleet):
        self.done["bridges paused"] += 1
        bridge = self.draw.choice(fleet.bridges)
        bridge.pause()
        time.sleep(self.draw.uniform(0.1, 0.6))
        bridge.resume()

    def kill_server(self, fleet):
        self.done["servers killed"] += 1
        until(self.master.keeps_all, "the server's file has all")
        self.master.kill_server()
        time.sleep(self.draw.uniform(0, 0.3))
        self.master.start_server()

    def kill_all(self, fleet):
        self.done["all killed"] += 1
        until(self.master.keeps_all, "the server's file has all")
        for it in fleet.bridges:
            it.process.kill()
        self.master.kill_server()
        for it in fleet.bridges:
            it.kill()
        self.master.start_server()
        for it in fleet.bridges:
            it.start()

    def fail_over(self, fleet):
        """Promotes the replica, which lacks what the old master answers until bridges leave it. Then the old master is the replica."""
        self.done["failovers"] += 1
        old, new = self.master, self.replica
        until(new.follows, "the replica is in step with its master")
        self.become_fragile(fleet)
        new.ask("REPLICAOF", "NO", "ONE")
        time.sleep(self.draw.uniform(0, 0.4))
        self.done["lines that failovers lost"] += len(set(old.told()) - set(new.told()))
        dies = self.draw.random() < 0.5
        if dies:
            old.kill_server()
        self.rapids.port = new.port
        time.sleep(self.draw.uniform(0, 0.4))
        if dies:
            old.start_server()
        old.ask("REPLICAOF", new.host, new.port)
        self.master, self.replica = new, old

    def find_master(self):
        """Swaps master and replica if the Sentinel did: on a busy machine it may take a living master for dead."""
        is_another = self.sentinel and self.sentinel.master_port() == self.replica.port
        if is_another:
            self.master, self.replica = self.replica, self.master

    def may_fail_over(self):
        """Returns whether the Sentinel knows a replica that has all that the master has."""
        self.find_master()
        return self.sentinel.knows_replica() and self.replica.follows()

    def fail_over_by_sentinel(self, fleet):
        """Kills the master, which returns as a replica of the server that the Sentinel chooses."""
        self.done["failovers"] += 1
        until(lambda: patient(self.may_fail_over), "the Sentinel knows a replica in step", 60)
        old, new = self.master, self.replica
        lost = patient(lambda: set(old.told()) - set(new.told())) or ()
        self.done["lines that failovers lost"] += len(lost)
        old.kill_server()
        until(lambda: self.sentinel.master_port() == new.port, "the Sentinel chooses the replica", 60)
        old.start_server()
        # As the Sentinel would, some seconds later.
        until(lambda: patient(lambda: old.ask("REPLICAOF", new.host, new.port)), "the old one is a replica")
        self.master, self.replica = new, old

    def meet_stranger(self, fleet):
        """Checks that a bridge of another scope is refused. If the stream's scope is lost, this bridge would write its own."""
        self.done["strangers refused"] += 1
        if self.is_fragile:
            self.heal(fleet)
        stranger = fleet.start("--scope", "host1\\..* 2", wait=False, url=self.rapids.url(), at="stranger")
        fleet.bridges.remove(stranger)
        try:
            until(lambda: stranger.process.poll() is not None, "a bridge of another scope ends")
            status, is_there = stranger.process.returncode, os.path.exists(stranger.socket)
            assert status == REFUSED and not is_there and "badscope" in stranger.said(), f"status {status}: {stranger.said()[-500:]}"
        finally:
            stranger.kill()
        os.remove(stranger.log)

    def cut_connections(self, fleet):
        self.done["cuts of all connections"] += 1
        self.rapids.cut()

    def become_fragile(self, fleet):
        """Waits until all bridges serve: a bridge must hold what the server is about to lose."""
        self.is_fragile = True
        for it in fleet.bridges:
            it.serves()

    def heal(self, fleet):
        """Lets living bridges send what the server lost again, before one of them dies."""
        self.rest(True)
        for bridge in fleet.bridges:
            bridge.serves()
        self.whole(fleet)
        self.rest(False)
        self.is_fragile = False

    def rest(self, rests):
        for it in (*self.publishers, *self.rude):
            it.rests = rests
        if self.rapids:
            self.rapids.calm = rests

    def whole(self, fleet):
        """Waits until all hold the same, and the server has all of it and the scope. Returns what they hold."""

        def seen():
            self.find_master()
            view = fleet.agree()
            return view if {it.encode() for it in view[:-1]} <= set(self.master.told()) else None

        until(lambda: patient(lambda: self.master.ask("HGET", "ds:snapshot", "scope")), "the server has the scope again")
        return until(lambda: patient(seen), "the server has all again")

    # ---- the result ----

    def judged(self, fleet):
        self.rest(True)
        clients = (*self.publishers, *self.readers, *self.rude)
        for it in clients:
            it.ended = True
        for it in clients:
            it.join(60)
            if it.is_alive():
                raise AssertionError(f"a client of {it.bridge.socket} waits forever for an answer")
        for it in self.publishers:
            if it.wrong:
                raise it.wrong
        begun = time.monotonic()
        for bridge in fleet.bridges:
            bridge.serves()
        view = self.whole(fleet)
        took = time.monotonic() - begun
        sent = [line for it in (*self.publishers, *self.rude) for line in it.sent]
        answered = [line for it in self.publishers for line in it.answered]
        self.compare(view, sent, answered + [line for it in self.rude for line in it.kept()])
        self.judge_history(fleet)
        changes = f"{len(answered)} changes answered of {len(sent)}, {len(view) - 1} held"
        return f"{changes}, {self.report()}; all agree {took:.2f} s after the last"

    def judge_history(self, fleet):
        """Checks that what each client sent and got has a legal order."""
        events = [event for it in (*self.publishers, *self.readers, *self.rude) for event in it.events]
        for bridge in fleet.bridges:
            asked = time.monotonic()
            events.append(read_event(bridge, bridge.starts, next(Reader.clients), asked, bridge.all()[:-1], final=True))
        if self.log:
            with open(self.log, "w", encoding="utf-8") as log:
                log.writelines(json.dumps(it) + "\n" for it in events)
        faults = History(events).judge()
        self.done["reads of a legal history"] = sum("shown" in it for it in events)
        assert not faults, f"{len(faults)} faults of the history: {faults[:5]}"

    def report(self):
        """Returns what was done, and how long the slowest answer took."""
        for it in self.probers:
            it.ended = True
            it.join(60)
            assert it.count, f"{it.bridge.socket} never answered a probe"
        slowest = max(it.slowest for it in self.probers)
        done = [f"{count} {what}" for what, count in sorted(self.done.items())]
        if self.is_rough:
            done += [f"{count} {what}" for what, count in self.rapids.did().items()]
            done.append(f"{sum(len(it.hung_up) for it in self.rude)} clients that hung up")
            done.append(f"{sum(it.asked for it in self.rude)} that read nothing")
        asked = f"{sum(it.count for it in self.probers)} probes, the slowest answer after {slowest:.2f} s"
        limit = LIMIT + DELAYS * max(it.late for it in self.probers)
        if slowest > limit:
            raise AssertionError(f"{asked}, which may take {limit:.2f} s; {', '.join(done)}")
        return ", ".join([*done, asked])

    def compare(self, view, sent, answered):
        """Checks that the stores hold what the model makes of all answered changes, and of those unanswered ones that are there."""
        held = set(view)
        unanswered = set(sent) - set(answered)
        store = Store()
        for line in answered + [it for it in unanswered if it in held]:
            store.offer(reader.item(line.encode()))
        wanted = [it.decode() for it in store.all()]
        missing = [it for it in wanted if it not in held]
        if missing:
            raise Lost(f"missing at the end: {missing[:5]}")
        if wanted != view:
            raise AssertionError(f"held, but not by the model: {[it for it in view if it not in set(wanted)][:5]}")

"""What a rough storm has besides publishers: a network that swallows connections, clients that hang up or read nothing, and probers."""
import collections
import math
import random
import threading
import time

from fleets import TICK, Gone, Proxy

SWALLOWED = 0.15  # of all connections
FOR_GOOD = 0.4  # of those that are swallowed
LONGEST_STALL = 7  # seconds; a bridge waits five for an answer
LATEST_STALL = 10  # seconds that a connection is carried before it is swallowed, unless it is swallowed from its start
QUICK_NAMES = 200  # of a bridge's clients that hang up at once
DEAF = 20  # clients of a bridge that read nothing at a time
PROBES = ("state", "retrieve host0.n0 u32")
REST = 0.02  # seconds between two probes


class Fate:
    """When a connection is swallowed, for how long, and in which directions."""

    def __init__(self, draw):
        self.begins = time.monotonic() + draw.choice((0, draw.uniform(0, LATEST_STALL)))
        self.lasts = math.inf if draw.random() < FOR_GOOD else draw.uniform(0.2, LONGEST_STALL)
        self.answers_alone = draw.random() < 0.5
        self.ends = None  # known once it has begun


class Rapids(Proxy):
    """A proxy that swallows some connections, or only their answers: for good, or for a while, after which everything arrives late.

    While it is calm, it swallows no further connection. Those that it swallowed stay so.
    """

    def __init__(self, port, seed):
        self.draw, self.fates, self.calm = random.Random(seed), {}, False
        super().__init__(port)

    def join(self, near):
        self.fates[self.count] = Fate(self.draw) if self.draw.random() < SWALLOWED else None
        super().join(near)

    def passes(self, number, is_answer):
        fate, now = self.fates[number], time.monotonic()
        if not fate or (fate.answers_alone and not is_answer):
            return True
        if fate.ends is None:
            if self.calm or now < fate.begins:
                return True
            fate.ends = now + fate.lasts
        if fate.lasts == math.inf:
            return False
        while time.monotonic() < fate.ends:
            time.sleep(TICK)
        return True

    def did(self):
        begun = [it for it in list(self.fates.values()) if it and it.ends]
        for_good = sum(it.lasts == math.inf for it in begun)
        return {"connections swallowed for good": for_good, "for a while": len(begun) - for_good}


class Rude(threading.Thread):
    """Clients of a bridge that send changes and hang up at once, or that request everything and read nothing."""

    def __init__(self, bridge, number, seed):
        super().__init__(daemon=True)
        self.bridge, self.number, self.draw = bridge, number, random.Random(seed)
        self.sent, self.hung_up, self.asked, self.deaf, self.events = [], [], 0, collections.deque(), []
        self.ended = self.rests = False

    def run(self):
        while not self.ended:
            time.sleep(self.draw.uniform(0, 0.1))
            try:
                if not self.rests:
                    self.draw.choice((self.hang_up, self.hang_up, self.read_nothing))()
            except OSError:
                pass  # the bridge is dead, or busy with other clients that connect
        while self.deaf:
            self.deaf.pop().it.close()

    def hang_up(self):
        run = self.bridge.starts
        with self.bridge.client() as client:
            count = self.draw.choice((1, 1, 5))
            lines = [self.item(len(self.sent) + it) for it in range(1, count + 1)]
            self.sent += lines
            for line in lines:
                self.events.append({"store": self.bridge.socket, "run": run, "text": line, "asked": time.monotonic(), "answered": None})
                client.send(f"offer {line}")
                time.sleep(self.draw.choice((0, self.draw.uniform(0, 0.01))))  # so that some arrive after one that waits for the server
        self.hung_up.append((run, lines))

    def item(self, seq):
        return f"host{self.number}.quick{seq % QUICK_NAMES} u32 host{self.number}.quick 1.{seq} = {seq % 1000}"

    def kept(self):
        """Returns what was sent to the current run of the bridge: all of it must be there."""
        return [line for run, lines in self.hung_up if run == self.bridge.starts for line in lines]

    def read_nothing(self):
        self.deaf.append(self.bridge.client())
        self.deaf[-1].send(*["all"] * self.draw.choice((1, 10)))
        self.asked += 1
        if len(self.deaf) > DEAF:
            self.deaf.popleft().it.close()


class Prober(threading.Thread):
    """A client that sends queries all the time. `slowest` is the seconds of the slowest answer; a stopped bridge's don't count. `late` is
    by how much the machine delayed its longest rest.
    """

    def __init__(self, bridge):
        super().__init__(daemon=True)
        self.bridge, self.slowest, self.late, self.count, self.ended = bridge, 0, 0, 0, False

    def run(self):
        while not self.ended:
            try:
                with self.bridge.client() as client:
                    while not self.ended:
                        self.probe(client)
                        begun = time.monotonic()
                        time.sleep(REST)
                        self.late = max(self.late, time.monotonic() - begun - REST)
            except TimeoutError:
                self.slowest = math.inf
            except (OSError, Gone):
                time.sleep(REST)

    def probe(self, client):
        pauses, begun = self.bridge.pauses, time.monotonic()
        client.ask(PROBES[self.count % len(PROBES)])
        took = time.monotonic() - begun
        if pauses % 2 == 0 and pauses == self.bridge.pauses:
            self.slowest, self.count = max(self.slowest, took), self.count + 1

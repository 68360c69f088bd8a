"""A model of a fleet of ten thousand hosts, with costs that were measured. Used by bench/fleet.

Hosts are in groups of GROUP, a stream for each group. READERS more hosts follow every stream. Streams are divided among servers. A server does
one thing at a time, in the order of arrival, and so do a host's bridges.
"""
import heapq
import random
from dataclasses import dataclass

GROUP = 64
READERS = 10
OTHERS = GROUP - 1 + READERS  # bridges that get the entry of another one
HOSTS = 10_000
KEYS = 4096  # a full store
BATCH = 256  # items of an entry
CONNECTIONS = 2  # of a bridge
MAXCLIENTS = 10_000  # a server's, if nothing else is set
TRIP = 0.0002  # seconds that a question and its answer travel
PAUSES = (0.025, 1.0)  # seconds before a bridge calls a server again
BUSY = 0.7  # of a processor, at most
RECOVERY = 30  # seconds after a failover in which a fleet must be in step
SECONDS = 5  # of simulated time
RATES = (0.1, 1, 10)  # changes a second of each host


@dataclass
class Costs:
    """Seconds of processor time, and bytes."""

    join: float  # of the server, for a bridge that connects
    rest: float  # of the server, for a bridge in a second, alone on its stream
    rest_other: float  # and for each other one on the stream
    add: float  # of the server, for an entry of one item
    push: float  # of the server, for each bridge that gets it
    add_batch: float
    push_batch: float
    own_rest: float  # of a bridge in a second, alone on its stream
    own_rest_other: float  # and for each other one on the stream
    own_tell: float  # of a bridge, for an entry of its own
    own_merge: float  # of a bridge, for an entry of another one
    own_merge_batch: float
    memory: float  # of the server, for a bridge

    def at_rest(self):
        """Returns the server's cost of a resting bridge of a group, in a second."""
        return self.rest + OTHERS * self.rest_other

    def change(self):
        """Returns the server's cost of a change in a group."""
        return self.add + OTHERS * self.push

    def own_at_rest(self):
        return self.own_rest + OTHERS * self.own_rest_other

    def __str__(self):
        micro = {it: f"{1e6 * value:.1f}" for it, value in vars(self).items()}
        return "\n".join((
            f"server: a bridge that comes {micro['join']} us; at rest {micro['rest']} us/s, {micro['rest_other']} for each other one, {self.memory / 1024:.0f} KB",
            f"server: an entry {micro['add']} us, {micro['push']} for each that gets it; of {BATCH} items {micro['add_batch']} and {micro['push_batch']} us",
            f"bridge: at rest {micro['own_rest']} us/s, {micro['own_rest_other']} for each other one",
            f"bridge: an entry told {micro['own_tell']} us, merged {micro['own_merge']} us, of {BATCH} items {micro['own_merge_batch']} us",
        ))


class Server:
    """A server, which does one thing at a time."""

    def __init__(self):
        self.free_at = self.busy = 0.0

    def does(self, time, cost):
        """Returns when a request that arrives at this time is done."""
        self.free_at = max(self.free_at, time) + cost
        self.busy += cost
        return self.free_at


def at_work(costs, hosts, rate, draw):
    """Returns how busy a server of `hosts` hosts is, and the times until changes are answered, sorted."""
    streams = max(1, round(hosts / GROUP))
    bridges = hosts + streams * READERS
    change = costs.change()
    events = [(draw.uniform(0, 1) + second, costs.at_rest(), False) for second in range(SECONDS) for _ in range(bridges)]
    time = 0.0
    while (time := time + draw.expovariate(hosts * rate)) < SECONDS:
        events.append((time, change, True))
    server, took = Server(), []
    for time, cost, is_change in sorted(events):
        done = server.does(time, cost)
        if is_change:
            took.append(done - time + TRIP)
    return server.busy / SECONDS, sorted(took)


def failover(costs, hosts, draw):
    """Returns how long after a failover all of a server's hosts are in step. Each reads the snapshot, and sends one entry that was lost."""
    streams = max(1, round(hosts / GROUP))
    batches = KEYS // BATCH
    whole, adding = batches * costs.push_batch, costs.change()
    server, last = Server(), 0.0
    waiting = [(draw.uniform(*PAUSES), costs.join + whole, at < hosts) for at in range(hosts + streams * READERS)]
    heapq.heapify(waiting)
    while waiting:
        time, cost, is_reading = heapq.heappop(waiting)
        last = server.does(time, cost)
        if is_reading:
            heapq.heappush(waiting, (last + TRIP + batches * costs.own_merge_batch, adding, False))
    return last


def breaking(costs, rate):
    """Yields each limit of one server, or of one host, and how many hosts it allows."""
    each = 1 + READERS / GROUP  # bridges for each host
    yield "the server's maxclients", MAXCLIENTS / (CONNECTIONS * each)
    yield "the server's processor", BUSY / (each * costs.at_rest() + rate * costs.change())
    yield "the processor of a host that follows all streams", BUSY / (costs.own_at_rest() / GROUP + rate * costs.own_merge)
    least, most = GROUP, 4 * HOSTS
    while most - least > GROUP:
        middle = (least + most) // 2
        least, most = (middle, most) if failover(costs, middle, random.Random(1)) <= RECOVERY else (least, middle)
    yield f"{RECOVERY} s after a failover, with {KEYS} keys in each store", least


def report(costs, seed):
    """Prints how a fleet of HOSTS hosts fares."""
    draw = random.Random(seed)
    print(costs)
    for rate in RATES:
        for servers in (1, 2, 4, 8, 16, 32, 64):
            busy, took = at_work(costs, HOSTS // servers, rate, draw)
            if busy <= BUSY:
                break
        middle, slow = (took[int(len(took) * part)] for part in (0.5, 0.99))
        answered = f"answered in {1000 * middle:.1f} ms, 99 % in {1000 * slow:.1f} ms"
        print(f"{HOSTS} hosts, {rate} changes/s each: {servers} servers are {100 * busy:.0f} % busy; {answered}")
    for servers in (1, 4, 16, 64):
        print(f"failover of one of {servers} servers: its hosts are in step after {failover(costs, HOSTS // servers, draw):.0f} s")
    for rate in RATES:
        print(f"one server, {rate} changes/s of each host; what breaks, and at how many hosts:")
        for what, hosts in sorted(breaking(costs, rate), key=lambda it: it[1]):
            print(f"  {hosts:8.0f}  {what}")

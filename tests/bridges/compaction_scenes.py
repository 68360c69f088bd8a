"""Scenes of compactions: a snapshot takes in nothing that the stream lacks, and no bridge trims what it didn't read. scenes.py lists these.
"""
import contextlib
import threading
import time

from fleets import Clock, Fleet, Gone
from scenes import REST, number, numbers, offer, shows
from scripted import SWALLOW, Scripted
from waiting import PATIENCE, until

LOAD = 3  # seconds
LOOKED = "HGETALL ds:digests"  # a bridge asks this after each look at the stream, whose answer it judges with this one's


def offer_each(bridge, lines):
    """Offers lines, each of which is an entry of its own."""
    for line in lines:
        offer(bridge, line)


def outlives(fleet, lines):
    """Checks that a bridge that starts now holds these lines."""
    late = fleet.start()
    missing = set(lines) - set(late.all())
    assert not missing, f"{len(missing)} answered changes are gone: {sorted(missing)[:3]}"


def once_looked(script, bridge, work):
    """Does the work right after a look of the bridge, and waits until the next one finds a loss."""
    losses = bridge.said().count("event=lost")
    script.script(LOOKED, lambda raw: work() or raw)
    until(lambda: bridge.said().count("event=lost") > losses, "it finds a loss")


def a_change_while_its_bridge_compacts(fleet, draw):
    """A change takes effect while its bridge compacts. That bridge is killed once the snapshot is written: the others get the change all
    the same.
    """
    script, lines, late = fleet.adopt(Scripted(fleet.port)), numbers("a", 30), number("late", 1, 1)
    other, bridge = fleet.start("--keep", "1000"), fleet.start("--keep", "20", url=script.url())
    with bridge.client() as client, bridge.client() as second:

        def takes_effect(raw):
            second.send(f"offer {late}")
            until(lambda: bridge.holds(late), "it takes effect")
            script.script_first("EXEC", lambda done: bridge.kill() or done)
            return raw

        compacts = script.script("WATCH", takes_effect)
        with contextlib.suppress(Gone):
            for line in lines:
                client.ask(f"offer {line}")
        until(lambda: bridge.process is None, "it compacts")
    until(lambda: other.holds(late), "a bridge that runs on has the change")
    bridge.start()
    bridge.serves()
    assert bridge.ask(f"offer {late}") == ["known"]
    bridge.kill()
    outlives(fleet, [late])


def compacted_under_load(fleet, draw):
    """The stream is compacted while there is always a change that is on its way."""
    bridge, end = fleet.start(), time.monotonic() + LOAD

    def goes_on():
        """Returns whether the load isn't at its end: on a busy machine it lasts until the stream was compacted often enough."""
        now = time.monotonic()
        return now < end or now < end + PATIENCE and int(bridge.state()["compactions"]) < LOAD

    def load(name):
        seq = 0
        with bridge.client() as client:
            while goes_on():
                client.send(*(f"offer {number(name, seq + at, 1)}" for at in range(1, 9)))
                seq += 8
                for _ in range(8):
                    assert client.answer() == ["taken"]

    loads = [threading.Thread(target=load, args=(f"n{at}",)) for at in range(6)]
    for it in loads:
        it.start()
    longest = 0
    while any(it.is_alive() for it in loads):
        longest = max(longest, fleet.entries())
        time.sleep(0.05)
    for it in loads:
        it.join()
    state = bridge.state()
    entries, compactions = int(state["told"]), int(state["compactions"])
    assert compactions >= LOAD, f"{compactions} compactions of {entries} entries in {LOAD} seconds or more"
    assert longest < entries / 2, f"the stream got {longest} of {entries} entries long"


@contextlib.contextmanager
def two_with_a_stream(fleet):
    """Yields a script, the bridge over it, which compacts more than five entries, and another bridge. Both have read the stream."""
    script = fleet.adopt(Scripted(fleet.port))
    bridge, other = fleet.start("--keep", "5", url=script.url()), fleet.start("--keep", "1000")
    lines = [number("first", 1, 1), number("second", 1, 1)]
    offer(bridge, lines[0])
    offer(other, lines[1])
    for it in (bridge, other):
        shows(it, lines)
    yield script, bridge, other


def begun_anew(fleet, other, lines):
    """Deletes the stream. Another bridge is answered changes that the next one has, and is killed."""
    fleet.ask("DEL", "ds:items")
    offer_each(other, lines)
    other.kill()


def a_stream_begun_anew(fleet, draw):
    """A stream is deleted, and begins anew with smaller ids. A bridge that hasn't noticed compacts nothing: it hasn't read what is there
    now.
    """
    with two_with_a_stream(fleet) as (script, bridge, other), bridge.client() as client:
        far = number("far", 1, 1)
        fleet.ask("XADD", "ds:items", "99999999999999-0", "from", "x", "items", far + "\n")
        for it in (bridge, other):
            until(lambda: it.holds(far), "it is read")
        time.sleep(REST)  # so that it has looked
        lines = numbers("b", 8)

        def work():
            begun_anew(fleet, other, lines)
            client.send(f"offer {number('c', 1, 1)}")

        once_looked(script, bridge, work)
        outlives(fleet, lines)


def a_stream_begun_anew_while_it_is_compacted(fleet, draw):
    """The same, once the bridge has watched the snapshot."""
    with two_with_a_stream(fleet) as (script, bridge, other), bridge.client() as client:
        lines = numbers("b", 8)
        fleet.ask("XADD", "ds:items", "99999999999999-0", "from", "x", "items", number("far", 1, 1) + "\n")
        watched = script.script("WATCH", lambda raw: begun_anew(fleet, other, lines) or raw)
        for line in numbers("d", 6):
            fleet.ask("XADD", "ds:items", "*", "from", "x", "items", line + "\n")
        until(lambda: watched.is_used() and "event=lost" in bridge.said(), "it finds a loss")
        outlives(fleet, lines)


def a_server_that_names_no_run(fleet, draw):
    """The stream of a server whose INFO has no run is compacted, too."""
    script = fleet.adopt(Scripted(fleet.port))
    script.script("INFO", lambda raw: raw.replace(b"run_id:", b"run_is:"), 1 << 30)
    bridge, lines = fleet.start("--keep", "5", url=script.url()), numbers("a", 12)
    offer_each(bridge, lines)
    until(lambda: int(bridge.state()["compactions"]), "the stream is compacted")
    outlives(fleet, lines)


def a_clock_that_goes_back(fleet, draw):
    """A stream is deleted, and the server's clock goes back for a moment: the ids of what comes then are smaller, and those after it
    aren't.
    """
    clock = fleet.adopt(Clock())
    with Fleet(
        fleet.words, named=clock.named
    ) as late_fleet, two_with_a_stream(late_fleet) as (script, bridge, other), bridge.client() as client:
        time.sleep(REST)  # so that it has looked
        lines, after = numbers("b", 8), number("after", 1, 1)

        def work():
            clock.add(-100)
            late_fleet.ask("DEL", "ds:items")
            offer_each(other, lines)
            clock.add(0)
            offer(other, after)
            until(lambda: bridge.holds(after), "it reads what has a greater id")
            assert not bridge.holds(lines[0])
            other.kill()
            client.send(f"offer {number('c', 1, 1)}")

        once_looked(script, bridge, work)
        outlives(late_fleet, lines)
        late_fleet.end()


def a_history_that_changes(fleet, draw):
    """A server becomes another's replica, and the master again, in one process. A bridge doesn't compact it before it has looked."""
    with Fleet([]) as replica, two_with_a_stream(fleet) as (script, bridge, _), bridge.client() as client:
        replica.follow(fleet)
        script.script("XREAD", SWALLOW, 1 << 30)  # or the consumer reads that the server becomes a replica
        until(lambda: script.asked["XREAD COUNT"] and bridge.state()["state"] == "instep", "it is in step")
        before = bridge.said()

        def work():
            for line in numbers("d", 9):
                fleet.ask("XADD", "ds:items", "*", "from", "x", "items", line + "\n")
            until(lambda: replica.entries() == fleet.entries(), "the replica has all")
            replica.ask("REPLICAOF", "NO", "ONE")
            fleet.follow(replica)
            fleet.ask("REPLICAOF", "NO", "ONE")
            client.send(f"offer {number('c', 1, 1)}")

        once_looked(script, bridge, work)
        said = bridge.said()[len(before) :]
        assert "event=compacted" not in said.partition("event=lost")[0], said

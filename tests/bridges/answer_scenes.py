"""Scenes of what a bridge owes when a server loses, refuses or answers too much. scenes.py lists these."""
import contextlib
import itertools
import time

from fleets import Fleet, Proxy
from scenes import REST, number, numbers, offer, shows
from state_scenes import in_step
from scripted import Scripted
from waiting import until

SLOWLY = 0.5  # seconds between two bytes of a server that trickles


def what_was_refused_is_lost(fleet, draw):
    """A server loses everything: what a store refused, and is kept beside it, is sent again, too."""
    bridge, theirs = fleet.start(), number("k", 1, 2)
    offer(bridge, number("k", 1, 1))
    fleet.ask("XADD", "ds:items", "*", "from", "x", "items", theirs + "\n")
    until(lambda: bridge.state().get("refused clash") == "1", "it is refused")
    time.sleep(REST)  # so that it has looked
    fleet.ask("FLUSHALL")
    until(lambda: {number("k", 1, 1).encode(), theirs.encode()} <= set(fleet.told()), "both are sent again")


def known_after_a_look(fleet, draw):
    """A change that the store held already is answered once a look that began later shows that the server has it."""
    script, line = fleet.adopt(Scripted(fleet.port)), number("a", 1, 1)
    bridge = fleet.start(url=script.url())
    offer(bridge, line, "! e 3")
    repeated = {f"offer {line}": (["known"], line), "sweep 0/2 e 3": (["swept 0"], "! e 3")}
    with bridge.client() as client:
        for at in range(6):
            said, (wanted, kept) = draw.choice(list(repeated.items()))
            fleet.ask("FLUSHALL")
            assert client.ask(said) == wanted
            assert kept.encode() in fleet.told(), f"after {at} losses: {wanted} is answered, and the server lacks it"

        def loses_after_the_look(raw):
            fleet.ask("FLUSHALL")
            client.send(f"offer {line}")
            time.sleep(0.2)
            return raw

        in_step(bridge)
        script.script("EXEC", loses_after_the_look)
        assert client.answer() == ["known"]
        assert line.encode() in fleet.told(), "a look that began before it counts"
        fleet.kill_server()
        client.send(f"offer {line}")
        assert not client.has_answer(1.5), "it is answered without a server"
        fleet.start_server()
        assert client.answer() == ["known"]


class Moving(Proxy):
    """A balancer that moves to another server once a bridge has made its first connection."""

    def __init__(self, first, second):
        super().__init__(first)
        self.second = second

    def join(self, near):
        super().join(near)
        self.port = self.second


def two_servers_at_one_address(fleet, draw):
    """An address moves to another server between the two connections of a bridge: both are made anew, before it tells anything."""
    with Fleet([]) as other:
        moving, line = fleet.adopt(Moving(fleet.port, other.port)), number("a", 1, 1)
        bridge = fleet.start(url=moving.url())
        offer(bridge, line)
        assert line.encode() in other.told(), "it is answered by the server from which the address has moved"
        assert "lead to two servers" in bridge.said() and bridge.state()["server"].encode() in other.ask("INFO", "server")
        bridge.kill()
        fleet.bridges.remove(bridge)


def who_waits_is_not_first(fleet, draw):
    """Of the bridges that agree at the entry where others differ, the first by name sends everything; one whose digest is of an earlier
    entry isn't.
    """
    script = fleet.adopt(Scripted(fleet.port))
    bridge, beats = fleet.start(url=script.url()), itertools.count(1)

    def own():
        """Returns the digest of the bridge, its mark, and the two numbers of its entry."""
        return next((it.split(b"-")[1::2][0:1] + it.split(b"-")[3:] for it in fleet.ask("HVALS", "ds:digests")), None)

    def with_peers(first):
        """Returns a function that adds a peer with the least name and this digest, or the bridge's own, and one that differs."""

        def made(raw):
            value, *entry = own()
            peers = {b"0" * 32: (first or [value, *entry]), b"f" * 32: [b"0123456789abcdef", *entry]}
            count = int(raw[1 : raw.index(b"\r\n")])
            words = [it for name, (digest, *at) in peers.items() for it in (name, b"-".join((b"3", digest, b"%d" % next(beats), *at)))]
            return b"*%d%s" % (count + len(words), raw[raw.index(b"\r\n") :]) + b"".join(b"$%d\r\n%s\r\n" % (len(it), it) for it in words)

        return made

    offer(bridge, number("a", 1, 1))
    earlier = until(own, "it has a digest")
    offer(bridge, number("b", 1, 1))
    until(lambda: own() != earlier, "it has a later one")
    agrees = script.script("HGETALL ds:digests", with_peers(None), 5)
    until(agrees.is_used, "it compares")
    assert bridge.state()["differing"] == "1" and fleet.entries() == 2, "it sends what the first of its kind sends"
    waits = script.script("HGETALL ds:digests", with_peers(earlier), 1 << 30)
    until(lambda: fleet.entries() > 2, "it sends everything, as the other one waits")
    waits.left = 0


def parts_before_a_denied_one(fleet, draw):
    """If the server denies a part of what is sent, as one that is full, the parts before it aren't sent again."""
    script, full = fleet.adopt(Scripted(fleet.port)), b"-OOM command not allowed when used memory > 'maxmemory'.\r\n"
    script.script("WAIT", b":1\r\n", 1 << 30)
    for options in ((), ("--replicas", "1", "--within", "50")):
        bridge, lines = fleet.start(*options, url=script.url()), [f"n{len(options)}.{it} mem d 1.1 = {'ab' * 1024}" for it in range(120)]

        def added():
            """Returns how often the first line was added."""
            return sum(lines[0] in fields[3].decode() for _, fields in fleet.ask("XRANGE", "ds:items", "-", "+"))

        denied = script.script("XADD", full, 1 << 30)
        with contextlib.ExitStack() as room:
            clients = [room.enter_context(bridge.client()) for _ in lines]  # one whose answer waits isn't read
            for client, line in zip(clients, lines):
                client.send(f"offer {line}")
            until(lambda: int(bridge.state()["untold"]) == sum(len(it) + 1 for it in lines), "all of it waits")
            bridge.pause()
            time.sleep(0.3)  # the answers to what was sent are on their way
            before, answers, denied.left = added(), itertools.count(), 0
            third = script.script("XADD", lambda raw: full if next(answers) == 2 else raw, 1 << 30)
            bridge.resume()
            assert [it.answer() for it in clients] == [["taken"]] * len(lines)
        third.left = 0
        assert added() == before + 1, f"the first part is sent {added() - before} times"
        bridge.end()
        fleet.bridges.remove(bridge)


def three_owners_of_a_key(fleet, draw):
    """An item that neither a store nor the one beside it can hold isn't compacted away, whatever refused it."""
    bridge = fleet.start()
    lines = [number("k", 1, at, owner) for at, owner in enumerate("abc")]
    offer(bridge, lines[0])
    for line in lines[1:]:
        fleet.ask("XADD", "ds:items", "*", "from", "x", "items", line + "\n")
    until(lambda: bridge.state().get("refused notowner") == "2", "both are refused")
    for line in numbers("n", 40):
        offer(bridge, line)
    time.sleep(REST)
    assert {it.encode() for it in lines} <= set(fleet.told()), "an item is compacted away"
    offer(bridge, "! a 1")
    until(lambda: fleet.entries() <= 20, "it is compacted once one of them is gone")
    assert {it.encode() for it in lines[1:]} <= set(fleet.told()), "an item is compacted away"


def peak_of(bridge):
    """Returns how many kilobytes of addresses a bridge had at most."""
    with open(f"/proc/{bridge.process.pid}/status", encoding="ascii") as status:
        return next(int(it.split()[1]) for it in status if it.startswith("VmPeak"))


def answers_that_are_too_long(fleet, draw):
    """A length that no question asked for ends the connection at once, and no client waits for it."""
    script = fleet.adopt(Scripted(fleet.port))
    bridge = fleet.start(url=script.url())
    peak = peak_of(bridge)
    for at, made in enumerate(
        (b"*2147483647\r\n", b"$999999999999\r\n", b"$2147483648\r\n", b"*-2\r\n", b"$1x\r\n", b"what\r\n", b"*65537\r\n")
    ):
        before = bridge.said().count("more than was asked for")
        script.script("XLEN", made)
        offer(bridge, number("a", at + 1, 1))
        assert not any(it in bridge.said() for it in ("answers too slowly", "answers nothing")), f"{made}: it waits for what doesn't come"
        if at == 0:
            assert bridge.said().count("more than was asked for") == before + 1, bridge.said()
    assert peak_of(bridge) - peak < 1 << 20, f"it took {(peak_of(bridge) - peak) >> 10} MB"


def an_answer_that_trickles(fleet, draw):
    """A server that sends a byte now and then is given up like one that sends nothing."""
    script = fleet.adopt(Scripted(fleet.port))
    bridge = fleet.start(url=script.url())

    def trickles(raw):
        yield b"$1000\r\n"
        for _ in itertools.count():
            time.sleep(SLOWLY)
            yield b"x"

    script.script("XLEN", trickles)
    begun = time.monotonic()
    offer(bridge, number("a", 1, 1))
    assert time.monotonic() - begun < 40, f"its change is answered after {time.monotonic() - begun:.1f} s"
    assert "answers too slowly" in bridge.said(), bridge.said()


def others_come_while_replicas_are_missing(fleet, draw):
    """While a bridge waits a minute for a replica, what others compacted reaches it, and it looks for losses."""
    waits, other = fleet.start("--replicas", "1", "--within", "60000"), fleet.start()
    with waits.client() as client:
        begun = time.monotonic()
        client.send(f"offer {number('own', 1, 1)}")
        shows(other, [number("own", 1, 1)])
        waits.pause()
        lines = numbers("a", 70)
        for line in lines:
            offer(other, line)
        until(lambda: fleet.entries() <= 20, "the stream is compacted")
        waits.resume()
        shows(waits, [number("own", 1, 1), *lines])  # a reading may wait for ten
        fleet.ask("DEL", "ds:items")
        until(lambda: "event=lost" in waits.said(), "it notices a loss")
        assert time.monotonic() - begun < 55, "what others did waits for the replica"
        assert not client.has_answer(0.2)

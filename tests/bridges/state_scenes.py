"""The tables of daemon/fleet/, cell by cell: each state of a part of a bridge meets each event, over a scripted server. scenes.py lists
these.

A table has lines ` *   STATE, .. | event | becomes, and does`: a cell for each of the states. A scene names each cell that it walks, and
fails if the file has a cell that isn't walked.
"""
import contextlib
import re
import time

from fleets import ROOT, free_port
from scenes import number, numbers, offer, shows
from scripted import CUT, SWALLOW, Scripted
from waiting import until

ERROR, TYPE, DEMOTED = b"-ERR scripted\r\n", b"*1\r\n:1\r\n", b"-READONLY scripted\r\n"
NOTHING = b"*-1\r\n"
WRITING = "EVAL local stream, snapshot"  # the transaction of a compaction
REST = 2.6  # seconds in which a bridge compares
ROW = re.compile(r"^ \*   ([A-Z, ]+|any) +\| (.+?) *\|", re.MULTILINE)


class Walk:
    """The cells of a table, and those of them that were walked."""

    def __init__(self, name, fleet):
        self.name, self.fleet = name, fleet
        rows = ROW.finditer((ROOT / "daemon" / "fleet" / f"{name}.c").read_text())
        self.cells = {f"{state} | {it[2]}" for it in rows for state in it[1].strip().split(", ")}
        self.walked = set()

    def __call__(self, cell):
        assert cell in self.cells, f"daemon/fleet/{self.name}.c has no cell `{cell}`"
        self.walked.add(cell)

    def ends(self):
        assert self.cells, f"daemon/fleet/{self.name}.c has no table"
        assert self.cells == self.walked, f"daemon/fleet/{self.name}.c has cells that aren't walked: {self.cells - self.walked}"


@contextlib.contextmanager
def walking(fleet, name, *options):
    """Yields a walk, a scripted server and its bridge. At the end the bridge must be in step, and all cells walked."""
    walk, script = Walk(name, fleet), fleet.adopt(Scripted(fleet.port))
    bridge = fleet.start(*options, url=script.url())
    yield walk, script, bridge
    in_step(bridge)
    walk.ends()


def in_step(bridge):
    until(lambda: bridge.state()["state"] == "instep", "it is in step")


def connections(bridge):
    return int(bridge.state()["connections"])


def says(bridge, words, count=1):
    until(lambda: bridge.said().count(words) >= count, f"it logs {words}")


def reconnects(bridge, work):
    """Checks that the work costs the bridge its connections, and that it reconnects."""
    before = connections(bridge)
    work()
    until(lambda: connections(bridge) > before, "it reconnects")
    in_step(bridge)


def told(fleet, *lines):
    until(lambda: {it.encode() for it in lines} <= set(fleet.told()), "the stream has it")


def states_of_the_server(fleet, draw):
    with walking(fleet, "server") as (walk, script, bridge):
        line = iter(numbers("n", 99))
        assert connections(bridge) == 1
        walk("AWAY | the pause is over, master found")
        walk("CALLED | a meeting answered, as it should")

        nobody = fleet.adopt(Scripted(fleet.port))  # queried as a Sentinel, it knows no master
        nobody.script("SENTINEL", NOTHING, 1000)
        lost = fleet.start(url=nobody.url().replace("redis", "redis-sentinel", 1) + "/ds", wait=False)
        says(lost, "the Sentinel knows no such master")
        until(lambda: nobody.asked["SENTINEL get-master-addr-by-name"] >= 3, "it tries again")
        lost.kill()
        fleet.bridges.remove(lost)
        walk("AWAY | no master is found")

        offer(bridge, *(kept := [next(line) for _ in range(3)]))
        entries = fleet.entries()
        script.script("INFO", of_another_run, 2, whole=True)
        reconnects(bridge, script.cut)
        says(bridge, "event=met", 2)
        assert fleet.entries() == entries, "what is there is sent again"
        walk("CALLED | .. by another server or history")

        scope = script.script("EXEC", lambda raw: raw.replace(b"$10\r\neverything", b"$1\r\nx") if raw.startswith(b"*3") else raw, 1 << 30)
        script.cut()
        says(bridge, "event=badscope")
        scope.left = 0
        in_step(bridge)
        walk("CALLED | .. with another scope")

        script.script("INFO", lambda raw: raw.replace(b"cluster_enabled:0", b"cluster_enabled:1"), whole=True)
        script.cut()
        says(bridge, "event=badname")
        in_step(bridge)
        walk("CALLED | .. by a cluster, keys on many nodes")

        two = fleet.adopt(Scripted(fleet.port))
        two.script("INFO", lambda raw: raw.replace(b"role:master", b"role:slave "), whole=True)
        other = fleet.start(url=f"{two.url()},127.0.0.1:{fleet.port}")
        says(other, "it is a replica")
        offer(other, kept_by_other := next(line))
        assert two.count == 2, "it calls the replica again"
        walk("CALLED | .. by a replica, others are listed")

        script.script("INFO", ERROR, whole=True)
        reconnects(bridge, script.cut)
        says(bridge, 'event=denied text="ERR scripted"')
        walk("CALLED | an error")
        script.script_and_wait("INFO replication", ERROR)
        in_step(bridge)
        walk("MET | an error")

        before = connections(bridge)
        fleet.ask("DEL", "ds:items")
        says(bridge, "event=lost")
        until(lambda: connections(bridge) > before, "both connections are made anew")
        told(fleet, *kept)
        walk("MET | a loss, or all is read once more")
        script.script("INFO", bytes, whole=True)  # the producer's
        script.script("INFO", of_another_run, whole=True)
        reconnects(bridge, lambda: says(bridge, "lead to two servers") if not script.cut() else None)
        walk("MET | the consumer is at another server")

        for event, answer in (("an error of a demoted server", DEMOTED), ("a connection is lost, or is silent", CUT)):
            script.script("INFO", answer, whole=True)
            calls = script.count
            reconnects(bridge, script.cut)
            assert script.count == calls + 4, "the only server isn't called again"
            walk(f"CALLED | {event}")
        script.script("XADD", DEMOTED)
        reconnects(bridge, lambda: offer(bridge, kept.append(next(line)) or kept[-1]))
        walk("MET | an error of a demoted server")
        script.script("XREAD", CUT)
        reconnects(bridge, lambda: fleet.ask("XADD", "ds:items", "*", "from", "x", "items", next(line) + "\n"))
        walk("MET | a connection is lost, or is silent")

        moved = f"-MOVED 1 127.0.0.1:{fleet.port}\r\n".encode()
        script.script("XADD", moved)
        before = script.count
        reconnects(bridge, lambda: offer(bridge, kept.append(next(line)) or kept[-1]))
        assert script.count == before, "it calls the first node again"
        told(fleet, *kept, kept_by_other)
        walk("MET | MOVED")
        other.end()
        fleet.bridges.remove(other)
        moving = fleet.adopt(Scripted(fleet.port))
        moving.script("XINFO", moved, 1000)
        other = fleet.start(url=moving.url())
        assert moving.count == 2, "it calls the first node again"
        says(other, "MOVED 1")
        walk("CALLED | MOVED")


def states_of_the_master(fleet, draw):
    """Scripted Sentinels and plain addresses lead to the master through each state."""
    walk, script = Walk("master", fleet), fleet.adopt(Scripted(fleet.port))
    closed = free_port()

    def named(host, port):
        return f"*2\r\n${len(host)}\r\n{host}\r\n${len(str(port))}\r\n{port}\r\n".encode()

    script.script("SENTINEL", NOTHING)
    script.script("SENTINEL", CUT)
    script.script("SENTINEL", named("127.0.0.1", closed))
    script.script("SENTINEL", named("nobody.invalid", fleet.port))
    script.script("SENTINEL", named("127.0.0.1", fleet.port), 1000)
    bridge = fleet.start(url=f"redis-sentinel://127.0.0.1:{closed},127.0.0.1:{script.port_of()}/ds")
    said = bridge.said()
    assert "the Sentinel knows no such master" in said and "Connection refused" in said, said
    walk("LISTED | a Sentinel's is found")
    walk("ASKED | it names the master")
    walk("ASKED | it knows none, or is lost")
    walk("NAMED | the address is found")
    walk("NAMED | no address")
    walk("NAMED | no server was met there")
    plain = fleet.start(url=f"redis://127.0.0.1:{closed},nobody.invalid,127.0.0.1:{fleet.port}")
    said = plain.said()
    assert "Connection refused" in said and said.count("event=away") == 2, said
    walk("LISTED | no server was met there")
    walk("LISTED | no address")
    walk("LISTED | a server's address is found")
    for state in ("LISTED", "NAMED"):
        moving = fleet.adopt(Scripted(fleet.port))
        moving.script("HGET ds:snapshot at", f"-MOVED 1 127.0.0.1:{fleet.port}\r\n".encode())
        script.script_first("SENTINEL", named("127.0.0.1", moving.port_of()), 1000)
        moved = fleet.start(url=moving.url() if state == "LISTED" else f"redis-sentinel://127.0.0.1:{script.port_of()}/ds")
        says(moved, "MOVED")
        offer(moved, number("a", 1, 1) if state == "LISTED" else number("b", 1, 1))
        assert moving.count == 2, "it calls the first node again"
        walk(f"{state} | a node names another one")
    shows(plain, [number("a", 1, 1), number("b", 1, 1)])
    walk.ends()


def states_of_producing(fleet, draw):
    with walking(fleet, "producing", "--replicas", "1", "--within", "50") as (walk, script, bridge):
        enough = script.script("WAIT", b":1\r\n", 1 << 30)
        lines = numbers("a", 20)

        offer(bridge, *lines[:3])
        told(fleet, *lines[:3])
        walk("NEWS | asked")
        walk("NEWS | each was added, replicas enough")

        for made in (ERROR, TYPE):
            script.script("XADD", made)
            offer(bridge, lines[3])
            told(fleet, lines[3])
            lines[3] = number("other", 1, 1)
        says(bridge, "event=denied", 2)
        walk("NEWS | a part wasn't added")

        enough.left = 0
        entries = fleet.entries()
        with bridge.client() as client:
            client.send(f"offer {lines[4]}")
            until(lambda: fleet.entries() == entries + 1, "it is added")
            says(bridge, "0 of 1 replicas have the last change")
            assert not client.has_answer(0.3), "it is answered with too few replicas"
            walk("NEWS | .. too few replicas")
            script.script_and_wait("WAIT", b":0\r\n", 2)
            walk("ADDED | too few replicas")
            script.script_and_wait("WAIT", ERROR)
            walk("ADDED | an error instead of replicas")
            assert fleet.entries() == entries + 1, "it is added again"
            walk("ADDED | asked")
            script.script("WAIT", b":1\r\n")
            assert client.answer() == ["taken"]
            walk("ADDED | replicas enough")

        entries = fleet.entries()
        with bridge.client() as client:
            script.script("WAIT", ERROR)
            client.send(f"offer {lines[5]}")
            until(lambda: fleet.entries() == entries + 1, "it is added")
            script.script_and_wait("WAIT", b":0\r\n")
            assert fleet.entries() == entries + 1, "it is added again"
            walk("NEWS | .. an error instead of replicas")
            script.script("WAIT", CUT)
            until(lambda: fleet.entries() == entries + 2, "the next server gets it again")
            walk("ADDED | the connection ends")
            script.script("WAIT", b":1\r\n")
            assert client.answer() == ["taken"]
            script.script("WAIT", CUT)
            client.send(f"offer {lines[6]}")
            until(lambda: fleet.entries() == entries + 4, "the next server gets it again")
            script.script("WAIT", b":1\r\n", 1 << 30)
            assert client.answer() == ["taken"]
        walk("NEWS | the connection ends")


def states_of_reading(fleet, draw):
    with walking(fleet, "reading") as (walk, script, bridge):
        lines = []

        def add(count, front):
            for line in (more := numbers(front, count)):
                fleet.ask("XADD", "ds:items", "*", "from", "x", "items", line + "\n")
            lines.extend(more)

        add(3, "a")
        shows(bridge, lines)
        walk("END | a reading that isn't full")
        bridge.pause()
        add(220, "b")
        bridge.resume()
        shows(bridge, lines)
        walk("END | a full reading")
        walk("BEHIND | a full reading")
        walk("BEHIND | a reading that isn't full")

        for made in (ERROR, b"*1\r\n*2\r\n$8\r\nds:items\r\n*1\r\n:1\r\n"):
            before = bridge.said().count("event=denied")
            rules = [script.script("XREAD COUNT 64 BLOCK", made), script.script("XREAD COUNT 64 STREAMS", made)]
            add(1, f"c{before}.")
            shows(bridge, lines)
            says(bridge, "event=denied", before + 1)
            assert all(it.is_used() for it in rules), "after an error it waits for more"
        walk("END | an error, or out of memory")
        walk("BEHIND | an error, or out of memory")

        def snapshot(front):
            """Compacts entries that this bridge hasn't read."""
            more = numbers(front, 2)
            entry = fleet.ask("XADD", "ds:items", "*", "from", "x", "items", "".join(f"{it}\n" for it in more)).decode()
            fleet.ask("HSET", "ds:snapshot", "at", entry, "items", "".join(f"{it}\n" for it in lines + more))
            fleet.ask("HINCRBY", "ds:snapshot", "trimmed", fleet.ask("XTRIM", "ds:items", "MAXLEN", 0))
            lines.extend(more)

        def gap(front):
            """Lets the bridge read past entries that it hasn't read and that are compacted."""
            bridge.pause()
            add(1, f"{front}.seen")
            snapshot(front)
            add(1, f"{front}.after")
            bridge.resume()

        gap("d")
        shows(bridge, lines)
        walk("END | .. and a snapshot that goes further")
        walk("GAP | the snapshot is fetched")
        shows(late := fleet.start(), lines)
        walk("BEHIND | .. and a snapshot that goes further")
        fleet.bridges.remove(late)
        assert late.end() == 0  # or it would send again what the other one misses
        script.script("HMGET ds:snapshot at items", ERROR)
        gap("e")
        shows(bridge, lines)
        walk("GAP | an error, or out of memory")
        script.script("HMGET ds:snapshot at items", CUT)
        gap("f")
        shows(bridge, lines)
        walk("GAP | the connections end")
        reconnects(bridge, script.cut)
        add(1, "g")
        shows(bridge, lines)
        walk("END | the connections end")
        script.script("XREAD COUNT 64 STREAMS", CUT)
        reconnects(bridge, script.cut)
        add(1, "h")
        shows(bridge, lines)
        walk("BEHIND | the connections end")

        started = script.script("XREAD COUNT 64 STREAMS ds:items 0-0", bytes, 1 << 30)

        def starts_again(work, state):
            before = started.left
            work()
            until(lambda: started.left < before, f"in {state} it reads from the first entry on")
            in_step(bridge)
            walk(f"{state} | everything is to be read once more")

        script.script("INFO", of_another_run, 2, whole=True)
        starts_again(script.cut, "BEHIND")
        script.script("HMGET ds:snapshot at items", CUT)
        starts_again(lambda: gap("i"), "GAP")  # the next meeting names the first run
        shows(bridge, lines)
        starts_again(lambda: fleet.ask("DEL", "ds:items", "ds:snapshot"), "END")
        told(fleet, *lines)


def states_of_compacting(fleet, draw):
    with walking(fleet, "compacting") as (walk, script, bridge):
        lines = []

        def grow():
            lines.extend(more := numbers(f"n{len(lines)}.", 22))
            offer(bridge, *more)
            for _ in range(22):
                fleet.ask("XADD", "ds:items", "*", "from", "x", "items", more[0] + "\n")

        def compacts():
            """Lets the stream grow, and waits until it is compacted, even if late."""
            before = int(bridge.state()["compactions"])
            grow()
            until(lambda: int(bridge.state()["compactions"]) > before, "the stream is compacted")
            told(fleet, *lines)

        compacts()
        walk("RESTS | it is due")
        walk("WATCHES | good answers")
        walk("WRITES | it is written")
        for made, row in (
            (ERROR, "WATCHES | an error, or out of memory"),
            (b"*3\r\n$-1\r\n$1\r\nx\r\n$-1\r\n", "WATCHES | another scope"),
        ):
            script.script("HMGET ds:snapshot at scope", made)
            compacts()
            walk(row)

        for made in (b"99999999999999-0", b"0000000000001-0"):  # it goes further; it was written since the last look
            unwatched = script.asked["UNWATCH"]
            script.script("HMGET ds:snapshot at scope", b"*3\r\n$%d\r\n%s\r\n$10\r\neverything\r\n$-1\r\n" % (len(made), made))
            compacts()
            assert script.asked["UNWATCH"] > unwatched
        walk("WATCHES | a snapshot that isn't known here")
        walk("WRITES | the watch is ended")
        script.script("HMGET ds:snapshot at scope", CUT)
        reconnects(bridge, compacts)
        walk("WATCHES | the connection ends")
        script.script(WRITING, CUT)
        reconnects(bridge, grow)
        compacts()
        walk("WRITES | the connection ends")

        def written_by_another(raw):
            """Writes the snapshot once it is watched, as another bridge would."""
            fleet.ask("HSET", "ds:snapshot", "other", "1")
            return raw

        script.script("WATCH", written_by_another)
        compacts()
        walk("WRITES | another bridge wrote meanwhile")

        def loses_the_last(raw):
            """Deletes the last entry that was read, once the snapshot is watched."""
            fleet.ask("XDEL", "ds:items", fleet.ask("XREVRANGE", "ds:items", "+", "-", "COUNT", 1)[0][0])
            return raw

        before, losses = len(bridge.said()), bridge.said().count("event=lost")
        script.script("WATCH", loses_the_last)
        grow()
        says(bridge, "event=lost", losses + 1)
        assert "event=compacted" not in bridge.said()[before:].partition("event=lost")[0]
        told(fleet, *lines)
        walk("WRITES | the stream isn't the one that was read")
        script.script("WATCH", lambda raw: script.script_first("EXEC", b"*1\r\n" + ERROR) or raw)
        denied = bridge.said().count("event=denied")
        grow()
        says(bridge, "event=denied", denied + 1)
        walk("WRITES | an error")
        compacts()
        many = numbers("m", 2 * 4096)

        def overfills(raw):
            """Lets the bridge read more than two stores hold, between the question and its answer."""
            for at in range(0, len(many), 256):
                fleet.ask("XADD", "ds:items", "*", "from", "x", "items", "".join(f"{it}\n" for it in many[at : at + 256]))
            says(bridge, "event=overfull")
            return raw

        def ended():
            """Returns how many watches and transactions have ended."""
            return script.asked["UNWATCH"] + int(bridge.state()["compactions"])

        before, unwatched = ended(), script.asked["UNWATCH"]
        script.script("HMGET ds:snapshot at scope", overfills)
        grow()
        until(lambda: ended() > before, "the compaction ends")
        time.sleep(REST)
        told(fleet, *lines, *many)
        assert script.asked["UNWATCH"] > unwatched
        walk("WATCHES | not all is read, or it can't be kept")


def states_of_anti_entropy(fleet, draw):
    with walking(fleet, "anti_entropy") as (walk, script, bridge):
        lines = numbers("a", 9)
        for line in lines:
            offer(bridge, line)
        time.sleep(2 * REST)
        assert "event=lost" not in bridge.said()
        walk("any | good answers")
        fleet.ask("XDEL", "ds:items", fleet.ask("XRANGE", "ds:items", "-", "+")[4][0])
        says(bridge, "event=lost")
        told(fleet, *lines)
        fleet.ask("DEL", "ds:items")
        says(bridge, "event=lost", 2)
        told(fleet, *lines)
        walk("any | .. of a server that lost something")
        fleet.ask("HSET", "ds:snapshot", "scope", "x")
        says(bridge, "event=badscope")
        fleet.ask("HSET", "ds:snapshot", "scope", "everything")
        in_step(bridge)
        walk("any | .. with another scope")
        script.script_and_wait("HGETALL ds:digests", ERROR)
        says(bridge, "event=denied")
        in_step(bridge)
        walk("any | an error")
        entries = fleet.entries()
        differs = script.script("HGETALL ds:digests", differing(bridge), 4)
        says(bridge, "event=differs")
        until(lambda: fleet.entries() > entries, "everything is sent again")
        until(differs.is_used, "it is compared")
        walk("any | others differ, and this is the first of its kind")
        in_step(bridge)
        lines.append(number("late", 1, 1))
        script.script("XREAD COUNT 64 BLOCK", SWALLOW)
        fleet.ask("XADD", "ds:items", "*", "from", "x", "items", lines[-1] + "\n")
        reconnects(bridge, lambda: says(bridge, "what was there a second ago didn't come"))
        shows(bridge, lines)
        walk("any | an entry of a second ago hasn't come")


def of_another_run(raw):
    """Returns the answer to INFO of a server with another run id."""
    return raw.replace(b"run_id:", b"run_id:0", 1).replace(b"\r\nredis_git_sha1:00000000", b"\r\nredis_git_sha1:0000000", 1)


def differing(bridge):
    """Returns a function that adds to all digests one that differs at the same entry, with a rising beat."""
    beats = iter(range(1, 1000))

    def made(raw):
        texts = re.findall(rb"[0-9a-f]{16}-\d+-\d+-\d+-\d+", raw)
        if not texts:
            return raw
        _, _, *moment = texts[0].split(b"-")
        text = b"3-0123456789abcdef-%d-%s" % (next(beats), b"-".join(moment))
        count = int(raw[1 : raw.index(b"\r\n")])
        name = b"f" * 32
        return b"*%d%s$%d\r\n%s\r\n$%d\r\n%s\r\n" % (count + 2, raw[raw.index(b"\r\n") :], len(name), name, len(text), text)

    return made

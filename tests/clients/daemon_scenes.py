"""Scenes of a client and the daemons: a dsrs whose services are killed, one that is killed itself, a dsfleet that is killed and catches up."""
import os
import re
import shutil
import signal
import socket
import subprocess
import threading

import fleets
import supervisors
from players import ROOT, Skipped, equal
from waiting import until

SCENES = []


def scene(function):
    SCENES.append(function)
    return function


def only(language):
    """Marks a scene that is played in one language."""

    def marked(function):
        function.languages = (language,)
        return function

    return marked


def build(built):
    """Builds the daemons, dsfleet only if this machine has what it needs."""
    supervisors.build(built.library, built.room)
    built.dsfleet = None
    if shutil.which("redis-server") and os.path.exists("/usr/include/hiredis/hiredis.h"):
        built.dsfleet = fleets.build(built.library, built.room / "dsfleet")


def host(stage, *labels, fields="", start=True):
    """Starts a dsrs whose services are players, and returns it."""
    it = stage.enter(supervisors.Host([stage.built.room / "dsrs"], stage.built.room))
    stage.path = str(it.path)
    it.settings = "format = 2\n"
    for label in labels:
        words = " ".join(f"'{word}'" for word in stage.words())
        named = " ".join(f"{key}='{value}'" for key, value in stage.environment({}).items() if key.startswith("PYTHON"))
        it.service(label, f"#!/bin/sh\nexec env {named} {words} instance\n")
        it.settings += f'[[service]]\nlabel = "{label}"\nclass = "server"\nlimit = 1000\npublishes = ["{label}.n", "{label}.saw"]\n{fields}'
    if start:
        it.start(settings=it.settings)
        for label in labels:
            until(lambda label=label: it.ask("status") and it.status()[label][0] == "ready", f"{label} is ready")
    return it


def kill(it, label):
    os.kill(it.pid(label), signal.SIGKILL)


# ---- a dsrs ----


@scene
def a_service_that_is_killed(stage):
    """A client finds the next instance each time, and gets the answer of the one that it found."""
    it, seen = host(stage, "d"), []
    player = stage.player()
    for _ in range(4):
        where, who, said = player("connect d").split(" ")
        equal((who, said), (where, "hello"))
        seen.append(int(where.split("/")[0]))
        kill(it, "d")
        it.logged(f"died d {where}")
    equal(seen, sorted(set(seen)))
    player.end()
    it.end()


@scene
def an_instance_that_answers_pings(stage):
    """It lives for many periods, publishes, is `ready`, and its server watches another one's label over its own connection."""
    it = host(stage, "d", "f", fields="period = 400\nstartup = 3000\n")
    player = stage.player()
    first = until(lambda: player("retrieve d.n u32"), "it publishes")
    until(lambda: player("retrieve d.n u32") != first, "it publishes again")
    until(lambda: player("retrieve f.saw str") == f"d {player('retrieve d label')}", lambda: player("ask show"))
    kill(it, "d")
    it.logged("began d 3/")
    until(lambda: player("retrieve f.saw str") == "d 3/16", "the watch sees the next instance")
    before = it.status()["f"][1]
    until(lambda: int(it.status()["f"][3]) >= 12, "it lives for three periods")
    equal(it.status()["f"][1], before)
    assert not it.has_logged("died f"), it.log()[-1000:]
    player.end()
    it.end()


@scene
def a_watch_of_services(stage):
    """It sees each death and each start, in order."""
    it = host(stage, "d")
    player = stage.player()
    player.plays(("watch d 1", "watch 0"), ("next 0 60000", "anew"), ("next 0 60000", "d label rs 1.0 = 1/16"))
    for generation in (1, 2, 3):
        kill(it, "d")
        player.plays(("next 0 60000", f"d label rs {generation}.1 -"), ("next 0 60000", f"! d {generation}"))
        equal(player("next 0 60000"), f"d label rs {generation + 1}.0 = {generation + 1}/16")
    player.end()
    it.end()


@scene
def a_daemon_that_is_killed(stage):
    """A watch of a dsrs begins anew with the next one, whose generations are higher, and a client finds its services."""
    it = host(stage, "d")
    player = stage.player()
    player.plays(("watch d 1", "watch 0"), ("next 0 60000", "anew"), ("next 0 60000", "d label rs 1.0 = 1/16"))
    it.kill()
    equal(player("next 0 200"), "fault lost")
    equal(player("retrieve d label"), "fault lost")
    it.start()
    seen = [player("next 0 60000")]
    while not seen[-1].startswith("d label rs "):
        seen.append(player("next 0 60000"))
    where = re.fullmatch(r"d label rs (\d+)\.0 = (\1/16)", seen[-1])
    assert seen[0] == "anew" and where and int(where[1]) > 1, seen
    equal(player("connect d"), f"{where[2]} {where[2]} hello")
    player.end()
    it.end()


@scene
def a_client_that_waits_for_its_daemon(stage):
    """`connect` finds a service whose dsrs is killed meanwhile."""
    it = host(stage, "d")
    player = stage.player()
    it.kill()
    player.begin("connect d")
    it.start()
    where, who, _ = player.said().split(" ")
    assert where == who and where != "1/16", where
    player.end()
    it.end()


@scene
def eight_subscriptions(stage):
    """A dsrs has eight for all its clients. A watch that is closed leaves its number to the client."""
    it = host(stage, "d")
    player, other = stage.player(), stage.player()
    for number in range(8):
        player.plays((f"watch d 1", f"watch {number}"), (f"next {number} 60000", "anew"))
    player.plays(("subscribe d 1", "fault notallowed"))
    other.plays(("subscribe d 1", "fault notallowed"))
    player.plays(("unwatch 3", "ok"), ("subscribe d 1", "sub 123"), ("check 123", "d label rs 1.0 = 1/16|"))
    player.end()
    until(lambda: other("subscribe d 1") == "sub 120", "the numbers are free again")
    other.end()
    it.end()


@scene
def a_line_that_is_too_long(stage):
    it = host(stage, "d")
    player = stage.player()
    player.plays((f"ask retrieve {'x' * 5000} label", "fault badline"), ("retrieve d label", "1/16"), ("retrieve d2 label", "fault notfound"))
    player.plays(("nameof 1/16", "d"), ("nameof 9/16", "fault notfound"), ("as 1/16", "fault norequest"), ("publish d u32 1", "fault badcall"))
    player.end()
    it.end()


@scene
def a_daemon_that_stops(stage):
    """Calls end at their timeouts while dsrs is stopped, and afterwards each gets its own answer."""
    it = host(stage, "d")
    player = stage.player(timeout=300)
    it.process.send_signal(signal.SIGSTOP)
    for name in ("d", "x"):
        equal(player(f"retrieve {name} label"), "fault timeout")
    it.process.send_signal(signal.SIGCONT)
    for line, wanted in (("retrieve d label", "1/16"), ("nameof 1/16", "d"), ("ask log x", "fault norequest")):
        equal(until(lambda line=line: (lambda it: it if it != "fault timeout" else None)(player(line)), "it answers again"), wanted)
    player.end()
    it.end()


def shape(lines):
    """Returns what follow.c printed without the seconds, and each line once that is repeated."""
    plain = [re.sub(r"seconds = \d+", "seconds = N", it.strip()) for it in lines]
    return [it for at, it in enumerate(plain) if not at or it != plain[at - 1]]


def play_the_guide(stage, run):
    """Plays the session of docs/guide/client.md with a program as the service: the client prints what the page shows."""
    page = (ROOT / "docs/guide/client.md").read_text()
    compiles = re.search(r"^    (cc .*)$", page, re.MULTILINE)[1].replace("/tmp/follow", f"{stage.home}/follow")
    kills = re.search(r"^    \$ (kill -9 .*dsask.*)$", page, re.MULTILINE)[1]
    wanted = shape(re.search(r"\$ /tmp/follow /tmp/socket\n((?:    .*\n)+)", page)[1].splitlines())
    subprocess.run(["sh", "-c", compiles], cwd=ROOT, check=True)
    it = stage.enter(supervisors.Host([stage.built.room / "dsrs"], stage.built.room))
    it.service("count", f"#!/bin/sh\n{run}\n")
    it.start(settings=(ROOT / "examples/client/settings.toml").read_text())
    it.logged("ready count 1/16")
    with open(stage.home / "said", "w") as said:
        follow = subprocess.Popen([stage.home / "follow", it.path], stdout=said)
    got = lambda: shape((stage.home / "said").read_text().splitlines())  # noqa: E731
    for end, then in ((3, "service"), (7, "dsrs"), (10, None)):
        until(lambda end=end: got()[:end] == wanted[:end], lambda: f"{got()}, and not {wanted}")
        if then == "service":
            subprocess.run(["sh", "-c", kills.replace("dsask", f"{stage.built.room}/dsask").replace("/tmp/socket", str(it.path))], check=True)
        if then == "dsrs":
            it.kill()
            it.start()
    follow.kill()
    follow.wait()
    it.end()


@scene
@only("c")
def the_session_of_the_guide(stage):
    """The client of docs/guide/client.md prints what the page shows, when the page's commands kill the service and dsrs."""
    play_the_guide(stage, f"PYTHONPATH={stage.built.package} exec python3 {ROOT}/examples/client/count/run")


@scene
@only("c")
def the_service_of_the_guide_in_c(stage):
    """The same session, with the service that the page compiles."""
    page = (ROOT / "docs/guide/client.md").read_text()
    compiles = re.search(r"`(cc .* examples/client/count\.c .*)`", page)[1].replace("/tmp/client/count/run", f"{stage.home}/count")
    subprocess.run(["sh", "-c", compiles], cwd=ROOT, check=True)
    play_the_guide(stage, f"exec {stage.home}/count")


# ---- a dsfleet ----


class Line:
    """A socket between clients and a daemon that can be cut."""

    def __init__(self, path, to):
        self.path, self.to, self.pairs = path, to, []
        self.listener = socket.socket(socket.AF_UNIX)
        self.listener.bind(path)
        self.listener.listen()
        threading.Thread(target=self.serve, daemon=True).start()

    def serve(self):
        try:
            while True:
                client, daemon = self.listener.accept()[0], socket.socket(socket.AF_UNIX)
                daemon.connect(self.to)
                self.pairs.append((client, daemon))
                for pair in ((client, daemon), (daemon, client)):
                    threading.Thread(target=self.copy, args=pair, daemon=True).start()
        except OSError:
            pass

    @staticmethod
    def copy(one, other):
        try:
            while some := one.recv(1 << 16):
                other.sendall(some)
        except OSError:
            pass

    def cut(self):
        """Ends all connections, and takes no more."""
        self.listener.shutdown(socket.SHUT_RDWR)
        self.listener.close()
        os.unlink(self.path)
        for pair in self.pairs:
            for it in pair:
                it.shutdown(socket.SHUT_RDWR)
                it.close()


def bridge(stage, **how):
    """Starts a redis server and a dsfleet, and returns both and a client of the dsfleet that publishes."""
    if not stage.built.dsfleet:
        raise Skipped("redis-server or hiredis isn't found")
    fleet = stage.enter(fleets.Fleet([str(stage.built.dsfleet)]))
    it = fleet.start(**how)
    return fleet, it


def publishes(it, first, count):
    """Publishes labels, generation by generation, as RS does."""
    for generation in range(first, first + count):
        equal(it.ask(f"publish 0/2 over eth{generation % 7} label {generation}.0 = {generation}/16")[0], "taken")


def label(generation):
    return f"eth{generation % 7} label rs {generation}.0 = {generation}/16"


@scene
def a_watch_catches_up_after_its_connection_was_cut(stage):
    """It gets each change that was made meanwhile, once and in order, and no snapshot."""
    _, it = bridge(stage)
    stage.path = f"{stage.home}/line"
    line, player = Line(stage.path, it.socket), stage.player()
    publishes(it, 1, 5)
    player.plays(("watch eth.* 1", "watch 0"), ("next 0 60000", "anew"), *((f"next 0 60000", label(it)) for it in range(1, 6)))
    line.cut()
    publishes(it, 6, 300)
    equal(player("next 0 100"), "fault lost")
    line = Line(stage.path, it.socket)
    player.plays(*(("next 0 60000", label(it)) for it in range(6, 306)), ("next 0 100", "fault timeout"))
    publishes(it, 306, 1)
    equal(player("next 0 60000"), label(306))
    player.end()


@scene
def a_watch_after_more_than_the_journal_keeps(stage):
    """It gets a snapshot, and then what follows."""
    _, it = bridge(stage)
    stage.path = f"{stage.home}/line"
    line, player = Line(stage.path, it.socket), stage.player()
    player.plays(("watch eth.* 1", "watch 0"), ("next 0 60000", "anew"), ("next 0 100", "fault timeout"))
    line.cut()
    many = "".join(f"publish 0/2 over eth{generation % 7} label {generation}.0 = {generation}/16\n" for generation in range(1, 5001))
    with socket.socket(socket.AF_UNIX) as other:
        other.connect(it.socket)
        threading.Thread(target=other.sendall, args=(many.encode(),), daemon=True).start()
        got = b""
        while got.count(b"\n\n") < 5000:
            got += other.recv(1 << 16)
    line = Line(stage.path, it.socket)
    player.plays(("next 0 60000", "anew"), *(("next 0 60000", label(generation)) for generation in sorted(range(4994, 5001), key=lambda it: it % 7)))
    publishes(it, 5001, 1)
    equal(player("next 0 60000"), label(5001))
    line.cut()
    player.end()


@scene
def a_dsfleet_that_is_killed(stage):
    """Its store comes back from the stream under another incarnation, so a watch begins anew. A client acts as before."""
    fleet, it = bridge(stage)
    stage.path, eth0 = it.socket, "eth0 label rs 3.0 = 3/16"
    equal(it.ask("publish 0/2 new eth0 label 3.0 = 3/16"), ["taken"])
    player = stage.player()
    player.plays(("as 3/16", "ok"), ("publish eth0.mtu u32 1500", "ok"), ("watch eth0.* 3", "watch 0"))
    player.plays(("next 0 60000", "anew"), ("next 0 60000", eth0), ("next 0 60000", "eth0.mtu u32 eth0 3.0 = 1500"))
    it.kill()
    equal(player("publish eth0.mtu u32 1"), "fault lost")
    fleet.start(at=it.name) if hasattr(it, "name") else it.start()
    player.plays(("next 0 60000", "anew"), ("next 0 60000", eth0), ("next 0 60000", "eth0.mtu u32 eth0 3.0 = 1500"))
    player.plays(("publish eth0.mtu u32 9000", "ok"), ("next 0 60000", "eth0.mtu u32 eth0 3.2 = 9000"), ("retrieve eth0.mtu u32", "9000"))
    player.plays(("delete eth0.mtu u32", "ok"), ("next 0 60000", "eth0.mtu u32 eth0 3.3 -"), ("retrieve eth0.mtu u32", "fault notfound"))
    player.plays(("as 4/16", "fault notallowed"), ("publish eth0.other u32 1", "ok"))
    player.end()


@scene
def cursors_of_a_dsfleet(stage):
    """A watch continues at the cursor of an earlier one; the cursor of another run, or of the future, makes it begin anew."""
    _, it = bridge(stage)
    stage.path = it.socket
    publishes(it, 1, 3)
    player = stage.player()
    player.plays(("watch eth.* 1", "watch 0"), ("next 0 60000", "anew"), *((f"next 0 60000", label(it)) for it in range(1, 4)), ("next 0 100", "fault timeout"))
    incarnation, position = map(int, player("cursor 0").split())
    publishes(it, 4, 1)
    player.plays((f"watch eth.* 1 {incarnation} {position}", "watch 1"), ("next 1 60000", label(4)), ("next 1 100", "fault timeout"))
    player.plays((f"watch eth.* 1 {incarnation - 1} {position}", "watch 2"), ("next 2 60000", "anew"), ("next 2 60000", label(1)))
    player.plays((f"watch eth.* 1 {incarnation} {position + 99}", "watch 3"), ("next 3 60000", "anew"), ("next 3 60000", label(1)))
    player.plays(("subscribe eth.* 1", "sub 123"), ("check 123", "".join(f"{label(it)}|" for it in range(1, 5))))
    publishes(it, 5, 1)
    player.plays(("notice 60000", "notice 123"), ("check 123", f"{label(5)}|"))
    player.end()


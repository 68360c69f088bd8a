"""Scenes about rights: a socket's mode and groups, endpoints of clients, subscriptions that belong to a client, limits, passwords.
scenes.py lists these."""
import os
import stat
import subprocess
import time

from fleets import Client, Skipped
from scenes import number, numbers, offer, shows
from waiting import PATIENCE, until

STRANGER, WRITERS, READERS = 12345, 23456, 34567  # a user and groups that nobody has
PASSED = """
import os, socket, sys
path, user, group, more = sys.argv[1], int(sys.argv[2]), int(sys.argv[3]), list(map(int, sys.argv[4].split(",")))
os.setgroups(more)
os.setgid(group)
os.setuid(user)
it = socket.socket(socket.AF_UNIX)
it.connect(path)
it.sendall(sys.stdin.buffer.read())
it.shutdown(socket.SHUT_WR)
while some := it.recv(1 << 16):
    sys.stdout.buffer.write(some)
"""
STAYED = """
import os, select, socket, sys, time
path, user, group, count = sys.argv[1], *map(int, sys.argv[2:])
os.setgroups([group])
os.setgid(group)
os.setuid(user)
def send(it, line):
    try:
        it.sendall(line)
    except OSError:
        pass
def got(it):
    try:
        return it.recv(1 << 16)
    except OSError:
        return b""
def ask(it, line):
    send(it, line)
    return got(it)
all = [socket.socket(socket.AF_UNIX) for _ in range(count)]
for it in all:
    it.settimeout(60)
    it.connect(path)
    send(it, b"nameof 0/2\\n")
there, end = [], time.monotonic() + 60
while (ready := select.select(all, [], [], 2)[0]) or not there and time.monotonic() < end:
    there += [it for it in ready if got(it)]
    all = [it for it in all if it not in ready]
made = sum(ask(there[0], b'subscribe ".*" 2 later new\\n').startswith(b"subscribed ") for _ in range(128))
print(len(there), made, flush=True)
sys.stdin.read()
"""


def said_as(bridge, group, others, *lines):
    """Returns the answers to lines that a process of another user sends, and its status."""
    words = ["python3", "-c", PASSED, bridge.socket, str(STRANGER), str(group), ",".join(map(str, others))]
    ran = subprocess.run(words, input="".join(f"{it}\n" for it in lines), capture_output=True, text=True, timeout=PATIENCE)
    return [it.split("\n") for it in ran.stdout.split("\n\n")[:-1]], ran.returncode


def who_may_connect(fleet, draw):
    """--mode and --group apply to the socket. With --readers others may read and follow, and only the socket's group may write."""
    if os.geteuid():
        raise Skipped("only root has other groups")
    os.chmod(fleet.home, 0o755)
    closed = fleet.start("--mode", "660", "--group", str(WRITERS))
    it = os.stat(closed.socket)
    assert (stat.S_IMODE(it.st_mode), it.st_gid) == (0o660, WRITERS), it
    assert said_as(closed, READERS, [READERS], "state")[1] != 0, "a stranger connects"
    assert said_as(closed, READERS, [WRITERS], f"offer {number('a', 1, 1)}") == ([["taken"]], 0)
    shared = fleet.start("--group", str(WRITERS), "--readers", str(READERS))
    assert stat.S_IMODE(os.stat(shared.socket).st_mode) == 0o666
    change = [f"offer {number('b', 1, 1)}", "publish 0/2 new x label 1.0 = 1/17", "sweep 0/2 x 1", "delete 0/2 x label 1.1"]
    answers, _ = said_as(shared, READERS, [STRANGER], *change, "retrieve a u32", 'subscribe 3 "a.*" 2 first new', "check 3 8")
    assert answers[:4] == [["refused notallowed"]] * 4, answers
    assert answers[4] == ["found 1"] and answers[5][0] == "subscribed 1" and answers[6][0] == number("a", 1, 1), answers
    assert said_as(shared, WRITERS, [STRANGER], *change[:1]) == ([["taken"]], 0)
    assert said_as(shared, STRANGER, [STRANGER, READERS], "retrieve b u32") == ([["found 1"]], 0)
    assert said_as(shared, STRANGER, [STRANGER], "retrieve b u32")[0] == [], "a user of neither group is answered"
    until(lambda: "event=stranger" in shared.said(), "it is logged")
    shows(closed, [number("a", 1, 1), number("b", 1, 1)])


def readers_have_half(fleet, draw):
    """With --readers, those that only read take at most half of the places and of the subscriptions, however long they stay."""
    if os.geteuid():
        raise Skipped("only root has other groups")
    os.chmod(fleet.home, 0o755)
    bridge = fleet.start("--group", str(WRITERS), "--readers", str(READERS), "--maxclients", "8")
    words = ["python3", "-c", STAYED, bridge.socket, str(STRANGER), str(READERS), "12"]
    with subprocess.Popen(words, stdin=subprocess.PIPE, stdout=subprocess.PIPE, text=True) as readers:
        said = readers.stdout.readline().split()
        writers = [bridge.client() for _ in range(4)]
        served = [it.ask("state")[0] for it in writers]
        refused = writers[0].ask('subscribe ".*" 2 later new')
        readers.stdin.close()
    assert said == ["4", "64"], f"{said[0]} readers are served, and made {said[1]} subscriptions"
    assert all(it.startswith("state ") for it in served), served
    assert refused[-1].startswith("sub "), f"a writer's subscription is answered {refused}"


def the_group_of_a_folder(fleet, draw):
    """With --readers and without --group the socket has the process's own group, even in a folder whose files get the folder's group."""
    folder = f"{fleet.home}/shared"
    os.mkdir(folder)
    try:
        os.chown(folder, -1, WRITERS)
    except PermissionError as why:
        raise Skipped("only root has other groups") from why
    os.chmod(folder, 0o2755)
    plain, shared = fleet.start(at="shared/plain"), fleet.start("--readers", str(READERS), at="shared/store")
    groups = [os.stat(it.socket).st_gid for it in (plain, shared)]
    assert groups == [WRITERS, os.getegid()], groups


def an_endpoint_of_a_connection(fleet, draw):
    """`as ENDPOINT` binds a connection to an endpoint, once. Then it changes nothing under another one, and offers nothing."""
    bridge = fleet.start()
    with bridge.client() as rs, bridge.client() as driver:
        assert rs.ask("publish 0/2 new eth0 label 3.0 = 3/17") == ["taken"]
        for bad in ("as 3", "as 3/1024", "as 03/17", "as 2097152/17", "as 3/17 "):
            assert driver.ask(bad)[0].startswith("badline "), bad
        assert driver.ask("as 3/17") == ["as 3/17"]
        assert driver.ask("as 3/17") == driver.ask("as 3/18") == ["refused notallowed"]
        assert driver.ask("publish 3/17 new eth0.mtu u32 3.0 = 1500") == ["taken"]
        for line in (
            "publish 0/2 over eth0 label 4.0 = 4/17", "sweep 0/2 eth0 3", "delete 3/1 eth0.mtu u32 3.1", f"offer {number('a', 1, 1)}"
        ):
            assert driver.ask(line) == ["refused notsender"], line
        assert driver.ask("delete 3/17 eth0.mtu u32 3.1") == ["taken"]


def an_endpoint_of_a_client_that_hangs_up(fleet, draw):
    """`as ENDPOINT` applies to all later lines of a client, even if it hung up before any of them was carried out."""
    bridge = fleet.start()
    with bridge.client() as rs:
        assert rs.ask("publish 0/2 new eth0 label 3.0 = 3/17") == ["taken"]
    bridge.pause()
    for at in range(9):
        with bridge.client() as driver:
            driver.send(
                "as 3/17", "as 0/2", f"publish 0/2 new forged{at} label 1.0 = 1/{at + 20}", f"publish 3/17 new eth0.own{at} u32 3.{at} = 1"
            )
    bridge.resume()
    until(lambda: sum("eth0.own" in it for it in bridge.all()) == 9, "what it changes under its own endpoint is held")
    assert not any("forged" in it for it in bridge.all()), bridge.all()


def subscriptions_end_with_their_client(fleet, draw):
    """A number belongs to the client that subscribed until that client is gone. `subscribe` without a number gets a free one."""
    bridge = fleet.start()
    with bridge.client() as first, bridge.client() as other:
        assert first.ask('subscribe 40 "a.*" 2 first new') == ["subscribed 1"]
        assert first.ask('subscribe 40 "a.*" 2 first new') == ["refused exists"]
        for line in ('subscribe 40 "b.*" 2 first new', 'subscribe 40 "b.*" 2 first over', "check 40 8"):
            assert other.ask(line) == ["refused notallowed"], line
        assert other.ask("listen 40") == ["listening 40"]
        assert other.ask('subscribe "b.*" 2 first new') == ["subscribed 2", "sub 127"]
        assert other.ask('subscribe "b.*" 2 first new') == ["subscribed 3", "sub 126"]
        assert first.ask('subscribe "(" 2 first new') == ["refused badpattern"] == first.ask(
            'subscribe 40 "(" 2 first over'
        ) == ["refused badpattern"]
        assert first.ask("check 127 8") == ["refused notallowed"]
        for it in range(125, -1, -1):
            if it != 40:
                assert other.ask('subscribe "c" 2 later new')[-1] == f"sub {it}"
        assert other.ask('subscribe "c" 2 later new') == ["refused toomany"]
        first.it.close()
        assert until(
            lambda: (lambda it: it if it != ["refused notallowed"] else None)(other.ask('subscribe 40 "b.*" 2 first new')), "it is free"
        )[0].startswith("subscribed ")


def limits_of_clients(fleet, draw):
    """`state` shows the limits by redis's names. A client that sends nothing is dropped, and one that listens isn't."""
    bridge = fleet.start("--maxclients", "4", "--timeout", "10", "--client-output-buffer-limit", "20000", "--maxmemory-clients", "100000")
    state = bridge.state()
    names = ("maxclients", "timeout", "client-output-buffer-limit", "maxmemory-clients")
    assert [state[it] for it in names] == ["4", "10", "20000", "100000"] and state["clients"] == "1", state
    with bridge.client() as idle, bridge.client() as listens:
        began = time.monotonic()
        assert listens.ask("listen 3") == ["listening 3"] and idle.ask("show") == ["shown 0"]
        assert idle.it.recv(1) == b"" and time.monotonic() - began > 9.9, "it is dropped early, or never"
        time.sleep(1)
        assert listens.ask("show") == ["shown 0"]
        more = [bridge.client() for _ in range(3)]
        assert all(it.ask("show") == ["shown 0"] for it in more)
        late = Client(bridge.socket)
        late.send("show")
        assert not late.has_answer(0.3), "a fifth client is served"
        more[0].it.close()
        assert late.answer() == ["shown 0"]
        for it in (*more, late):
            it.it.close()
    plain = fleet.start()
    assert [plain.state()[it] for it in names] == ["512", "0", str(1 << 20), str(64 << 20)]


def passwords_that_nobody_sees(fleet, draw):
    """A password comes from a file or the environment. One in a URL is overwritten on the command line, with a warning."""
    fleet.ask("ACL", "SETUSER", "host", "on", ">secret", "~*", "&*", "+@all")
    url, file = f"redis://host:@127.0.0.1:{fleet.port}", f"{fleet.home}/password"
    with open(file, "w", encoding="ascii") as it:
        it.write("secret\nanother line\n")
    bridges = [
        fleet.start("--password-file", file, url=url), fleet.start(url=url, named={"DSFLEET_PASSWORD": "secret"}),
        fleet.start(url=url.replace(":@", ":secret@")), fleet.start(url=url, named={"REDISCLI_AUTH": "secret"}),
        fleet.start(url="-", named={"DSFLEET_URL": url.replace(":@", ":secret@"), "REDISCLI_AUTH": "another server's"}),
    ]
    offer(bridges[0], *(lines := numbers("a", 3)))
    for bridge in bridges:
        shows(bridge, lines)
        with open(f"/proc/{bridge.process.pid}/cmdline", "rb") as words:
            assert b"secret" not in words.read()
    warned = ["event=password" in it.said() for it in bridges]
    assert warned == [False, False, True, False, False], warned
    status = subprocess.run(
        [*fleet.words, "--password-file", f"{file}.none", bridges[0].socket, url], capture_output=True, text=True, timeout=PATIENCE
    )
    assert status.returncode == 2 and "password file" in status.stderr, status

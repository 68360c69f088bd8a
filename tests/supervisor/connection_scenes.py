"""Scenes of connections that a supervisor hands out."""
import os

from scenes import LIVES, scene
from waiting import until

# Receives messages over descriptor 3, and the descriptors that come with them, each with the last message of its piece.
HANDED = '''
def next_message():
    global rest
    files = []
    while b"\\n\\n" not in rest:
        some, got, _, _ = socket.recv_fds(dsrs, 1 << 16, 4)
        if not some: sys.exit(9)
        files += got
        rest += some
        if got and not rest.endswith(b"\\n\\n"): note("a descriptor comes with another line")
    *before, last = rest.decode().removesuffix("\\n\\n").split("\\n\\n")
    rest = b""
    return before, last, [socket.socket(fileno=it) for it in files]
def greet(file):
    file.sendall(f"from {me}".encode())
    return file.recv(99).decode()
'''
# Answers each connection that it is handed.
TAKES = HANDED + '''
kept = []
while True:
    _, last, files = next_message()
    for it in files:
        note(f"handed {last} {greet(it)}")
    kept += files
'''


@scene
def connections_are_handed_out(host):
    """`connect ENDPOINT` hands over both ends of a pair, and dsrs names to each the owner of the other end."""
    asks = HANDED + '''
dsrs.sendall(b"show\\nshow\\nconnect 1/16\\nshow\\n" + 4 * b"connect 1/16\\n")
seen = []
while len(seen) < 5:
    before, last, files = next_message()
    for it in files: seen.append(f"{last} {greet(it)}")
note(f"connected {len(seen)} {set(seen)}")
for line in ("connect 9/16", "connect x", "connect", f"connect {me}"): note(line + ": " + ask(line))
live()
'''
    host.start({"d": ({}, TAKES), "f": ({"class": "server"}, asks)})
    host.noted("f 2/17 connected 5 {'connected 1/16 from 1/16'}")
    until(lambda: host.notes().count("d 1/16 handed peer 2/17 from 2/17\n") == 5, lambda: f"both are handed: {host.notes()}")
    host.noted("connect 2/17: refused notallowed")
    for line in ("connect 9/16: refused oldendpoint", "connect x: refused oldendpoint", "connect: refused oldendpoint"):
        assert f"f 2/17 {line}\n" in host.notes(), host.notes()
    assert "another line" not in host.notes(), host.notes()
    assert host.ask("connect 1/16") == "refused notallowed"
    host.end()


@scene
def the_settings_say_who_may_deal_with_whom(host):
    """`connects` and `complains` list the labels that a server may connect to or complain of. An empty list allows none."""
    asks = '''
before = "b 2/17 there" if label == "none" else "none 3/18 complain 2/17"
while not os.path.exists("../../notes") or before not in open("../../notes").read(): time.sleep(0.01)
for line in ("connect 1/16", "connect 2/17", "complain 1/16", "complain 2/17"): note(line + ": " + ask(line).split("\\n")[0])
live()
'''
    lists = {"class": "server", "connects": ["a"], "complains": ["b"]}
    nothing = {"class": "server", "connects": [], "complains": []}
    host.start({"a": ({}, LIVES), "b": ({"class": "server"}, 'note("there")\nlive()\n'), "none": (nothing, asks), "some": (lists, asks)})
    host.logged("complaint b 2/17 by some")
    for endpoint in ("1/16", "2/17"):
        for verb in ("connect", "complain"):
            host.noted(f"none 3/18 {verb} {endpoint}: refused notallowed")
    for line in ("connect 1/16: connected 1/16", "connect 2/17: refused notallowed", "complain 1/16: refused notallowed"):
        assert f"some 4/19 {line}\n" in host.notes(), host.notes()
    host.end()


@scene
def a_connection_ends_with_its_instance(host):
    """A peer of an instance notices its end, and its old endpoint is refused. A connection to the next instance works once that is up."""
    asks = HANDED + '''
dsrs.sendall(b"connect 1/16\\n")
_, _, (it,) = next_message()
note(greet(it))
note(f"then {it.recv(99)}")
while (at := ask("retrieve d label")) == "found 1/16" or not at.startswith("found "): time.sleep(0.01)
note("old " + ask("connect 1/16"))
def again():
    dsrs.sendall(f"connect {at.split()[1]}\\n".encode())
    return next_message()[1:]
while not (said := again())[0].startswith("connected "): time.sleep(0.01)  # until the next instance has begun
last, (it,) = said
note(f"again {last} {greet(it)}")
live()
'''
    late = "time.sleep(0.3)\n" + TAKES
    host.start({"d": ({"limit": 5}, late), "f": ({"class": "server"}, asks)})
    host.noted("f 2/17 from 1/16")
    host.noted("d 1/16 handed peer 2/17 from 2/17")  # else d might die with unread bytes, which resets the connection
    host.ask("service refresh d")
    host.noted("f 2/17 then b''")
    host.noted("f 2/17 again connected 3/16 from 3/16")
    host.noted("f 2/17 old refused oldendpoint")
    host.noted("d 3/16 handed peer 2/17 from 2/17")
    host.end()


@scene
def connections_that_nobody_takes(host):
    """An instance that reads nothing is handed a few hundred connections at most. Others are served, and nothing is left open."""
    asks = '''
dsrs.setblocking(True)
said = ""
for _ in range(40):
    dsrs.sendall(b"connect 1/16\\n" * 50)
    while said.count("\\n\\n") < 50: said += dsrs.recv(1 << 16).decode()
    last, said = said, ""
    if "refused full" in last: break
note("full" if "refused full" in last else f"never full: {last[-200:]}")
note("still " + ask("retrieve d label"))
live()
'''
    host.start({"d": ({}, "time.sleep(1000)\n"), "f": ({"class": "server", "period": 3000}, asks)})
    host.noted("f 2/17 full")
    host.noted("f 2/17 still found 1/16")
    host.ask("service down d")
    host.logged("gone d")
    until(lambda: descriptors(host) < 30, lambda: f"{descriptors(host)} descriptors are open")
    host.end()


@scene
def descriptors_that_services_send_are_not_kept(host):
    """Descriptors that come with a service's messages or lines don't stay open in the supervisor."""
    body = '''
it = socket.socket(socket.AF_UNIX, socket.SOCK_DGRAM)
it.connect(os.environ["NOTIFY_SOCKET"])
for _ in range(50):
    socket.send_fds(it, [b"READY=1"], [0, 1, 2])
    socket.send_fds(dsrs, [b"show\\n"], [0, 1, 2])
    hear()
note("sent")
live()
'''
    host.start({"a": ({}, body)})
    host.noted("sent")
    host.logged("ready a 1/16")
    assert descriptors(host) < 30, f"{descriptors(host)} descriptors are open"
    host.end()


def descriptors(host):
    return len(os.listdir(f"/proc/{host.process.pid}/fd"))

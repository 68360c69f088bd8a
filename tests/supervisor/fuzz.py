"""Random lines, spoiled ones too, on both sockets of a supervisor: each is answered once, and no answer or entry is another's."""
import random
import socket

from supervisors import Gone
from waiting import PATIENCE, until

WORDS = ("publish", "delete", "retrieve", "nameof", "subscribe", "check", "listen", "since", "snapshot", "page", "show", "all", "beat", "complain", "connect",
         "service", "status", "offer", "sweep", "death", "tick", "settings", "side", "map", "deliver", "")
PARTS = ("0/2", "1/16", "2/17", "3/16", "9/20", "new", "over", "a", "b", "a.n", "b.n", "label", "u32", "str", "mem", "1.1", "2.7", "=", "5", "-", "x" * 70,
         '".*"', '"("', "15", "0", "8", "16", "120", "127", "128", "256", "first", "later", "up", "down", "refresh", "restart", "*", "4294967296")
PIECE = 500  # lines that are sent before their answers are read
RELAY = '''
listener = socket.socket(fileno=int(os.environ["DS_LISTEN"]))
dsrs.setblocking(True)
client, _ = listener.accept()
import select
while True:
    for it in select.select([client, dsrs], [], [])[0]:
        some = it.recv(1 << 16)
        if not some: sys.exit(0)
        (dsrs if it is client else client).sendall(some)
'''


def line(draw, is_user):
    """Returns a random line, mostly of a command's words. A user's line never ends a service, which only a user may do."""
    text = " ".join([draw.choice(WORDS), *(draw.choice(PARTS) for _ in range(draw.randrange(9)))])
    if draw.random() < 0.2 and text:
        at = draw.randrange(len(text))
        text = text[:at] + chr(draw.randrange(1, 256)) + text[at + draw.randrange(3) :]
    if draw.random() < 0.001:
        text *= 500
    text = text.replace("\n", " ")
    return "show" if is_user and text.startswith("service") else text


def answers(it, count, rest):
    """Reads this many answers, without notices, peers and pings; returns the last one and the bytes after it."""
    last = ""
    while count:
        some = it.recv(1 << 16)
        if not some:
            raise Gone("it hung up")
        *parts, rest = (rest + some).split(b"\n\n")
        for part in parts:
            text = part.decode("latin1")
            if not text.startswith(("notice ", "peer ")) and text != "ping":
                count -= 1
                last = text
        assert count >= 0, "more answers than lines"
    return last, rest


def connected(host, slot):
    """Connects to the relay of an instance: what is sent there comes from the instance."""
    it = socket.socket(socket.AF_UNIX, socket.SOCK_SEQPACKET)
    it.connect(f"{host.path}.d/{slot}")
    it.settimeout(PATIENCE)
    return it


def talk(host, count, draw: random.Random):
    fields = {"class": "server", "limit": 0}
    host.start({"a": ({**fields, "publishes": ["a.n"]}, RELAY), "b": ({**fields, "publishes": ["b.n"]}, RELAY)})
    until(lambda: host.ask("show").endswith("shown 2"), "both are there")
    talkers = [(host.client("fuzz"), True), (connected(host, "1.16"), False), (connected(host, "2.17"), False)]
    rests, sent = [b""] * len(talkers), 0
    while sent < count:
        at = draw.randrange(len(talkers))
        it, is_user = talkers[at]
        lines = [line(draw, is_user) for _ in range(PIECE)]
        lines.append("nameof 1/16")
        whole = "".join(f"{one}\n" for one in lines).encode("latin1")
        for begin in range(0, len(whole), 30000):
            it.send(whole[begin : begin + 30000])
        last, rests[at] = answers(it, len(lines), rests[at])
        assert last == "named a", f"the last answer of {len(lines)} is {last!r}"
        sent += len(lines)
        check(host)
    host.end()
    return f"{sent} lines"


def check(host):
    """Checks that every entry is its publisher's: `a.n` is a's, `b.n` is b's, and both labels are RS's."""
    for entry in host.ask("show").splitlines()[:-1]:
        name, kind, owner = entry.split()[:3]
        wanted = {"a": "rs", "b": "rs", "a.n": "a", "b.n": "b"}
        assert owner == wanted.get(name) and (kind == "label") == (owner == "rs"), f"an entry of another publisher: {entry}"

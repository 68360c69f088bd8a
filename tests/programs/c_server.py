"""Plays the server of examples/c, for tests/programs/c: clients send it lines, and each gets its answers and notices."""
import contextlib
import os
import socket
import subprocess
import tempfile
import time

PATIENCE = 60  # seconds
NAMES = 300  # enough for an answer with more bytes than the server's buffer
CLIENTS = 64  # that it serves at once


class Client:
    def __init__(self, path):
        self.socket = socket.socket(socket.AF_UNIX)
        self.socket.settimeout(PATIENCE)
        self.socket.connect(path)
        self.rest = b""

    def send(self, text):
        self.socket.sendall(text.encode())

    def answer(self):
        """Returns the lines of the next answer or notice; None if the server hung up."""
        while b"\n\n" not in self.rest and not self.rest.startswith(b"\n"):
            try:
                some = self.socket.recv(1 << 16)
            except ConnectionResetError:  # it hung up before it had read everything
                some = b""
            if not some:
                return None
            self.rest += some
        if self.rest.startswith(b"\n"):
            self.rest = self.rest[1:]
            return []
        said, _, self.rest = self.rest.partition(b"\n\n")
        return said.decode().split("\n")

    def ask(self, line):
        self.send(line + "\n")
        return self.answer()


def connected(path, server):
    """Returns a client, once the server is there."""
    ends = time.monotonic() + PATIENCE
    while True:
        try:
            return Client(path)
        except OSError:
            assert server.poll() is None and time.monotonic() < ends, "the server isn't there"
            time.sleep(0.01)


@contextlib.contextmanager
def served(program):
    """Runs a server, yields its socket's path and a client, and ends it."""
    with tempfile.TemporaryDirectory() as room:
        path = os.path.join(room, "socket")
        server = subprocess.Popen([program, path], stdin=subprocess.DEVNULL)
        try:
            yield path, connected(path, server)
            assert server.poll() is None, f"the server ended with status {server.returncode}"
        finally:
            server.kill()
            server.wait()


def is_now(given, wanted):
    assert given == wanted, f"{given}, wanted {wanted}"


def play(program):
    with served(program) as (path, rs):
        inet = Client(path)
        owed = "owed 00000000000000000000010000000000"
        is_now(inet.ask('subscribe 40 "eth.*" 1 later new'), ["subscribed 1"])
        is_now(rs.ask("publish 0/2 new eth0 label 3.0 = 3/16"), ["taken", owed])
        is_now(inet.answer(), ["notice 40"])
        is_now(inet.ask("check 40 8"), ["eth0 label rs 3.0 = 3/16", "checked 1 1 2"])
        is_now(rs.ask("publish 0/2 new tty label 3.0 = 3/17"), ["taken"])  # inet isn't owed a notice of it
        inet.send("retrieve eth0 label\nnameof 3/16\nretr")  # several lines, and a part of one
        is_now(inet.answer(), ["found 3/16"])
        is_now(inet.answer(), ["named eth0"])
        is_now(inet.ask("ieve eth0 label"), ["found 3/16"])
        is_now(rs.ask("shwo"), ["badline 1 0"])
        is_now(rs.ask("map * 1"), ["badline 1 4"])
        is_now(rs.ask('map "eth.*" 1'), ["norequest"])
        for at in range(NAMES):
            is_now(rs.ask(f"offer mtu{at:03} u32 eth0 3.{at} = 1500"), ["taken"])
        is_now(len(rs.ask("show")), NAMES + 3)
        rude = Client(path)
        rude.send("x" * 8192)  # longer than any line
        is_now(rude.answer(), None)
        inet.socket.close()
        is_now(rs.ask("delete 0/2 eth0 label 3.1"), ["taken", owed])  # no client is there to get the notice
        more = [Client(path) for _ in range(CLIENTS - 1)]
        is_now([it.ask("nameof 3/17") for it in more], [["named tty"]] * len(more))
        is_now(Client(path).answer(), None)  # all places are taken
        is_now(rs.ask("nameof 3/17"), ["named tty"])

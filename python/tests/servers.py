"""What a client is tried against: a server that answers as dsfleet does, by the model, and a dsfleet over the library."""
import os
import random
import shutil
import socket
import tempfile
import threading

import support  # noqa: F401, I001: it finds the modules of tests/
import fleets
import model

CUTS = (0, 0, 0, 1, 2)  # how often what is sent at a time is cut
OF_ONE_STORE = (b"offer", b"publish", b"delete", b"sweep", b"retrieve", b"nameof", b"subscribe", b"check", b"since", b"snapshot", b"page")
SHOWING = (b"show", b"all")


class Fake:
    """Serves clients at a socket. It cuts what it sends anywhere, as often as one of `cuts` says.

    It hangs up on each client after `hangs` lines.
    """

    def __init__(self, hangs=None, seed=0, cuts=CUTS, name="store"):
        self.home = tempfile.mkdtemp(prefix="fake")
        self.path, self.store = f"{self.home}/{name}", model.Store(ring=4096, incarnation=7)
        self.hangs, self.random, self.cuts = hangs, random.Random(seed), cuts
        self.lock, self.clients, self.threads, self.free = threading.RLock(), [], [], 128

    def __enter__(self):
        self.listener = socket.socket(socket.AF_UNIX)
        self.listener.bind(self.path)
        self.listener.listen()
        self.begin(self.admit)
        return self

    def __exit__(self, *_):
        self.listener.shutdown(socket.SHUT_RDWR)
        self.listener.close()
        for it in self.threads:
            it.join()
        shutil.rmtree(self.home)

    def begin(self, work, *given):
        self.threads.append(threading.Thread(target=work, args=given, daemon=True))
        self.threads[-1].start()

    def admit(self):
        try:
            while True:
                client = Connection(self, self.listener.accept()[0])
                self.clients.append(client)
                self.begin(client.serve)
        except OSError:
            pass


class Connection:
    """Serves one client."""

    def __init__(self, server, it):
        self.server, self.it, self.listens, self.lines = server, it, set(), 0

    def serve(self):
        try:
            with self.it, self.it.makefile("rb") as given:
                for line in given:
                    with self.server.lock:
                        self.lines += 1
                        self.send(self.answer(line.removesuffix(b"\n")))
                    if self.lines == self.server.hangs:
                        self.it.shutdown(socket.SHUT_RDWR)
                        break
        except OSError:
            pass
        self.server.clients.remove(self)

    def answer(self, line):
        """Returns the lines of an answer. Notices that it owes are sent before it."""
        if line.startswith(b"listen "):
            self.listens.add(int(line[7:]))
            return [b"listening " + line[7:]]
        if line.startswith(b'subscribe "'):
            return self.subscribe(line)
        lines = answered(self.server.store, line, self.lines)
        for it in lines:
            if it.startswith(b"owed "):
                self.notify(int(it[5:], 16))
        return lines

    def subscribe(self, line):
        """Subscribes by a number that no other line has taken."""
        self.server.free -= 1
        lines = answered(self.server.store, b"subscribe %d" % self.server.free + line.removeprefix(b"subscribe"), self.lines)
        return [*lines, b"sub %d" % self.server.free]

    def notify(self, mask):
        for client in self.server.clients:
            for sub in client.listens:
                if mask >> sub & 1:
                    client.send([b"notice %d" % sub])

    def send(self, lines):
        text = b"".join(it + b"\n" for it in lines) + b"\n"
        chance = self.server.random
        places = sorted(chance.randrange(len(text)) for _ in range(chance.choice(self.server.cuts)))
        for begin, end in zip([0, *places], [*places, len(text)]):
            self.it.sendall(text[begin:end])


def answered(store, line, number):
    """Returns what a dsfleet answers to a client's line of this number, by the model's store."""
    try:
        command, taken = model.read(line)
    except model.BadLine as bad:
        return [b"badline %d %d" % (number, bad.place)]
    return store.answer(command, taken) if command in (*OF_ONE_STORE, *SHOWING) else [b"norequest"]


class Real:
    """Runs a redis server and bridges."""

    def __init__(self, count):
        self.count, self.fleet = count, fleets.Fleet([os.environ["PENGTAWIS_DSFLEET"]])

    def __enter__(self):
        self.fleet.__enter__()
        for _ in range(self.count):
            self.fleet.start()
        return [it.socket for it in self.fleet.bridges]

    def __exit__(self, *words):
        self.fleet.__exit__(*words)

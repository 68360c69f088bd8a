"""A redis server, bridges and clients for tests/bridges/run: how they are started, queried, paused, killed and meddled with.

Each server is a process in a folder of its own, on a free port of the loopback. Each bridge is a `dsfleet` with a socket there.
"""
import atexit
import contextlib
import functools
import os
import pathlib
import random
import re
import shutil
import signal
import socket
import subprocess
import tempfile
import threading
import time

from waiting import PATIENCE, until

ROOT = pathlib.Path(__file__).resolve().parent.parent.parent
TICK = 0.005
LEAST_PORT = 10000
FAULT = re.compile(r"^.*(ERROR: |runtime error|==\d+== ).*$", re.MULTILINE)  # of a sanitizer, or of valgrind
DOWN_AFTER = 2000  # milliseconds after which a Sentinel considers a master dead: a busy one may be silent for some hundred
MEMORY = "/dev/shm"  # where a server that syncs each change isn't held up by a disk


class Gone(Exception):
    """The bridge ended, or hung up, before it answered."""


class Skipped(Exception):
    """Why a scene can't be played here."""


def build(library, program, *flags, folder=ROOT / "daemon" / "dsfleet"):
    """Builds a bridge."""
    ran = subprocess.run([folder / "build", library, program, *flags], capture_output=True, text=True)
    if ran.returncode:
        raise AssertionError(f"daemon/dsfleet/build: {ran.stderr[:3000]}")
    return program


@functools.cache
def dsask():
    """Builds dsask, once, and returns its path."""
    program = pathlib.Path(tempfile.mkdtemp(prefix="dsask")) / "dsask"
    atexit.register(shutil.rmtree, program.parent)
    subprocess.run([ROOT / "daemon" / "ask" / "build", program], check=True)
    return program


def build_over(library, program, source, *flags):
    """Builds a program that uses only the library of a fleet."""
    page = subprocess.run(["rt", "doc"], capture_output=True, text=True, check=True).stdout.split()[0]
    heap = os.environ.get("DS_HEAP") or pathlib.Path(page).parent / "c" / "liblibc_c.a"
    parts = [ROOT / "daemon" / "serve" / "text.c", *(ROOT / "daemon" / "fleet").glob("*.c")]
    words = [
        os.environ.get("CC", "cc"), "-std=c11", "-pthread", "-D_GNU_SOURCE", "-Wall", "-Wextra", "-Wpedantic", "-Werror", "-O2", *flags,
    ]
    subprocess.run([
        *words, "-I", ROOT / "c", "-I", ROOT / "daemon" / "serve", "-I", ROOT / "daemon" / "fleet", "-o", program, source, *parts, library,
        heap, "-lhiredis"
    ], check=True)
    return program


def free_port():
    """Returns a free port below those of outgoing connections, one of which could have it before its server starts, or while it is away."""
    with open("/proc/sys/net/ipv4/ip_local_port_range", encoding="ascii") as range_:
        most = int(range_.read().split()[0])
    while True:
        with socket.socket() as it, contextlib.suppress(OSError):
            it.bind(("127.0.0.1", random.randrange(LEAST_PORT, most) if most > LEAST_PORT else 0))
            return it.getsockname()[1]


class Fleet:
    """A server, the bridges that share it, and what a scene puts between them. All of them end with the `with`."""

    def __init__(self, words, keep=None, syncs="everysec", host="127.0.0.1", port=None, settings=(), named=()):
        self.words, self.keep, self.syncs = words, keep, syncs  # the command that starts a bridge; when the server syncs its file
        # The server's address, more of its options, and of its environment.
        self.host, self.settings, self.named = host, settings, dict(named)
        self.home = tempfile.mkdtemp(prefix="fleet", dir=MEMORY if os.access(MEMORY, os.W_OK) else None)
        self.bridges, self.server, self.port = [], None, port or free_port()
        self.adopted = contextlib.ExitStack()

    def __enter__(self):
        self.start_server()
        return self

    def __exit__(self, *_):
        self.adopted.close()
        for bridge in self.bridges:
            bridge.kill()
        self.kill_server()
        shutil.rmtree(self.home)

    def adopt(self, it):
        """Returns a proxy or a name server, which is closed before the bridges end."""
        return self.adopted.enter_context(contextlib.closing(it))

    def end(self):
        """Ends all bridges by a signal, and checks that none failed and no sanitizer or valgrind complained."""
        self.adopted.close()
        for bridge in self.bridges:
            status = bridge.end() if bridge.process else 0
            fault = FAULT.search(bridge.said())
            if fault:
                raise AssertionError(bridge.said()[fault.start() : fault.end() + 1500])
            if status:
                raise AssertionError(f"a bridge ended with status {status}: {bridge.said()[-500:]}")

    # ---- the server ----

    def start_server(self):
        for _ in range(20):
            words = ["redis-server", "--port", str(self.port), "--bind", self.host, "--dir", self.home, "--appendonly", "yes", "--save", ""]
            words += ["--appendfsync", self.syncs, "--unixsocket", f"{self.home}/redis", *self.settings]
            self.server = subprocess.Popen(words, stdout=subprocess.DEVNULL, stderr=subprocess.DEVNULL, env=os.environ | self.named)
            if self.answers():
                return
            self.kill_server()  # another process has the port by now
            if not self.bridges:
                self.port = free_port()
        raise AssertionError("redis-server doesn't start")

    def answers(self):
        """Returns whether the server answers, and not another one at its port."""
        end = time.monotonic() + PATIENCE
        while self.server.poll() is None and time.monotonic() < end:
            try:
                return self.ask("PING") == b"PONG" and b"process_id:%d\r" % self.server.pid in self.ask("INFO", "server")
            except (OSError, Denied):
                time.sleep(TICK)
        return False

    def kill_server(self):
        if self.server:
            self.server.kill()
            self.server.wait()
            self.server = None

    def empty_server(self):
        """Kills the server, and starts an empty one."""
        self.kill_server()
        shutil.rmtree(f"{self.home}/appendonlydir")
        self.start_server()

    def keep_copy(self):
        """Keeps a copy of the server's data."""
        shutil.copytree(f"{self.home}/appendonlydir", f"{self.home}/copy")

    def restore_copy(self):
        """Kills the server, and starts one with the data of the copy."""
        self.kill_server()
        shutil.rmtree(f"{self.home}/appendonlydir")
        os.rename(f"{self.home}/copy", f"{self.home}/appendonlydir")
        self.start_server()

    def pause_server(self):
        self.server.send_signal(signal.SIGSTOP)

    def resume_server(self):
        self.server.send_signal(signal.SIGCONT)

    def ask(self, *words):
        """Sends a command to the server, and returns the answer."""
        with socket.create_connection((self.host, self.port), timeout=PATIENCE) as it:
            return asked(it, *words)

    def follow(self, other):
        """Makes the server a replica of another fleet's, and waits until it is in step with that one."""
        self.ask("REPLICAOF", other.host, other.port)
        until(self.follows, "the replica is in step with its master")

    def follows(self):
        """Returns whether the server is a replica that is in step with its master."""
        return b"master_link_status:up" in self.ask("INFO", "replication")

    def keeps_all(self):
        """Returns whether the server's file is complete. Right after a replica's full synchronization the file isn't written yet."""
        said = self.ask("INFO", "persistence")
        return b"aof_rewrite_in_progress:0" in said and b"aof_rewrite_scheduled:0" in said

    def entries(self):
        """Returns how many entries the stream has."""
        return self.ask("XLEN", "ds:items")

    def told(self):
        """Returns all lines of the stream and the snapshot."""
        lines = []
        for _, fields in self.ask("XRANGE", "ds:items", "-", "+"):
            lines += dict(zip(fields[::2], fields[1::2])).get(b"items", b"").splitlines()
        return lines + (self.ask("HGET", "ds:snapshot", "items") or b"").splitlines()

    # ---- the bridges ----

    def start(self, *options, url=None, wait=True, at=None, named=()):
        """Starts one more bridge. `at` names its socket, and `named` is added to its environment."""
        bridge = Bridge(self, at or f"store{len(self.bridges)}", options, url or f"redis://{self.host}:{self.port}", named)
        self.bridges.append(bridge)
        bridge.start()
        if wait:
            bridge.serves()
        return bridge

    def agree(self, seconds=PATIENCE):
        """Waits until all hold the same, and returns that."""
        views = until(lambda: (
            lambda them: them if len(set(map(tuple, them))) == 1 else None
        )([it.all() for it in self.bridges]), "all hold the same", seconds)
        return views[0]


class Bridge:
    """A dsfleet."""

    def __init__(self, fleet, name, options, url, named=()):
        self.fleet, self.options, self.url, self.named = fleet, options, url, dict(named)
        self.socket = f"{fleet.home}/{name}"
        self.log = f"{self.socket}.log"
        self.process, self.starts, self.pauses = None, 0, 0  # pauses: how often it was stopped or resumed

    def start(self):
        keep = ["--keep", str(self.fleet.keep)] if self.fleet.keep else []
        with open(self.log, "ab") as log:
            self.process = subprocess.Popen(
                [*self.fleet.words, *keep, *self.options, self.socket, self.url], stderr=log, stdin=subprocess.DEVNULL,
                env=os.environ | self.named
            )
        self.starts += 1

    def serves(self):
        """Waits until it answers."""
        until(lambda: self.tries_state() or self.fails(), f"{self.socket} is served")

    def fails(self):
        if self.process.poll() is not None:
            raise AssertionError(f"a bridge ended with status {self.process.returncode}: {self.said()[-500:]}")
        return False

    def tries_state(self):
        try:
            return self.ask("state")
        except (OSError, Gone):
            return None

    def kill(self):
        """Kills it by SIGKILL."""
        if self.process:
            self.process.kill()
            self.process.wait()
            self.process = None

    def pause(self):
        self.pauses += 1
        self.process.send_signal(signal.SIGSTOP)

    def resume(self):
        self.process.send_signal(signal.SIGCONT)
        self.pauses += 1

    def end(self):
        """Ends it by SIGTERM, and returns its status."""
        self.process.terminate()
        status = self.process.wait(PATIENCE)
        self.process = None
        return status

    def spent(self):
        """Returns the processor time that it used, in seconds."""
        with open(f"/proc/{self.process.pid}/stat") as stat:
            return sum(map(int, stat.read().rpartition(")")[2].split()[11:13])) / os.sysconf("SC_CLK_TCK")

    def said(self):
        with open(self.log, encoding="latin1") as log:
            return log.read()

    def client(self):
        return Client(self.socket)

    def ask(self, line):
        """Sends a line, and returns the lines of its answer."""
        with self.client() as it:
            return it.ask(line)

    def all(self):
        return self.ask("all")

    def holds(self, line):
        return line in self.all()

    def state(self):
        """Returns the lines of `state`, each by its first word; those of `refused` by the first two."""
        found = {}
        for line in self.ask("state"):
            word, _, rest = line.partition(" ")
            found.update([(f"refused {rest.split()[0]}", rest.split()[1])] if word == "refused" else [(word, rest)])
        return found


class Client:
    """A connection to a bridge."""

    def __init__(self, path):
        self.it = socket.socket(socket.AF_UNIX)
        self.it.settimeout(PATIENCE)
        self.rest = b""
        try:
            self.it.connect(path)
        except OSError:
            self.it.close()
            raise

    def __enter__(self):
        return self

    def __exit__(self, *_):
        self.it.close()

    def send(self, *lines):
        self.it.sendall("".join(f"{it}\n" for it in lines).encode("latin1"))

    def ask(self, line):
        self.send(line)
        return self.answer()

    def answer(self):
        """Returns the lines of the next answer."""
        while b"\n\n" not in self.rest:
            try:
                some = self.it.recv(1 << 16)
            except ConnectionError:
                some = b""
            if not some:
                raise Gone
            self.rest += some
        whole, _, self.rest = self.rest.partition(b"\n\n")
        return whole.decode("latin1").split("\n")

    def has_answer(self, seconds):
        """Returns whether an answer begins to arrive within this time."""
        self.it.settimeout(seconds)
        try:
            self.rest += self.it.recv(1 << 16)
        except TimeoutError:
            pass
        self.it.settimeout(PATIENCE)
        return self.rest != b""


class Proxy:
    """Carries what a bridge and the server send each other, except on connections that it swallows. Nothing of those is passed on, and
    neither end notices. Connections are counted from 0; a bridge's first one is its producer, its second one its consumer."""

    def __init__(self, port, *swallowed):
        self.port, self.muted, self.listener = port, set(swallowed), socket.create_server(("127.0.0.1", 0))
        self.count, self.open = 0, []
        threading.Thread(target=self.serve, daemon=True).start()

    def port_of(self):
        """Returns the port on which bridges call it."""
        return self.listener.getsockname()[1]

    def url(self):
        return f"redis://127.0.0.1:{self.port_of()}"

    def mute(self):
        """Swallows the consumers of all bridges that are connected."""
        self.muted = {it for it in range(self.count) if it % 2}

    def cut(self):
        """Cuts all connections."""
        cut, self.open = self.open, []
        for it in cut:
            shut(it)

    def blip(self):
        """Cuts all connections, and swallows the next consumer."""
        self.muted = {self.count + 1}
        self.cut()

    def close(self):
        shut(self.listener)
        self.listener.close()

    def serve(self):
        try:
            while True:
                self.join(self.listener.accept()[0])
        except OSError:
            pass

    def join(self, near):
        """Connects a bridge to the server, or hangs up if there is none."""
        try:
            far = socket.create_connection(("127.0.0.1", self.port))
        except OSError:
            near.close()
            return
        self.open += [near, far]
        number, self.count = self.count, self.count + 1
        for one, other, is_answer in ((near, far, False), (far, near, True)):
            threading.Thread(target=self.carry, args=(number, one, other, is_answer), daemon=True).start()

    def carry(self, number, one, other, is_answer):
        try:
            while some := one.recv(1 << 16):
                if self.passes(number, is_answer):
                    other.sendall(some)
        except OSError:
            pass
        for it in (one, other):
            shut(it)  # or else the thread that waits for it keeps it open
            it.close()

    def passes(self, number, is_answer):
        """Returns whether the bytes that were just sent are passed on."""
        return number not in self.muted


def shut(connection):
    try:
        connection.shutdown(socket.SHUT_RDWR)
    except OSError:
        pass


class Sentinel:
    """A Sentinel that watches the master of a fleet under the name `ds`."""

    def __init__(self, master):
        self.port, self.home = free_port(), tempfile.mkdtemp(prefix="sentinel")
        conf = f"{self.home}/conf"
        with open(conf, "w", encoding="ascii") as file:
            file.write(
                f"port {self.port}\nbind 127.0.0.1\ndir {self.home}\nsentinel monitor ds {master.host} {master.port} 1\n"
                f"sentinel down-after-milliseconds ds {DOWN_AFTER}\nsentinel failover-timeout ds 3000\n"
            )
        self.process = subprocess.Popen(["redis-server", conf, "--sentinel"], stdout=subprocess.DEVNULL, stderr=subprocess.DEVNULL)
        until(self.knows_master, "the Sentinel answers")

    def ask(self, *words):
        with socket.create_connection(("127.0.0.1", self.port), timeout=PATIENCE) as it:
            return asked(it, *words)

    def knows_master(self):
        try:
            return self.ask("SENTINEL", "get-master-addr-by-name", "ds")
        except (OSError, Denied):
            time.sleep(TICK)
            return None

    def master_port(self):
        known = self.knows_master()
        return known and int(known[1])

    def knows_replica(self):
        return len(self.ask("SENTINEL", "replicas", "ds")) == 1

    def close(self):
        self.process.kill()
        self.process.wait()
        shutil.rmtree(self.home)


class Clock:
    """A clock for a server that is started with `named`."""

    def __init__(self):
        self.room = tempfile.mkdtemp(prefix="clock")  # a library can't be loaded from MEMORY
        self.file, library = f"{self.room}/added", f"{self.room}/clock.so"
        compile_library(library, "clock.c")
        self.named = {"LD_PRELOAD": library, "CLOCK": self.file}
        self.add(0)

    def add(self, seconds):
        """Sets how far it is ahead of the time."""
        with open(self.file, "r+b" if os.path.exists(self.file) else "w+b") as file:
            file.write(seconds.to_bytes(8, "little", signed=True))

    def close(self):
        shutil.rmtree(self.room)


def compile_library(library, source):
    words = [os.environ.get("CC", "cc"), "-D_GNU_SOURCE", "-Wall", "-Wextra", "-Werror", "-shared", "-fPIC"]
    subprocess.run([*words, "-o", library, ROOT / "tests" / "bridges" / source], check=True)


class Names:
    """A name server for bridges that are started with `named`. Its answer for `fleet.test` is in a file."""

    def __init__(self):
        self.room = tempfile.mkdtemp(prefix="names")  # a library can't be loaded from MEMORY
        self.file, library = f"{self.room}/names", f"{self.room}/names.so"
        compile_library(library, "names.c")
        self.named = {"LD_PRELOAD": library, "NAMES": self.file, "ASAN_OPTIONS": "verify_asan_link_order=0"}

    def answer(self, address):
        """Sets the name's addresses, separated by spaces. `-`: it has none now. None: the name server doesn't answer."""
        with open(f"{self.file}.new", "w", encoding="ascii") as file:
            file.write(address or "")
        os.rename(f"{self.file}.new", self.file)

    def close(self):
        shutil.rmtree(self.room)


# ---- the protocol of a redis server ----


class Denied(Exception):
    """An error that the server returned."""


def asked(connection, *words):
    """Sends a command, and returns its answer."""
    given = [it if isinstance(it, bytes) else str(it).encode() for it in words]
    connection.sendall(b"*%d\r\n" % len(given) + b"".join(b"$%d\r\n%s\r\n" % (len(it), it) for it in given))
    with connection.makefile("rb") as stream:
        return answer(stream)


def answer(stream):
    line = stream.readline()
    if not line.endswith(b"\r\n"):
        raise ConnectionError("the server hung up")
    mark, text = line[:1], line[1:-2]
    if mark == b"-":
        raise Denied(text.decode("latin1"))
    if mark == b":":
        return int(text)
    if mark == b"$":
        return None if text == b"-1" else stream.read(int(text) + 2)[:-2]
    if mark == b"*":
        return None if text == b"-1" else [answer(stream) for _ in range(int(text))]
    return text

"""A dsrs over a folder of its own, with services, for tests/supervisor/run: how it is built, started and queried, and what its services do."""
import contextlib
import fcntl
import os
import pathlib
import re
import shutil
import signal
import socket
import subprocess
import tempfile

from waiting import PATIENCE, until

ROOT = pathlib.Path(__file__).resolve().parent.parent.parent
SLOW = 10  # milliseconds of a tick
FAULT = re.compile(r"^.*(ERROR: |runtime error|==\d+== ).*$", re.MULTILINE)  # of a sanitizer, or of valgrind
EVENT = re.compile(r'^\w+ event=(\w+) text="(.*)"$', re.MULTILINE)

# How the program of each service in a scene begins.
SERVICE = '''#!/usr/bin/env python3
import os, signal, socket, subprocess, sys, time
dsrs = socket.socket(fileno=os.dup(int(os.environ["DS_FD"])))
me, label = os.environ["DS_ENDPOINT"], os.environ["DS_LABEL"]
generation, rest = me.split("/")[0], b""
def hear():
    global rest
    while b"\\n\\n" not in rest:
        some = dsrs.recv(1 << 16)
        if not some: sys.exit(9)
        rest += some
    said, _, rest = rest.partition(b"\\n\\n")
    return said.decode()
def ask(line):
    dsrs.sendall(line.encode() + b"\\n")
    while (said := hear()) == "ping" or said.startswith("notice"): pass
    return said
def note(text):
    with open("../../notes", "a") as notes: notes.write(f"{label} {me} {text}\\n")
def notify(text):
    it = socket.socket(socket.AF_UNIX, socket.SOCK_DGRAM)
    it.connect(os.environ["NOTIFY_SOCKET"])
    it.send(text.encode())
def live(beats=True):
    while True:
        if hear() == "ping" and beats: dsrs.sendall(b"beat\\n")
'''


class Gone(Exception):
    """The supervisor ended, or hung up, before it answered."""


class Skipped(Exception):
    """Why a scene can't be played on this machine."""


def equal(got, wanted):
    assert got == wanted, f"{got!r} instead of {wanted!r}"


def state_of(pid):
    """Returns the letter of a process's state, or X if there is none."""
    try:
        return pathlib.Path(f"/proc/{pid}/stat").read_text().rpartition(")")[2].split()[0]
    except (FileNotFoundError, ProcessLookupError):
        return "X"


def lives(pid):
    return state_of(pid) not in "ZX"


def name_of(pid):
    """Returns the name of a process's program, or nothing if it has ended."""
    try:
        return pathlib.Path(f"/proc/{pid}/comm").read_text().rstrip("\n")
    except (FileNotFoundError, ProcessLookupError):
        return ""


def build(library, room, *flags, folder=ROOT / "daemon" / "rs"):
    """Builds dsrs and dsask into a folder."""
    ran = subprocess.run([folder / "build", library, room, *flags], capture_output=True, text=True)
    if ran.returncode:
        raise AssertionError(f"daemon/rs/build: {ran.stderr[:3000]}")
    return pathlib.Path(room)


SECOND_FIELDS = {"complains", "connects", "forget", "startup"}


def toml(services):
    """Returns the settings of services, each a label with its fields. They are of format 2 if a field asks for it."""
    text = "format = 2\n" if any(set(fields) & SECOND_FIELDS for fields in services.values()) else ""
    for unit, (label, fields) in enumerate(services.items()):
        fields = {"class": "block", **fields}
        if fields["class"] != "server":
            fields["unit"] = unit
        text += f'[[service]]\nlabel = "{label}"\n' + "".join(f"{key} = {value if isinstance(value, int) else repr(value)}\n" for key, value in fields.items())
    return text.replace("'", '"')


def write_program(path, text):
    """Writes a script by a process of its own.

    A file can't be run while it is open for writing. If it were open here, a child that another thread has just forked would have it open, too.
    """
    subprocess.run(["install", "-D", "-m", "755", "/dev/stdin", path], input=text, text=True, check=True)


class Host:
    """A supervisor, and everything that it started. All of it ends with the `with`."""

    def __init__(self, words, room):
        self.words, self.room = words, room  # the command that starts a supervisor; the folder of the built programs
        self.home = pathlib.Path(tempfile.mkdtemp(prefix="dsrs"))
        self.path = self.home / "s"
        self.process, self.clients = None, {}

    def __enter__(self):
        return self

    def __exit__(self, *_):
        self.kill()
        self.kill_leftovers()
        shutil.rmtree(self.home, ignore_errors=True)

    # ---- services ----

    def service(self, label, body, name="run"):
        """Writes the program of a service: what it does after SERVICE, or a whole script."""
        write_program(self.home / "services" / label / name, body if body.startswith("#!") else SERVICE + body)

    def start(self, services=None, settings=None, tick=SLOW, options=()):
        """Starts a supervisor over services: each label's fields, and its body, unless that is None."""
        (self.home / "services").mkdir(exist_ok=True)
        for label, (_, body) in (services or {}).items():
            if body is not None:
                self.service(label, body)
        if services is not None or settings is not None:
            text = toml({label: fields for label, (fields, _) in services.items()}) if settings is None else settings
            (self.home / "settings.toml").write_text(text)
        self.clients = {}
        words = [*self.words, "--tick", str(tick), *options, self.home / "settings.toml", self.home / "services", self.path]
        with open(self.home / "log", "a") as log:
            leaked = fcntl.fcntl(log, fcntl.F_DUPFD, 100)
            ignored = lambda: signal.signal(signal.SIGQUIT, signal.SIG_IGN)  # noqa: E731, as a shell's `&` does
            self.process = subprocess.Popen(words, stdout=log, stderr=log, pass_fds=[leaked], env={**os.environ, "DS_TEST": str(self.home)}, preexec_fn=ignored, start_new_session=True)
            os.close(leaked)

    def kill(self):
        if self.process and self.process.poll() is None:
            self.process.kill()
            self.process.wait()

    def end(self, status=0, number=signal.SIGTERM):
        """Ends the supervisor, and checks that nothing of it is left and no sanitizer complained."""
        self.process.send_signal(number)
        self.ended(status)
        left = [it for it in (self.path, f"{self.path}.d", f"{self.path}.lock") if os.path.exists(it)]
        assert not left, f"files are left: {left}"
        equal(self.processes(), [])

    def ended(self, status):
        try:
            code = self.process.wait(PATIENCE)
        except subprocess.TimeoutExpired:
            raise AssertionError(f"it doesn't end: {self.log()[-1000:]}") from None
        fault = FAULT.search(self.log())
        assert not fault, self.log()[fault.start() :][:1500] if fault else ""
        assert code == status, f"it ended with status {code}: {self.log()[-500:]}"

    def processes(self):
        """Returns the processes that this host started, found by a variable of their environment."""
        found = []
        for pid in filter(str.isdigit, os.listdir("/proc")):
            try:
                given = pathlib.Path(f"/proc/{pid}/environ").read_bytes()
            except OSError:
                continue
            if f"DS_TEST={self.home}".encode() in given.split(b"\0") and lives(pid) and int(pid) != self.process.pid:
                found.append(int(pid))
        return found

    def kill_leftovers(self):
        for pid in self.processes() if self.process else ():
            with contextlib.suppress(ProcessLookupError):
                os.kill(pid, signal.SIGKILL)

    # ---- what it reports ----

    def client(self, name=0):
        def connected():
            it = socket.socket(socket.AF_UNIX)
            try:
                it.connect(str(self.path))
                it.settimeout(PATIENCE)
                return it
            except OSError:
                it.close()
                if self.process.poll() is not None:
                    raise Gone(self.log()[-500:]) from None
                return None

        if name not in self.clients:
            self.clients[name] = until(connected, "it serves")
        return self.clients[name]

    def ask(self, line, name=0):
        """Sends a line as the client of this name, and returns the answer."""
        it = self.client(name)
        it.sendall(line.encode() + b"\n")
        return self.answer(it)

    def answer(self, it):
        """Returns the next answer to a client."""
        said = b""
        while not said.endswith(b"\n\n"):
            some = it.recv(1 << 16)
            if not some:
                raise Gone(self.log()[-500:])
            said += some
        return said.decode().removesuffix("\n\n")

    def status(self):
        """Returns each service's state, endpoint, process, seconds, failures, cause and text, by its label."""
        return {line.split()[0]: line.split(" ", 7)[1:] for line in self.ask("status").splitlines()[:-1]}

    def pid(self, label):
        return int(until(lambda: self.status()[label][2].strip("-"), f"{label} runs"))

    def log(self):
        return (self.home / "log").read_text()

    def events(self):
        """Returns the events that it logged, each as `WORD TEXT`."""
        return [" ".join(it) for it in EVENT.findall(self.log())]

    def logged(self, text, times=1):
        """Waits for this many events that begin with the text, and returns the last of them."""
        found = lambda: [it for it in self.events() if it.startswith(text)]  # noqa: E731
        return until(lambda: found()[times - 1 :], lambda: f"{times} times `{text}`: {self.log()[-1000:]}")[-1]

    def when(self, text):
        """Returns the second of the last event that begins with the text, by the supervisor's clock."""
        events = [line.split(" ", 1) for line in self.ask("log").splitlines()[:-1]]
        return float([at for at, event in events if event.startswith(text)][-1])

    def has_logged(self, text):
        return any(it.startswith(text) for it in self.events())

    def notes(self):
        path = self.home / "notes"
        return path.read_text() if path.exists() else ""

    def noted(self, text, seconds=PATIENCE):
        """Waits for a note with this text, and returns its line."""
        found = lambda: next((it for it in self.notes().splitlines() if text in it), None)  # noqa: E731
        return until(found, lambda: f"a note `{text}`: {self.notes()[-1000:]} {self.log()[-500:]}", seconds)

    def processes_named(self, name):
        return [it for it in self.processes() if name_of(it) == name]

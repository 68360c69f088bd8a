"""Players of the libraries for clients, one a language, and a daemon whose answers a scene scripts, for tests/clients/run."""
import os
import pathlib
import select
import shutil
import socket
import subprocess
import sys
import tempfile
import threading

from waiting import PATIENCE, until

ROOT = pathlib.Path(__file__).resolve().parent.parent.parent
LANGUAGES = ("c", "python", "rust")


class Skipped(Exception):
    """Why a scene can't be played on this machine."""


def equal(got, wanted):
    assert got == wanted, f"{got!r} instead of {wanted!r}"


class Player:
    """A program that carries out commands by a library for clients. A call sends a command, and returns the line that is printed."""

    def __init__(self, words, **how):
        self.ran = subprocess.Popen(words, stdin=subprocess.PIPE, stdout=subprocess.PIPE, stderr=subprocess.PIPE, text=True, bufsize=1, **how)

    def begin(self, line):
        self.ran.stdin.write(line + "\n")
        self.ran.stdin.flush()

    def said(self):
        ready, _, _ = select.select([self.ran.stdout], [], [], PATIENCE)
        assert ready, "the player prints nothing"
        line = self.ran.stdout.readline()
        assert line, f"the player ended: {self.ran.communicate()[1][-2000:]}"
        return line.rstrip("\n")

    def __call__(self, line):
        self.begin(line)
        return self.said()

    def plays(self, *pairs):
        """Sends each command, and checks what is printed."""
        for line, wanted in pairs:
            got = self(line)
            assert got == wanted, f"`{line}` printed {got!r}, and not {wanted!r}"

    def end(self):
        """Ends the player, and checks that no sanitizer complained."""
        self.ran.stdin.close()
        status = self.ran.wait(PATIENCE)
        errors = self.ran.stderr.read()
        assert status == 0 and not errors, f"status {status}: {errors[-2000:]}"

    def kill(self):
        if self.ran.poll() is None:
            self.ran.kill()
            self.ran.wait()
        for it in (self.ran.stdin, self.ran.stdout, self.ran.stderr):
            it.close()


class Peer:
    """The daemon's end of one connection."""

    def __init__(self, connection):
        self.connection, self.lines = connection, connection.makefile("rb")
        connection.settimeout(PATIENCE)

    def line(self, wanted=None):
        """Receives a line, which must be this one."""
        got = self.lines.readline().decode().rstrip("\n")
        if wanted is not None:
            equal(got, wanted)
        return got

    def say(self, text):
        self.connection.sendall(text.encode())

    def answers(self, *pairs):
        """Receives each line, and answers it. An empty line follows each answer."""
        for line, answer in pairs:
            self.line(line)
            self.say(answer + "\n\n")

    def close(self):
        self.lines.close()
        self.connection.close()


class Script:
    """A daemon at a socket. The n-th connection is given to the n-th talk, a function of a Peer, and then hung up on."""

    def __init__(self, path, talks):
        self.path, self.talks, self.wrong, self.peers = path, talks, [], []
        self.listener = socket.socket(socket.AF_UNIX)
        self.listener.bind(path)
        self.listener.listen()
        self.thread = threading.Thread(target=self.serve, daemon=True)
        self.thread.start()

    def serve(self):
        for talk in self.talks:
            try:
                peer = Peer(self.listener.accept()[0])
            except OSError:
                return
            self.peers.append(peer)
            try:
                talk(peer)
            except (AssertionError, OSError) as wrong:
                self.wrong.append(f"{type(wrong).__name__}: {wrong}")
            peer.close()

    def end(self):
        self.listener.close()
        os.unlink(self.path)
        self.thread.join(PATIENCE)
        assert not self.thread.is_alive(), "the script isn't at its end"
        assert not self.wrong, self.wrong[0]


class Stage:
    """What a scene is played on: a folder, players in one language, and daemons. All of it ends with the `with`."""

    def __init__(self, built, language):
        self.built, self.language = built, language
        self.home = pathlib.Path(tempfile.mkdtemp(prefix="client"))
        self.path, self.open = str(self.home / "s"), []

    def __enter__(self):
        return self

    def __exit__(self, *_):
        for it in self.open:
            it.kill() if isinstance(it, Player) else it.__exit__(None, None, None)
        shutil.rmtree(self.home, ignore_errors=True)

    def words(self):
        """Returns the command that starts a player."""
        return [sys.executable, self.built.python] if self.language == "python" else [self.built.players[self.language]]

    def player(self, timeout=1000 * PATIENCE, opens=True, **how):
        """Starts a player, which connects to the stage's socket."""
        self.open.append(Player(self.words(), env=self.environment(how.pop("named", {})), **how))
        if opens:
            equal(self.open[-1](f"open {self.path} {timeout}"), "ok")
        return self.open[-1]

    def environment(self, named):
        return {**os.environ, "PYTHONPATH": str(self.built.package), "PYTHONDONTWRITEBYTECODE": "1", **named}

    def script(self, *talks):
        return Script(self.path, talks)

    def enter(self, it):
        """Begins something that ends with the stage."""
        self.open.insert(0, it)
        return it.__enter__()

"""The machine of examples/machine under a dsrs: how it is built and started, what its applications print, and what its supervisor notes."""
import os
import pathlib
import re
import shutil
import subprocess
import threading
import time

import supervisors
from supervisors import ROOT
from waiting import until

EXAMPLE = ROOT / "examples" / "machine"
COUNTS = re.compile(r"^done ((?:\w+ \d+ ?)+)$", re.MULTILINE)
AT = re.compile(r"^at (\d+) (\d+)$", re.MULTILINE)
NOTE = re.compile(r"^([\d.]+) (\w+) (\w+) (\d+)/\d+ ?(.*)$", re.MULTILINE)
GENEROUS = 30000  # ticks of a heartbeat period that no living service misses
READY = ("disk0", "disk1", "probe", "console", "eth0", "fs", "inet")


def build(library, room, example=EXAMPLE, flags=""):
    """Builds the machine's programs into a folder, with images of a few blocks."""
    ran = subprocess.run([example / "build", library, room, "16"], capture_output=True, text=True, env={**os.environ, "CFLAGS": flags})
    if ran.returncode:
        raise AssertionError(f"examples/machine/build: {ran.stderr[:3000]}")
    return pathlib.Path(room)


def build_disk(example, made):
    """Builds the block driver alone."""
    parts = [example / f"{it}.c" for it in ("disk", "driver", "confine", "line")]
    subprocess.run([os.environ.get("CC", "cc"), "-std=c11", "-D_GNU_SOURCE", "-O2", "-o", made, *parts], check=True)


def edited(to, *changes):
    """Returns a copy of examples/machine in which texts are replaced: each change names a file, an old and a new text."""
    example = to / "examples" / "machine"
    if not example.exists():
        shutil.copytree(EXAMPLE, example)
        shutil.copytree(ROOT / "c", to / "c")
    for file, old, new in changes:
        text = (example / file).read_text()
        assert text.count(old) == 1, f"`{old}` is in {file} {text.count(old)} times"
        (example / file).write_text(text.replace(old, new))
    return example


class Machine(supervisors.Host):
    """A machine in a folder of its own. Everything that it started ends with the `with`."""

    def __init__(self, supervisor, built, blocks=4096, disks=2):
        super().__init__([supervisor / "dsrs"], supervisor)
        subprocess.run(["cp", "-R", f"{built}/.", self.home], check=True)  # not in this process: see write_program
        self.blocks, self.disks, self.applications, self.supervised = blocks, disks, [], None
        self.make(blocks)
        if disks == 1:
            self.leave_out("disk1", "inet", "eth0")

    def make(self, blocks):
        images = [self.home / it for it in ("sums", "disk0.image", "disk1.image")[: 1 + self.disks]]
        subprocess.run([self.home / "client", "make", str(blocks), *images], check=True)

    def leave_out(self, *labels):
        """Takes services out of the settings; the file server and the probe then have one disk."""
        parts = (self.home / "settings.toml").read_text().split("[[service]]")
        kept = [it for it in parts if not any(f'label = "{label}"' in it for label in labels)]
        (self.home / "settings.toml").write_text("[[service]]".join(kept))
        for label in ("fs", "probe") if "disk1" in labels else ():
            run = self.home / "services" / label / "run"
            supervisors.write_program(run, run.read_text().replace(" ../../disk1.image", "").replace("disk0 disk1", "disk0"))

    def give_periods(self, drivers, servers):
        """Gives drivers and servers other heartbeat periods."""
        path = self.home / "settings.toml"
        text = re.sub(r"^period = 100$", f"period = {drivers}", path.read_text(), flags=re.MULTILINE)
        path.write_text(re.sub(r"^period = 1000$", f"period = {servers}", text, flags=re.MULTILINE))

    def begin(self, tick=1):
        self.start(settings=(self.home / "settings.toml").read_text(), tick=tick, options=("--grace", "0"))
        labels = [it for it in READY if f'label = "{it}"' in (self.home / "settings.toml").read_text()]
        until(lambda: all(self.ask(f"retrieve {it} label").startswith("found") for it in labels), "every label is there")
        self.supervised = Supervised(self)
        return self

    # ---- applications ----

    def application(self, program, *words):
        """Starts an application, which speaks to the machine's dsrs."""
        it = subprocess.Popen([self.home / program, self.path, *map(str, words)], stdout=subprocess.PIPE, stderr=subprocess.STDOUT, text=True)
        self.applications.append(it)
        return it

    def files(self, verb, *words):
        """Starts the client of the file server."""
        return self.application("client", verb, self.blocks, *words)

    def end(self, *how):
        self.supervised.end()
        super().end(*how)

    def __exit__(self, *how):
        if self.supervised:
            self.supervised.over.set()
        for it in self.applications:
            if it.poll() is None:
                it.kill()
                it.wait()
        super().__exit__(*how)

    # ---- what is noted ----

    def log(self):
        """Returns what the supervisor printed. A driver whose text is spoiled may print anything."""
        return (self.home / "log").read_text(errors="replace")

    def notes_of(self, server="fs"):
        """Returns a server's notes, each as seconds, word, label, generation and text."""
        path = self.home / f"{server}.log"
        text = path.read_text(errors="replace") if path.exists() else ""
        return [(float(at), word, label, int(generation), why) for at, word, label, generation, why in NOTE.findall(text)]

    def count(self, word, server="fs"):
        return sum(it[1] == word for it in self.notes_of(server))


class Supervised(threading.Thread):
    """The events of a machine's supervisor, read each second, because `log` keeps only the last 1,024."""

    def __init__(self, machine):
        super().__init__(daemon=True)
        self.machine, self.kept, self.seen, self.begun = machine, [], 0, 0.0
        self.lock, self.over = threading.Lock(), threading.Event()
        before = time.monotonic()
        machine.ask("service refresh console", "events")
        age = next(at for at, text in reversed(self.read()) if text.startswith("kill console"))
        self.begun = before - age
        self.kept = [(at + self.begun, text) for at, text in self.kept]
        self.start()

    def run(self):
        while not self.over.wait(1):
            try:
                self.read()
            except OSError:
                return

    def read(self):
        """Returns all events so far: the second by the clock of this process, and the text."""
        with self.lock:
            *lines, last = self.machine.ask("log", "events").splitlines()
            count = int(last.split()[1])
            assert count - self.seen <= len(lines), "events were lost: they were read too late"
            for line in lines[len(lines) - (count - self.seen) :]:
                at, _, text = line.partition(" ")
                self.kept.append((float(at) + self.begun, text))
            self.seen = count
            return self.kept

    def end(self):
        """Stops reading."""
        self.over.set()
        self.join()


def counts_of(said):
    """Returns what an application counted, or None if it printed no counts."""
    found = COUNTS.findall(said)
    if not found:
        return None
    words = found[-1].split()
    return {word: int(number) for word, number in zip(words[::2], words[1::2])}


def rates_of(said):
    """Returns how many requests were answered by when: seconds and counts."""
    return [(int(at) / 1e9, int(count)) for at, count in AT.findall(said)]

"""Harm to a running service: SIGKILL, SIGSTOP, or a flipped bit of its text pages, at intervals."""
import os
import pathlib
import random
import select
import signal
import subprocess
import threading
import time


class Victim:
    """A service's process, by a descriptor of its own, so that no other process is ever hit."""

    def __init__(self, pid, endpoint, program):
        self.pid, self.endpoint = pid, endpoint
        self.file = os.pidfd_open(pid)
        if pathlib.Path(f"/proc/{pid}/comm").read_text().strip() != program:
            os.close(self.file)
            raise ProcessLookupError

    def lives(self):
        return not select.select([self.file], [], [], 0)[0]

    def send(self, number):
        signal.pidfd_send_signal(self.file, number)

    def close(self):
        os.close(self.file)


def functions_of(program):
    """Returns the functions of a program: name, address and size."""
    said = subprocess.run(["nm", "-S", "--defined-only", program], capture_output=True, text=True, check=True).stdout
    rows = [line.split() for line in said.splitlines()]
    return [(name, int(address, 16), int(size, 16)) for address, size, kind, name in (it for it in rows if len(it) == 4) if kind in "tT"]


def base_of(pid, program):
    """Returns the address of a program in memory."""
    for line in open(f"/proc/{pid}/maps"):
        if line.rstrip().endswith(f"/{program}") and line.split()[2] == "00000000":
            return int(line.split("-")[0], 16)
    raise ProcessLookupError


class Harm(threading.Thread):
    """Harms a service each `interval` seconds, until it is stopped. `done` has what was done: when, the endpoint, and what."""

    def __init__(self, machine, label, interval, program="disk", pairs=0):
        super().__init__(daemon=True)
        self.machine, self.label, self.interval, self.program, self.pairs = machine, label, interval, program, pairs
        self.done, self.victim, self.over, self.is_denied, self.by_hand = [], None, threading.Event(), False, 0
        self.name = f"harm {label}"

    def stop(self):
        self.over.set()
        self.join(20)

    def find(self):
        """Returns the service's process, or None while there is none."""
        if self.victim and self.victim.lives():
            return self.victim
        if self.victim:
            self.victim.close()
            self.victim = None
        for line in self.machine.ask("status", self.name).splitlines():
            words = line.split()
            if words[0] == self.label and words[1] == "givenup":
                self.machine.ask(f"service restart {self.label}", self.name)
                self.by_hand += 1
            if words[0] != self.label or words[1] not in ("up", "ready"):
                continue
            try:
                self.victim = Victim(int(words[3]), words[2], self.program)
            except (OSError, ValueError):
                return None
        return self.victim

    def is_pause(self, begun):
        """Returns whether this part of a run is to be undisturbed, as every other one is."""
        return self.pairs and int((time.monotonic() - begun) / self.pairs) % 2 == 0

    def run(self):
        self.begun = due = time.monotonic()
        while not self.over.wait(max(0, due - time.monotonic())):
            due = max(due + self.interval, time.monotonic() - self.interval)
            victim = None if self.is_pause(self.begun) else self.find()
            if not victim:
                continue
            try:
                at, what = time.monotonic(), self.hit(victim)
                self.done.append((at, victim.endpoint, what))
            except PermissionError:
                self.is_denied = True
            except (OSError, IndexError, ValueError):
                pass


class Kill(Harm):
    def hit(self, victim):
        victim.send(signal.SIGKILL)
        return "SIGKILL"


class Stop(Harm):
    def hit(self, victim):
        victim.send(signal.SIGSTOP)
        return "SIGSTOP"


class Flip(Harm):
    """Flips one bit in a function of the program. The same seed draws the same bits."""

    def __init__(self, machine, label, interval, seed, program="disk"):
        super().__init__(machine, label, interval, program)
        self.draw, self.bases = random.Random(seed), {}
        self.functions = functions_of(machine.home / program)

    def hit(self, victim):
        drawn = self.draw.randrange(sum(size for _, _, size in self.functions))
        bit = self.draw.randrange(8)
        for name, address, size in self.functions:
            if drawn < size:
                break
            drawn -= size
        if victim.pid not in self.bases:
            self.bases = {victim.pid: base_of(victim.pid, self.program)}
        with open(f"/proc/{victim.pid}/mem", "r+b", buffering=0) as memory:
            if not victim.lives():  # else the number may be another process's
                raise ProcessLookupError
            memory.seek(self.bases[victim.pid] + address + drawn)
            byte = memory.read(1)[0]
            memory.seek(self.bases[victim.pid] + address + drawn)
            memory.write(bytes([byte ^ 1 << bit]))
        return name

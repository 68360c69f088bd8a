#!/usr/bin/env python3
"""recorder.py [--late]: asks a small store of its own a few things, and prints the trace, for `dsctl verify`.

With --late the store believes a message that comes too late, and the trace isn't legal.
"""
import sys


class Recorder:
    """Writes what one store was asked and what it replied."""

    def __init__(self, file, ring=256):
        self.file = file
        self.write("trace 2 1 0", ring, "128 4096")

    def write(self, *words):
        print(*words, file=self.file)

    def asked(self, command, reply, items=(), asker=0):
        """Records a command, or `merge N` with its N items, and the lines of the reply."""
        self.write(">", asker, command)
        for item in items:
            self.write("+", item)
        for line in reply:
            self.write("<", line)


class Drivers:
    """A store of labels alone: where each driver is, as (generation, slot)."""

    def __init__(self, believes_late):
        self.held = {}
        self.believes_late = believes_late

    def offer(self, name, generation, slot):
        held = self.held.get(name, (0, 0))
        if generation < held[0] and not self.believes_late:
            return ["stale"]
        if generation == held[0]:
            return ["known"] if slot == held[1] else [f"refused clash {generation}.0"]
        self.held[name] = (generation, slot)
        return ["taken"]

    def retrieve(self, name):
        return ["found %d/%d" % self.held[name]] if name in self.held else ["refused notfound"]


def main(words):
    store, recorder = Drivers("--late" in words), Recorder(sys.stdout)
    for name, generation, slot in (("eth0", 3, 17), ("disk", 4, 18), ("eth0", 2, 9), ("eth0", 3, 17)):
        reply = store.offer(name, generation, slot)
        recorder.asked(f"offer {name} label rs {generation}.0 = {generation}/{slot}", reply)
    recorder.asked("retrieve eth0 label", store.retrieve("eth0"), asker=7)
    recorder.asked("retrieve tty label", store.retrieve("tty"), asker=7)


if __name__ == "__main__":
    main(sys.argv[1:])

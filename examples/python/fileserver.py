#!/usr/bin/env python3
"""fileserver.py [DISKS]: the same as examples/c/fileserver.c, in Python.

A file server follows its disk drivers by a map, and sends them requests by a driver table. It never sends to an older driver than it knew.
DISKS is the number of disks, at most 1000; by default it is 1. The first 256 have a unit.

It needs the package `pengtawis`: PYTHONPATH=python in the repository, or docs/guide/python.md.
"""
import sys

from pengtawis import RS, Behind, Class, Endpoint, FileTable, Finish, Hold, Items, Map, Refused, Send, Store

FIRST_SLOT = 16  # of the disks' drivers
MOST_DISKS = 1000  # slots end at 1023
JOURNAL = 512  # items that the store's journal keeps
MOST_UNITS = 256  # of the table


def started(store, disks, generation):
    """RS says that each disk's driver runs in this generation, in a slot of its own."""
    for slot, disk in enumerate(disks, FIRST_SLOT):
        endpoint = Endpoint(generation, slot)
        store.rs_started(disk, endpoint)
        print(f"rs: {disk} runs at {endpoint}")


def died(store, generation):
    store.sweep(RS, "disk", generation)
    print(f"rs: disk of generation {generation} died")


class FileServer:
    """Follows the drivers of its disks by a map, and sends them requests by a table."""

    def __init__(self, disks, drivers, table):
        self.drivers, self.table = drivers, table
        self.cursor = None  # after what was taken
        self.units = range(min(len(disks), MOST_UNITS))
        self.requests = 0  # the id of the last one
        self.sent = {}  # where each request is, by its id, until it is done
        for unit in self.units:
            table.assign(unit, Class.BLOCK, disks[unit])

    def submit(self):
        """Submits a request to each unit."""
        for unit in self.units:
            self.requests += 1
            self.carry_out(self.table.submit(self.drivers, self.requests, unit))

    def catch_up(self, store):
        """Takes all that is new, and lets the table follow: what waits is sent, and what a dead driver had is sent again."""
        self.take_new(store)
        self.carry_out(self.table.follow(self.drivers))

    def take_new(self, store):
        """Takes what came after the cursor. Without one, or if the journal has forgotten it, takes all that is held."""
        if self.cursor is not None:
            try:
                for items, self.cursor in store.since(self.cursor):
                    self.take("what came since", items)
                return
            except Behind:
                pass
        items, self.cursor = store.snapshot()
        self.take("all that is held", items)

    def take(self, what, items):
        merged = self.drivers.take(items)
        print(f"fs: {what}: {merged.done} items, {merged.taken} taken, {merged.stale} stale")

    def reply(self):
        """Each driver replies to the requests that were sent to it."""
        for request, endpoint in sorted(self.sent.items()):
            self.carry_out(self.table.reply(endpoint, request))

    def reply_late(self, endpoint, request):
        """The driver that died replied before its death."""
        try:
            self.carry_out(self.table.reply(endpoint, request))
        except Refused as refused:
            print(f"fs: a reply from {endpoint} is refused: {refused.word}")

    def carry_out(self, moved):
        """Carries out the moves of a call of the table, in order. A disk has no others."""
        for move in moved.moves:
            if isinstance(move, Send):
                print(f"fs: request {move.id} goes to {move.endpoint}")
                self.sent[move.id] = move.endpoint
            elif isinstance(move, Hold):
                print(f"fs: request {move.id} waits for a driver")
            elif isinstance(move, Finish):
                print(f"fs: request {move.id} is done")
                del self.sent[move.id]
        if moved.refused:
            raise moved.refused


def play(disks, store, server):
    """The disks' drivers start, one dies, and all start again."""
    server.submit()

    started(store, disks, 3)
    server.catch_up(store)
    server.reply()
    second = server.requests + 1  # the first request of the second round
    server.submit()

    died(store, 3)
    started(store, disks, 4)
    server.catch_up(store)

    server.take("the first message, late", Items(b"disk label rs 3.0 = 3/16\n"))  # another server passes it on
    server.reply_late(Endpoint(3, FIRST_SLOT), second)
    server.reply()


def main(words):
    count = int(words[0]) if words else 1
    if count > MOST_DISKS:
        sys.exit("fileserver.py: too many disks")
    disks = [f"disk{it or ''}" for it in range(count)]
    with Store(incarnation=1, ring=JOURNAL) as store, Map("disk.*") as drivers, FileTable() as table:
        play(disks, store, FileServer(disks, drivers, table))


if __name__ == "__main__":
    main(sys.argv[1:])

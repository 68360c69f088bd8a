#!/usr/bin/env python3
"""threads.py [CHANGES]: four drivers, each a thread, publish how far they are in one store, while a client waits for their notices.

Each thread calls the store at a seat of its own, and no lock is needed. CHANGES is how many changes each driver makes, by default 1000. It
prints what `examples/c/threads.c` prints. It needs the package `pengtawis`: PYTHONPATH=python in the repository, or docs/guide/python.md.
"""
import sys
import time
from concurrent.futures import ThreadPoolExecutor

from pengtawis import Desk, Endpoint, NotFound, Publisher

DRIVERS, SERVER = 4, 0


def endpoint(at):
    return Endpoint(1, 16 + at)


def drive(seat, at, changes):
    """Publishes 1, 2, 3 .. under the driver's own name, and returns the place of the last change."""
    with seat:
        driver = Publisher(seat, endpoint(at))
        for it in range(1, changes + 1):
            driver.publish(f"disk{at}", it)
        return seat.place


def is_done(seat, at, changes):
    try:
        return seat.retrieve(f"disk{at}", int) >= changes
    except NotFound:
        return False


def watch(seat, changes):
    """Takes notices, and looks at what each check shows, until every driver has made its last change."""
    with seat:
        while True:
            if not seat.take(SERVER).owed:
                time.sleep(0)
                continue
            seat.check(8 * SERVER)
            if all(is_done(seat, at, changes) for at in range(DRIVERS)):
                return


def begin(rs):
    """RS publishes where each driver runs, and subscribes the client."""
    for at in range(DRIVERS):
        rs.rs_started(f"disk{at}", endpoint(at))
    rs.subscribe(8 * SERVER, "disk[0-9]+", kinds=[int])
    print(f"rs: {DRIVERS} drivers run, the subscription is at place {rs.place}")


def main(changes):
    with Desk(seats=DRIVERS + 2) as desk, desk.seat() as rs, ThreadPoolExecutor(DRIVERS + 1) as threads:
        begin(rs)
        drivers = [threads.submit(drive, desk.seat(), at, changes) for at in range(DRIVERS)]
        watcher = threads.submit(watch, desk.seat(), changes)
        last = max(it.result() for it in drivers)
        watcher.result()
        for at in range(DRIVERS):
            print(f"disk{at}: {rs.retrieve(f'disk{at}', int)} changes")
        print("client: every driver is done" + (", and rs asked after them" if rs.place > last else ""))


if __name__ == "__main__":
    main(int(sys.argv[1]) if len(sys.argv) > 1 else 1000)

#!/usr/bin/env python3
"""watch.py SOCKET: prints each change of the label eth0, as the dsfleet at SOCKET holds it. ^C ends it.

It needs the package `pengtawis`: PYTHONPATH=python in the repository, or docs/guide/python.md.
"""
import sys

from pengtawis import Change, Client, Endpoint


def watch(path):
    with Client(path) as client:
        for it in client.watch("eth0", [Endpoint]):
            if isinstance(it, Change):  # a watch shows floors, too
                print(f"{it.name} is at {it.value}" if it.value else f"{it.name} is gone", flush=True)


if __name__ == "__main__":
    if len(sys.argv) != 2:
        sys.exit(__doc__)
    try:
        watch(sys.argv[1])
    except KeyboardInterrupt:
        pass
    except OSError as fault:
        sys.exit(f"watch.py: {fault}")

#!/usr/bin/env python3
"""keep.py FILE: answers lines with a store that FILE keeps: it holds what it held at the end of the last run.

It needs the package `pengtawis`: PYTHONPATH=python in the repository, or docs/guide/python.md.
"""
import os
import sys

from pengtawis import BadLine, Items, Refused, Store


def load(path):
    """Opens a store, and merges the items of a file, if it is there."""
    store = Store(ring=4096)
    if os.path.exists(path):
        with open(path, "rb") as file:
            store.merge(Items(file.read()))
    return store


def save(store, path):
    """Writes what the store holds to a file. A crash leaves the older file, or the whole new one."""
    with open(f"{path}.new", "wb") as file:
        file.write(store.snapshot().items.text)
        file.flush()
        os.fsync(file.fileno())
    os.replace(f"{path}.new", path)


def main(path):
    with load(path) as store:
        for line in sys.stdin:
            try:
                print(store.line(line), end="")
            except (Refused, BadLine) as why:
                print(why)
        save(store, path)


if __name__ == "__main__":
    if len(sys.argv) != 2:
        sys.exit(__doc__)
    main(sys.argv[1])
